//! Paths as they stand in a text, and which of them begin with a name of a body: a local variable, a generic
//! parameter, an item of a block that the program doesn't have. Nothing is asked for them.

mod at;
mod holders;
mod locals;

use std::collections::{BTreeMap, HashSet};

use crate::question::Context;
use crate::syntax::plain;
use crate::token::{Delimiter, Kind, Position, Span, Token};
use crate::unit::is_builtin;
pub(crate) use at::modules_at;
use at::{is_body, path_before, path_behind};
pub use at::{path_at, Expansions, FoundPath};
pub use holders::Holder;
use holders::{holders, Descent};
use locals::{bindings, block_items, generics, is_in_path, Locals};

/// A word that stands in a path, and the path up to it.
#[derive(Clone, PartialEq, Eq, Debug)]
pub struct Site {
    /// Up to the word, with what the lists of a `use` have before it.
    pub path: String,
    /// The path to its end, where it goes on behind the word.
    pub whole: String,
    /// How the path is used.
    pub context: Context,
    /// Where the word stands.
    pub span: Span,
    /// Whether the path goes on behind the word.
    pub goes_on: bool,
}

/// What only the text around a path knows of what it may begin with.
#[derive(Clone, Default, PartialEq, Eq, Debug)]
pub struct Around {
    /// What `Self` or the generic parameter stands for that it begins with.
    pub holder: Option<Holder>,
    /// The names with which a single one may begin, and what each is.
    pub names: Vec<(String, &'static str)>,
}

/// A list of tokens, and which of them the place is in.
type Level<'a> = (&'a [Token], usize);

const KEYWORDS: [&str; 37] = [
    "Self", "_", "as", "async", "await", "break", "const", "continue", "dyn", "else", "enum", "extern", "false", "fn",
    "for", "if", "impl", "in", "let", "loop", "match", "mod", "move", "mut", "pub", "ref", "return", "static",
    "struct", "trait", "true", "type", "unsafe", "use", "where", "while", "yield",
];

/// The words of a text that are wanted and stand in a path. In `blocks` the program knows the items.
pub fn sites(tokens: &[Token], blocks: &[Span], wanted: &dyn Fn(&str, Span) -> bool) -> Vec<Site> {
    let mut finder = Finder::new(blocks, wanted, false);
    finder.list(tokens, Some(Context::Plain));
    finder.made
}

/// The last word that is wanted, and what stands around it. Those behind `Self` and generic parameters are among them.
pub fn site_with_names(
    tokens: &[Token],
    blocks: &[Span],
    wanted: &dyn Fn(&str, Span) -> bool,
) -> Option<(Site, Around)> {
    let mut finder = Finder::new(blocks, wanted, true);
    finder.list(tokens, Some(Context::Plain));
    finder.made.pop().zip(finder.around.pop())
}

/// Whether a word of the text is none that modules or blocks know, see [`Word::Local`].
pub fn is_local(tokens: &[Token], blocks: &[Span], at: Position) -> bool {
    let wanted = |_: &str, span: Span| span.start <= at && at <= span.end;
    let mut finder = Finder::new(blocks, &wanted, false);
    finder.list(tokens, Some(Context::Plain));
    finder.has_local
}

struct Finder<'a, 'w> {
    blocks: &'w [Span],
    wanted: &'w dyn Fn(&str, Span) -> bool,
    levels: Vec<Level<'a>>,
    made: Vec<Site>,
    has_local: bool,
    /// Whether what stands around is wanted too.
    has_around: bool,
    around: Vec<Around>,
}

/// What a word is that may stand in a path.
enum Word {
    Site(Site),
    /// A local variable, a parameter, a field, a method, or a path that begins with a generic parameter, `Self` or an
    /// item of a block that the program doesn't have.
    Local,
    None,
}

impl<'a, 'w> Finder<'a, 'w> {
    fn new(blocks: &'w [Span], wanted: &'w dyn Fn(&str, Span) -> bool, has_around: bool) -> Finder<'a, 'w> {
        let (levels, made, around) = (Vec::new(), Vec::new(), Vec::new());
        Finder { blocks, wanted, levels, made, has_local: false, has_around, around }
    }

    /// Without a context no word of the list is a path.
    fn list(&mut self, list: &'a [Token], context: Option<Context>) {
        for (number, token) in list.iter().enumerate() {
            match &token.kind {
                Kind::Ident(word) if (self.wanted)(plain(word), token.span) => {
                    self.levels.push((list, number));
                    match context.map_or(Word::None, |it| self.word(it)) {
                        Word::Site(it) => {
                            if self.has_around {
                                self.around.push(self.around(&it));
                            }
                            self.made.push(it);
                        }
                        Word::Local => self.has_local = true,
                        Word::None => {}
                    }
                    self.levels.pop();
                }
                Kind::Group(delimiter, inner) => {
                    let inside = inside(list, number, *delimiter, context);
                    self.levels.push((list, number));
                    self.list(inner, inside);
                    self.levels.pop();
                }
                _ => {}
            }
        }
    }

    fn word(&self, context: Context) -> Word {
        let Some((list, number)) = self.levels.last().copied() else {
            return Word::None;
        };
        let Some(word) = list[number].word() else {
            return Word::None;
        };
        let before = |by: usize| number.checked_sub(by).map(|it| &list[it]);
        let next = list.get(number + 1);
        if word == "Self" || before(1).is_some_and(|it| it.is(".")) {
            return Word::Local;
        }
        if KEYWORDS.contains(&word) || before(1).is_some_and(|it| it.is("#") || it.is("$") && word != "crate") {
            return Word::None;
        }
        if is_declared(list, number) {
            let is_bound = ["let", "ref", "mut"].iter().any(|it| before(1).is_some_and(|token| token.is_word(it)));
            return if is_bound { Word::Local } else { Word::None };
        }
        let goes_on = next.is_some_and(|it| it.is("::"));
        let in_use = self.levels.iter().position(|(list, number)| is_in_use(list, *number));
        if in_use.is_none() && self.is_label(list, number) {
            return Word::Local;
        }
        let is_alias = in_use.is_some() && before(1).is_some_and(|it| it.is_word("as"));
        let path = match in_use {
            _ if is_alias => Some(plain(word).to_owned()),
            Some(at) => path_before(list, number).and_then(|it| self.in_use_tree(at, it)),
            None => path_before(list, number),
        };
        let Some(path) = path else {
            return Word::None;
        };
        let is_call = next.is_some_and(|it| it.is("!"))
            && list.get(number + 2).is_some_and(|it| matches!(it.kind, Kind::Group(..)) || it.word().is_some());
        let context = match (is_call, in_use, context) {
            (true, None, Context::Plain) => Context::Call,
            (_, Some(_), _) if is_alias => Context::Plain,
            (_, Some(_), _) => Context::Import,
            (_, _, it) => it,
        };
        if let Some(it) = self.without_site(&path, context, goes_on, in_use.is_some(), is_alias) {
            return it;
        }
        let whole = format!("{path}{}", path_behind(list, number));
        Word::Site(Site { path, whole, context, span: list[number].span, goes_on })
    }

    /// What a path is that is none to be asked for: one of a local name, or of a name that isn't known.
    fn without_site(
        &self,
        path: &str,
        context: Context,
        goes_on: bool,
        is_in_use: bool,
        is_alias: bool,
    ) -> Option<Word> {
        let first = path.split("::").next().unwrap_or_default();
        let is_single = !path.contains("::") && !goes_on;
        if self.is_in_macro() && first != "crate" {
            return Some(Word::None);
        }
        let is_held = !is_single && self.has_around && self.holder(first).is_some();
        if first == "Self" && !is_held {
            return Some(Word::Local);
        }
        let in_brackets =
            self.levels.iter().rev().nth(1).is_some_and(|it| it.0[it.1].group(Delimiter::Bracket).is_some());
        if context == Context::Attribute && is_single && is_builtin(first) && in_brackets {
            return Some(Word::None);
        }
        let locals = self.locals();
        let is_variable = is_single && context == Context::Plain && locals.values.contains(first);
        // What is typed in a `use` is no name of it.
        let is_known = is_held || self.has_around && is_in_use;
        let is_receiver = is_single && first == "self" && !is_in_use && locals.is_in_body;
        if is_variable || locals.have_first(first) && !is_known || is_receiver {
            return Some(Word::Local);
        }
        let hides = locals.has_glob && !matches!(first, "crate" | "self" | "super" | "");
        (hides && !is_alias && !self.has_around).then_some(Word::None)
    }

    fn is_in_macro(&self) -> bool {
        self.levels.iter().any(|(list, number)| {
            let is = |by: usize, word: &str| number.checked_sub(by).is_some_and(|it| list[it].is_word(word));
            let is_group = matches!(list[*number].kind, Kind::Group(..));
            is_group && ((is(3, "macro_rules") && list[number - 2].is("!")) || is(2, "macro") || is(3, "macro"))
        })
    }

    /// Whether the word is a field, a parameter, or a binding with its type.
    fn is_label(&self, list: &[Token], number: usize) -> bool {
        if !list.get(number + 1).is_some_and(|it| it.is(":")) {
            return false;
        }
        let is_first = match number.checked_sub(1).map(|it| &list[it]) {
            None => true,
            Some(it) => {
                it.is(",")
                    || it.is("|")
                    || it.is("<")
                    || ["pub", "mut", "ref", "let"].iter().any(|word| it.is_word(word))
                    || it.group(Delimiter::Bracket).is_some()
                    || it.group(Delimiter::Parenthesis).is_some()
            }
        };
        let start = start_of(list, number);
        is_first && !list[start..number].iter().any(|it| it.is_word("where"))
    }

    /// The path with the prefixes of the lists around it in a `use` tree.
    fn in_use_tree(&self, from: usize, path: String) -> Option<String> {
        let mut prefix: Option<String> = None;
        for (list, number) in &self.levels[from..self.levels.len() - 1] {
            let is_prefixed = number.checked_sub(1).is_some_and(|it| list[it].is("::"));
            let own = match number.checked_sub(2) {
                Some(at) if is_prefixed && list[at].word().is_some_and(|it| it != "use") => path_before(list, at)?,
                _ if is_prefixed => String::new(),
                _ => continue,
            };
            prefix = Some(match prefix {
                None => own,
                Some(it) => format!("{it}::{own}"),
            });
        }
        Some(match prefix {
            None => path,
            Some(it) if path == "self" => it,
            Some(it) => format!("{it}::{path}"),
        })
    }

    /// What the bodies and the items around the word name.
    fn locals(&self) -> Locals {
        let (mut locals, mut descent) = (Locals::default(), Descent::default());
        let mut is_known = false;
        for (list, number) in &self.levels {
            let is_in_holder = descent.is_in_holder;
            let enters_item = descent.enters_item(list, *number) && locals.is_in_body;
            if enters_item {
                locals.enter_item();
            }
            generics(list, *number, &mut locals);
            if locals.is_in_body && !is_known && !is_in_holder {
                block_items(list, &mut locals);
            }
            if locals.is_in_body && !enters_item {
                bindings(list, *number, &mut locals);
            }
            is_known = self.blocks.contains(&list[*number].span);
            locals.is_in_body |= is_known || is_body(list, *number) || is_value_in_type(list, *number);
        }
        locals
    }

    /// What `Self` and the generic parameters around the word stand for.
    fn holders(&self) -> BTreeMap<String, Holder> {
        let (mut made, mut is_in_body, mut descent) = (BTreeMap::new(), false, Descent::default());
        for (list, number) in &self.levels {
            if descent.enters_item(list, *number) && is_in_body {
                made.clear();
            }
            holders(list, *number, &mut made);
            is_in_body |= is_body(list, *number);
        }
        made
    }

    /// What a name stands for with which a path begins, where that is a type or has traits.
    fn holder(&self, name: &str) -> Option<Holder> {
        self.holders().remove(name).filter(|it| it.of_type.is_some() || !it.of_traits.is_empty())
    }

    fn around(&self, site: &Site) -> Around {
        if let Some((first, _)) = site.path.split_once("::") {
            return Around { holder: self.holder(first), names: Vec::new() };
        }
        if site.context != Context::Plain {
            return Around::default();
        }
        let locals = self.locals();
        let mut names = Vec::new();
        let mut add = |of: &HashSet<String>, what| {
            // The keyword is offered everywhere.
            let mut of: Vec<&String> = of.iter().filter(|it| *it != "self").collect();
            of.sort();
            names.extend(of.into_iter().map(|it| (it.clone(), what)));
        };
        if locals.is_in_body && !site.goes_on {
            add(&locals.values, "local variable");
        }
        add(&locals.parameters, "generic parameter");
        add(&locals.items, "item of the body");
        if self.holders().contains_key("Self") {
            names.push(("Self".to_owned(), "keyword"));
        }
        Around { holder: None, names }
    }
}

/// How the words in a group are read.
fn inside(list: &[Token], number: usize, delimiter: Delimiter, context: Option<Context>) -> Option<Context> {
    let before = |by: usize| number.checked_sub(by).map(|it| &list[it]);
    let is_hash = |by: usize| before(by).is_some_and(|it| it.is("#"));
    if delimiter == Delimiter::Bracket && (is_hash(1) || is_hash(2) && before(1).is_some_and(|it| it.is("!"))) {
        return context.map(|_| Context::Attribute);
    }
    match context? {
        Context::Attribute => {
            let is_known = before(1).is_some_and(|it| it.is_word("derive") || it.is_word("cfg_attr"));
            is_known.then_some(Context::Attribute)
        }
        _ => Some(Context::Plain),
    }
}

/// Where the statement or the item begins in which a token stands.
fn start_of(list: &[Token], number: usize) -> usize {
    let ends = |it: &Token| it.is(";") || it.group(Delimiter::Brace).is_some();
    list[..number].iter().rposition(ends).map_or(0, |it| it + 1)
}

/// Whether the group there is the length of an array, an argument for a constant, or the value of a variant.
fn is_value_in_type(list: &[Token], number: usize) -> bool {
    let before = number.checked_sub(1).map(|it| &list[it]);
    let begins_value = |it: &Token| it.is("<") || it.is(",") || it.is("=");
    list[number].group(Delimiter::Brace).is_some() && before.is_some_and(begins_value)
        || list[number].group(Delimiter::Bracket).is_some() && !before.is_some_and(|it| it.is("#") || it.is("!"))
}

/// Whether the token stands in a `use`.
fn is_in_use(list: &[Token], number: usize) -> bool {
    let mut at = list[..number].iter().rposition(|it| it.is(";")).map_or(0, |it| it + 1);
    // What stands behind a block needs no semicolon; a list of a `use` has `::` before it.
    let ends = |it: &usize| list[*it].group(Delimiter::Brace).is_some() && (*it == 0 || !list[*it - 1].is("::"));
    at = (at..number).rfind(ends).map_or(at, |it| it + 1);
    // `use<..>` in a type is none.
    let is_use = |it: usize| list[it].is_word("use") && !list.get(it + 1).is_some_and(|it| it.is("<"));
    (at..number).any(is_use)
}

/// Whether the word is the name of an item or of a binding.
fn is_declared(list: &[Token], number: usize) -> bool {
    let before = |by: usize| number.checked_sub(by).map(|it| &list[it]);
    let is = |by: usize, punct: &str| before(by).is_some_and(|it| it.is(punct));
    let Some(word) = before(1).and_then(Token::word) else {
        return is(1, "!") && before(2).is_some_and(|it| it.is_word("macro_rules"));
    };
    match word {
        "fn" | "struct" | "enum" | "trait" | "mod" | "type" | "union" | "macro" => true,
        "const" => !is(2, "*"),
        "mut" => !is(2, "*") && !is(2, "&") && !before(2).is_some_and(|it| matches!(it.kind, Kind::Lifetime(_))),
        "static" | "ref" => true,
        // What else a pattern begins with is a constant, or a struct or a variant with what is in it.
        "let" => {
            let is_at = list.get(number + 1).is_some_and(|it| it.is("@"));
            let is_upper = list[number].word().is_some_and(|it| plain(it).starts_with(char::is_uppercase));
            !is_in_path(list, number) && (is_at || !is_upper)
        }
        _ => false,
    }
}

#[cfg(test)]
mod tests {
    use super::*;
    use crate::syntax::Item;
    use crate::token::{on_a_thread, tokens_of, Hash};

    /// Where the blocks of these items stand.
    fn spans_of(items: &[Item]) -> Vec<Span> {
        fn of(blocks: &[std::sync::Arc<crate::syntax::Block>]) -> Vec<Span> {
            let inner = |it: &crate::syntax::Block| [vec![it.span], spans_of(&it.items), of(&it.blocks)].concat();
            blocks.iter().flat_map(|it| inner(it)).collect()
        }
        items.iter().flat_map(|it| of(&it.blocks)).collect()
    }

    /// What stands at each `«word»` of a text: its path, or nothing.
    fn found(text: &str, is_known: bool) -> Vec<Option<String>> {
        let mut plain_text = String::new();
        let mut marks = Vec::new();
        for (at, part) in text.split('«').enumerate() {
            let (word, rest) = if at == 0 { ("", part) } else { part.split_once('»').unwrap() };
            if at > 0 {
                marks.push(crate::lsp::text::Text::new(plain_text.clone()).position(plain_text.len()));
            }
            plain_text.push_str(word);
            plain_text.push_str(rest);
        }
        let tokens = on_a_thread(|| tokens_of(&plain_text)).unwrap();
        let unit = crate::syntax::unit_of(&tokens, Hash::default()).unwrap();
        let blocks = if is_known { spans_of(&unit.items) } else { Vec::new() };
        let at = |mark| {
            let made = sites(&tokens, &blocks, &|_, span: Span| span.start == mark);
            made.into_iter().next().map(|it| it.path)
        };
        marks.into_iter().map(at).collect()
    }

    fn all(text: &str, wanted: &[&str]) {
        check(text, false, wanted);
    }

    /// With the blocks that the program knows, or without.
    fn check(text: &str, is_known: bool, wanted: &[&str]) {
        let found = found(text, is_known);
        let found: Vec<&str> = found.iter().map(|it| it.as_deref().unwrap_or("-")).collect();
        assert_eq!(found, wanted, "{text}");
    }

    #[test]
    fn paths_of_items() {
        all("use «a»::{«b», c::{self, «d» as «e»}, f::{«self»}};", &["a", "a::b", "a::c::d", "e", "a::f"]);
        all("use ::a::«b»; use {«c», d::«e»}; use a::{b}; fn f(x: «T») {}", &["::a::b", "c", "d::e", "T"]);
        all("mod m { mod n { use super::«x»; } } struct S(m::«T»);", &["super::x", "m::T"]);
        all("#[derive(«D», a::«E»)] #[a::«m»(x = «y»)] struct S;", &["D", "a::E", "a::m", "-"]);
        all("#[«test»] fn f() {} «m»! {} impl «A» for «B» {} «m»!{ «x» }", &["-", "m", "A", "B", "m", "x"]);
        all(
            "fn «f»(«x»: u8) {} struct S { «x»: «T» } pub(in crate::«a») enum «E» {}",
            &["-", "-", "-", "T", "crate::a", "-"],
        );
        all("macro_rules! m { () => { $crate::a::«b» + «c» } }", &["crate::a::b", "-"]);
    }

    #[test]
    fn generic_parameters_and_self() {
        all("fn f<T: «A», const N: usize>(x: «T», y: [u8; «N»]) -> T::«X» { «T»::new() }", &["A", "-", "-", "-", "-"]);
        all(
            "impl<T> A<«T»> for «S» { fn g(&self) -> «T» { «self»; «Self»::h(); <T as «Tr»>::x() } }",
            &["-", "S", "-", "-", "-", "Tr"],
        );
        all(
            "struct S<T>(«T»); struct U(«T»); trait X<T> { fn f(t: «T»); } fn g() where «T»: «A» {}",
            &["-", "T", "-", "T", "A"],
        );
        all("fn f<'a, T>() {} fn g(t: &'a mut «T») -> impl A + use<'a> { B::«C» }", &["T", "B::C"]);
    }

    #[test]
    fn local_variables() {
        all("fn f(x: u8) { «x»; «y»; let y = «y»; «y»; x::«z»; { «y» } }", &["-", "y", "y", "-", "x::z", "-"]);
        all(
            "fn f() { let («a», B { c, d: «e», .. }) = g; «a» + «c» + «d» + «e» + «g»(a); }",
            &["-", "-", "-", "-", "d", "-", "g"],
        );
        all(
            "fn f() { if let Some(x) = «x» { «x» } else { «x» } «x»; while let Ok(y) = x { «y» } }",
            &["x", "-", "x", "x", "-"],
        );
        all("fn f() { for (i, j) in «i» { «i»; j.«k»() } «j»; }", &["i", "-", "-", "j"]);
        all(
            "fn f() { match x { A(a) | B { a, .. } if «a» => «a», None => «a», c @ C => { «c» } _ => «c» } }",
            &["-", "-", "a", "-", "c"],
        );
        all(
            "fn f() { g(|x, y: «T»| «x» + «y», «x»); let h = move || «z»; let i = a | «b»; }",
            &["T", "-", "-", "x", "z", "b"],
        );
        all("fn f() { let S { a } = s; T { a: «b», «c» } ; println!(\"{}\", «a»); a.«b».c(); }", &["b", "c", "-", "-"]);
        all("const C: u8 = { let x = 1; «x» + «y» }; static mut S: u8 = «C»;", &["-", "y", "C"]);
        all(
            "fn f() { let «a» = 1; let «S» { b } = c; if let «Some»(ref «d») = e {} let «m»::«T»(g) = h; let «n»!() = 1; }",
            &["-", "S", "Some", "-", "m", "m::T", "n"],
        );
        all(
            "fn f() { let «None» = a else {}; let «X» @ «Y» = b; let mut «c» = 1; let & «d» = e; }",
            &["None", "-", "Y", "-", "-"],
        );
    }

    /// An item in a body sees none of its variables and generic parameters.
    #[test]
    fn variables_around_items_of_bodies() {
        all(
            "fn f<T>(x: u8) { let y = 1; fn g<U>(z: u8) -> «T» { «x»; «y»; «z»; U::a; «T»::«b» } «y»; «T»::«b» }",
            &["T", "x", "y", "-", "T", "T::b", "-", "-", "-"],
        );
        all(
            "fn f(x: u8) { const C: u8 = «x»; const { «x» }; let g: fn(u8) = |y| «x» + «y»; «x»; mod m { const D: u8 = «x»; } }",
            &["x", "-", "-", "-", "-", "x"],
        );
        all(
            "fn f(x: u8) { #[a] pub(crate) unsafe impl S { extern \"C\" fn g(&self) { «x»; «self» } } unsafe { «x» } async { «x» } }",
            &["x", "-", "-", "-"],
        );
        // What stands in an impl is no item of the body.
        all("fn f() { impl S { fn g() { «g»; «f» } } fn h() {} «h» }", &["g", "f", "-"]);
    }

    /// What stands around the `|` in a text: what the path begins with, or the names that it may begin with.
    fn around(text: &str) -> String {
        let offset = text.find('|').unwrap();
        let text = text.replacen('|', "mark", 1);
        let at = crate::lsp::text::Text::new(text.clone()).position(offset);
        let tokens = on_a_thread(|| tokens_of(&text)).unwrap();
        let found = site_with_names(&tokens, &[], &|word, span| word == "mark" && span.contains(at));
        let Some((site, Around { holder, names })) = found else {
            return "-".to_owned();
        };
        let names = names.iter().map(|it| format!("{} {}", it.1.split(' ').next().unwrap_or_default(), it.0));
        match holder {
            None if site.path == "mark" => names.collect::<Vec<_>>().join(", "),
            None => format!("behind {}", site.path),
            Some(it) => {
                let line = text.lines().nth(it.at.line as usize - 1).unwrap();
                let from = &line[it.at.column as usize - 1..];
                let of_type = it.of_type.unwrap_or("?".to_owned());
                format!("{}: {of_type} with {}", from.split([' ', '<']).next().unwrap(), it.of_traits.join(" "))
            }
        }
    }

    #[test]
    fn what_self_and_parameters_stand_for() {
        for (text, wanted) in [
            ("impl S { fn f() { Self::| } }", "impl: S with "),
            (
                "mod m { pub unsafe impl<T: A> b::C<T> for d::S<T> where T: E { const X: u8 = Self::|; } }",
                "impl: d::S with b::C",
            ),
            ("impl A for &S { fn f() { Self::| } }", "impl: ? with A"),
            ("impl<T: A> B for T { fn f() { Self::| } }", "impl: ? with B"),
            (
                "impl<T: A + ?Sized> B for T where T: c::D<u8> + 'static, u8: E { fn f(it: T::|) {} }",
                "impl: ? with A c::D",
            ),
            ("pub trait Tr<T>: A + b::B<T> where Self: C { fn f() { Self::| } }", "trait: ? with Tr A b::B C"),
            ("struct S { a: [u8; Self::|] }", "struct: S with "),
            ("enum E { A = Self::| }", "enum: E with "),
            ("fn f<'a, const N: usize, #[a] T: A<B + C> = D, U>(it: U) -> T where U: E { T::|; }", "fn: ? with A"),
            ("fn f<T, U>() where T: for<'a> A<'a>, U: B<T> { U::| }", "fn: ? with B"),
            ("impl<T: A> S<T> { fn f<U: B>() { T::| } }", "impl: ? with A"),
            ("trait Tr { fn f<T: A>() { fn g<T: B>() { T::| } } }", "fn: ? with B"),
            // Nothing is known of these.
            ("fn f() { Self::| }", "-"),
            ("fn f<T>() { T::| }", "-"),
            ("fn f<const N: usize>() { N::| }", "-"),
            ("impl (A, B) { fn f() { Self::| } }", "-"),
            ("impl S { fn f() { fn g() { Self::| } } }", "-"),
            ("fn f() { trait Tr<T: A> { fn g() { m!({ T::| }) } } }", "trait: ? with A"),
            ("fn f<T: A>() { fn g() { T::| } }", "behind T::mark"),
            ("fn f<T: A>() { T::B::| }", "fn: ? with A"),
        ] {
            assert_eq!(around(text), wanted, "{text}");
        }
    }

    #[test]
    fn names_that_only_the_text_knows() {
        for (text, wanted) in [
            ("fn f<T, const N: usize>(a: u8) { let b = 1; | let c = 2; }", "local a, local b, generic N, generic T"),
            ("impl<T> S<T> { fn f(&self) { for i in j { | } } }", "local i, generic T, keyword Self"),
            ("impl S { fn f<T>(a: u8, b: |) {} }", "generic T, keyword Self"),
            ("struct S<T>(|);", "generic T, keyword Self"),
            ("fn f(a: u8) { fn g(b: u8) { m!(|) } }", "local b, item g"),
            ("fn f() { match x { A(a) => |, b => c } }", "local a"),
            ("fn f<T>() { impl<U> S<U> { fn g(a: u8) { | } } }", "local a, generic U, keyword Self"),
            ("fn f(a: u8) { use b::*; struct S; | }", "local a, item S"),
            ("fn f(a: u8) { |::b }", ""),
            ("fn f(a: u8) { |!() }", ""),
            ("#[|] struct S<T>(T);", ""),
            ("use |;", ""),
            ("fn f<T>() { use |; }", ""),
        ] {
            assert_eq!(around(text), wanted, "{text}");
        }
    }

    #[test]
    fn items_of_bodies() {
        all(
            "fn f() { fn g() {} «g»(); h(); use a::{b, c as d, e::{self}}; «b»::x; «c»::x; «d»::«y»; «e»; }",
            &["-", "-", "c", "-", "-", "-"],
        );
        all(
            "fn f() { use a::{b::«c»}; struct S; «S»; mod m {} m::«x»; { «S» } } fn g() { «S» }",
            &["a::b::c", "-", "-", "-", "S"],
        );
        all("fn f() { use a::*; «b»; crate::«c»; }", &["-", "crate::c"]);
    }

    #[test]
    fn items_of_blocks_that_the_program_knows() {
        let text = "fn f() { fn g() {} «g»(); use a::{b, c as d}; «b»::x; «d»::«y»; use h::*; «i»; crate::«j»; }";
        check(text, false, &["-", "-", "-", "-", "-", "crate::j"]);
        check(text, true, &["g", "b", "d", "d::y", "i", "crate::j"]);
        // Local variables hide items all the same.
        check("fn f(x: u8) { struct S; let g = 1; «x»; «g»; «S»; { let S = 1; S; } }", true, &["-", "-", "S"]);
        check("fn f() { m! { { struct S; «S»; } } { struct T; «T»; { «T» } } }", true, &["S", "T", "T"]);
        check("fn f() { m! { => { struct S; «S»; } } }", true, &["-"]);
        check("fn f<T>() { struct S; «T»; «S»; fn g<S>() { «S» } }", true, &["-", "S", "-"]);
    }

    #[test]
    fn values_in_types() {
        let text = "struct S { a: [u8; { struct T; let n = 1; «T»; «n»; m::«N» }], b: «T» }";
        check(text, false, &["-", "-", "m::N", "T"]);
        check(text, true, &["T", "-", "m::N", "T"]);
        all(
            "enum E { A = { let n = 1; «n» + «m» } } type T = P<{ let n = 1; «n» }, { let m = 1; «m» + «n» }>;",
            &["-", "m", "-", "-", "n"],
        );
        all("use {«a», {«b»}}; #[m(«c»)] struct S([u8; «N»]); m![«d», { «e» }];", &["a", "b", "-", "N", "d", "e"]);
    }

    #[test]
    fn words_that_are_local() {
        let text = "fn f<T>(x: u8) { let y = x; S { z: y.v() }; Self::w; T::a; m::x; b!(y); use c::x; }";
        let tokens = on_a_thread(|| tokens_of(text)).unwrap();
        let local: Vec<&str> = text
            .match_indices(|it: char| it.is_alphanumeric())
            .filter(|it| is_local(&tokens, &[], Position { line: 1, column: it.0 as u32 + 1 }))
            .map(|it| it.1)
            .collect();
        assert_eq!(local.concat(), "TxyxzyvSelfwTay");
    }

    #[test]
    fn nothing_panics() {
        let text = "fn f<T(x: |a, match { => , if let = for in use :: { * let <";
        let tokens = on_a_thread(|| tokens_of("fn f<T(x) |a, match ; => , if let = for in use :: ; * let < $ # !"));
        let tokens = tokens.unwrap();
        let _ = sites(&tokens, &[], &|_, _| true);
        for end in 0..text.len() {
            if let Ok(tokens) = on_a_thread(|| tokens_of(&format!("fn f() {{ {} }}", &text[..end]))) {
                let _ = sites(&tokens, &[], &|_, _| true);
            }
        }
    }
}
