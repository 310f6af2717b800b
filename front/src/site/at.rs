//! The path at a place of a text, and what stands around it.

use std::borrow::Cow;
use std::sync::Arc;

use crate::question::Context;
use crate::syntax::{path_of_type, plain, Call, Item, ItemKind, Unit, UseTree};
use crate::token::{on_a_thread, tokens_of, Delimiter, Kind, Position, Token};

/// A path that stands at a place.
#[derive(Clone, Debug)]
pub struct FoundPath {
    /// Up to the name at the place.
    pub path: String,
    /// The path to its end, where it goes on behind that.
    pub whole: String,
    /// How the path is used.
    pub context: Context,
    /// Where the innermost block begins that has items of its own, if one stands around it.
    pub block: Option<Position>,
}

/// A list of tokens, and which of them the place is in.
type Level<'a> = (&'a [Token], usize);

/// The lists of tokens around a word, the outermost first.
fn lists_at(tokens: &[Token], at: Position, context: Context) -> Option<(Vec<Level<'_>>, Context)> {
    for (number, it) in tokens.iter().enumerate().filter(|it| it.1.span.contains(at)) {
        match &it.kind {
            Kind::Ident(_) => return Some((vec![(tokens, number)], context)),
            Kind::Group(delimiter, inner) => {
                let before = |by: usize| number.checked_sub(by).map(|it| &tokens[it]);
                let is_attribute = *delimiter == Delimiter::Bracket
                    && (before(1).is_some_and(|it| it.is("#"))
                        || before(1).is_some_and(|it| it.is("!")) && before(2).is_some_and(|it| it.is("#")));
                let is_derive = context == Context::Attribute && before(1).is_some_and(|it| it.is_word("derive"));
                let inside = if is_attribute || is_derive { Context::Attribute } else { Context::Plain };
                if let Some(mut found) = lists_at(inner, at, inside) {
                    found.0.insert(0, (tokens, number));
                    return Some(found);
                }
            }
            _ => {}
        }
    }
    None
}

/// Whether the group there is the body of a function, or the value of a constant.
pub(crate) fn is_body(list: &[Token], number: usize) -> bool {
    if list[number].group(Delimiter::Brace).is_none() {
        return false;
    }
    let goes_on = |it: &&Token| !it.is(";") && it.group(Delimiter::Brace).is_none();
    let mut before = list[..number].iter().rev().take_while(goes_on).filter_map(Token::word);
    before.any(|it| matches!(it, "fn" | "const" | "static"))
}

/// Where the `<` is that the `>` at `end` closes.
fn opening(tokens: &[Token], end: usize) -> Option<usize> {
    let mut depth = 0;
    for at in (0..=end).rev() {
        depth -= crate::syntax::angle(&tokens[at]);
        if depth <= 0 {
            return (depth == 0).then_some(at);
        }
    }
    None
}

/// Whether a word is none of a path that stands behind it.
fn ends_before(word: &str) -> bool {
    const WORDS: [&str; 16] = [
        "return", "in", "as", "use", "pub", "mut", "dyn", "impl", "for", "where", "else", "match", "if", "let", "ref",
        "move",
    ];
    WORDS.contains(&word)
}

/// The path that stands for `<..>` at the beginning of a path: the trait of `<T as Trait>`, the type of `<Type>`.
fn qualifier(tokens: &[Token]) -> Option<String> {
    let mut depth = 0;
    let is_as = |it: &Token| {
        depth += crate::syntax::angle(it);
        depth == 0 && it.is_word("as")
    };
    let from = tokens.iter().position(is_as).map_or(0, |it| it + 1);
    path_of_type(&tokens[from..]).map(|it| it.text)
}

/// The path that ends with the word at `at`.
pub(crate) fn path_before(tokens: &[Token], at: usize) -> Option<String> {
    let mut names = vec![plain(tokens[at].word()?).to_owned()];
    let mut left = at;
    while left > 0 && tokens[left - 1].is("::") {
        left -= 1;
        let mut before = left.checked_sub(1);
        if before.is_some_and(|it| crate::syntax::angle(&tokens[it]) < 0) {
            let open = opening(tokens, before?)?;
            let is_argument = open.checked_sub(1).map(|it| &tokens[it]);
            let is_argument = is_argument.is_some_and(|it| it.is("::") || it.word().is_some_and(|it| !ends_before(it)));
            if !is_argument {
                names.insert(0, qualifier(&tokens[open + 1..before?])?);
                break;
            }
            before = open
                .checked_sub(1)
                .filter(|it| tokens[*it].is("::"))
                .map_or(open.checked_sub(1), |it| it.checked_sub(1));
            if !before.is_some_and(|it| tokens[it].word().is_some()) {
                return None;
            }
        }
        match before.and_then(|it| tokens[it].word()) {
            Some(word) if !ends_before(word) => {
                names.insert(0, plain(word).to_owned());
                left = before?;
            }
            _ => {
                names.insert(0, String::new());
                break;
            }
        }
    }
    Some(names.join("::"))
}

/// How the path goes on behind the word at `at`: names, with `::` before each.
pub(crate) fn path_behind(tokens: &[Token], at: usize) -> String {
    let mut text = String::new();
    let mut left = at + 1;
    while tokens.get(left).is_some_and(|it| it.is("::")) {
        left += 1;
        let mut depth = 0;
        if tokens.get(left).is_some_and(|it| it.is("<")) {
            while let Some(it) = tokens.get(left) {
                depth += crate::syntax::angle(it);
                left += 1;
                if depth <= 0 {
                    break;
                }
            }
            continue;
        }
        let Some(word) = tokens.get(left).and_then(Token::word) else {
            break;
        };
        text.push_str("::");
        text.push_str(plain(word));
        left += 1;
    }
    text
}

/// Whether a statement of a block is an item, or a macro call that holds one.
fn has_items(list: &[Token]) -> bool {
    pub(super) const WORDS: [&str; 12] =
        ["use", "fn", "struct", "enum", "mod", "static", "trait", "impl", "type", "const", "extern", "macro_rules"];
    list.iter().enumerate().any(|(at, it)| {
        let is_first = at == 0
            || list[at - 1].is(";")
            || matches!(list[at - 1].kind, Kind::Group(Delimiter::Brace | Delimiter::Bracket, _));
        let holds = match (list.get(at + 1), list.get(at + 2).map(|it| &it.kind)) {
            (Some(bang), Some(Kind::Group(Delimiter::Brace, inner))) if bang.is("!") => {
                inner.iter().filter_map(|it| it.group(Delimiter::Brace)).any(|it| has_items(it))
            }
            _ => false,
        };
        is_first && it.word().is_some_and(|it| WORDS.contains(&it) || holds)
    })
}

/// The prefix of the lists around a place in a `use` tree.
fn prefix_at(tree: &UseTree, at: Position) -> Option<String> {
    let UseTree::List { path, trees, span } = tree else {
        return None;
    };
    let own = path.as_ref().map_or(String::new(), |it| it.text.clone());
    if !span.contains(at) || path.as_ref().is_some_and(|it| it.span.contains(at)) {
        return None;
    }
    let inner = trees.iter().find_map(|it| prefix_at(it, at));
    Some(match inner {
        Some(it) if own.is_empty() => it,
        Some(it) => format!("{own}::{it}"),
        None => own,
    })
}

/// What a call expands to, where that is known.
pub type Expansions<'a> = &'a dyn Fn(&Call) -> Option<Arc<Unit>>;

/// The names of the inline modules around a place, and the item that it is in; in a call that of the expansion to which
/// it comes.
fn around<'a>(
    items: &'a [Item],
    at: Position,
    expansions: Expansions,
    modules: &mut Vec<String>,
) -> Option<Cow<'a, Item>> {
    let item = items.iter().find(|it| it.contains(at))?;
    match &item.kind {
        ItemKind::Module(Some(inner)) if item.name.as_ref().is_some_and(|it| !it.span.contains(at)) => {
            modules.push(item.name_text().to_owned());
            around(inner, at, expansions, modules)
        }
        ItemKind::Call(call) if !call.path.span.contains(at) => match expansions(call) {
            Some(unit) => around(&unit.items, at, expansions, modules).map(|it| Cow::Owned(it.into_owned())),
            None => {
                modules_in(&call.input, at, modules);
                Some(Cow::Borrowed(item))
            }
        },
        _ => Some(Cow::Borrowed(item)),
    }
}

/// The modules around a place in what a macro is called with.
fn modules_in(tokens: &[Token], at: Position, modules: &mut Vec<String>) {
    for (number, it) in tokens.iter().enumerate().filter(|it| it.1.span.contains(at)) {
        if let Kind::Group(delimiter, inner) = &it.kind {
            if let ([.., word, name], Delimiter::Brace) = (&tokens[..number], delimiter) {
                if let (true, Some(name)) = (word.is_word("mod"), name.word()) {
                    modules.push(plain(name).to_owned());
                }
            }
            return modules_in(inner, at, modules);
        }
    }
}

/// The names of the inline modules around a place.
pub(crate) fn modules_at(items: &[Item], at: Position, expansions: Expansions) -> Vec<String> {
    let mut modules = Vec::new();
    around(items, at, expansions, &mut modules);
    modules
}

/// The path at a place of a text, and the inline modules around it.
pub fn path_at(text: &str, items: &[Item], at: Position, expansions: Expansions) -> Option<(FoundPath, Vec<String>)> {
    let mut modules = Vec::new();
    let item = around(items, at, expansions, &mut modules);
    let found = on_a_thread(|| {
        let tokens = tokens_of(text).ok()?;
        let (lists, context) = lists_at(&tokens, at, Context::Plain)?;
        let (list, number) = *lists.last()?;
        let mut path = path_before(list, number)?;
        let is_call = list.get(number + 1).is_some_and(|it| it.is("!"))
            && matches!(list.get(number + 2), Some(Token { kind: Kind::Group(..), .. }));
        let mut context = if is_call { Context::Call } else { context };
        let behind = path_behind(list, number);
        if let Some(ItemKind::Use(tree)) = item.as_ref().map(|it| &it.kind) {
            context = Context::Import;
            if let Some(prefix) = prefix_at(tree, at) {
                path = match &*path {
                    "self" => prefix,
                    _ if prefix.is_empty() => path,
                    _ => format!("{}::{path}", if prefix == "::" { "" } else { &prefix }),
                };
            }
        }
        let body = lists.iter().position(|(list, number)| is_body(list, *number));
        let innermost = body.and_then(|it| (it + 1..lists.len()).rev().find(|it| has_items(lists[*it].0)));
        let block = innermost.map(|it| lists[it - 1].0[lists[it - 1].1].span.start);
        let whole = format!("{path}{behind}");
        Some(FoundPath { path, whole, context, block })
    })?;
    Some((found, modules))
}
