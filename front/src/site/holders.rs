//! What `Self` and generic parameters stand for, by how the items around a place are written.

use std::collections::BTreeMap;

use super::start_of;
use crate::syntax::{parts, plain, traits_of_bounds, ImplHead, Path};
use crate::token::{Delimiter, Position, Token};

/// What `Self` or a generic parameter stands for.
#[derive(Clone, Default, PartialEq, Eq, Debug)]
pub struct Holder {
    /// The type that an impl is of, or that is declared.
    pub of_type: Option<String>,
    /// The traits that it has by how it is declared.
    pub of_traits: Vec<String>,
    /// Where the item begins that says so: there these paths are looked up.
    pub at: Position,
}

impl Holder {
    fn add(&mut self, traits: Vec<Path>) {
        for it in traits {
            if !self.of_traits.contains(&it.text) {
                self.of_traits.push(it.text);
            }
        }
    }
}

/// The words with which items begin that may stand around others.
const WORDS: [&str; 11] =
    ["fn", "impl", "trait", "struct", "enum", "union", "mod", "type", "const", "static", "macro_rules"];

/// Where the word stands with which the item begins in which a token of the list is.
fn item_at(list: &[Token], number: usize) -> Option<usize> {
    let start = start_of(list, number);
    let is_named = |at: usize| list.get(at + 1).is_some_and(|it| it.word().is_some());
    let begins = |at: &usize| match list[*at].word() {
        Some("impl") => true,
        // `let f: fn(u8)`, `const { .. }`, `const fn f`, `&raw const x`.
        Some("const") => is_named(*at) && !list[*at + 1].is_word("fn") && !is_behind_operator(list, *at),
        Some(word) => WORDS.contains(&word) && is_named(*at),
        None => false,
    };
    let at = (start..=number).find(begins)?;
    // A statement that has an `impl` or a name of such a kind in it is none.
    let before = &list[start..at];
    let is_head = |it: &Token| {
        let words = ["pub", "unsafe", "default", "const", "async", "extern", "auto", "safe"];
        it.is("#")
            || it.group(Delimiter::Bracket).is_some()
            || it.group(Delimiter::Parenthesis).is_some()
            || matches!(it.kind, crate::token::Kind::Literal(_))
            || it.word().is_some_and(|it| words.contains(&it))
    };
    before.iter().all(is_head).then_some(at)
}

fn is_behind_operator(list: &[Token], at: usize) -> bool {
    at.checked_sub(1).is_some_and(|it| list[it].is("*") || list[it].is_word("raw"))
}

/// The way from a text down the lists around a word.
#[derive(Default)]
pub(super) struct Descent {
    /// Whether the next list is that of a trait or an impl.
    pub is_in_holder: bool,
}

impl Descent {
    /// Whether a token of the next list stands in an item that isn't one of a trait or an impl. In a body such an item
    /// sees no variable and no generic parameter from around it.
    pub fn enters_item(&mut self, list: &[Token], number: usize) -> bool {
        let at = item_at(list, number);
        let enters = at.is_some() && !self.is_in_holder;
        let is_holder = at.is_some_and(|it| list[it].is_word("impl") || list[it].is_word("trait"));
        self.is_in_holder = is_holder && list[number].group(Delimiter::Brace).is_some();
        enters
    }
}

/// Adds what the item says of its parameters and of `Self` in which a token of the list is.
pub(super) fn holders(list: &[Token], number: usize, made: &mut BTreeMap<String, Holder>) {
    let Some(start) = item_at(list, number) else {
        return;
    };
    let ends = |it: &Token| it.is(";") || it.group(Delimiter::Brace).is_some();
    let end = list[start..].iter().position(ends).map_or(list.len(), |it| start + it);
    let (word, head) = (list[start].word().unwrap_or_default(), &list[start + 1..end]);
    let at = list[start].span.start;
    let holder = |of_type: Option<String>| Holder { of_type, of_traits: Vec::new(), at };
    let name = head.first().and_then(Token::word).map(plain);
    let behind = if word == "impl" { head } else { head.get(1..).unwrap_or_default() };
    let (parameters, behind) = split_parameters(behind);
    match word {
        "impl" => {
            let head = ImplHead::of(head);
            let mut own = holder(head.self_type.map(|it| it.text));
            own.add(head.of_trait.into_iter().collect());
            made.insert("Self".to_owned(), own);
        }
        "trait" => {
            let mut own = holder(None);
            own.of_traits.extend(name.map(str::to_owned));
            let bounds = behind.split(|it| it.is_word("where")).next().unwrap_or_default();
            own.add(bounds.split_first().map_or(Vec::new(), |it| traits_of_bounds(it.1)));
            made.insert("Self".to_owned(), own);
        }
        "struct" | "enum" | "union" => {
            made.insert("Self".to_owned(), holder(name.map(str::to_owned)));
        }
        _ => {}
    }
    for it in parts(parameters, &|it| it.is(",")) {
        let declared = parts(it, &|it| it.is("=")).first().copied().unwrap_or_default();
        if let Some((name, traits)) = bound(declared) {
            let mut of_parameter = holder(None);
            of_parameter.add(traits);
            made.insert(name, of_parameter);
        }
    }
    let bounds = parts(behind, &|it| it.is_word("where"));
    for it in bounds.get(1).map_or(Vec::new(), |it| parts(it, &|it| it.is(","))) {
        if let Some((name, traits)) = bound(it) {
            if let Some(it) = made.get_mut(&name).filter(|it| it.at == at) {
                it.add(traits);
            }
        }
    }
}

/// The parameters between `<` and `>` at the front, and what stands behind them.
fn split_parameters(tokens: &[Token]) -> (&[Token], &[Token]) {
    if !tokens.first().is_some_and(|it| it.is("<")) {
        return (&[], tokens);
    }
    let mut depth = 0;
    let closes = |it: &Token| {
        depth += crate::syntax::angle(it);
        depth <= 0
    };
    match tokens.iter().position(closes) {
        Some(at) => (&tokens[1..at], &tokens[at + 1..]),
        None => (&tokens[1..], &[]),
    }
}

/// The name of a type and its bounds, as `T: A + B`, or `T`.
fn bound(tokens: &[Token]) -> Option<(String, Vec<Path>)> {
    let rest = match tokens {
        [hash, attribute, rest @ ..] if hash.is("#") && attribute.group(Delimiter::Bracket).is_some() => rest,
        rest => rest,
    };
    let name = rest.first()?.word().filter(|it| *it != "const" && *it != "for")?;
    let traits = match rest.get(1) {
        None => Vec::new(),
        Some(it) if it.is(":") => traits_of_bounds(&rest[2..]),
        Some(_) => return None,
    };
    Some((plain(name).to_owned(), traits))
}
