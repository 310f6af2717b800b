//! Which names a body and the items around a place declare, by how they are written.

use std::collections::HashSet;

use super::{start_of, KEYWORDS};
use crate::syntax::{angle, plain};
use crate::token::{Delimiter, Kind, Token};

/// What is declared around a place.
#[derive(Default)]
pub(super) struct Locals {
    /// Whether a body stands around.
    pub is_in_body: bool,
    /// Variables and parameters.
    pub values: HashSet<String>,
    /// Generic parameters.
    pub parameters: HashSet<String>,
    /// Items within bodies.
    pub items: HashSet<String>,
    /// Whether a body around has a glob import.
    pub has_glob: bool,
}

impl Locals {
    /// Whether a path begins with a name that isn't a variable.
    pub fn have_first(&self, name: &str) -> bool {
        self.parameters.contains(name) || self.items.contains(name)
    }

    /// What an item in a body doesn't see of the body.
    pub fn enter_item(&mut self) {
        self.values.clear();
        self.parameters.clear();
    }
}

/// The `>` that closes the `<` at a place, or the list's end.
fn closing(list: &[Token], open: usize) -> usize {
    let mut depth = 0;
    for (at, it) in list.iter().enumerate().skip(open) {
        depth += angle(it);
        if depth <= 0 {
            return at;
        }
    }
    list.len()
}

/// The generic parameters and the parameters of the item around a token.
pub(super) fn generics(list: &[Token], number: usize, locals: &mut Locals) {
    let start = start_of(list, number);
    let ends = |it: &Token| it.is(";") || it.group(Delimiter::Brace).is_some();
    let end = list[number..].iter().position(ends).map_or(list.len(), |it| number + it);
    for at in start..end {
        let Some(word) = list[at].word() else {
            continue;
        };
        let (named, is_function) = match word {
            "fn" => (true, true),
            "struct" | "enum" | "union" | "trait" | "type" => (true, false),
            "impl" => (false, false),
            _ => continue,
        };
        let mut next = at + 1;
        if named {
            if !list.get(next).is_some_and(|it| it.word().is_some()) {
                continue;
            }
            next += 1;
        }
        if list.get(next).is_some_and(|it| it.is("<")) {
            let close = closing(list, next);
            let mut depth = 0;
            for it in next..close {
                depth += angle(&list[it]);
                let is_const = list[it].is_word("const");
                let is_first = list[it - 1].is("<") || list[it - 1].is(",") || list[it - 1].is_word("const");
                if let (1, true, false, Some(name)) = (depth, is_first, is_const, list[it].word()) {
                    locals.parameters.insert(plain(name).to_owned());
                }
            }
            next = close + 1;
        }
        if let (true, Some(parameters)) = (is_function, list.get(next).and_then(|it| it.group(Delimiter::Parenthesis)))
        {
            if number >= next {
                for it in parameters.split(|it| it.is(",")) {
                    names_in_pattern(before_colon(it), &mut locals.values);
                }
            }
        }
    }
}

fn before_colon(tokens: &[Token]) -> &[Token] {
    let end = tokens.iter().position(|it| it.is(":") || it.is("=")).unwrap_or(tokens.len());
    &tokens[..end]
}

/// The names that a pattern binds. A name that begins with a capital letter is a constant or a variant.
fn names_in_pattern(tokens: &[Token], names: &mut HashSet<String>) {
    for (at, it) in tokens.iter().enumerate() {
        if let Kind::Group(_, inner) = &it.kind {
            names_in_pattern(inner, names);
            continue;
        }
        let Some(word) = it.word().filter(|it| !KEYWORDS.contains(it) && *it != "box") else {
            continue;
        };
        let next = tokens.get(at + 1);
        let is_path = at.checked_sub(1).is_some_and(|it| tokens[it].is("::"))
            || next.is_some_and(|it| it.is(":"))
            || is_in_path(tokens, at);
        let is_upper = plain(word).chars().next().is_some_and(char::is_uppercase);
        let is_bound = !is_upper || next.is_some_and(|it| it.is("@"));
        if !is_path && is_bound {
            names.insert(plain(word).to_owned());
        }
    }
}

/// Whether a word of a pattern goes on as a path, a call of a macro, or as what has other patterns in it.
pub(super) fn is_in_path(list: &[Token], number: usize) -> bool {
    let is_group = |it: &Token| matches!(it.kind, Kind::Group(Delimiter::Parenthesis | Delimiter::Brace, _));
    list.get(number + 1).is_some_and(|it| it.is("::") || it.is("!") || is_group(it))
}

/// The items that a block declares, for all of it.
pub(super) fn block_items(list: &[Token], locals: &mut Locals) {
    let mut at = 0;
    while at < list.len() {
        let is_call = |by: usize| list.get(at + by).is_some_and(|it| it.is("!"));
        let name = list.get(at + 1).and_then(Token::word);
        match (list[at].word(), name) {
            (Some("fn" | "struct" | "enum" | "trait" | "mod" | "type" | "const" | "static" | "union"), Some(name)) => {
                locals.items.insert(plain(name).to_owned());
            }
            (Some("macro_rules"), _) if is_call(1) => {
                let name = list.get(at + 2).and_then(Token::word).unwrap_or_default();
                locals.items.insert(plain(name).to_owned());
            }
            (Some("use"), _) => {
                let end = list[at..].iter().position(|it| it.is(";")).map_or(list.len(), |it| at + it);
                names_in_use(&list[at + 1..end], "", locals);
                at = end;
            }
            _ => {}
        }
        at += 1;
    }
}

fn names_in_use(tokens: &[Token], prefix: &str, locals: &mut Locals) {
    for part in tokens.split(|it| it.is(",")) {
        let last = part.last();
        if last.is_some_and(|it| it.is("*")) {
            locals.has_glob = true;
        } else if let Some(inner) = last.and_then(|it| it.group(Delimiter::Brace)) {
            let before = part.iter().rev().find_map(Token::word).unwrap_or(prefix);
            names_in_use(inner, before, locals);
        } else if let Some(name) = last.and_then(Token::word) {
            let name = if name == "self" { prefix } else { name };
            locals.items.insert(plain(name).to_owned());
        }
    }
}

/// The variables that are bound where a token stands, by what comes before it in its list.
pub(super) fn bindings(list: &[Token], number: usize, locals: &mut Locals) {
    let names = &mut locals.values;
    let brace = |it: &Token| it.group(Delimiter::Brace).is_some();
    for at in 0..=number.min(list.len() - 1) {
        match list[at].word() {
            Some("let") => {
                let pattern_end = end_of(list, at + 1, &["=", ":", ";"]);
                let before = at.checked_sub(1).map(|it| &list[it]);
                let is_condition =
                    before.is_some_and(|it| it.is_word("if") || it.is_word("while") || it.is("&&") || it.is("||"));
                let is_bound = if is_condition {
                    let body = list[pattern_end.min(list.len())..].iter().position(brace).map(|it| pattern_end + it);
                    // What stands behind `&&` sees it too.
                    let joined = list[pattern_end.min(number)..number].iter().any(|it| it.is("&&"));
                    body.map_or(joined, |it| number == it || (number < it && joined))
                } else {
                    number > end_of(list, at + 1, &[";"])
                };
                if is_bound || (at < number && number < pattern_end) {
                    names_in_pattern(&list[at + 1..pattern_end.min(list.len())], names);
                }
            }
            Some("for") => {
                let end =
                    list[at..].iter().position(|it| it.is_word("in") || brace(it)).map_or(list.len(), |it| at + it);
                if list.get(end).is_some_and(|it| it.is_word("in")) {
                    let body = list[end..].iter().position(brace).map(|it| end + it);
                    if body == Some(number) || (at < number && number < end) {
                        names_in_pattern(&list[at + 1..end], names);
                    }
                }
            }
            _ => {}
        }
        closure(list, at, number, names);
    }
    arm(list, number, names);
}

/// The first of these behind a place, or the list's end.
fn end_of(list: &[Token], from: usize, puncts: &[&str]) -> usize {
    let from = from.min(list.len());
    let is_end = |it: &Token| puncts.iter().any(|punct| it.is(punct));
    list[from..].iter().position(is_end).map_or(list.len(), |it| from + it)
}

/// The parameters of a closure that begins at `at`, where the token is in it.
fn closure(list: &[Token], at: usize, number: usize, names: &mut HashSet<String>) {
    let begins = |before: Option<&Token>| match before.map(|it| &it.kind) {
        None => true,
        Some(Kind::Punct(it)) => !matches!(*it, "?" | "|" | ">"),
        Some(Kind::Ident(it)) => matches!(&**it, "move" | "return" | "else" | "in" | "match" | "async"),
        _ => false,
    };
    if !list[at].is("|") || !begins(at.checked_sub(1).map(|it| &list[it])) {
        return;
    }
    let close = end_of(list, at + 1, &["|"]);
    if close == list.len() || number <= at {
        return;
    }
    let is_inside = number < close || !list[close..number].iter().any(|it| it.is(",") || it.is(";"));
    if is_inside {
        for it in list[at + 1..close].split(|it| it.is(",")) {
            names_in_pattern(before_colon(it), names);
        }
    }
}

/// What the pattern of a `match` arm binds, where the token is in the arm.
fn arm(list: &[Token], number: usize, names: &mut HashSet<String>) {
    let arrows: Vec<usize> = list.iter().enumerate().filter(|it| it.1.is("=>")).map(|it| it.0).collect();
    let mut start = 0;
    for arrow in arrows {
        let is_block = list.get(arrow + 1).is_some_and(|it| it.group(Delimiter::Brace).is_some());
        let mut end = if is_block { arrow + 1 } else { end_of(list, arrow + 1, &[","]) };
        if is_block && list.get(end + 1).is_some_and(|it| it.is(",")) {
            end += 1;
        }
        if number >= start && number <= end {
            let pattern = &list[start.min(arrow)..arrow];
            let guard = pattern.iter().position(|it| it.is_word("if")).unwrap_or(pattern.len());
            names_in_pattern(&pattern[..guard], names);
        }
        start = end + 1;
    }
}
