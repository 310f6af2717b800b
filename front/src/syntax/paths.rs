//! The paths of types: what an impl is of, what an alias stands for, and the traits of bounds.

use super::{angle, path_of, plain, Path};
use crate::token::{opened, Kind, Token};

/// What an impl is of, as it is written.
#[derive(Clone, Default, Hash, Debug)]
pub struct ImplHead {
    /// Whether it is of a trait.
    pub is_of_trait: bool,
    /// The trait, without arguments.
    pub of_trait: Option<Path>,
    /// The type, without arguments. None where it is written otherwise than as a path, or is a parameter of the impl.
    pub self_type: Option<Path>,
}

impl ImplHead {
    /// Of the tokens between `impl` and its braces.
    pub fn of(tokens: &[Token]) -> ImplHead {
        let tokens = opened(tokens);
        let (mut rest, mut parameters) = (&tokens[..], Vec::new());
        if rest.first().is_some_and(|it| it.is("<")) {
            let end = closing(rest);
            parameters = parameters_in(&rest[..end]);
            rest = rest.get(end + 1..).unwrap_or_default();
        }
        let at_outermost = outermost(rest);
        let bounds = at_outermost.iter().copied().find(|it| rest[*it].is_word("where"));
        rest = &rest[..bounds.unwrap_or(rest.len())];
        let is_for = |it: &usize| rest.get(*it).is_some_and(|it| it.is_word("for")) && !is_binder(rest, *it);
        let between = at_outermost.into_iter().find(is_for);
        let (of_trait, self_type) = match between {
            Some(at) => (Some(&rest[..at]), &rest[at + 1..]),
            None => (None, rest),
        };
        let of_trait = of_trait.and_then(|it| match it {
            [word, it @ ..] if word.is("!") || word.is_word("const") => path_of_type(it),
            it => path_of_type(it),
        });
        let self_type = path_of_type(self_type).filter(|it| !parameters.contains(&it.text));
        ImplHead { is_of_trait: between.is_some(), of_trait, self_type }
    }
}

/// Where the `>` is that closes the `<` at the front, or the end.
fn closing(tokens: &[Token]) -> usize {
    let mut depth = 0;
    let closes = |it: &Token| {
        depth += angle(it);
        depth <= 0
    };
    tokens.iter().position(closes).unwrap_or(tokens.len())
}

/// The places of the tokens that stand in no `<` and `>`.
fn outermost(tokens: &[Token]) -> Vec<usize> {
    let mut depth = 0;
    let mut made = Vec::new();
    for (at, it) in tokens.iter().enumerate() {
        let by = angle(it);
        if depth == 0 && by == 0 {
            made.push(at);
        }
        depth += by;
    }
    made
}

/// Whether the word `for` there begins a bound, as `for<'a>`.
fn is_binder(tokens: &[Token], at: usize) -> bool {
    let behind = |by: usize| tokens.get(at + by);
    behind(1).is_some_and(|it| it.is("<"))
        && behind(2).is_some_and(|it| matches!(it.kind, Kind::Lifetime(_)) || it.is(">"))
}

/// The names of the types that a list of parameters declares.
fn parameters_in(tokens: &[Token]) -> Vec<String> {
    let mut depth = 0;
    let mut made = Vec::new();
    for (at, it) in tokens.iter().enumerate() {
        let before = at.checked_sub(1).map(|it| &tokens[it]);
        if let (1, Some(name), Some(before)) = (depth, it.word(), before) {
            if before.is("<") || before.is(",") {
                made.push(plain(name).to_owned());
            }
        }
        depth += angle(it);
    }
    made
}

/// The path of what an alias stands for, of the tokens from behind its name to its semicolon.
pub(super) fn target_of_alias(tokens: &[Token]) -> Option<Path> {
    let tokens = opened(tokens);
    let (_, rest) = tokens.split_last().filter(|it| it.0.is(";"))?;
    let equals = outermost(rest).into_iter().find(|it| rest[*it].is("="))?;
    path_of_type(&rest[equals + 1..])
}

/// The path that a type or a bound is, without arguments.
pub fn path_of_type(tokens: &[Token]) -> Option<Path> {
    if tokens.first()?.is("<") {
        return None;
    }
    let names: Vec<Token> = outermost(tokens).into_iter().map(|it| tokens[it].clone()).collect();
    path_of(&names)
}

/// What stands before, between and behind the tokens that separate, those within `<` and `>` left out.
pub fn parts<'a>(tokens: &'a [Token], separates: &dyn Fn(&Token) -> bool) -> Vec<&'a [Token]> {
    let (mut made, mut start) = (Vec::new(), 0);
    for at in outermost(tokens).into_iter().filter(|it| separates(&tokens[*it])) {
        made.push(&tokens[start..at]);
        start = at + 1;
    }
    made.push(&tokens[start..]);
    made
}

/// The traits of bounds as `A + ?Sized + 'a + for<'b> c::B<'b>`, without arguments; of what may be missing none.
pub fn traits_of_bounds(tokens: &[Token]) -> Vec<Path> {
    let of_part = |part: &&[Token]| {
        let mut rest = match *part {
            [word, rest @ ..] if word.is_word("const") => rest,
            [mark, word, rest @ ..] if mark.is("~") && word.is_word("const") => rest,
            rest => rest,
        };
        if rest.first().is_some_and(|it| it.is_word("for")) {
            rest = rest.get(closing(&rest[1..]) + 2..)?;
        }
        path_of_type(rest)
    };
    parts(tokens, &|it| it.is("+")).iter().filter_map(of_part).collect()
}

#[cfg(test)]
mod tests {
    use super::*;
    use crate::token::{on_a_thread, tokens_of};

    #[test]
    fn traits_of_what_is_bound() {
        for (text, wanted) in [
            ("A", "A"),
            ("A<B + C> + 'a + ::b::C<T> + ?Sized + crate::D", "A ::b::C crate::D"),
            ("for<'a> A<'a> + const B + ~const C", "A B C"),
            ("Fn(u8) -> u8 + Send", "Send"),
            ("for", ""),
            ("for<'a", ""),
            ("+", ""),
            ("", ""),
        ] {
            let made = traits_of_bounds(&on_a_thread(|| tokens_of(text)).unwrap());
            let made: Vec<&str> = made.iter().map(|it| &*it.text).collect();
            assert_eq!(made.join(" "), wanted, "{text}");
        }
    }

    fn check(text: &str, wanted: (Option<&str>, Option<&str>)) {
        let head = ImplHead::of(&on_a_thread(|| tokens_of(text)).unwrap());
        let text_of = |it: &Option<Path>| it.as_ref().map(|it| it.text.clone());
        let made = (text_of(&head.of_trait), text_of(&head.self_type));
        assert_eq!((made.0.as_deref(), made.1.as_deref()), wanted, "{text}");
        assert_eq!(head.is_of_trait, text.contains(" for "), "{text}");
    }

    #[test]
    fn what_aliases_stand_for() {
        for (text, wanted) in [
            ("= a::B<u8>;", Some("a::B")),
            ("<T = u8> = B;", Some("B")),
            ("<T>: A = ::b::C<T>;", Some("::b::C")),
            ("= &'a B;", None),
            (": A;", None),
            ("= B", None),
            (";", None),
        ] {
            let made = target_of_alias(&on_a_thread(|| tokens_of(text)).unwrap());
            assert_eq!(made.map(|it| it.text).as_deref(), wanted, "{text}");
        }
    }

    #[test]
    fn what_impls_are_of() {
        check("S", (None, Some("S")));
        check("a::b::S<T, Vec<U>>", (None, Some("a::b::S")));
        check("<T: A<Item = u8>, const N: usize> S<T> where T: for<'a> B<'a>", (None, Some("S")));
        check("<'a, T> crate::A<T> for super::S<'a, T>", (Some("crate::A"), Some("super::S")));
        check("<T> A for T where T: B", (Some("A"), None));
        check("<T: ?Sized + A> B for &mut T", (Some("B"), None));
        check("!Send for r#type::S", (Some("Send"), Some("type::S")));
        check("const A for S", (Some("A"), Some("S")));
        check("A for [u8; 2]", (Some("A"), None));
        check("A<dyn for<'a> B<'a>> for u8", (Some("A"), Some("u8")));
        check("A for <T as B>::C", (Some("A"), None));
        check("Fn(u8) -> u8 for S", (None, Some("S")));
        check("dyn A + Send", (None, None));
        check("", (None, None));
        check("<T", (None, None));
    }
}
