//! What the fragments of a pattern take from what a macro is called with.

use syn::parse::Parser as _;

use super::MOST_STEPS;
use crate::syntax::angle;
use crate::token::{text_of, Delimiter, Kind, Span, Token};

/// Of an expression or a type that goes deeper than this nothing is read, see [`depth`].
const DEEPEST: usize = 4_000;

/// How deep syntax may be that these tokens are: as deep as there are tokens before a separator, as each `!` of `!!!x` is
/// one level, and what stands in groups besides. What stands behind braces begins anew, but for `else`.
fn depth(tokens: &[Token]) -> usize {
    let (mut most, mut own) = (0, 0);
    for (at, it) in tokens.iter().enumerate() {
        own += 1;
        let inner = if let Kind::Group(_, inner) = &it.kind { depth(inner) } else { 0 };
        most = most.max(own + inner);
        let ends = it.group(Delimiter::Brace).is_some() && !tokens.get(at + 1).is_some_and(|it| it.is_word("else"));
        if ends || it.is(",") || it.is(";") || it.is("=>") {
            own = 0;
        }
    }
    most
}

#[derive(Clone, Copy, PartialEq, Eq, Debug)]
pub(super) enum Fragment {
    Block,
    Expression,
    Ident,
    Item,
    Lifetime,
    Literal,
    Meta,
    Pattern { or: bool },
    Path,
    Statement,
    Tree,
    Type,
    Visibility,
}

impl Fragment {
    pub(super) fn of(name: &str) -> Option<Fragment> {
        Some(match name {
            "block" => Fragment::Block,
            "expr" | "expr_2021" => Fragment::Expression,
            "ident" => Fragment::Ident,
            "item" => Fragment::Item,
            "lifetime" => Fragment::Lifetime,
            "literal" => Fragment::Literal,
            "meta" => Fragment::Meta,
            "pat" => Fragment::Pattern { or: true },
            "pat_param" => Fragment::Pattern { or: false },
            "path" => Fragment::Path,
            "stmt" => Fragment::Statement,
            "tt" => Fragment::Tree,
            "ty" => Fragment::Type,
            "vis" => Fragment::Visibility,
            _ => return None,
        })
    }
}

/// What the fragment takes from the front of the input, as what the variable stands for, and how many tokens.
pub(super) fn take_fragment(fragment: Fragment, input: &[Token], steps: &mut usize) -> Option<(Vec<Token>, usize)> {
    if let Some(Token { kind: Kind::Group(Delimiter::None, inner), .. }) = input.first() {
        let fits = match fragment {
            Fragment::Ident => matches!(&inner[..], [it] if it.word().is_some()),
            Fragment::Lifetime => matches!(&inner[..], [Token { kind: Kind::Lifetime(_), .. }]),
            Fragment::Literal => is_literal(inner) == Some(inner.len()),
            Fragment::Block => matches!(&inner[..], [it] if it.group(Delimiter::Brace).is_some()),
            Fragment::Visibility => visibility(inner) == inner.len(),
            Fragment::Tree => true,
            _ => !inner.is_empty(),
        };
        // What a fragment begins with may go on behind it: `$path::<T>`, `$expr + 1`.
        let goes_on = matches!(fragment, Fragment::Expression | Fragment::Statement | Fragment::Type)
            && input.get(1).is_some_and(|it| !it.is(",") && !it.is(";") && !it.is("=>"));
        if fits && !goes_on {
            return Some((vec![input[0].clone()], 1));
        }
        if fragment == Fragment::Visibility {
            return Some((Vec::new(), 0));
        }
        if !fits {
            return None;
        }
    }
    if fragment == Fragment::Visibility {
        let taken = visibility(input);
        return Some((grouped(&input[..taken]), taken));
    }
    let taken = count_taken(fragment, input, steps).filter(|it| *it > 0)?;
    let tokens = &input[..taken];
    let stays = matches!(fragment, Fragment::Tree | Fragment::Ident | Fragment::Lifetime);
    Some((if stays { tokens.to_vec() } else { grouped(tokens) }, taken))
}

/// How many tokens the fragment takes from the front of the input.
fn count_taken(fragment: Fragment, input: &[Token], steps: &mut usize) -> Option<usize> {
    let first = input.first();
    Some(match fragment {
        Fragment::Tree => 1 + usize::from(first?.goes_on_in(input.get(1))),
        Fragment::Ident => usize::from(first?.word().is_some_and(|it| it != "_")),
        Fragment::Lifetime => usize::from(matches!(first?.kind, Kind::Lifetime(_))),
        Fragment::Literal => is_literal(input)?,
        Fragment::Block => usize::from(first?.group(Delimiter::Brace).is_some()),
        Fragment::Path => path(input)?,
        Fragment::Type => type_(input)?,
        Fragment::Meta => {
            let from = path(input)?;
            match input.get(from) {
                Some(Token { kind: Kind::Group(..), .. }) => from + 1,
                Some(it) if it.is("=") => from + 1 + by_syn::<syn::Expr>(&input[from + 1..], &[], steps)?,
                _ => from,
            }
        }
        Fragment::Visibility => visibility(input),
        Fragment::Expression => {
            if first?.is_word("let") || first?.is("=>") || first?.is(",") || first?.is(";") {
                return None;
            }
            by_syn::<syn::Expr>(input, &[], steps)?
        }
        Fragment::Pattern { or: true } => by_syn::<OrPattern>(input, &["=", "if"], steps)?,
        Fragment::Pattern { or: false } => by_syn::<syn::Pat>(input, &["=", "|", "if"], steps)?,
        // Items alone take their `;` along.
        Fragment::Statement => match begins_item(input) {
            true => item(input)?,
            false => by_syn::<Statement>(input, &[], steps)?,
        },
        Fragment::Item => item(input)?,
    })
}

/// The tokens kept together, so that another macro sees them as the one fragment that they are.
fn grouped(tokens: &[Token]) -> Vec<Token> {
    match tokens {
        [] => Vec::new(),
        [it] if matches!(it.kind, Kind::Group(..) | Kind::Literal(_)) => vec![it.clone()],
        [first, ..] => {
            let span = Span { start: first.span.start, end: tokens[tokens.len() - 1].span.end };
            vec![Token { kind: Kind::Group(Delimiter::None, tokens.into()), span }]
        }
    }
}

fn is_literal(input: &[Token]) -> Option<usize> {
    match input {
        [Token { kind: Kind::Literal(_), .. }, ..] => Some(1),
        [it, ..] if it.is_word("true") || it.is_word("false") => Some(1),
        [minus, Token { kind: Kind::Literal(_), .. }, ..] if minus.is("-") => Some(2),
        _ => None,
    }
}

fn visibility(input: &[Token]) -> usize {
    match input {
        [it, Token { kind: Kind::Group(Delimiter::Parenthesis, inner), .. }, ..] if it.is_word("pub") => {
            let is_place = inner.first().is_some_and(|it| it.is_word("in"))
                || (inner.len() == 1 && ["crate", "self", "super"].iter().any(|word| inner[0].is_word(word)));
            1 + usize::from(is_place)
        }
        [it, ..] if it.is_word("pub") => 1,
        [it, next, ..] if it.is_word("crate") && !next.is("::") => 1,
        [it] if it.is_word("crate") => 1,
        _ => 0,
    }
}

/// Behind what stands in `<` and `>`, which begins at the front.
fn arguments(input: &[Token]) -> Option<usize> {
    let mut depth = 0;
    for (at, it) in input.iter().enumerate() {
        depth += angle(it);
        if depth <= 0 {
            // `>>` that closes one level more than it should is cut by no one here: the outer level isn't in the input.
            return (depth == 0).then_some(at + 1);
        }
    }
    None
}

fn is_path_word(token: &Token) -> bool {
    match &token.kind {
        Kind::Crate(_) => true,
        Kind::Ident(word) => !is_reserved(word) || ["self", "Self", "super", "crate"].contains(&&**word),
        _ => false,
    }
}

fn is_reserved(word: &str) -> bool {
    pub(super) const WORDS: [&str; 37] = [
        "_", "as", "async", "await", "break", "const", "continue", "crate", "dyn", "else", "enum", "extern", "false",
        "fn", "for", "if", "impl", "in", "let", "loop", "match", "mod", "move", "mut", "pub", "ref", "return", "self",
        "Self", "static", "struct", "super", "trait", "true", "type", "unsafe", "use",
    ];
    WORDS.contains(&word) || word == "where" || word == "while"
}

/// A path of a type, with arguments in `<>`, `::<>` or as `Fn(A) -> B`.
fn path(input: &[Token]) -> Option<usize> {
    let mut at = 0;
    if input.first()?.is("<") {
        at = arguments(input)?;
        if !input.get(at)?.is("::") {
            return None;
        }
        at += 1;
    } else if input.first()?.is("::") {
        at = 1;
    }
    loop {
        let it = input.get(at)?;
        let is_whole_path = matches!(&it.kind, Kind::Group(Delimiter::None, _)) && at == 0;
        if !is_path_word(it) && !is_whole_path {
            return None;
        }
        at += 1;
        if input.get(at).is_some_and(|it| it.is("<")) {
            at += arguments(&input[at..])?;
        } else if input.get(at).is_some_and(|it| it.is("::")) && input.get(at + 1).is_some_and(|it| it.is("<")) {
            at += 1 + arguments(&input[at + 1..])?;
        } else if input.get(at).is_some_and(|it| it.group(Delimiter::Parenthesis).is_some()) && is_fn(&input[at - 1]) {
            at += 1;
            if input.get(at).is_some_and(|it| it.is("->")) {
                at += 1 + type_without_plus(&input[at + 1..])?;
            }
        }
        let goes_on = input.get(at).is_some_and(|it| it.is("::")) && input.get(at + 1).is_some_and(is_path_word);
        if !goes_on {
            return Some(at);
        }
        at += 1;
    }
}

fn is_fn(token: &Token) -> bool {
    matches!(token.word(), Some("Fn" | "FnMut" | "FnOnce" | "AsyncFn" | "AsyncFnMut" | "AsyncFnOnce"))
}

/// Bounds as `A + 'a + ?Sized`.
fn bounds(input: &[Token]) -> Option<usize> {
    let mut at = 0;
    loop {
        let it = input.get(at)?;
        if let Kind::Lifetime(_) | Kind::Group(Delimiter::Parenthesis, _) = it.kind {
            at += 1;
        } else {
            at += usize::from(it.is("?"));
            at += binder(&input[at..])?;
            at += path(&input[at..])?;
        }
        if !input.get(at).is_some_and(|it| it.is("+")) {
            return Some(at);
        }
        at += 1;
    }
}

/// `for<'a>`, or nothing.
fn binder(input: &[Token]) -> Option<usize> {
    match input {
        [it, rest @ ..] if it.is_word("for") => Some(1 + arguments(rest)?),
        _ => Some(0),
    }
}

/// A type without bounds that are joined by `+`.
fn type_without_plus(input: &[Token]) -> Option<usize> {
    let mut at = 0;
    loop {
        if input.get(at)?.is("&") || input[at].is("&&") {
            at += 1;
            at += usize::from(matches!(input.get(at)?.kind, Kind::Lifetime(_)));
            at += usize::from(input.get(at)?.is_word("mut"));
        } else if input[at].is("*") {
            let is_pointer = input.get(at + 1)?.is_word("const") || input[at + 1].is_word("mut");
            at += if is_pointer { 2 } else { return None };
        } else {
            return Some(at + type_without_pointers(&input[at..])?);
        }
    }
}

fn type_without_pointers(input: &[Token]) -> Option<usize> {
    let first = input.first()?;
    let word = first.word().unwrap_or("");
    match &first.kind {
        Kind::Group(Delimiter::Parenthesis | Delimiter::Bracket, _) => return Some(1),
        Kind::Group(Delimiter::None, _) if !input.get(1).is_some_and(|it| it.is("::")) => return Some(1),
        Kind::Punct("!") => return Some(1),
        _ => {}
    }
    match word {
        "_" => return Some(1),
        "impl" | "dyn" if !input.get(1).is_some_and(|it| it.is("::")) => return Some(1 + bounds(&input[1..])?),
        "for" | "unsafe" | "extern" | "fn" => {
            let mut at = binder(input)?;
            at += usize::from(input.get(at)?.is_word("unsafe"));
            if input.get(at)?.is_word("extern") {
                at += 1;
                at += usize::from(matches!(input.get(at)?.kind, Kind::Literal(_)));
            }
            if !input.get(at)?.is_word("fn") {
                // A bound without `dyn`, as the editions before 2021 have it.
                return if word == "for" { bounds(input) } else { None };
            }
            at += 1;
            input.get(at)?.group(Delimiter::Parenthesis)?;
            at += 1;
            if input.get(at).is_some_and(|it| it.is("->")) {
                at += 1 + type_without_plus(&input[at + 1..])?;
            }
            return Some(at);
        }
        _ => {}
    }
    let at = path(input)?;
    match (input.get(at), input.get(at + 1)) {
        (Some(bang), Some(Token { kind: Kind::Group(..), .. })) if bang.is("!") => Some(at + 2),
        _ => Some(at),
    }
}

fn type_(input: &[Token]) -> Option<usize> {
    let arrows = input.iter().take_while(|it| !it.is(",") && !it.is(";")).filter(|it| it.is("->"));
    if arrows.count() > DEEPEST {
        return None;
    }
    let mut at = type_without_plus(input)?;
    while input.get(at).is_some_and(|it| it.is("+")) {
        at += 1;
        at += bounds(&input[at..])?;
    }
    Some(at)
}

fn begins_item(input: &[Token]) -> bool {
    pub(super) const WORDS: [&str; 12] =
        ["enum", "extern", "fn", "impl", "mod", "pub", "static", "struct", "trait", "type", "use", "macro_rules"];
    match input {
        [hash, Token { kind: Kind::Group(Delimiter::Bracket, _), .. }, rest @ ..] if hash.is("#") => begins_item(rest),
        [it, next, ..] if it.is_word("const") || it.is_word("unsafe") => next.group(Delimiter::Brace).is_none(),
        [it, ..] => it.word().is_some_and(|it| WORDS.contains(&it)),
        [] => false,
    }
}

/// An item, from its attributes to its end.
fn item(input: &[Token]) -> Option<usize> {
    // Its end is found by reading one item more and more: at a `;` or a group that items end with.
    let mut at = 0;
    while input.get(at)?.is("#") {
        at += 2;
    }
    let from = at;
    let mut depth = 0;
    let is_braced = |words: &[Token]| {
        let word = |it: &&str| words.iter().take(8).any(|token| token.is_word(it));
        !["use", "const", "static", "type"].iter().any(word) || word(&"fn") || word(&"impl")
    };
    while let Some(it) = input.get(at) {
        at += 1;
        let ends = match &it.kind {
            Kind::Punct(";") => depth <= 0,
            Kind::Group(Delimiter::Brace, _) => depth <= 0 && is_braced(&input[from..at]),
            _ => false,
        };
        depth += angle(it);
        if ends {
            let unit = crate::syntax::unit_of(&input[..at], Default::default()).ok()?;
            return (unit.items.len() == 1).then_some(at);
        }
    }
    None
}

struct OrPattern;

impl syn::parse::Parse for OrPattern {
    fn parse(input: syn::parse::ParseStream) -> syn::Result<OrPattern> {
        input.parse::<Option<syn::Token![|]>>()?;
        input.parse::<syn::Pat>()?;
        while input.peek(syn::Token![|]) && !input.peek(syn::Token![||]) {
            input.parse::<syn::Token![|]>()?;
            input.parse::<syn::Pat>()?;
        }
        Ok(OrPattern)
    }
}

struct Statement;

impl syn::parse::Parse for Statement {
    fn parse(input: syn::parse::ParseStream) -> syn::Result<Statement> {
        if input.peek(syn::Token![let]) {
            input.parse::<syn::Token![let]>()?;
            input.parse::<OrPattern>()?;
            if input.parse::<Option<syn::Token![:]>>()?.is_some() {
                input.parse::<syn::Type>()?;
            }
            if input.parse::<Option<syn::Token![=]>>()?.is_some() {
                input.parse::<syn::Expr>()?;
            }
            return Ok(Statement);
        }
        input.parse::<syn::Expr>()?;
        Ok(Statement)
    }
}

/// How many tokens of the front `syn` reads as a `T`.
///
/// Behind an expression or a statement stands `,`, `;` or `=>`, behind a pattern also what `behind` says: the shortest part up to one of these that reads as a whole is the fragment. Where there is none, as in a repetition
/// without separator, it is as much as can be read.
fn by_syn<T: syn::parse::Parse>(input: &[Token], behind: &[&str], steps: &mut usize) -> Option<usize> {
    let first = input.first()?;
    let ends = |it: &Token| {
        it.is(",")
            || it.is(";")
            || it.is("=>")
            || behind.contains(&"if") && (it.is_word("if") || it.is_word("in"))
            || behind.iter().any(|punct| it.is(punct))
    };
    let is_plain = match first.kind {
        Kind::Literal(_) | Kind::Ident(_) => !first.word().is_some_and(is_reserved),
        _ => false,
    };
    if is_plain && input.get(1).map_or(true, ends) {
        return Some(1);
    }
    let most = input.iter().position(|it| it.is(";") || it.is("=>")).unwrap_or(input.len());
    for at in 1..=most {
        if at == most || ends(&input[at]) {
            *steps += 10 * at;
            if *steps > MOST_STEPS {
                return None;
            }
            if depth(&input[..at]) > DEEPEST {
                return None;
            }
            if syn::parse_str::<T>(&readable(&input[..at])).is_ok() {
                return Some(at);
            }
        }
    }
    let Front::<T> { rest, .. } = syn::parse_str(&readable(&input[..most])).ok()?;
    let mut left = input[..most].iter().map(trees).sum::<usize>().checked_sub(rest)?;
    for (at, it) in input[..most].iter().enumerate() {
        if left == 0 {
            return Some(at);
        }
        left = left.checked_sub(trees(it))?;
    }
    Some(most)
}

/// Whether what a macro is called with reads as statements, or as expressions between commas.
pub fn reads_as_rust(input: &[Token]) -> bool {
    if depth(input) > DEEPEST {
        return false;
    }
    let text = readable(input);
    let expressions = syn::punctuated::Punctuated::<syn::Expr, syn::Token![,]>::parse_terminated;
    syn::Block::parse_within.parse_str(&text).is_ok() || expressions.parse_str(&text).is_ok()
}

/// A `T`, and how many token trees follow it.
struct Front<T> {
    rest: usize,
    _front: std::marker::PhantomData<T>,
}

impl<T: syn::parse::Parse> syn::parse::Parse for Front<T> {
    fn parse(input: syn::parse::ParseStream) -> syn::Result<Front<T>> {
        input.parse::<T>()?;
        let rest: proc_macro2::TokenStream = input.parse()?;
        Ok(Front { rest: rest.into_iter().count(), _front: std::marker::PhantomData })
    }
}

/// How many token trees `syn` reads for a token.
fn trees(token: &Token) -> usize {
    match &token.kind {
        Kind::Punct(it) => it.len(),
        Kind::Lifetime(_) => 2,
        Kind::Group(Delimiter::None, inner) if is_path(inner) => inner.iter().map(trees).sum(),
        _ => 1,
    }
}

pub(super) fn is_path(tokens: &[Token]) -> bool {
    tokens.iter().all(|it| it.word().is_some() || it.is("::") || angle(it) != 0)
}

/// A text that `syn` reads: fragments in parentheses where they aren't paths, and `$crate` a name.
fn readable(tokens: &[Token]) -> String {
    pub(super) fn write(tokens: &[Token], text: &mut String) {
        for (at, it) in tokens.iter().enumerate() {
            match &it.kind {
                Kind::Crate(_) => text.push_str("crate"),
                Kind::Group(Delimiter::None, inner) => {
                    let (open, close) = if is_path(inner) { ("", "") } else { ("(", ")") };
                    text.push_str(open);
                    write(inner, text);
                    text.push_str(close);
                }
                Kind::Group(delimiter, inner) => {
                    let (open, close) = match delimiter {
                        Delimiter::Parenthesis => ('(', ')'),
                        Delimiter::Bracket => ('[', ']'),
                        _ => ('{', '}'),
                    };
                    text.push(open);
                    write(inner, text);
                    text.push(close);
                }
                _ => text.push_str(text_of(std::slice::from_ref(it)).trim_end()),
            }
            if !it.goes_on_in(tokens.get(at + 1)) {
                text.push(' ');
            }
        }
    }
    let mut text = String::new();
    write(tokens, &mut text);
    text
}
