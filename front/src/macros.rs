//! The expander of `macro_rules!` and of `macro` with rules, over token trees.
//!
//! Rules are tried in their order. Repetitions take as many turns as they can, and fewer where what follows them
//! doesn't match then. Types, paths and the like are passed over by hand; expressions, patterns and statements are
//! read by `syn`.

mod fragments;

use std::collections::HashMap;
use std::sync::Arc;

use crate::syntax::MacroDefinition;
use crate::token::{count, nesting, of_macro, opened, text_of, Delimiter, Kind, Span, Token, Tokens};
pub use fragments::reads_as_rust;
use fragments::{take_fragment, Fragment};

/// An expansion has at most so many tokens.
pub const MOST_TOKENS: usize = 1_000_000;
/// In an expansion at most so many groups stand in one another, those of fragments among them.
const MOST_NESTED: usize = 1_000;
/// Matching one call takes at most so many steps.
const MOST_STEPS: usize = 20_000_000;

/// The rules of a macro, read once.
#[derive(Debug)]
pub struct Rules(Vec<(Vec<Pattern>, Vec<Template>)>);

#[derive(Debug)]
enum Pattern {
    Token(Token),
    Group(Delimiter, Vec<Pattern>),
    Variable(Arc<str>, Fragment),
    Repeat { inner: Vec<Pattern>, separator: Option<Token>, least: usize, most: usize },
}

#[derive(Debug)]
enum Template {
    Token(Token),
    Group(Delimiter, Vec<Template>, Span),
    Variable(Arc<str>),
    Repeat {
        inner: Vec<Template>,
        separator: Option<Token>,
    },
    /// `${count(x)}`, `${index()}`, `${len()}`, `${ignore(x)}`.
    Function(Arc<str>, Vec<Token>),
    Crate(Token),
}

/// What a variable stands for: tokens, or as many as a repetition took turns.
#[derive(Clone, Debug)]
enum Bound {
    Tokens(Vec<Token>),
    Turns(Vec<Bound>),
}

type Bindings = HashMap<Arc<str>, Bound>;

impl Rules {
    /// The rules of a definition, or why they can't be read.
    pub fn read(definition: &MacroDefinition) -> Result<Rules, String> {
        let mut rules = Vec::new();
        let mut rest = &definition.body[..];
        while !rest.is_empty() {
            let [matcher, arrow, body, behind @ ..] = rest else {
                return Err(format!("the rules of `{}` end in the middle of one", definition.name));
            };
            let (Kind::Group(_, matcher), Kind::Group(_, body), true) = (&matcher.kind, &body.kind, arrow.is("=>"))
            else {
                return Err(format!("a rule of `{}` isn't `(..) => {{..}}`", definition.name));
            };
            let patterns = patterns_of(matcher)?;
            let mut names = Vec::new();
            names_of(&patterns, &mut names);
            rules.push((patterns, templates_of(&of_macro(body), &names, definition.has_local_inner_macros)?));
            rest = match behind {
                [it, behind @ ..] if it.is(";") || it.is(",") => behind,
                behind => behind,
            };
        }
        Ok(Rules(rules))
    }

    /// What the call expands to. `krate` is the number of the macro's crate, which `$crate` stands for.
    pub fn expand(&self, input: &[Token], krate: u32) -> Result<Vec<Token>, String> {
        let mut steps = 0;
        for (patterns, templates) in &self.0 {
            let mut bindings = Bindings::new();
            let end = match_all(patterns, input, &mut bindings, &mut steps);
            if steps > MOST_STEPS {
                return Err("the call takes too many steps to match".to_owned());
            }
            if end {
                let mut made = Writer { made: Vec::new(), left: MOST_TOKENS, krate };
                made.write(templates, &bindings, &mut Vec::new())?;
                if nesting(&made.made) > MOST_NESTED {
                    return Err(format!("in the expansion more than {MOST_NESTED} brackets stand in one another"));
                }
                return Ok(made.made);
            }
        }
        let shown: String = text_of(input).chars().take(60).collect();
        Err(format!("no rule of the macro takes `{}`", shown.trim_end()))
    }
}

fn names_of(patterns: &[Pattern], names: &mut Vec<Arc<str>>) {
    for it in patterns {
        match it {
            Pattern::Variable(name, _) => names.push(name.clone()),
            Pattern::Group(_, inner) | Pattern::Repeat { inner, .. } => names_of(inner, names),
            Pattern::Token(_) => {}
        }
    }
}

/// The separator and the operator behind `$(..)`, and how many tokens they are.
fn repetition(behind: &[Token]) -> Option<(Option<Token>, &'static str, usize)> {
    fn operator(token: &Token) -> Option<&'static str> {
        ["*", "+", "?"].into_iter().find(|it| token.is(it))
    }
    match behind {
        [it, ..] if operator(it).is_some() => Some((None, operator(it)?, 1)),
        [separator, it, ..] => Some((Some(separator.clone()), operator(it)?, 2)),
        _ => None,
    }
}

fn patterns_of(tokens: &[Token]) -> Result<Vec<Pattern>, String> {
    let tokens = opened(tokens);
    let mut made = Vec::new();
    let mut rest = &tokens[..];
    while let [it, behind @ ..] = rest {
        rest = behind;
        match &it.kind {
            Kind::Punct("$") => match behind {
                [Token { kind: Kind::Group(Delimiter::Parenthesis, inner), .. }, behind @ ..] => {
                    let Some((separator, operator, taken)) = repetition(behind) else {
                        return Err("a repetition of a macro has no `*`, `+` or `?`".to_owned());
                    };
                    let (least, most) = match operator {
                        "*" => (0, usize::MAX),
                        "+" => (1, usize::MAX),
                        _ => (0, 1),
                    };
                    made.push(Pattern::Repeat { inner: patterns_of(inner)?, separator, least, most });
                    rest = &behind[taken..];
                }
                [Token { kind: Kind::Ident(name), .. }, colon, fragment, behind @ ..] if colon.is(":") => {
                    let Some(fragment) = fragment.word().and_then(Fragment::of) else {
                        return Err(format!("`${name}` has a fragment that isn't known"));
                    };
                    made.push(Pattern::Variable(name.clone(), fragment));
                    rest = behind;
                }
                [dollar, behind @ ..] if dollar.is("$") => {
                    made.push(Pattern::Token(dollar.clone()));
                    rest = behind;
                }
                _ => made.push(Pattern::Token(it.clone())),
            },
            Kind::Group(delimiter, inner) => made.push(Pattern::Group(*delimiter, patterns_of(inner)?)),
            _ => made.push(Pattern::Token(it.clone())),
        }
    }
    Ok(made)
}

/// What a rule's right side is. With `local` each macro that it calls by a single name is one of the macro's crate.
fn templates_of(tokens: &[Token], names: &[Arc<str>], local: bool) -> Result<Vec<Template>, String> {
    let mut made: Vec<Template> = Vec::new();
    let mut rest = tokens;
    while let [it, behind @ ..] = rest {
        rest = behind;
        match &it.kind {
            Kind::Punct("$") => match behind {
                [Token { kind: Kind::Group(Delimiter::Parenthesis, inner), .. }, behind @ ..] => {
                    match repetition(behind) {
                        Some((separator, _, taken)) => {
                            made.push(Template::Repeat { inner: templates_of(inner, names, local)?, separator });
                            rest = &behind[taken..];
                        }
                        None => made.push(Template::Token(it.clone())),
                    }
                }
                [Token { kind: Kind::Group(Delimiter::Brace, inner), .. }, behind @ ..]
                    if matches!(&inner[..], [name, Token { kind: Kind::Group(Delimiter::Parenthesis, _), .. }]
                        if name.word().is_some()) =>
                {
                    let name = inner[0].word().unwrap_or_default();
                    let given = inner[1].group(Delimiter::Parenthesis).map_or(Vec::new(), |it| it.to_vec());
                    made.push(Template::Function(name.into(), given));
                    rest = behind;
                }
                [name @ Token { kind: Kind::Ident(word), .. }, behind @ ..] => {
                    if **word == *"crate" {
                        made.push(Template::Crate(name.clone()));
                    } else if names.contains(word) {
                        made.push(Template::Variable(word.clone()));
                    } else {
                        // A variable of a macro that the expansion defines.
                        made.extend([Template::Token(it.clone()), Template::Token(name.clone())]);
                    }
                    rest = behind;
                }
                [dollar, behind @ ..] if dollar.is("$") => {
                    made.push(Template::Token(dollar.clone()));
                    rest = behind;
                }
                _ => made.push(Template::Token(it.clone())),
            },
            Kind::Group(delimiter, inner) => {
                made.push(Template::Group(*delimiter, templates_of(inner, names, local)?, it.span));
            }
            Kind::Ident(word) if local && is_called(behind) && **word != *"macro_rules" => {
                let is_path = matches!(made.last(), Some(Template::Token(it)) if it.is("::"));
                if !is_path {
                    let colons = Token { kind: Kind::Punct("::"), span: it.span };
                    made.extend([Template::Crate(it.clone()), Template::Token(colons)]);
                }
                made.push(Template::Token(it.clone()));
            }
            _ => made.push(Template::Token(it.clone())),
        }
    }
    Ok(made)
}

fn is_called(behind: &[Token]) -> bool {
    matches!(behind, [bang, Token { kind: Kind::Group(..), .. }, ..] if bang.is("!"))
}

fn same(wanted: &Token, found: &Token) -> bool {
    match (&wanted.kind, &found.kind) {
        (Kind::Ident(a), Kind::Ident(b)) => a == b,
        (Kind::Lifetime(a), Kind::Lifetime(b)) => a == b,
        (Kind::Literal(a), Kind::Literal(b)) => a == b,
        (Kind::Punct(a), Kind::Punct(b)) => a == b,
        (Kind::Crate(a), Kind::Crate(b)) => a == b,
        _ => false,
    }
}

/// Whether all of the input is what the patterns say. The bindings are those of the way that was found.
fn match_all(patterns: &[Pattern], input: &[Token], bindings: &mut Bindings, steps: &mut usize) -> bool {
    match_from(patterns, input, 0, bindings, steps) == Some(input.len()) && *steps <= MOST_STEPS
}

/// Where the patterns end in the input, which is its end at the outermost level: the last pattern sees to that by
/// taking fewer turns where that helps.
fn match_from(
    patterns: &[Pattern],
    input: &[Token],
    mut at: usize,
    bindings: &mut Bindings,
    steps: &mut usize,
) -> Option<usize> {
    for (number, pattern) in patterns.iter().enumerate() {
        *steps += 1;
        if *steps > MOST_STEPS {
            return None;
        }
        match pattern {
            Pattern::Token(wanted) => {
                let found = input.get(at)?;
                if !same(wanted, found) {
                    return None;
                }
                at += 1;
            }
            Pattern::Group(delimiter, inner) => {
                let found = input.get(at)?.group(*delimiter)?;
                if !match_all(inner, found, bindings, steps) {
                    return None;
                }
                at += 1;
            }
            Pattern::Variable(name, fragment) => {
                let (tokens, taken) = take_fragment(*fragment, &input[at..], steps)?;
                bindings.insert(name.clone(), Bound::Tokens(tokens));
                at += taken;
            }
            Pattern::Repeat { inner, separator, least, most } => {
                let rest = &patterns[number + 1..];
                return match_turns(inner, separator.as_ref(), (*least, *most), rest, input, at, bindings, steps);
            }
        }
    }
    // Only all of the input will do, both at the end of a group and in a turn's last pattern where it is the last.
    Some(at)
}

#[allow(clippy::too_many_arguments)]
fn match_turns(
    inner: &[Pattern],
    separator: Option<&Token>,
    (least, most): (usize, usize),
    rest: &[Pattern],
    input: &[Token],
    at: usize,
    bindings: &mut Bindings,
    steps: &mut usize,
) -> Option<usize> {
    let mut turns: Vec<Bindings> = Vec::new();
    let mut ends = vec![at];
    while turns.len() < most {
        let mut from = *ends.last()?;
        if let (Some(separator), false) = (separator, turns.is_empty()) {
            match input.get(from) {
                Some(found) if same(separator, found) => from += 1,
                _ => break,
            }
        }
        let mut turn = Bindings::new();
        match match_from(inner, input, from, &mut turn, steps) {
            Some(end) if end > *ends.last()? => {
                turns.push(turn);
                ends.push(end);
            }
            _ => break,
        }
    }
    let mut names = Vec::new();
    names_of(inner, &mut names);
    let wants_end = rest.is_empty();
    loop {
        if turns.len() < least {
            return None;
        }
        let from = ends.pop()?;
        let mut more = Bindings::new();
        // Where nothing follows, the most turns that could be taken are taken.
        let end = if wants_end { Some(from) } else { match_from(rest, input, from, &mut more, steps) };
        if let Some(end) = end {
            bindings.extend(more);
            for name in names {
                let all = turns.iter_mut().filter_map(|it| it.remove(&name)).collect();
                bindings.insert(name, Bound::Turns(all));
            }
            return Some(end);
        }
        if *steps > MOST_STEPS {
            return None;
        }
        turns.pop()?;
    }
}

struct Writer {
    made: Vec<Token>,
    left: usize,
    krate: u32,
}

impl Writer {
    fn push(&mut self, token: Token, size: usize) -> Result<(), String> {
        self.left = self.left.checked_sub(size).ok_or(format!("the expansion has more than {MOST_TOKENS} tokens"))?;
        self.made.push(token);
        Ok(())
    }

    fn write(&mut self, templates: &[Template], bindings: &Bindings, turns: &mut Vec<usize>) -> Result<(), String> {
        for it in templates {
            match it {
                Template::Token(it) => self.push(it.clone(), 1)?,
                Template::Crate(it) => {
                    self.push(Token { kind: Kind::Crate(self.krate), span: it.span }, 1)?;
                }
                Template::Group(delimiter, inner, span) => {
                    let outer = std::mem::take(&mut self.made);
                    self.write(inner, bindings, turns)?;
                    let inner: Tokens = std::mem::replace(&mut self.made, outer).into();
                    self.push(Token { kind: Kind::Group(*delimiter, inner), span: *span }, 1)?;
                }
                Template::Variable(name) => {
                    let Some(tokens) = bindings.get(name).and_then(|it| it.at(turns)) else {
                        return Err(format!("`${name}` stands in fewer repetitions than where it is bound"));
                    };
                    for it in tokens {
                        self.push(it.clone(), count(std::slice::from_ref(it)))?;
                    }
                }
                Template::Function(name, given) => self.function(name, given, bindings, turns)?,
                Template::Repeat { inner, separator } => {
                    let mut names = Vec::new();
                    variables_of(inner, &mut names);
                    let counts: Vec<usize> =
                        names.iter().filter_map(|it| bindings.get(it).and_then(|it| it.turns(turns))).collect();
                    let Some(most) = counts.first().copied() else {
                        return Err("a repetition holds no variable that repeats".to_owned());
                    };
                    if counts.iter().any(|it| *it != most) {
                        return Err("the variables of a repetition took different numbers of turns".to_owned());
                    }
                    for turn in 0..most {
                        if let (Some(it), true) = (separator, turn > 0) {
                            self.push(it.clone(), 1)?;
                        }
                        turns.push(turn);
                        self.write(inner, bindings, turns)?;
                        turns.pop();
                    }
                }
            }
        }
        Ok(())
    }

    fn function(&mut self, name: &str, given: &[Token], bindings: &Bindings, turns: &[usize]) -> Result<(), String> {
        let span = given.first().map_or(Span::default(), |it| it.span);
        let number = match name {
            "ignore" => return Ok(()),
            "index" => turns.last().copied(),
            "count" => {
                let mut words = given.iter().filter_map(Token::word);
                words.next_back().and_then(|it| bindings.get(it)).and_then(|it| it.turns(turns))
            }
            _ => None,
        };
        let Some(number) = number else {
            return Err(format!("`${{{name}(..)}}` isn't known here"));
        };
        self.push(Token { kind: Kind::Literal(number.to_string().into()), span }, 1)
    }
}

fn variables_of(templates: &[Template], names: &mut Vec<Arc<str>>) {
    for it in templates {
        match it {
            Template::Variable(name) => names.push(name.clone()),
            Template::Group(_, inner, _) | Template::Repeat { inner, .. } => variables_of(inner, names),
            Template::Function(_, given) => names.extend(given.iter().filter_map(|it| it.word().map(Into::into))),
            Template::Token(_) | Template::Crate(_) => {}
        }
    }
}

impl Bound {
    /// What it is in these turns; a variable of fewer repetitions is the same in the inner ones.
    fn inner(&self, turns: &[usize]) -> Option<&Bound> {
        match (self, turns) {
            (Bound::Tokens(_), _) | (_, []) => Some(self),
            (Bound::Turns(all), [turn, rest @ ..]) => all.get(*turn)?.inner(rest),
        }
    }

    fn at(&self, turns: &[usize]) -> Option<&[Token]> {
        match self.inner(turns)? {
            Bound::Tokens(it) => Some(it),
            Bound::Turns(_) => None,
        }
    }

    fn turns(&self, turns: &[usize]) -> Option<usize> {
        match self.inner(turns)? {
            Bound::Tokens(_) => None,
            Bound::Turns(all) => Some(all.len()),
        }
    }
}

#[cfg(test)]
mod tests;
