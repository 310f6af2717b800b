//! What macros are called with that expand the calls in it before they expand themselves, as
//! `include!(concat!("a", name!()))`.

use super::expansions::key_json;
use super::{How, Target, Workspace};
use crate::cfg::string_of;
use crate::macros::MOST_TOKENS;
use crate::syntax::{call_of, calls_among, comma_separated, Call, Path};
use crate::token::{count, opened, Kind, Token};
use crate::unit::{is_eager, quoted};

/// The program takes no more paths of a call.
const MOST_CALLS: usize = 1000;

/// What an eager macro is called with.
pub(super) struct Input {
    /// The paths of the calls in it, in the order in which they are expanded, each with the macro that it reaches.
    inner: Vec<(String, Option<Target>)>,
    /// The text that it comes to. None where that isn't known.
    pub text: Option<String>,
    /// Why it comes to none.
    pub error: Option<String>,
}

impl Input {
    /// The paths of the calls in it.
    pub fn paths(&self) -> Vec<String> {
        self.inner.iter().map(|it| it.0.clone()).collect()
    }

    /// Whether each path reaches a macro.
    pub fn is_reached(&self) -> bool {
        self.inner.iter().all(|it| it.1.is_some())
    }

    /// The macros that the paths reach, as a key names them.
    fn reached(&self) -> String {
        let all = self.inner.iter().filter_map(|it| it.1.as_ref());
        let all: Vec<String> =
            all.map(|it| format!("{{\"crate\":{},\"text\":{}}}", it.krate, quoted(&it.text))).collect();
        all.join(",")
    }

    /// The key of an expansion with these macros.
    pub fn key(&self, caller: u32, call: &Call, target: &Target) -> String {
        let mut key = key_json(caller, target.krate, &target.text, "\"bang\"", &call.input_hash.text());
        if self.is_reached() && !self.inner.is_empty() {
            key.truncate(key.len() - 1);
            key.push_str(&format!(",\"reached\":[{}]}}", self.reached()));
        }
        key
    }

    /// By what it differs from what the same call is given where its paths reach other macros.
    pub fn words(&self) -> String {
        format!("{:?} {} {:?} {:?}", self.paths(), self.reached(), self.text, self.error)
    }
}

/// Reads what an eager macro is called with.
struct Reader<'a> {
    space: &'a mut Workspace,
    krate: u32,
    /// How deep calls may stand in one another.
    limit: usize,
    /// The macro that a path reaches.
    reach: &'a mut dyn FnMut(&mut Workspace, &str) -> Option<Target>,
    inner: Vec<(String, Option<Target>)>,
    tokens: usize,
    is_too_long: bool,
    error: Option<String>,
}

impl Reader<'_> {
    /// The text that tokens come to which are one literal or one call.
    fn text(&mut self, tokens: &[Token], depth: usize) -> Option<String> {
        let tokens = opened(tokens);
        if let Some((path, input)) = call_of(&tokens) {
            return self.call(&path, input, depth);
        }
        for (path, input) in calls_among(&tokens) {
            self.call(&path, input, depth);
        }
        match &tokens[..] {
            [Token { kind: Kind::Literal(it), .. }] => text_of_literal(it),
            [minus, Token { kind: Kind::Literal(it), .. }] if minus.is("-") => Some(format!("-{}", number(it)?)),
            [it] if it.is_word("true") || it.is_word("false") => it.word().map(str::to_owned),
            _ => None,
        }
    }

    /// The text that a call comes to.
    fn call(&mut self, path: &Path, input: &[Token], depth: usize) -> Option<String> {
        self.is_too_long |= self.inner.len() >= MOST_CALLS || depth >= self.limit || self.tokens > MOST_TOKENS;
        if self.is_too_long {
            return None;
        }
        let target = (self.reach)(self.space, &path.text);
        self.inner.push((path.text.clone(), target.clone()));
        let target = target?;
        match &target.how {
            How::Builtin if is_eager(&target.name) => {
                let input = opened(input);
                let parts = comma_separated(&input).into_iter().map(|it| self.text(it, depth + 1));
                let parts: Vec<Option<String>> = parts.collect();
                match (&*target.name, &parts[..]) {
                    ("concat", _) => parts.into_iter().collect(),
                    ("env", [Some(name), ..]) => {
                        self.space.crates.all[self.krate as usize].variables.get(name).cloned()
                    }
                    _ => None,
                }
            }
            How::Builtin if target.name == "stringify" => match &opened(input)[..] {
                [Token { kind: Kind::Ident(it) | Kind::Literal(it), .. }] => Some(it.to_string()),
                _ => None,
            },
            How::Rules(definition) => {
                let rules = self.space.rules_of_macro(definition);
                let made = match &*rules {
                    Ok(rules) => rules.expand(input, target.krate),
                    Err(error) => Err(error.clone()),
                };
                match made {
                    Ok(made) => {
                        self.tokens += count(&made);
                        self.text(&made, depth + 1)
                    }
                    Err(error) => {
                        self.error.get_or_insert(error);
                        None
                    }
                }
            }
            _ => None,
        }
    }
}

/// A number without its suffix.
fn number(literal: &str) -> Option<String> {
    match syn::parse_str(literal).ok()? {
        syn::Lit::Int(it) => Some(it.base10_digits().to_owned()),
        syn::Lit::Float(it) => Some(it.base10_digits().to_owned()),
        _ => None,
    }
}

/// What `concat!` makes of a literal.
fn text_of_literal(literal: &str) -> Option<String> {
    if let Some(it) = string_of(literal) {
        return Some(it);
    }
    match syn::parse_str(literal).ok()? {
        syn::Lit::Char(it) => Some(it.value().to_string()),
        _ => number(literal),
    }
}

/// Whether a call gives calls to a macro that expands them first.
pub(super) fn gives_calls(call: &Call, target: &Target) -> bool {
    matches!(target.how, How::Builtin) && is_eager(&target.name) && !calls_among(&call.input).is_empty()
}

impl Workspace {
    /// What such a call in the expansions of `depth` others gives.
    pub(super) fn eager_input(
        &mut self,
        krate: u32,
        call: &Call,
        (depth, limit): (usize, usize),
        reach: &mut dyn FnMut(&mut Workspace, &str) -> Option<Target>,
    ) -> Input {
        let (inner, tokens, is_too_long, error) = (Vec::new(), 0, false, None);
        let mut reader = Reader { space: self, krate, limit, reach, inner, tokens, is_too_long, error };
        let input = opened(&call.input);
        let parts = comma_separated(&input).into_iter().map(|it| reader.text(it, depth + 1));
        let text = parts.collect::<Vec<_>>().into_iter().next().flatten();
        let Reader { inner, is_too_long, error, .. } = reader;
        let error_of =
            || format!("the calls in what `{}!` is given don't end, or are more than {MOST_CALLS}", call.path.text);
        match is_too_long {
            true => Input { inner: Vec::new(), text: None, error: Some(error_of()) },
            false => Input { inner, text, error },
        }
    }
}
