//! Conditions of `cfg` and `cfg_attr`.

use std::collections::HashSet;

use serde_json::{json, Value};

use crate::syntax::{comma_separated, plain};
use crate::token::{opened, Delimiter, Kind, Token};

/// What a `cfg` asks for.
#[derive(Clone, PartialEq, Eq, Debug)]
pub enum Condition {
    Flag(String),
    KeyValue(String, String),
    All(Vec<Condition>),
    Any(Vec<Condition>),
    Not(Box<Condition>),
    Constant(bool),
    Invalid,
}

/// The options that are set.
#[derive(Clone, Default, Debug)]
pub struct Options {
    /// Names that are set, as `unix`.
    pub flags: HashSet<String>,
    /// Names with a value, as `feature = "std"`.
    pub values: HashSet<(String, String)>,
}

/// The text of a string literal.
pub fn string_of(literal: &str) -> Option<String> {
    let plain = literal.strip_prefix('"').and_then(|it| it.strip_suffix('"'));
    match plain {
        Some(it) if !it.contains(['\\', '"']) => Some(it.to_owned()),
        _ if literal.starts_with(['"', 'r']) => syn::parse_str::<syn::LitStr>(literal).ok().map(|it| it.value()),
        _ => None,
    }
}

impl Condition {
    /// The condition that these tokens are; invalid where they are none.
    pub fn read(tokens: &[Token]) -> Condition {
        let tokens = opened(tokens);
        let all = |inner: &[Token]| comma_separated(inner).into_iter().map(Condition::read).collect::<Vec<_>>();
        match &tokens[..] {
            [it] => match it.word().map(plain) {
                Some("true") => Condition::Constant(true),
                Some("false") => Condition::Constant(false),
                Some(word) => Condition::Flag(word.to_owned()),
                None => Condition::Invalid,
            },
            [key, Token { kind: Kind::Group(Delimiter::Parenthesis, inner), .. }] => match key.word() {
                Some("all") => Condition::All(all(inner)),
                Some("any") => Condition::Any(all(inner)),
                Some("not") => match &all(inner)[..] {
                    [it] => Condition::Not(Box::new(it.clone())),
                    _ => Condition::Invalid,
                },
                _ => Condition::Invalid,
            },
            [key, equals, Token { kind: Kind::Literal(value), .. }] if equals.is("=") => {
                match (key.word(), string_of(value)) {
                    (Some(key), Some(value)) => Condition::KeyValue(plain(key).to_owned(), value),
                    _ => Condition::Invalid,
                }
            }
            _ => Condition::Invalid,
        }
    }

    /// As the program reads a condition.
    pub fn json(&self) -> Value {
        let all = |them: &[Condition]| them.iter().map(Condition::json).collect::<Vec<_>>();
        match self {
            Condition::Flag(it) => json!(it),
            Condition::KeyValue(key, value) => json!({"key": key, "value": value}),
            Condition::All(them) => json!({ "all": all(them) }),
            Condition::Any(them) => json!({ "any": all(them) }),
            Condition::Not(it) => json!({ "not": it.json() }),
            Condition::Constant(it) => json!(it),
            Condition::Invalid => Value::Null,
        }
    }

    fn is_valid(&self) -> bool {
        match self {
            Condition::All(them) | Condition::Any(them) => them.iter().all(Condition::is_valid),
            Condition::Not(it) => it.is_valid(),
            Condition::Invalid => false,
            _ => true,
        }
    }

    /// Whether what has this condition is there. An invalid condition leaves nothing out.
    pub fn holds(&self, options: &Options) -> bool {
        fn value(it: &Condition, options: &Options) -> bool {
            match it {
                Condition::Flag(it) => options.flags.contains(it),
                Condition::KeyValue(key, text) => options.values.contains(&(key.clone(), text.clone())),
                Condition::All(them) => them.iter().all(|it| value(it, options)),
                Condition::Any(them) => them.iter().any(|it| value(it, options)),
                Condition::Not(it) => !value(it, options),
                Condition::Constant(it) => *it,
                Condition::Invalid => true,
            }
        }
        !self.is_valid() || value(self, options)
    }
}

impl Options {
    /// Whether a text is an option as `rustc --cfg` takes it.
    pub fn can_set(text: &str) -> bool {
        let key = text.split_once('=').map_or(text, |it| it.0).trim();
        !key.is_empty() && key.chars().all(|it| it.is_alphanumeric() || it == '_')
    }

    /// Sets an option as `rustc --cfg` takes it: `name` or `key="value"`.
    pub fn set(&mut self, text: &str) {
        match text.split_once('=') {
            Some((key, value)) => {
                let value = value.trim().trim_matches('"');
                self.values.insert((key.trim().to_owned(), value.to_owned()));
            }
            None => {
                self.flags.insert(text.trim().to_owned());
            }
        }
    }

    /// As the program reads a crate's options.
    pub fn json(&self) -> Value {
        let mut flags: Vec<_> = self.flags.iter().collect();
        flags.sort();
        let mut values: Vec<_> = self.values.iter().collect();
        values.sort();
        let flags = flags.into_iter().map(|it| json!(it));
        flags.chain(values.into_iter().map(|(key, value)| json!({"key": key, "value": value}))).collect()
    }
}

#[cfg(test)]
mod tests {
    use super::*;

    #[test]
    fn conditions_are_read_and_hold() {
        let mut options = Options::default();
        options.set("unix");
        options.set("feature=\"std\"");
        let rows = [
            ("unix", true),
            ("windows", false),
            ("not(windows)", true),
            ("all()", true),
            ("any()", false),
            ("all(unix, feature = \"std\",)", true),
            ("any(windows, feature = \"alloc\")", false),
            ("not(any(windows, not(unix)))", true),
            ("true", true),
            ("false", false),
            ("version(\"1.0\")", true),
            ("not(unix, windows)", true),
            ("feature = r\"std\"", true),
        ];
        for (text, wanted) in rows {
            let tokens = crate::token::tokens_of(text).unwrap();
            assert_eq!(Condition::read(&tokens).holds(&options), wanted, "{text}");
        }
    }
}
