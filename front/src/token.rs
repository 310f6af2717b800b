//! Token trees as plain values: read from text by `proc_macro2`, sent between threads, and cheap to clone.

use std::fmt::Write as _;
use std::ops::Range;
use std::sync::Arc;

use proc_macro2::{TokenStream, TokenTree};

/// A place in a text: the line from 1, and the column from 1 in characters.
#[derive(Clone, Copy, PartialEq, Eq, PartialOrd, Ord, Debug, Default)]
pub struct Position {
    pub line: u32,
    pub column: u32,
}

/// What stands elsewhere is the same: places don't count.
impl std::hash::Hash for Position {
    fn hash<H: std::hash::Hasher>(&self, _: &mut H) {}
}

/// From the first character to behind the last.
#[derive(Clone, Copy, PartialEq, Eq, Hash, Debug, Default)]
pub struct Span {
    pub start: Position,
    pub end: Position,
}

/// The lines of what a macro's text brings are counted from here, see [`Span::of_macro`].
const OF_MACRO: u32 = 1 << 31;

impl Span {
    /// Whether the position is in it, or right behind it.
    pub fn contains(self, at: Position) -> bool {
        self.start <= at && at <= self.end && !self.is_of_macro()
    }

    /// Of what a macro's text brings into an expansion: that stands where the macro is written, which may be another
    /// file, so no position is in it.
    pub fn of_macro(self) -> Span {
        let far = |it: Position| Position { line: it.line | OF_MACRO, ..it };
        Span { start: far(self.start), end: far(self.end) }
    }

    /// Whether a macro's text brings some of what is there.
    pub fn is_of_macro(self) -> bool {
        (self.start.line | self.end.line) >= OF_MACRO
    }
}

/// What a group stands in.
#[derive(Clone, Copy, PartialEq, Eq, Hash, Debug)]
pub enum Delimiter {
    Parenthesis,
    Bracket,
    Brace,
    /// What a fragment of a macro is kept together by.
    None,
}

/// What a token is.
#[derive(Clone, Hash, Debug)]
pub enum Kind {
    /// A word as it is written, with `r#` where it has it.
    Ident(Arc<str>),
    /// With its quote.
    Lifetime(Arc<str>),
    Literal(Arc<str>),
    /// One operator of the language, as `=>`.
    Punct(&'static str),
    Group(Delimiter, Tokens),
    /// `$crate` in what a macro of this crate wrote.
    Crate(u32),
}

/// A token tree, and where it stands.
#[derive(Clone, Hash, Debug)]
pub struct Token {
    pub kind: Kind,
    pub span: Span,
}

/// Tokens that are shared.
pub type Tokens = Arc<[Token]>;

/// Why a text has no tokens or no items, and where.
#[derive(Clone, PartialEq, Eq, Debug)]
pub struct SyntaxError {
    pub at: Span,
    pub message: String,
}

/// More groups in one another than this aren't read.
const DEEPEST: usize = 500;

/// `>>` isn't among them: it may close two lists of arguments.
const OPERATORS: [&str; 24] = [
    "<<=", ">>=", "...", "..=", "::", "->", "=>", "==", "!=", "<=", ">=", "&&", "||", "+=", "-=", "*=", "/=", "%=",
    "^=", "&=", "|=", "<<", "..", "<-",
];
const CHARACTERS: [&str; 25] = [
    "+", "-", "*", "/", "%", "^", "!", "&", "|", "=", "<", ">", "@", ".", ",", ";", ":", "#", "$", "?", "~", "'", "\\",
    "`", "_",
];

/// The operator at the front of a run of characters that stand together.
fn operator(run: &str) -> Option<&'static str> {
    let longer = if run.len() > 1 { &OPERATORS[..] } else { &[] };
    longer.iter().chain(&CHARACTERS).copied().find(|it| run.starts_with(it))
}

impl Token {
    /// Whether it is this operator.
    pub fn is(&self, punct: &str) -> bool {
        matches!(self.kind, Kind::Punct(it) if it == punct)
    }

    /// Whether the two are one operator `>>`.
    pub fn goes_on_in(&self, next: Option<&Token>) -> bool {
        self.is(">") && next.is_some_and(|it| it.is(">") && it.span.start == self.span.end)
    }

    /// Whether it is this word as it is written.
    pub fn is_word(&self, word: &str) -> bool {
        matches!(&self.kind, Kind::Ident(it) if **it == *word)
    }

    /// The word that it is, with `r#` where it has it.
    pub fn word(&self) -> Option<&str> {
        match &self.kind {
            Kind::Ident(it) => Some(it),
            _ => None,
        }
    }

    /// What stands in the group that it is, where that has this delimiter.
    pub fn group(&self, delimiter: Delimiter) -> Option<&Tokens> {
        match &self.kind {
            Kind::Group(it, inner) if *it == delimiter => Some(inner),
            _ => None,
        }
    }
}

/// A text above this isn't read.
pub(crate) const MOST_BYTES: usize = 64 << 20;

/// The tokens of a file or of a piece of one. To be called on a thread of its own for each text, see [`on_a_thread`].
pub fn tokens_of(text: &str) -> Result<Vec<Token>, SyntaxError> {
    if text.len() > MOST_BYTES {
        let message = format!("this can't be read: it has more than {} MB; split it", MOST_BYTES >> 20);
        return Err(SyntaxError { at: Span::default(), message });
    }
    let mut text = text.strip_prefix('\u{feff}').unwrap_or(text);
    let mut blanked = String::new();
    if text.starts_with("#!") {
        // A first line for a shell stands before no attribute.
        let line = text.lines().next().unwrap_or("");
        let behind = line[2..].trim_start();
        if !behind.starts_with('[') {
            blanked.push_str(&text[line.len()..]);
            text = &blanked;
        }
    }
    let stream: TokenStream = text.parse().map_err(|error: proc_macro2::LexError| {
        let at = error.span();
        let message = "this isn't Rust's syntax: a bracket without its partner, or no token".to_owned();
        SyntaxError { at: span_of(at), message }
    })?;
    let mut words = Words::default();
    trees_of(stream, &mut words, 0)
}

/// Runs `work` on a thread with room for deep syntax. The positions of `proc_macro2` are a table of the thread, so that
/// a long session would otherwise grow with each text that is read.
pub fn on_a_thread<T: Send>(work: impl FnOnce() -> T + Send) -> T {
    std::thread::scope(|scope| {
        let thread = spawn(scope, work);
        thread.join().unwrap_or_else(|panic| std::panic::resume_unwind(panic))
    })
}

/// A thread with room for deep syntax.
pub fn spawn<'scope, T: Send + 'scope>(
    scope: &'scope std::thread::Scope<'scope, '_>,
    work: impl FnOnce() -> T + Send + 'scope,
) -> std::thread::ScopedJoinHandle<'scope, T> {
    let builder = std::thread::Builder::new().stack_size(256 << 20);
    builder.spawn_scoped(scope, work).expect("the system starts a thread")
}

/// Each word once.
#[derive(Default)]
struct Words(std::collections::HashSet<Arc<str>>);

impl Words {
    fn take(&mut self, text: &str) -> Arc<str> {
        if let Some(it) = self.0.get(text) {
            return it.clone();
        }
        let it: Arc<str> = text.into();
        self.0.insert(it.clone());
        it
    }
}

fn position_of(it: proc_macro2::LineColumn) -> Position {
    Position { line: it.line as u32, column: it.column as u32 + 1 }
}

fn span_of(span: proc_macro2::Span) -> Span {
    Span { start: position_of(span.start()), end: position_of(span.end()) }
}

/// Where a token stands that is on one line. Each question where a span begins or ends is a search among the lines of the
/// file, so where the token ends is told by its text.
fn span_on_line(span: proc_macro2::Span, text: &str) -> Span {
    let start = position_of(span.start());
    Span { start, end: Position { column: start.column + text.chars().count() as u32, ..start } }
}

fn trees_of(stream: TokenStream, words: &mut Words, depth: usize) -> Result<Vec<Token>, SyntaxError> {
    let mut made = Vec::new();
    let mut trees = stream.into_iter().peekable();
    let mut text = String::new();
    while let Some(tree) = trees.next() {
        match tree {
            TokenTree::Group(group) => {
                let span = span_of(group.span());
                if depth == DEEPEST {
                    let message = format!("more than {DEEPEST} brackets stand in one another");
                    return Err(SyntaxError { at: span, message });
                }
                let delimiter = match group.delimiter() {
                    proc_macro2::Delimiter::Parenthesis => Delimiter::Parenthesis,
                    proc_macro2::Delimiter::Bracket => Delimiter::Bracket,
                    proc_macro2::Delimiter::Brace => Delimiter::Brace,
                    proc_macro2::Delimiter::None => Delimiter::None,
                };
                let inner = trees_of(group.stream(), words, depth + 1)?.into();
                made.push(Token { kind: Kind::Group(delimiter, inner), span });
            }
            TokenTree::Ident(it) => {
                text.clear();
                let _ = write!(text, "{it}");
                made.push(Token { kind: Kind::Ident(words.take(&text)), span: span_on_line(it.span(), &text) });
            }
            TokenTree::Literal(it) => {
                text.clear();
                let _ = write!(text, "{it}");
                let span = if text.contains('\n') { span_of(it.span()) } else { span_on_line(it.span(), &text) };
                made.push(Token { kind: Kind::Literal(words.take(&text)), span });
            }
            TokenTree::Punct(it) if it.as_char() == '\'' => {
                text.clear();
                text.push('\'');
                if let Some(TokenTree::Ident(name)) = trees.peek() {
                    let _ = write!(text, "{name}");
                    trees.next();
                }
                made.push(Token { kind: Kind::Lifetime(words.take(&text)), span: span_on_line(it.span(), &text) });
            }
            TokenTree::Punct(it) => {
                let start = position_of(it.span().start());
                text.clear();
                text.push(it.as_char());
                let mut is_joint = it.spacing() == proc_macro2::Spacing::Joint;
                while let (true, Some(TokenTree::Punct(next))) = (is_joint, trees.peek()) {
                    if next.as_char() == '\'' {
                        break;
                    }
                    text.push(next.as_char());
                    is_joint = next.spacing() == proc_macro2::Spacing::Joint;
                    trees.next();
                }
                operators_of(&text, start, &mut made)?;
            }
        }
    }
    Ok(made)
}

/// Adds the operators that characters are which stand together.
fn operators_of(mut run: &str, mut start: Position, made: &mut Vec<Token>) -> Result<(), SyntaxError> {
    while !run.is_empty() {
        let Some(it) = operator(run) else {
            return Err(SyntaxError {
                at: Span { start, end: start },
                message: format!("`{run}` is no token of Rust"),
            });
        };
        let end = Position { column: start.column + it.len() as u32, ..start };
        made.push(Token { kind: Kind::Punct(it), span: Span { start, end } });
        (start, run) = (end, &run[it.len()..]);
    }
    Ok(())
}

/// The tokens as a text that reads back as the same tokens, groups of fragments without brackets.
pub fn text_of(tokens: &[Token]) -> String {
    let mut text = String::new();
    write_text(tokens, &mut text);
    text
}

fn write_text(tokens: &[Token], text: &mut String) {
    for (at, token) in tokens.iter().enumerate() {
        match &token.kind {
            Kind::Ident(it) | Kind::Lifetime(it) | Kind::Literal(it) => text.push_str(it),
            Kind::Punct(it) => text.push_str(it),
            Kind::Crate(it) => {
                let _ = write!(text, "$crate{it}");
            }
            Kind::Group(delimiter, inner) => {
                let (open, close) = match delimiter {
                    Delimiter::Parenthesis => ("(", ")"),
                    Delimiter::Bracket => ("[", "]"),
                    Delimiter::Brace => ("{", "}"),
                    Delimiter::None => ("", ""),
                };
                text.push_str(open);
                write_text(inner, text);
                if text.ends_with(' ') && *delimiter != Delimiter::None {
                    text.pop();
                }
                text.push_str(close);
            }
        }
        if !text.ends_with(' ') && !text.is_empty() && !token.goes_on_in(tokens.get(at + 1)) {
            text.push(' ');
        }
    }
}

/// The tokens with groups of fragments opened, but not those within other groups.
pub fn opened(tokens: &[Token]) -> Vec<Token> {
    fn open_into(tokens: &[Token], made: &mut Vec<Token>) {
        for token in tokens {
            match &token.kind {
                Kind::Group(Delimiter::None, inner) => open_into(inner, made),
                _ => made.push(token.clone()),
            }
        }
    }
    let mut made = Vec::with_capacity(tokens.len());
    open_into(tokens, &mut made);
    made
}

/// The tokens as what a macro's text brings, see [`Span::of_macro`].
pub fn of_macro(tokens: &[Token]) -> Tokens {
    let made = tokens.iter().map(|it| {
        let kind = match &it.kind {
            Kind::Group(delimiter, inner) => Kind::Group(*delimiter, of_macro(inner)),
            kind => kind.clone(),
        };
        Token { kind, span: it.span.of_macro() }
    });
    made.collect()
}

/// Where that stands among the tokens of an expansion which its call was given, piece by piece. Nothing where all of
/// the tokens are one piece, as those of a file are.
pub fn pieces_given(tokens: &[Token]) -> Vec<Span> {
    fn add(tokens: &[Token], made: &mut Vec<Span>, goes_on: &mut bool, is_whole: &mut bool) {
        for it in tokens {
            let is_of_macro = it.span.is_of_macro();
            match &it.kind {
                Kind::Group(Delimiter::None, inner) => add(inner, made, goes_on, is_whole),
                Kind::Group(_, inner) if is_of_macro => {
                    (*goes_on, *is_whole) = (false, false);
                    add(inner, made, goes_on, is_whole);
                    *goes_on = false;
                }
                _ if is_of_macro => (*goes_on, *is_whole) = (false, false),
                _ => {
                    match made.last_mut().filter(|last| *goes_on && last.end <= it.span.start) {
                        Some(last) => last.end = it.span.end,
                        None => made.push(it.span),
                    }
                    *goes_on = true;
                }
            }
        }
    }
    let (mut made, mut goes_on, mut is_whole) = (Vec::new(), false, true);
    add(tokens, &mut made, &mut goes_on, &mut is_whole);
    if is_whole && made.len() < 2 {
        made.clear();
    }
    made
}

/// How many groups stand in one another at most.
pub fn nesting(tokens: &[Token]) -> usize {
    let inner = |it: &Token| match &it.kind {
        Kind::Group(_, inner) => 1 + nesting(inner),
        _ => 0,
    };
    tokens.iter().map(inner).max().unwrap_or(0)
}

/// How many tokens there are, those within groups included.
pub fn count(tokens: &[Token]) -> usize {
    let inner = |it: &Token| match &it.kind {
        Kind::Group(_, inner) => 1 + count(inner),
        _ => 1,
    };
    tokens.iter().map(inner).sum()
}

/// Whether a character may be one of a word.
pub(crate) fn is_of_word(it: char) -> bool {
    it.is_alphanumeric() || it == '_'
}

/// Whether a word stands in a text, but for a part of it.
pub(crate) fn has_word(text: &str, word: &str, except: Range<usize>) -> bool {
    text.match_indices(word).any(|(at, _)| {
        let before = text[..at].chars().next_back().is_some_and(is_of_word);
        let behind = text[at + word.len()..].chars().next().is_some_and(is_of_word);
        !except.contains(&at) && !before && !behind
    })
}

/// The words of a text.
pub(crate) fn words_of(text: &str) -> impl Iterator<Item = &str> {
    text.split(|it| !is_of_word(it)).filter(|it| !it.is_empty())
}

/// A hash that is the same in each run and on each machine.
#[derive(Clone, Copy, PartialEq, Eq, Hash, Debug)]
pub struct Hash(pub u128);

impl Default for Hash {
    fn default() -> Hash {
        Hash(0x6c62_272e_07bb_0142_62b8_2175_6295_c58d)
    }
}

impl Hash {
    /// FNV-1a of 128 bits over the text and a byte that no text has.
    pub fn with(mut self, text: &str) -> Hash {
        for byte in text.bytes().chain([0xff]) {
            self.0 = (self.0 ^ u128::from(byte)).wrapping_mul(0x0000_0000_0100_0000_0000_0000_0000_013b);
        }
        self
    }

    /// With these tokens, but not where they stand.
    pub fn with_tokens(self, tokens: &[Token]) -> Hash {
        tokens.iter().fold(self, |hash, it| match &it.kind {
            Kind::Ident(it) | Kind::Lifetime(it) | Kind::Literal(it) => hash.with(it),
            Kind::Punct(it) => hash.with(it),
            Kind::Crate(it) => hash.with(&format!("$crate{it}")),
            Kind::Group(delimiter, inner) => {
                let open = match delimiter {
                    Delimiter::Parenthesis => "(",
                    Delimiter::Bracket => "[",
                    Delimiter::Brace => "{",
                    Delimiter::None => "<",
                };
                hash.with(open).with_tokens(inner).with("end")
            }
        })
    }

    /// In hexadecimal digits.
    pub fn text(self) -> String {
        format!("{:032x}", self.0)
    }

    /// Folded to 16 bits.
    pub fn short(self) -> u16 {
        let it = self.0 ^ (self.0 >> 64);
        let it = it ^ (it >> 32);
        (it ^ (it >> 16)) as u16
    }
}

#[cfg(test)]
mod tests {
    use super::*;

    /// What stands in a text from a position to another.
    fn between(text: &str, span: Span) -> &str {
        let offset = |at: Position| {
            let line: usize = text.split_inclusive('\n').take(at.line as usize - 1).map(str::len).sum();
            line + text[line..].chars().take(at.column as usize - 1).map(char::len_utf8).sum::<usize>()
        };
        &text[offset(span.start)..offset(span.end)]
    }

    fn check(tokens: &[Token], text: &str) {
        for it in tokens {
            let found = between(text, it.span);
            match &it.kind {
                Kind::Ident(word) | Kind::Lifetime(word) | Kind::Literal(word) => assert_eq!(found, &**word),
                Kind::Punct(word) => assert_eq!(found, *word),
                Kind::Group(_, inner) => {
                    assert!(found.starts_with(['(', '[', '{']) && found.ends_with([')', ']', '}']), "{found}");
                    check(inner, text);
                }
                Kind::Crate(_) => panic!("no text has one"),
            }
        }
    }

    #[test]
    fn each_token_stands_where_its_text_is() {
        for text in [
            "fn r#é<'ä>(x: &'ä str) -> u8 { a >>= b..=c; !!d && ::e::<f<g>>() }",
            "\"🦀\nb\" + r#\"c\n  d\"# + b\"e\" + 'é' + '\\'' + \"\\\n  f\" + 1.5e3_f64; g",
            "a\r\n  b /* 🦀\n */ [c, // d\n e]",
            "#!/bin/sh\nf",
        ] {
            check(&on_a_thread(|| tokens_of(text)).unwrap(), text);
        }
    }

    #[test]
    fn words_of_a_text() {
        assert!(has_word("a b", "b", 0..0) && has_word("\"{b}\" r#b", "b", 0..4) && !has_word("ab b_ bé", "b", 0..0));
        assert!(!has_word("use b;", "b", 0..6));
        assert!(words_of("\"{b}\" r#é::_1").eq(["b", "r", "é", "_1"]));
    }
}
