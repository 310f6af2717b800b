//! Items as name resolution needs them: read from token trees, with types passed over, and of bodies all but the blocks
//! that have items of their own.
//!
//! A file whose brackets match gives its items even where a body or a type in it isn't finished.

mod blocks;
mod items;
mod paths;

use std::sync::Arc;

use blocks::is_of_expression;
pub use blocks::{statements_of, Block};
pub use paths::{parts, path_of_type, traits_of_bounds, ImplHead};

use crate::token::{opened, Delimiter, Hash, Kind, Position, Span, SyntaxError, Token, Tokens};

/// A path, and where each of its names stands.
#[derive(Clone, Hash, Debug, Default)]
pub struct Path {
    /// As the program reads it, as `a::b`, `::a`, `crate::b`, `$3::c`.
    pub text: String,
    /// From its first name to its last.
    pub span: Span,
}

/// An attribute. Documentation isn't kept, neither as a comment nor as an attribute.
#[derive(Clone, Hash, Debug)]
pub struct Attribute {
    /// Without what it is given.
    pub path: Path,
    /// What stands behind the path: `= literal`, or a group.
    pub input: Vec<Token>,
    /// Behind `unsafe(..)` the inner one counts.
    pub span: Span,
}

/// Who sees an item.
#[derive(Clone, Hash, Debug, Default)]
pub enum Visibility {
    #[default]
    Private,
    Own,
    Crate,
    Public,
    In(Box<Path>),
}

/// A name where it is declared.
#[derive(Clone, Hash, Debug)]
pub struct Name {
    /// Without `r#`.
    pub text: Arc<str>,
    /// Where it stands.
    pub span: Span,
}

/// A tree of a `use`.
#[derive(Clone, Hash, Debug)]
pub enum UseTree {
    Single { path: Path, alias: Option<Name> },
    Glob { path: Option<Path>, span: Span },
    List { path: Option<Path>, trees: Vec<UseTree>, span: Span },
}

/// What fields a struct or a variant has.
#[derive(Clone, Copy, PartialEq, Eq, Hash, Debug)]
pub enum Shape {
    Record,
    Tuple,
    Unit,
}

/// A field of a struct, a union or a variant.
#[derive(Clone, Hash, Debug)]
pub struct Field {
    /// Those alone that are conditions.
    pub attributes: Vec<Attribute>,
    /// Who sees it.
    pub visibility: Visibility,
    /// None in a tuple.
    pub name: Option<Name>,
    /// From its visibility to the end of its type.
    pub span: Span,
}

/// A variant of an enum.
#[derive(Clone, Hash, Debug)]
pub struct Variant {
    /// But for documentation.
    pub attributes: Vec<Attribute>,
    /// As it is declared.
    pub name: Name,
    /// What fields it has.
    pub shape: Shape,
    /// Of a record.
    pub fields: Vec<Field>,
    /// Where its documentation and its attributes begin, or its name.
    pub start: Position,
    /// From its name to its last word.
    pub span: Span,
}

/// A macro call where items stand.
#[derive(Clone, Hash, Debug)]
pub struct Call {
    /// The macro that is called.
    pub path: Path,
    /// What stands in the brackets.
    pub input: Tokens,
    /// Of the input alone.
    pub input_hash: Hash,
    /// Of the path, the input, the names around it, and how many such calls come before.
    pub identity: Hash,
    /// Whether it stands in a block, where it may expand to more than items.
    pub is_statement: bool,
    /// Whether items are in what it is given, as of `thread_local!`, or blocks with items where that isn't Rust, as of
    /// `cfg_if!`: those items may be what it expands to.
    pub may_give_back_items: bool,
}

impl Call {
    /// A call that has no identity yet.
    fn new(path: Path, input: &Tokens, is_statement: bool) -> Call {
        let input_hash = Hash::default().with_tokens(input);
        let identity = Hash::default();
        Call { path, input: input.clone(), input_hash, identity, is_statement, may_give_back_items: false }
    }
}

/// A `macro_rules!` or `macro`.
#[derive(Hash, Debug)]
pub struct MacroDefinition {
    /// Without `r#`.
    pub name: Arc<str>,
    /// Whether it is a `macro_rules!`.
    pub is_rules: bool,
    /// The rules; of a `macro` without rules its one.
    pub body: Tokens,
    /// Whether the macros that it calls by a single name are those of its own crate.
    pub has_local_inner_macros: bool,
    /// Of the rules and of what else an expansion depends on.
    pub hash: Hash,
}

/// What an item is, with what is in it.
#[derive(Clone, Hash, Debug)]
pub enum ItemKind {
    Use(UseTree),
    /// The name that it binds besides, if any; `_` among these.
    ExternCrate {
        alias: Option<Name>,
    },
    ExternBlock(Vec<Item>),
    Function,
    Static,
    Constant,
    Struct {
        shape: Shape,
        fields: Vec<Field>,
    },
    Union {
        fields: Vec<Field>,
    },
    Enum(Vec<Variant>),
    Trait(Vec<Item>),
    Impl {
        head: ImplHead,
        items: Vec<Item>,
    },
    /// The path of what it stands for, where that is one.
    TypeAlias(Option<Path>),
    /// None where the items are in a file of its own.
    Module(Option<Vec<Item>>),
    Call(Arc<Call>),
    Macro(Arc<MacroDefinition>),
}

/// An item, or an associated one.
#[derive(Clone, Debug)]
pub struct Item {
    /// But for documentation.
    pub attributes: Vec<Attribute>,
    /// Who sees it.
    pub visibility: Visibility,
    /// None of a `use`, an `impl`, an extern block, a call and a constant `_`.
    pub name: Option<Name>,
    /// What it is, with what is in it.
    pub kind: ItemKind,
    /// Of all its tokens, where it has attributes that may be macros.
    pub input: Option<Hash>,
    /// What an unnamed item is known by.
    pub text: Hash,
    /// Where its documentation and its attributes begin, or its first word.
    pub start: Position,
    /// From its first word to its last, without attributes.
    pub span: Span,
    /// The same without a body, a value, or what stands in its braces.
    pub head: Span,
    /// In an expansion, what of it the call was given, where that isn't all of it in one piece.
    pub given: Vec<Span>,
    /// The blocks with items of their own in its body, its value, its types or what it is called with; those of the items
    /// in a module, a trait, an impl or an extern block are with these.
    pub blocks: Vec<Arc<Block>>,
}

/// Where it stands doesn't count.
impl std::hash::Hash for Item {
    fn hash<H: std::hash::Hasher>(&self, state: &mut H) {
        let Item { attributes, visibility, name, kind, input, text, start: _, span: _, head: _, given: _, blocks } =
            self;
        (attributes, visibility, name, kind, input, text, blocks).hash(state);
    }
}

/// A file or an expansion.
#[derive(Clone, Hash, Debug, Default)]
pub struct Unit {
    /// Those at the top, as `#![..]`.
    pub attributes: Vec<Attribute>,
    /// In the order in which they are written.
    pub items: Vec<Item>,
    /// Of an expansion of a statement, the blocks with items in its expressions.
    pub blocks: Vec<Arc<Block>>,
}

/// What stands in a file or in an expansion. `around` is what the calls in it are known by besides.
pub fn unit_of(tokens: &[Token], around: Hash) -> Result<Unit, SyntaxError> {
    let tokens = opened(tokens);
    let mut cursor = Cursor::new(&tokens, Span::default());
    let attributes = cursor.attributes(true);
    let mut items = cursor.items(Where::Module)?;
    let mut seen = std::collections::HashMap::new();
    identify(&mut items, around, &mut seen);
    Ok(Unit { attributes, items, blocks: Vec::new() })
}

/// Gives calls their identity.
fn identify(items: &mut [Item], around: Hash, seen: &mut std::collections::HashMap<Hash, u32>) {
    for item in items {
        match &mut item.kind {
            ItemKind::Call(call) => {
                let hash = around.with(&call.path.text).with(&call.input_hash.text());
                let before = seen.entry(hash).or_default();
                let identity = if *before == 0 { hash } else { hash.with(&before.to_string()) };
                *before += 1;
                *call = Arc::new(Call { identity, ..Call::clone(call) });
            }
            ItemKind::Module(Some(items)) => {
                let name = item.name.as_ref().map_or("", |it| &it.text);
                identify(items, around.with(name), seen);
            }
            ItemKind::ExternBlock(items) => identify(items, around.with("extern"), seen),
            ItemKind::Trait(items) | ItemKind::Impl { items, .. } => {
                identify(items, around.with(item.name.as_ref().map_or(&item.text.text(), |it| &it.text)), seen);
            }
            _ => {}
        }
        if !item.blocks.is_empty() {
            let name = item.name.as_ref().map_or("", |it| &it.text);
            identify_in(&mut item.blocks, around.with(name), seen);
        }
    }
}

/// Gives the calls in blocks their identity.
fn identify_in(blocks: &mut [Arc<Block>], around: Hash, seen: &mut std::collections::HashMap<Hash, u32>) {
    for block in blocks {
        let block = Arc::make_mut(block);
        identify(&mut block.items, around.with("block"), seen);
        identify_in(&mut block.blocks, around.with("block"), seen);
    }
}

/// Where items stand: what may be written differs.
#[derive(Clone, Copy, PartialEq, Eq)]
enum Where {
    Module,
    Extern,
    Associated,
}

struct Cursor<'a> {
    tokens: &'a [Token],
    at: usize,
    /// Where a message points that speaks of the end.
    end: Span,
}

impl Item {
    /// The name, or none.
    pub fn name_text(&self) -> &str {
        self.name.as_ref().map_or("", |it| &it.text)
    }

    /// The items in it, but for those in its blocks.
    pub fn inner(&self) -> &[Item] {
        match &self.kind {
            ItemKind::Module(Some(inner))
            | ItemKind::Trait(inner)
            | ItemKind::Impl { items: inner, .. }
            | ItemKind::ExternBlock(inner) => inner,
            _ => &[],
        }
    }

    /// Whether a position of the file is in it; in an expansion, whether the call was given there what became of it.
    pub fn contains(&self, at: Position) -> bool {
        self.span.contains(at) || self.given.iter().any(|it| it.contains(at))
    }
}

/// A word without `r#`.
pub fn plain(word: &str) -> &str {
    word.strip_prefix("r#").unwrap_or(word)
}

/// The path that the tokens are, if they are one and nothing else: names, `::` and `$crate`.
pub fn path_of(tokens: &[Token]) -> Option<Path> {
    let mut cursor = Cursor::new(tokens, Span::default());
    let path = cursor.path()?;
    cursor.is_at_end().then_some(path)
}

/// The macro call that the tokens are, if they are one: its path, and what it is given.
pub fn call_of(tokens: &[Token]) -> Option<(Path, &Tokens)> {
    let mut cursor = Cursor::new(tokens, Span::default());
    let call = cursor.called()?;
    cursor.is_at_end().then_some(call)
}

/// The macro calls among the tokens, also those in groups, but not those in what a call is given.
pub fn calls_among(tokens: &[Token]) -> Vec<(Path, &Tokens)> {
    let mut cursor = Cursor::new(tokens, Span::default());
    let mut made = Vec::new();
    while let Some(token) = cursor.peek() {
        if let Some(it) = cursor.called() {
            made.push(it);
            continue;
        }
        if let Kind::Group(_, inner) = &token.kind {
            made.extend(calls_among(inner));
        }
        if cursor.path().is_none() {
            cursor.at += 1;
        }
    }
    made
}

/// The parts between commas that stand in no group.
pub fn comma_separated(tokens: &[Token]) -> Vec<&[Token]> {
    let mut parts: Vec<&[Token]> = tokens.split(|it| it.is(",")).collect();
    if parts.last().is_some_and(|it| it.is_empty()) {
        parts.pop();
    }
    parts
}

/// By how much an operator changes how deep a place is in `<` and `>`.
pub fn angle(token: &Token) -> i32 {
    match token.kind {
        Kind::Punct("<" | "<-" | "<=") => 1,
        Kind::Punct("<<" | "<<=") => 2,
        Kind::Punct(">" | ">=") => -1,
        Kind::Punct(">>" | ">>=") => -2,
        _ => 0,
    }
}

impl<'a> Cursor<'a> {
    fn new(tokens: &'a [Token], end: Span) -> Cursor<'a> {
        let end = tokens.last().map_or(end, |it| it.span);
        Cursor { tokens, at: 0, end }
    }

    fn peek(&self) -> Option<&'a Token> {
        self.tokens.get(self.at)
    }

    fn ahead(&self, by: usize) -> Option<&'a Token> {
        self.tokens.get(self.at + by)
    }

    fn next(&mut self) -> Option<&'a Token> {
        let it = self.tokens.get(self.at);
        self.at += usize::from(it.is_some());
        it
    }

    fn is_at_end(&self) -> bool {
        self.at >= self.tokens.len()
    }

    fn sees(&self, punct: &str) -> bool {
        self.peek().is_some_and(|it| it.is(punct))
    }

    fn sees_word(&self, word: &str) -> bool {
        self.peek().is_some_and(|it| it.is_word(word))
    }

    fn takes(&mut self, punct: &str) -> bool {
        let found = self.sees(punct);
        self.at += usize::from(found);
        found
    }

    fn takes_word(&mut self, word: &str) -> bool {
        let found = self.sees_word(word);
        self.at += usize::from(found);
        found
    }

    fn takes_group(&mut self, delimiter: Delimiter) -> Option<&'a Tokens> {
        let inner = self.peek()?.group(delimiter)?;
        self.at += 1;
        Some(inner)
    }

    fn error<T>(&self, wanted: &str) -> Result<T, SyntaxError> {
        let (at, found) = match self.peek() {
            Some(it) => (it.span, format!("`{}`", shown(it))),
            None => (self.end, "the end".to_owned()),
        };
        Err(SyntaxError { at, message: format!("{wanted} was expected here, and {found} was found") })
    }

    fn name(&mut self) -> Result<Name, SyntaxError> {
        match self.peek() {
            Some(Token { kind: Kind::Ident(word), span }) if **word != *"_" => {
                self.at += 1;
                let text = match word.strip_prefix("r#") {
                    Some(it) => it.into(),
                    None => word.clone(),
                };
                Ok(Name { text, span: *span })
            }
            _ => self.error("a name"),
        }
    }

    /// A path of names without arguments. Nothing is taken where there is none.
    fn path(&mut self) -> Option<Path> {
        let from = self.at;
        let mut text = String::new();
        let start = self.peek()?.span;
        let mut end;
        if self.takes("::") {
            text.push_str("::");
        }
        loop {
            match self.peek() {
                Some(Token { kind: Kind::Ident(word), span }) if **word != *"_" => {
                    text.push_str(plain(word));
                    end = span.to_owned();
                    self.at += 1;
                }
                Some(Token { kind: Kind::Crate(it), span }) if text.is_empty() => {
                    text = format!("${it}");
                    end = *span;
                    self.at += 1;
                }
                _ => {
                    self.at = from;
                    return None;
                }
            }
            let goes_on = self.sees("::")
                && matches!(self.ahead(1), Some(Token { kind: Kind::Ident(word), .. }) if **word != *"_");
            if !goes_on {
                break;
            }
            self.at += 1;
            text.push_str("::");
        }
        Some(Path { text, span: Span { start: start.start, end: end.end } })
    }

    /// A macro call where an expression stands. Nothing is taken where there is none.
    fn called(&mut self) -> Option<(Path, &'a Tokens)> {
        let from = self.at;
        let found = self.path().filter(|it| self.sees("!") && !is_of_expression(&it.text));
        let input = self.ahead(1).map(|it| &it.kind);
        if let (Some(path), Some(Kind::Group(_, input))) = (found, input) {
            self.at += 2;
            return Some((path, input));
        }
        self.at = from;
        None
    }

    /// Attributes in front of an item, or at the top of what the items stand in.
    fn attributes(&mut self, inner: bool) -> Vec<Attribute> {
        let mut made = Vec::new();
        while self.sees("#") {
            let bang = self.ahead(1).is_some_and(|it| it.is("!"));
            if bang != inner {
                break;
            }
            let Some(Token { kind: Kind::Group(Delimiter::Bracket, tokens), span }) = self.ahead(1 + usize::from(bang))
            else {
                break;
            };
            self.at += 2 + usize::from(bang);
            made.extend(attribute_of(tokens, *span).filter(|it| it.path.text != "doc"));
        }
        made
    }

    fn visibility(&mut self) -> Visibility {
        if self.sees_word("crate") && !self.ahead(1).is_some_and(|it| it.is("::")) {
            self.at += 1;
            return Visibility::Crate;
        }
        if !self.takes_word("pub") {
            return Visibility::Private;
        }
        let Some(inner) = self.peek().and_then(|it| it.group(Delimiter::Parenthesis)) else {
            return Visibility::Public;
        };
        let inner = opened(inner);
        let mut words = Cursor::new(&inner, self.end);
        let is_in = words.takes_word("in");
        let Some(path) = words.path().filter(|_| words.is_at_end()) else {
            return Visibility::Public;
        };
        let made = match &*path.text {
            "crate" => Visibility::Crate,
            "self" => Visibility::Own,
            "super" => Visibility::In(path.into()),
            _ if is_in => Visibility::In(path.into()),
            // The type of a tuple's field.
            _ => return Visibility::Public,
        };
        self.at += 1;
        made
    }

    fn items(&mut self, place: Where) -> Result<Vec<Item>, SyntaxError> {
        let mut made = Vec::new();
        while !self.is_at_end() {
            if self.takes(";") {
                continue;
            }
            if let Some(item) = self.item(place)? {
                made.push(item);
            }
        }
        Ok(made)
    }

    /// The items within a brace, behind the attributes at its top, which are added to `attributes`.
    fn inside(&mut self, place: Where, attributes: &mut Vec<Attribute>) -> Result<Option<Vec<Item>>, SyntaxError> {
        let end = self.peek().map_or(self.end, |it| it.span);
        let Some(inner) = self.takes_group(Delimiter::Brace) else {
            return Ok(None);
        };
        let inner = opened(inner);
        let mut cursor = Cursor::new(&inner, end);
        attributes.extend(cursor.attributes(true));
        cursor.items(place).map(Some)
    }

    /// Goes to the next token that one of these is, outside of groups and of `<` and `>`.
    fn pass_to(&mut self, brace: bool, punct: &str) {
        let mut depth = 0;
        while let Some(it) = self.peek() {
            if depth <= 0 && (it.is(punct) || (brace && it.group(Delimiter::Brace).is_some())) {
                return;
            }
            depth += angle(it);
            self.at += 1;
        }
    }

    /// Goes behind the next `;`, outside of groups.
    fn pass_behind_semicolon(&mut self) {
        while let Some(it) = self.next() {
            if it.is(";") {
                return;
            }
        }
    }
}

/// The attribute in these brackets; none where it has no path.
fn attribute_of(tokens: &[Token], span: Span) -> Option<Attribute> {
    let tokens = opened(tokens);
    if let [word, Token { kind: Kind::Group(Delimiter::Parenthesis, inner), .. }] = &tokens[..] {
        if word.is_word("unsafe") {
            return attribute_of(inner, span);
        }
    }
    attribute_in(&tokens, span)
}

/// The attribute that these tokens are.
pub fn attribute_in(tokens: &[Token], span: Span) -> Option<Attribute> {
    let mut cursor = Cursor::new(tokens, span);
    let path = cursor.path()?;
    let input = tokens[cursor.at..].to_vec();
    Some(Attribute { path, input, span })
}

/// From the first token to the last.
fn span_of(tokens: &[Token]) -> Span {
    match tokens {
        [first, .., last] => Span { start: first.span.start, end: last.span.end },
        [it] => it.span,
        [] => Span::default(),
    }
}

/// A token in a message.
fn shown(token: &Token) -> String {
    match &token.kind {
        Kind::Group(Delimiter::Parenthesis, _) => "(".to_owned(),
        Kind::Group(Delimiter::Bracket, _) => "[".to_owned(),
        Kind::Group(Delimiter::Brace, _) => "{".to_owned(),
        _ => crate::token::text_of(std::slice::from_ref(token)).trim_end().to_owned(),
    }
}
