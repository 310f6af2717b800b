//! The blocks that have items of their own: in bodies, values, types and what macros are called with.

use std::borrow::Cow;
use std::sync::Arc;

use super::items::is_qualifier;
use super::{Call, Cursor, Item, ItemKind, Unit, Visibility, Where};
use crate::macros::reads_as_rust;
use crate::token::{opened, pieces_given, Delimiter, Hash, Kind, Position, Span, Token};

/// A block with items of its own.
#[derive(Clone, Debug)]
pub struct Block {
    /// Its items, and the macro calls that stand as statements, in their order.
    pub items: Vec<Item>,
    /// The blocks with items in its expressions. Those of its items' bodies are with the items.
    pub blocks: Vec<Arc<Block>>,
    /// How many items come before it of the block that it is in.
    pub before: usize,
    /// With its braces.
    pub span: Span,
    /// In an expansion, what of it the call was given, where that isn't all of it in one piece.
    pub given: Vec<Span>,
}

/// Where it stands doesn't count.
impl std::hash::Hash for Block {
    fn hash<H: std::hash::Hasher>(&self, state: &mut H) {
        let Block { items, blocks, before, span: _, given: _ } = self;
        (items, blocks, before).hash(state);
    }
}

/// The outermost blocks with items in an item of these tokens, but for those of the items in it.
pub(super) fn blocks_of(kind: &ItemKind, tokens: &[Token]) -> Vec<Arc<Block>> {
    let (head, braced) = match tokens {
        [head @ .., Token { kind: Kind::Group(Delimiter::Brace, inner), .. }] => (head, &inner[..]),
        _ => (tokens, &[][..]),
    };
    match kind {
        ItemKind::Function | ItemKind::Constant | ItemKind::Static | ItemKind::TypeAlias(_) => blocks_in(tokens),
        ItemKind::Struct { .. } | ItemKind::Union { .. } | ItemKind::Enum(_) => {
            let mut made = blocks_in(head);
            blocks_in_fields(braced, &mut made);
            made
        }
        ItemKind::Trait(_) | ItemKind::Impl { .. } => blocks_in(head),
        ItemKind::Call(call) => blocks_in_call(&call.input),
        ItemKind::Use(_)
        | ItemKind::ExternCrate { .. }
        | ItemKind::ExternBlock(_)
        | ItemKind::Module(_)
        | ItemKind::Macro(_) => Vec::new(),
    }
}

/// The outermost blocks with items among these tokens.
fn blocks_in(tokens: &[Token]) -> Vec<Arc<Block>> {
    let mut made = Vec::new();
    (0..tokens.len()).for_each(|at| block_at(tokens, at, &mut made));
    made
}

/// Adds those in fields or variants, the fields of variants among these.
fn blocks_in_fields(tokens: &[Token], made: &mut Vec<Arc<Block>>) {
    for (at, token) in tokens.iter().enumerate() {
        match token.group(Delimiter::Brace) {
            Some(fields) if at > 0 && tokens[at - 1].word().is_some() => blocks_in_fields(fields, made),
            _ => block_at(tokens, at, made),
        }
    }
}

/// Those in what a macro is called with, where that reads as statements, or as expressions between commas. What it
/// becomes isn't known, but such a block mostly stays where it is.
fn blocks_in_call(input: &[Token]) -> Vec<Arc<Block>> {
    blocks_if_rust(block(input, Span::default()), input).unwrap_or_default()
}

/// The same of what was read of it, or none where there are some and it isn't Rust.
fn blocks_if_rust(read: Block, input: &[Token]) -> Option<Vec<Arc<Block>>> {
    let made = read.outermost();
    (made.is_empty() || reads_as_rust(input)).then_some(made)
}

/// The items and the blocks among these statements, for what a macro call that is a statement expands to.
pub fn statements_of(tokens: &[Token], around: Hash) -> Unit {
    let Block { mut items, mut blocks, .. } = block(tokens, Span::default());
    let mut seen = std::collections::HashMap::new();
    super::identify(&mut items, around, &mut seen);
    super::identify_in(&mut blocks, around, &mut seen);
    Unit { attributes: Vec::new(), items, blocks }
}

/// Adds the block that a token is, or the outermost ones in it.
fn block_at(tokens: &[Token], at: usize, made: &mut Vec<Arc<Block>>) {
    let Kind::Group(delimiter, inner) = &tokens[at].kind else {
        return;
    };
    let before = |by: usize| at.checked_sub(by).map(|it| &tokens[it]);
    let is_bang = |by: usize| before(by).is_some_and(|it| it.is("!"));
    let is_name = |by: usize| before(by).and_then(Token::word).is_some_and(|it| !is_of_expression(it));
    if is_bang(1) && is_name(2) {
        made.extend(blocks_in_call(inner));
        return;
    }
    let is_definition = is_bang(2) && is_name(1) && is_name(3);
    let is_attribute = before(1).is_some_and(|it| it.is("#")) || is_bang(1) && before(2).is_some_and(|it| it.is("#"));
    if is_definition || is_attribute {
        return;
    }
    if *delimiter != Delimiter::Brace {
        made.extend(blocks_in(inner));
        return;
    }
    let block = block(inner, tokens[at].span);
    let holds_items = |it: &Item| match &it.kind {
        ItemKind::Call(it) => it.may_give_back_items,
        _ => true,
    };
    match block.items.iter().any(holds_items) {
        true => {
            let given = if block.span.is_of_macro() { pieces_given(inner) } else { Vec::new() };
            made.push(Arc::new(Block { given, ..block }));
        }
        false => made.extend(block.outermost()),
    }
}

/// A keyword before an expression, behind which `!` negates.
pub(super) fn is_of_expression(word: &str) -> bool {
    matches!(word, "if" | "while" | "match" | "return" | "in" | "else" | "break" | "move" | "yield")
}

/// What stands in a pair of braces, which may also be no block: no item begins in a `match`, a structure or a list.
fn block(tokens: &[Token], span: Span) -> Block {
    let has_fragments = tokens.iter().any(|it| it.group(Delimiter::None).is_some());
    let tokens = if has_fragments { Cow::Owned(opened(tokens)) } else { Cow::Borrowed(tokens) };
    let mut cursor = Cursor::new(&tokens, span);
    let mut made = Block { items: Vec::new(), blocks: Vec::new(), before: 0, span, given: Vec::new() };
    cursor.attributes(true);
    let mut is_first = true;
    while !cursor.is_at_end() {
        if is_first {
            if let Some(item) = cursor.statement() {
                made.items.push(item);
                continue;
            }
        }
        let known = made.blocks.len();
        block_at(&tokens, cursor.at, &mut made.blocks);
        for it in &mut made.blocks[known..] {
            Arc::make_mut(it).before = made.items.len();
        }
        let token = &tokens[cursor.at];
        is_first = token.is(";") || token.group(Delimiter::Brace).is_some();
        cursor.at += 1;
    }
    made
}

impl Block {
    /// Whether a position of the file is in it; in an expansion, whether the call was given there what became of it.
    pub fn contains(&self, at: Position) -> bool {
        self.span.contains(at) || self.given.iter().any(|it| it.contains(at))
    }

    /// Whether a position may be in it: it stands in a file, or its call was given some of it.
    pub fn is_given(&self) -> bool {
        !self.span.is_of_macro() || !self.given.is_empty()
    }

    /// The outermost blocks in it, where it is none itself. Those of a module among its items are left out, since they
    /// stand in another place.
    fn outermost(self) -> Vec<Arc<Block>> {
        let mut made = Vec::new();
        let mut blocks = self.blocks.into_iter().peekable();
        for (number, item) in self.items.into_iter().enumerate() {
            while let Some(it) = blocks.next_if(|it| it.before <= number) {
                made.push(it);
            }
            made.extend(item.blocks);
            if let ItemKind::Trait(inner) | ItemKind::Impl { items: inner, .. } | ItemKind::ExternBlock(inner) =
                item.kind
            {
                made.extend(inner.into_iter().flat_map(|it| it.blocks));
            }
        }
        made.extend(blocks);
        made
    }
}

impl Cursor<'_> {
    /// An item, or a macro call that is a statement. Nothing is taken where neither begins here.
    fn statement(&mut self) -> Option<Item> {
        let from = self.at;
        let attributes = self.attributes(false);
        if self.begins_item() {
            self.at = from;
            let item = self.item(Where::Module);
            if let Ok(Some(it)) = item {
                return Some(it);
            }
        } else if let Some(mut it) = self.statement_call() {
            it.attributes = attributes;
            return Some(it);
        }
        self.at = from;
        None
    }

    /// Whether an item begins here, and no expression and no pattern.
    fn begins_item(&self) -> bool {
        let word = |by: usize| self.ahead(by).and_then(Token::word).unwrap_or("");
        let is = |by: usize, punct: &str| self.ahead(by).is_some_and(|it| it.is(punct));
        let is_group = |by: usize| self.ahead(by).is_some_and(|it| matches!(it.kind, Kind::Group(..)));
        match word(0) {
            "fn" | "struct" | "enum" | "mod" | "trait" | "type" => !word(1).is_empty(),
            "pub" => !word(1).is_empty() || is_group(1),
            "impl" => true,
            "use" => !is(1, "<"),
            "macro_rules" => is(1, "!") && !word(2).is_empty(),
            "macro" => !word(1).is_empty() && is_group(2),
            "union" => !word(1).is_empty() && (is_group(2) || is(2, "<") || word(2) == "where"),
            "auto" => word(1) == "trait",
            "static" => !matches!(word(1), "" | "move" | "async"),
            "const" => !matches!(word(1), "" | "move") && (is(2, ":") || is_qualifier(word(1)) || word(1) == "mut"),
            "extern" => true,
            "unsafe" => matches!(word(1), "fn" | "impl" | "trait" | "extern" | "mod" | "auto"),
            "async" => matches!(word(1), "fn" | "unsafe" | "extern"),
            "gen" => word(1) == "fn",
            _ => false,
        }
    }

    /// A macro call that is a statement: in braces, or with a semicolon.
    fn statement_call(&mut self) -> Option<Item> {
        let from = self.at;
        let start = self.peek().filter(|it| !it.word().is_some_and(is_of_expression))?.span;
        let path = self.path()?;
        let Some(Token { kind: Kind::Group(delimiter, input), span }) = self.ahead(1).filter(|_| self.sees("!")) else {
            return None;
        };
        self.at += 2;
        let goes_on = |it: &Token| matches!(it.kind, Kind::Punct(it) if !matches!(it, ";" | "#" | "*" | "&" | "|"));
        let is_whole = match delimiter {
            Delimiter::Brace => !self.peek().is_some_and(goes_on),
            _ => self.takes(";"),
        };
        if !is_whole {
            return None;
        }
        let mut call = Call::new(path, input, true);
        let read = block(input, Span::default());
        let has_items = read.items.iter().any(|it| !matches!(it.kind, ItemKind::Call(_)));
        let blocks = blocks_if_rust(read, input);
        call.may_give_back_items = has_items || blocks.is_none();
        Some(Item {
            attributes: Vec::new(),
            visibility: Visibility::default(),
            name: None,
            kind: ItemKind::Call(Arc::new(call)),
            input: None,
            text: Hash::default(),
            start: start.start,
            span: Span { start: start.start, end: span.end },
            head: Span { start: start.start, end: span.end },
            given: pieces_given(&self.tokens[from..self.at]),
            blocks: blocks.unwrap_or_default(),
        })
    }
}

#[cfg(test)]
mod tests {
    use crate::syntax::{Block, Item, ItemKind};
    use crate::token::{on_a_thread, tokens_of, Hash};

    /// The items as `name(their items)`, and the blocks in bodies as `{..}`.
    fn shown(items: &[Item]) -> String {
        let all: Vec<String> = items.iter().map(shown_item).collect();
        all.join(" ")
    }

    fn shown_item(item: &Item) -> String {
        let name = match &item.kind {
            ItemKind::Use(_) => "use".to_owned(),
            ItemKind::Impl { .. } => "impl".to_owned(),
            ItemKind::ExternBlock(_) => "extern".to_owned(),
            ItemKind::Call(it) => format!("{}!", it.path.text),
            _ => item.name_text().to_owned(),
        };
        let inner = match &item.kind {
            ItemKind::Module(Some(it))
            | ItemKind::Trait(it)
            | ItemKind::Impl { items: it, .. }
            | ItemKind::ExternBlock(it) => format!("({})", shown(it)),
            _ => String::new(),
        };
        let blocks: String = item.blocks.iter().map(|it| shown_block(it)).collect();
        format!("{name}{inner}{blocks}")
    }

    fn shown_block(block: &Block) -> String {
        let inner: String = block.blocks.iter().map(|it| shown_block(it)).collect();
        format!("{{{}{}{inner}}}", shown(&block.items), if inner.is_empty() { "" } else { "; " })
    }

    fn check(text: &str, wanted: &str) {
        let unit = on_a_thread(|| crate::syntax::unit_of(&tokens_of(text).unwrap(), Hash::default())).unwrap();
        assert_eq!(shown(&unit.items), wanted, "{text}");
    }

    #[test]
    fn bodies_with_items() {
        check("fn f() {} fn g() { let x = 1; h(x) }", "f g");
        check("fn f() { struct S; use a::b; S }", "f{S use}");
        check("fn f() -> [u8; 2] { let x = 1; const N: u8 = 1; [N, x] }", "f{N}");
        check("fn f() { if x { fn g() {} } mod m { fn h() {} } }", "f{m(h); {g}}");
        check("const C: u8 = { enum E { A } 1 }; static S: u8 = { type T = u8; 1 };", "C{E} S{T}");
        check(
            "impl S { fn f(&self) { use a::b; } } trait T { fn g() { struct U; } fn h(); }",
            "impl(f{use}) T(g{U} h)",
        );
        check("mod m { fn f() { trait T {} } }", "m(f{T()})");
        check("async fn f() { #![allow(x)] #[cfg(y)] pub(crate) struct S; unsafe impl T for S {} }", "f{S impl()}");
        check("fn f() { extern \"C\" { fn g(); } extern crate a; macro_rules! m { () => {} } }", "f{extern(g) a m}");
        check("fn f() { unsafe extern \"C\" fn g() {} const fn h() {} static mut X: u8 = 1; }", "f{g h X}");
        check(
            "fn f() { union U { a: u8 } impl U { fn g() {} } unsafe trait T {} async fn h() {} }",
            "f{U impl(g) T() h}",
        );
    }

    #[test]
    fn blocks_in_blocks() {
        check("fn f() { { { struct S; } } }", "f{S}");
        check("fn f() { struct A; { struct B; { let x = 1; { struct C; } } } }", "f{A; {B; {C}}}");
        check("fn f() { { struct A; } let x = 1; { struct B; } }", "f{A}{B}");
        check("fn f() { fn g() { struct A; fn h() { struct B; } } }", "f{g{A h{B}}}");
        check("fn f() { g(|x| { use a::b; x }, [1].map(|_| { const N: u8 = 1; N })); }", "f{use}{N}");
        check("fn f() { match x { A => { use a::b; } B => {} } for i in j { fn g() {} } struct S; }", "f{S; {use}{g}}");
        check("fn f() { let s = S { a: { use b::c; 1 }, d }; }", "f{use}");
        check("fn f() { if !{ use a::b; c } {} async move { struct S; }; }", "f{use}{S}");
    }

    #[test]
    fn what_is_no_item() {
        check("fn f() { unsafe { g() } async { h() }; async move {}; const { 1 }; static || {}; }", "f");
        check("fn f() { let union = 1; union + 1; union.x; auto = 2; let g: fn(u8) = h; }", "f");
        check("fn f() { x as *const u8; &raw const y; *const_it; const || 1; }", "f");
        check("fn f() { m! { S } g!{}.h(); m!({ b }) }", "f");
        check("#[m({ struct A; })] fn f() { #[m({ struct A; })] g(); #![m({ struct B; })] h() }", "f");
        check("struct S { struct_: u8, pub fn_: u8 } enum E { A { pub union: u8 }, B = { 1 } }", "S E");
        check("fn f() { let macro_rules = 1; macro_rules!(x); crate::a(); type_of(); }", "f");
        check("fn f() { struct; fn }", "f");
    }

    #[test]
    fn types_and_values_with_items() {
        check("struct S { pub a: [u8; { struct A; 1 }], b: P<{ use m::N; N }> }", "S{A}{use}");
        check("struct U([u8; { const C: usize = 1; C }]); struct P<const N: usize = { struct A; 1 }>;", "U{C} P{A}");
        check("union U { a: [u8; { fn g() {} 1 }] } type T = [u8; { struct A; 1 }];", "U{g} T{A}");
        check(
            "enum E { A = { struct S; 1 }, B { x: [u8; { use m::N; N }] }, C([u8; { fn g() {} 1 }]) }",
            "E{S}{use}{g}",
        );
        check("trait T where [u8; { struct A; 1 }]: Sized { type X; fn f() { struct B; } }", "T(X f{B}){A}");
        check(
            "impl P<{ struct A; 1 }> for [u8; { struct B; 1 }] { type X = [u8; { struct C; 1 }]; }",
            "impl(X{C}){A}{B}",
        );
        check(
            "extern \"C\" { fn g(x: &[u8; { struct A; 1 }]); static Y: [u8; { use m::N; N }]; }",
            "extern(g{A} Y{use})",
        );
        check("fn f(x: [u8; { struct A; 1 }]) -> P<{ struct B; 1 }> { struct C; }", "f{A}{B}{C}");
        check("fn f() { struct S { a: [u8; { struct A; 1 }] } let x: [u8; { struct B; 1 }]; }", "f{S{A}; {B}}");
    }

    #[test]
    fn what_macros_are_called_with() {
        check("fn f() { println!(\"{}\", { use a::b; b }); }", "f{use}");
        check("fn f() { vec![{ const N: u8 = 1; N }; 2]; m!({ struct S; }, x = |y| { fn g() {} },) }", "f{N}{S}{g}");
        check("fn f() { assert!(matches!(x, y if { fn g() {} g(y) })); matches!(x, y if z) }", "f");
        check("fn f() { n!(m!({ use a::b; b })); a::m! { let x = { struct S; 1 }; x } }", "f{use}{S}");
        check("fn f() { struct S; m!({ struct T; }); }", "f{S m!{T}}");
        check("fn f() { m!({ struct A; }); { struct B; } n!({ struct C; }) }", "f{A}{B}{C}");
        // The items themselves are where the macro puts them, as in the body.
        check("fn f() { m! { struct S; fn g() { use a::b; } impl S { fn h() { struct T; } } } }", "f{m!{use}{T}}");
        check(
            "fn f() { thread_local! { static X: u8 = 1; } m!(use a::b;); n!({ struct S; }) }",
            "f{thread_local! m!; {S}}",
        );
        check("fn f() { let x = m! { struct S; }; g(n!(fn h() {})); o!(p! { struct S; }) }", "f");
        check("thread_local! { static X: u8 = { use a::b; b }; }", "thread_local!{use}");
        check("m! { fn f() { struct S; } mod n { fn g() { struct T; } } }", "m!{S}");
        // What isn't Rust.
        check("cfg_if! { if #[cfg(unix)] { use a::b; } else { use a::c; } }", "cfg_if!");
        check(
            "fn f() { m!(x => { use a::b; }); m!(static ref X: u8 = { use a::b; b };); m! d { { use a::b; } } }",
            "f{m! m!}",
        );
    }

    #[test]
    fn calls_as_statements() {
        check("fn f() { struct S; m!(S); n![]; o! {} a::p! { x } }", "f{S m! n! o! a::p!}");
        check("fn f() { struct S; let x = m!(S); n!(); o!() }", "f{S n!}");
        check("fn f() { struct S; m! {}.x; n! {} + 1; o! {} }", "f{S o!}");
        check("fn f() { { cfg_if! { if #[cfg(x)] { use a::b; } } m! { c } } n!(d); }", "f{cfg_if! m!}");
        check("fn f() { macro_rules! d { () => {} } d!{} { d!(); use a::b; } }", "f{d d!; {d! use}}");
    }
}
