//! The symbols of a file: its items, with what is in them.

use super::text::Text;
use crate::syntax::{Block, Field, Item, ItemKind, Shape, Variant};
use crate::token::{Position, Span};

/// An item, a variant or a field.
#[derive(Debug)]
pub struct Symbol {
    /// As it is shown.
    pub name: String,
    /// What it is beside its name: a signature, a type.
    pub detail: String,
    /// By the protocol's numbers.
    pub kind: u32,
    /// With its attributes and documentation.
    pub span: Span,
    /// Where its name stands, or what it begins with.
    pub name_span: Span,
    /// What is declared in it.
    pub children: Vec<Symbol>,
}

const MODULE: u32 = 2;
const METHOD: u32 = 6;
pub(super) const FIELD: u32 = 8;
const ENUM: u32 = 10;
const INTERFACE: u32 = 11;
const FUNCTION: u32 = 12;
const CONSTANT: u32 = 14;
pub(super) const OBJECT: u32 = 19;
const ENUM_MEMBER: u32 = 22;
const STRUCT: u32 = 23;
const TYPE_PARAMETER: u32 = 26;

/// The symbols of these items of a text.
pub fn symbols_of(items: &[Item], text: &Text) -> Vec<Symbol> {
    items.iter().filter_map(|it| Some(symbol_of(it, kind_of(it, text)?, text))).collect()
}

fn kind_of(item: &Item, text: &Text) -> Option<u32> {
    Some(match &item.kind {
        ItemKind::Module(_) | ItemKind::ExternBlock(_) => MODULE,
        ItemKind::Struct { .. } | ItemKind::Union { .. } => STRUCT,
        ItemKind::Enum(_) => ENUM,
        ItemKind::Trait(_) => INTERFACE,
        ItemKind::Impl { .. } => OBJECT,
        ItemKind::Function if takes_self(text.written(item.head)) => METHOD,
        ItemKind::Function | ItemKind::Macro(_) => FUNCTION,
        ItemKind::Constant | ItemKind::Static => CONSTANT,
        ItemKind::TypeAlias(_) => TYPE_PARAMETER,
        ItemKind::Use(_) | ItemKind::ExternCrate { .. } | ItemKind::Call(_) => return None,
    })
}

fn symbol_of(item: &Item, kind: u32, text: &Text) -> Symbol {
    let name = match &item.name {
        Some(it) => it.text.to_string(),
        None => one_line(text.written(item.head)),
    };
    let name_span = item.name.as_ref().map_or(item.head, |it| it.span);
    let mut children = match &item.kind {
        ItemKind::Module(Some(inner))
        | ItemKind::ExternBlock(inner)
        | ItemKind::Trait(inner)
        | ItemKind::Impl { items: inner, .. } => symbols_of(inner, text),
        ItemKind::Struct { fields, .. } | ItemKind::Union { fields } => fields_of(fields, text),
        ItemKind::Enum(variants) => variants.iter().map(|it| variant_of(it, text)).collect(),
        _ => Vec::new(),
    };
    children.extend(symbols_in(&item.blocks, text));
    let span = Span { start: item.start, end: item.span.end };
    Symbol { name, detail: detail_of(item, text), kind, span, name_span, children }
}

/// The symbols of the items in blocks.
fn symbols_in(blocks: &[std::sync::Arc<Block>], text: &Text) -> Vec<Symbol> {
    let mut made = Vec::new();
    for it in blocks {
        made.extend(symbols_of(&it.items, text));
        made.extend(symbols_in(&it.blocks, text));
    }
    made
}

fn fields_of(fields: &[Field], text: &Text) -> Vec<Symbol> {
    let named = fields.iter().filter_map(|it| Some((it, it.name.as_ref()?)));
    let symbol = |(field, name): (&Field, &crate::syntax::Name)| Symbol {
        name: name.text.to_string(),
        detail: behind(":", name.span.end, field.span.end, text),
        kind: FIELD,
        span: field.span,
        name_span: name.span,
        children: Vec::new(),
    };
    named.map(symbol).collect()
}

fn variant_of(variant: &Variant, text: &Text) -> Symbol {
    let is_record = variant.shape == Shape::Record;
    Symbol {
        name: variant.name.text.to_string(),
        detail: if is_record { String::new() } else { behind("", variant.name.span.end, variant.span.end, text) },
        kind: ENUM_MEMBER,
        span: Span { start: variant.start, end: variant.span.end },
        name_span: variant.name.span,
        children: fields_of(&variant.fields, text),
    }
}

/// The signature of a function, the type of a constant, what an alias stands for.
fn detail_of(item: &Item, text: &Text) -> String {
    let Some(name) = &item.name else {
        return String::new();
    };
    let behind = |mark| behind(mark, name.span.end, item.head.end, text);
    match &item.kind {
        ItemKind::Function => format!("fn{}", behind("")),
        ItemKind::Constant | ItemKind::Static => behind(":"),
        ItemKind::TypeAlias(_) => behind("").split_once("= ").map_or(String::new(), |it| it.1.to_owned()),
        _ => String::new(),
    }
}

/// What stands between two places, behind a mark.
fn behind(mark: &str, start: Position, end: Position, text: &Text) -> String {
    let it = text.written(Span { start, end }).trim_start();
    one_line(it.strip_prefix(mark).unwrap_or(it))
}

fn one_line(text: &str) -> String {
    text.split_whitespace().collect::<Vec<_>>().join(" ")
}

/// Whether a list of parameters begins with `self`.
fn takes_self(head: &str) -> bool {
    head.split('(').skip(1).any(|it| {
        let first = it
            .split([',', ')', ':'])
            .next()
            .unwrap_or_default()
            .trim_start_matches(|it: char| it == '&' || it.is_whitespace());
        first.split_whitespace().find(|it| *it != "mut" && !it.starts_with('\'')) == Some("self")
    })
}

#[cfg(test)]
mod tests {
    use super::*;
    use crate::syntax::unit_of;
    use crate::token::{on_a_thread, tokens_of, Hash};

    /// Each symbol as `kind name: detail`, with those in it.
    fn shown(symbols: &[Symbol]) -> String {
        let one = |it: &Symbol| {
            let detail = if it.detail.is_empty() { String::new() } else { format!(": {}", it.detail) };
            let inner = if it.children.is_empty() { String::new() } else { format!(" [{}]", shown(&it.children)) };
            format!("{} {}{detail}{inner}", it.kind, it.name)
        };
        symbols.iter().map(one).collect::<Vec<_>>().join("; ")
    }

    fn symbols(text: &str) -> (Vec<Symbol>, Text) {
        let unit = on_a_thread(|| unit_of(&tokens_of(text).unwrap(), Hash::default())).unwrap();
        let text = Text::new(text.to_owned());
        (symbols_of(&unit.items, &text), text)
    }

    fn check(text: &str, wanted: &str) {
        assert_eq!(shown(&symbols(text).0), wanted, "{text}");
    }

    #[test]
    fn items_with_what_is_in_them() {
        check(
            "mod m { fn f() {} mod n; } extern \"C\" { fn g(); }",
            "2 m [12 f: fn(); 2 n]; 2 extern \"C\" [12 g: fn()]",
        );
        check(
            "struct S<T> { pub a: Vec<T>, b: (u8, u8) } struct U(u8); struct V;",
            "23 S [8 a: Vec<T>; 8 b: (u8, u8)]; 23 U; 23 V",
        );
        check("enum E { A, B(u8, T), C { x: u8 }, D = 1 }", "10 E [22 A; 22 B: (u8, T); 22 C [8 x: u8]; 22 D: = 1]");
        check("union U { a: u8 } type T<A> = B<A>; use a::b; extern crate c; m!{}", "23 U [8 a: u8]; 26 T: B<A>");
        check(
            "const C: [u8; 2] = [1; 2]; static mut S: u8 = 1; const _: () = {};",
            "14 C: [u8; 2]; 14 S: u8; 14 const _: ()",
        );
        check("macro_rules! m { () => {} } macro n($x:tt) {}", "12 m; 12 n");
    }

    #[test]
    fn methods_take_self() {
        let text = "impl<T> A for B<T>\nwhere T: C { fn a(self); fn b(&mut self, x: u8) -> u8 { 1 } fn c(x: u8) where Self: Sized {} }";
        let wanted = "19 impl<T> A for B<T> where T: C [6 a: fn(self); 6 b: fn(&mut self, x: u8) -> u8; \
                      12 c: fn(x: u8) where Self: Sized]";
        check(text, wanted);
        let text =
            "trait T { fn a<F: Fn(u8)>(&'a self, f: F); fn b(self: Box<Self>); fn c(self_: u8); type X; const C: u8; }";
        let wanted =
            "11 T [6 a: fn<F: Fn(u8)>(&'a self, f: F); 6 b: fn(self: Box<Self>); 12 c: fn(self_: u8); 26 X; 14 C: u8]";
        check(text, wanted);
    }

    #[test]
    fn items_in_bodies() {
        check(
            "fn f() { struct S { a: u8 } { fn g() {} } } m! { fn h() { const C: u8 = 1; } }",
            "12 f: fn() [23 S [8 a: u8]; 12 g: fn()]",
        );
    }

    #[test]
    fn where_they_stand() {
        let text = "\n/// It é\n#[a]\npub struct S { #[b] x: u8, }\nmod m { #![c] }";
        let (symbols, text) = symbols(text);
        let spans = |it: &Symbol| [it.span, it.name_span].map(|it| text.written(it).to_owned());
        assert_eq!(spans(&symbols[0]), ["/// It é\n#[a]\npub struct S { #[b] x: u8, }", "S"]);
        assert_eq!(spans(&symbols[0].children[0]), ["x: u8", "x"]);
        assert_eq!(spans(&symbols[1]), ["mod m { #![c] }", "m"]);
    }
}
