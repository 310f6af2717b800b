//! How an item is declared: its first lines and its documentation.

use super::text::Text;
use crate::cfg::string_of;
use crate::syntax::{Block, Item, ItemKind};
use crate::token::{on_a_thread, tokens_of, Kind, Position, Span, Token};

#[derive(PartialEq, Eq, Debug)]
pub struct Declaration {
    /// Without attributes, a body, a value, or what stands in its braces.
    pub head: String,
    /// Markdown, or nothing.
    pub documentation: String,
}

impl Declaration {
    /// As Markdown.
    pub fn text(&self) -> String {
        let documentation =
            if self.documentation.is_empty() { String::new() } else { format!("\n\n{}", self.documentation) };
        format!("```rust\n{}\n```{documentation}", self.head)
    }
}

/// The item or variant whose name begins at a place.
pub fn declaration_at(items: &[Item], at: Position, text: &Text) -> Option<Declaration> {
    let declaration = |start: Position, head: Span| {
        let before = text.line_before(head.start);
        let indent = before.len() - before.trim_start().len();
        let decoration = text.written(Span { start, end: head.start });
        Declaration { head: dedented(text.written(head), indent), documentation: documentation_of(decoration, false) }
    };
    let begins = |span: Span| span.start == at;
    // What an item of a trait or an impl is written in comes later in the text than its own name.
    for item in items.iter().filter(|it| it.span.start <= at && at <= it.span.end) {
        if item.name.as_ref().is_some_and(|it| begins(it.span)) {
            return Some(declaration(item.start, item.head));
        }
        let inner = match &item.kind {
            ItemKind::Module(Some(inner))
            | ItemKind::ExternBlock(inner)
            | ItemKind::Trait(inner)
            | ItemKind::Impl { items: inner, .. } => declaration_at(inner, at, text),
            ItemKind::Enum(variants) => {
                let found = variants.iter().find(|it| begins(it.name.span));
                found.map(|it| declaration(it.start, it.span))
            }
            _ => None,
        };
        let found = inner.or_else(|| in_blocks(&item.blocks, at, text));
        if found.is_some() {
            return found;
        }
    }
    None
}

fn in_blocks(blocks: &[std::sync::Arc<Block>], at: Position, text: &Text) -> Option<Declaration> {
    blocks.iter().find_map(|it| declaration_at(&it.items, at, text).or_else(|| in_blocks(&it.blocks, at, text)))
}

/// What the comments and attributes `doc` at the beginning of a text say: those before an item, or those at the top of
/// what it stands in.
pub fn documentation_of(text: &str, is_inner: bool) -> String {
    on_a_thread(|| documentation_in(&tokens_of(text).unwrap_or_default(), is_inner))
}

fn documentation_in(tokens: &[Token], is_inner: bool) -> String {
    let mut rest = tokens;
    let mut lines: Vec<String> = Vec::new();
    loop {
        let attribute = match (rest, is_inner) {
            ([hash, bang, Token { kind: Kind::Group(_, it), .. }, ..], true) if hash.is("#") && bang.is("!") => it,
            ([hash, Token { kind: Kind::Group(_, it), .. }, ..], false) if hash.is("#") => it,
            _ => break,
        };
        rest = &rest[2 + usize::from(is_inner)..];
        if let [word, equals, Token { kind: Kind::Literal(literal), .. }] = &attribute[..] {
            let text = string_of(literal).filter(|_| word.is_word("doc") && equals.is("="));
            let Some(text) = text else {
                continue;
            };
            lines.extend(text.lines().map(|it| it.strip_prefix(' ').unwrap_or(it).to_owned()));
            if text.is_empty() {
                lines.push(String::new());
            }
        }
    }
    lines.join("\n").trim().to_owned()
}

/// The text, with so much less white space before its lines.
fn dedented(text: &str, indent: usize) -> String {
    let less = |line: &str| {
        let most = line.len() - line.trim_start().len();
        line[indent.min(most)..].to_owned()
    };
    text.lines().map(less).collect::<Vec<_>>().join("\n")
}

#[cfg(test)]
mod tests {
    use super::*;
    use crate::syntax::unit_of;
    use crate::token::Hash;

    const TEXT: &str = "\
/// A shop.
///
///     indented
#[inline]
#[doc = \"And more.\"]
pub(crate) fn shop<T>(
    name: T,
) -> u8
where
    T: Copy,
{
    struct Inner;
    1
}
mod m {
    impl A {
        /** The price. */
        pub const fn price(
            &self,
        ) -> u8 {
            1
        }
    }
    enum E {
        /// Empty.
        None,
        Some { x: u8 },
    }
    const LIMIT: u8 = 1;
    struct Pair(u8, u8);
}
";

    fn check(name: &str, wanted: Option<(&str, &str)>) {
        let unit = on_a_thread(|| unit_of(&tokens_of(TEXT).unwrap(), Hash::default())).unwrap();
        let text = Text::new(TEXT.to_owned());
        let at = text.position(TEXT.find(name).unwrap());
        let found = declaration_at(&unit.items, at, &text);
        let found = found.as_ref().map(|it| (&*it.head, &*it.documentation));
        assert_eq!(found, wanted, "{name}");
    }

    #[test]
    fn items_where_they_are_declared() {
        let head = "pub(crate) fn shop<T>(\n    name: T,\n) -> u8\nwhere\n    T: Copy,";
        check("shop<T>", Some((head, "A shop.\n\n    indented\nAnd more.")));
        check("Inner;", Some(("struct Inner", "")));
        check("m {", Some(("mod m", "")));
        check("price(", Some(("pub const fn price(\n    &self,\n) -> u8", "The price.")));
        check("E {", Some(("enum E", "")));
        check("None,", Some(("None", "Empty.")));
        check("Some {", Some(("Some { x: u8 }", "")));
        check("LIMIT", Some(("const LIMIT: u8", "")));
        check("Pair", Some(("struct Pair(u8, u8)", "")));
        check("name: T", None);
    }

    #[test]
    fn documentation_at_the_top() {
        let text = "#![allow(x)]\n//! A \"shop\".\n//!\n//! Of é.\n/// An item.\nfn f() {}";
        assert_eq!(documentation_of(text, true), "A \"shop\".\n\nOf é.");
        assert_eq!(documentation_of(text, false), "");
        assert_eq!(documentation_of("/// An { item.\n#[a(b)] fn", false), "An { item.");
        assert_eq!(documentation_of("{", true), "");
    }
}
