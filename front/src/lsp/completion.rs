//! Completion: the names that may stand next in the path that is typed.

use std::io::Write;
use std::ops::Range;

use anyhow::Result;
use serde_json::{json, Value};

use super::text::Text;
use super::{place_of, Failure, Server};
use crate::next::{Asked, Next};
use crate::site::{site_with_names, Around, Holder, Site};
use crate::token::{on_a_thread, tokens_of, Kind, Position, Span, Token};

/// Stands behind what is typed of a name, so that there is a word.
const MARK: &str = "nogsimat";

/// Of more brackets than this the partners aren't put in.
const MOST_OPEN: usize = 100;

/// Words that are no names where they are written without `r#`.
const RESERVED: [&str; 47] = [
    "abstract", "as", "async", "await", "become", "box", "break", "const", "continue", "do", "dyn", "else", "enum",
    "extern", "false", "final", "fn", "for", "if", "impl", "in", "let", "loop", "macro", "match", "mod", "move", "mut",
    "override", "priv", "pub", "ref", "return", "static", "struct", "trait", "true", "try", "type", "typeof", "unsafe",
    "unsized", "use", "virtual", "where", "while", "yield",
];

impl<W: Write> Server<W> {
    pub(super) fn completion(&mut self, params: &Value) -> Result<Result<Value, Failure>> {
        let (key, at) = match self.asked(params) {
            Ok(it) => it,
            Err(it) => return Ok(Err(it)),
        };
        let unit_text = self.unit_text(&key);
        let text = self.documents.get(&key).map_or(&unit_text, |it| &it.text).clone();
        let (line, character) = place_of(&params["position"]).unwrap_or_default();
        let offset = text.offset(line, character);
        let is_half = params["context"]["triggerCharacter"] == ":" && !text.as_str()[..offset].ends_with("::");
        let Some(space) = self.space.as_ref().filter(|_| !is_half) else {
            return Ok(Ok(json!([])));
        };
        let krate = space.crates_of(&key).first().copied();
        let Some(krate) = krate.filter(|_| space.parsed(&key).is_some()) else {
            return Ok(Ok(json!([])));
        };
        let around = space.blocks_of(krate, &key).into_iter().map(|it| it.1.block.span).filter(|it| it.contains(at));
        // What stands before the place is the same in both texts, or what is typed has no items yet.
        let starts: Vec<usize> = around.map(|it| unit_text.moved(&text, unit_text.offset_of(it.start))).collect();
        let Some(Typed { site, names, holder, range }) = typed(&text, offset, &starts) else {
            return Ok(Ok(json!([])));
        };
        let place = |offset: usize| space.place_of(krate, &key, unit_text.position(text.moved(&unit_text, offset)));
        let asked = Asked {
            krate,
            place: space.place_of(krate, &key, at),
            before: site.path.rsplit_once("::").map(|it| it.0.to_owned()),
            context: site.context,
            goes_on: site.goes_on,
            holder: holder.map(|(it, offset)| (it, place(offset))),
            names,
        };
        let names = self.with_space(|it| it.next_names(&asked))?.unwrap_or_default();
        let range = text.range_of(range);
        Ok(Ok(names.iter().map(|it| item(it, &range)).collect()))
    }
}

/// A name as the editor takes it, in place of what is typed of it.
fn item(next: &Next, range: &Value) -> Value {
    let is_keyword = next.what == "keyword";
    let name = if is_keyword { next.name.clone() } else { written(&next.name) };
    let behind = if next.is_called { "!" } else { "" };
    let kind = match &*next.what {
        "crate" | "module" => 9,
        "function" | "macro" | "procedural macro" | "associated function" => 3,
        "local variable" => 6,
        "struct" | "union" | "builtin type" | "type alias" | "associated type" => 22,
        "enum" => 13,
        "variant" => 20,
        "trait" => 8,
        "constant" | "static" | "associated constant" => 21,
        "keyword" => 14,
        "generic parameter" => 25,
        _ => 1,
    };
    let mut made = json!({
        "label": format!("{}{behind}", next.name),
        "kind": kind,
        "textEdit": {"range": range, "newText": format!("{name}{behind}")},
    });
    if !is_keyword {
        made["detail"] = format!("{} {}", next.what, next.path).trim_end().into();
    }
    made
}

/// A name as it is written in a text.
pub(super) fn written(name: &str) -> String {
    let raw = if RESERVED.contains(&name) { "r#" } else { "" };
    format!("{raw}{name}")
}

/// A path that is typed.
struct Typed {
    /// With a mark at its end.
    site: Site,
    /// See [`Asked`].
    names: Vec<(String, &'static str)>,
    /// What it begins with, and at which offset that is declared.
    holder: Option<(Holder, usize)>,
    /// Where what is typed of the last name stands.
    range: Range<usize>,
}

/// The path that is typed at an offset. The program has the items of the blocks that begin at these offsets.
fn typed(text: &Text, offset: usize, blocks: &[usize]) -> Option<Typed> {
    let (before, behind) = text.as_str().split_at(offset);
    let marked = Text::new(format!("{before}{MARK}{behind}"));
    let read = |it: &Text| on_a_thread(|| tokens_of(it.as_str()).ok());
    let (marked, tokens) = match read(&marked) {
        Some(it) => (marked, it),
        None => {
            let closed = Text::new(closed(format!("{before}{MARK}"))?);
            let tokens = read(&closed)?;
            (closed, tokens)
        }
    };
    let starts: Vec<Position> = blocks.iter().map(|it| marked.position(*it)).collect();
    let mut spans = Vec::new();
    groups_at(&tokens, &starts, &mut spans);
    let at = marked.position(offset);
    let is_typed = |word: &str, span: Span| span.contains(at) && word.contains(MARK);
    let (site, Around { holder, mut names }) = on_a_thread(|| site_with_names(&tokens, &spans, &is_typed))?;
    names.retain(|it| !it.0.contains(MARK));
    let holder = holder.map(|it| {
        let at = marked.offset_of(it.at);
        (it, at)
    });
    let (start, end) = (marked.offset_of(site.span.start), marked.offset_of(site.span.end));
    Some(Typed { site, names, holder, range: start..end.checked_sub(MARK.len())? })
}

/// The text with the partners of the brackets behind it that are open at its end.
fn closed(mut text: String) -> Option<String> {
    for _ in 0..MOST_OPEN {
        // The error stands at the innermost of them.
        let Err(error) = on_a_thread(|| tokens_of(&text).map(|_| ())) else {
            return Some(text);
        };
        let at = Text::new(text.clone()).offset_of(error.at.start);
        text.push(match text[at..].chars().next()? {
            '(' => ')',
            '[' => ']',
            '{' => '}',
            _ => return None,
        });
    }
    None
}

/// Where the groups stand that begin at these positions.
fn groups_at(tokens: &[Token], starts: &[Position], made: &mut Vec<Span>) {
    for it in tokens {
        if let Kind::Group(_, inner) = &it.kind {
            if starts.contains(&it.span.start) {
                made.push(it.span);
            }
            if starts.iter().any(|at| it.span.contains(*at)) {
                groups_at(inner, starts, made);
            }
        }
    }
}

#[cfg(test)]
mod tests {
    use super::*;
    use crate::question::Context;

    /// The path before what is typed at the `|`, what is typed of its last name, and how the path is used.
    fn found(text: &str) -> Option<(Option<String>, String, Context)> {
        let offset = text.find('|').unwrap();
        let text = Text::new(text.replacen('|', "", 1));
        let Typed { site, range, .. } = typed(&text, offset, &[])?;
        let before = site.path.rsplit_once("::").map(|it| it.0.to_owned());
        Some((before, text.as_str()[range].to_owned(), site.context))
    }

    fn check(text: &str, before: Option<&str>, word: &str, context: Context) {
        assert_eq!(found(text), Some((before.map(str::to_owned), word.to_owned(), context)), "{text}");
    }

    #[test]
    fn paths_that_are_typed() {
        check("use |;", None, "", Context::Import);
        check("use a::b::|;", Some("a::b"), "", Context::Import);
        check("use a::b::|\nfn f() {}", Some("a::b"), "", Context::Import);
        check("use a::{b, c::d|};", Some("a::c"), "d", Context::Import);
        check("use ::|;", Some(""), "", Context::Import);
        check("use a::r#ty|;", Some("a"), "r#ty", Context::Import);
        check("fn f() { a::B|c(); }", Some("a"), "Bc", Context::Plain);
        check("fn f(it: crate::|) {}", Some("crate"), "", Context::Plain);
        check("fn f() { let x = | }", None, "", Context::Plain);
        check("fn f() { a::w|!(); }", Some("a"), "w", Context::Call);
        check("#[derive(a::|)] struct S;", Some("a"), "", Context::Attribute);
        check("#[|] struct S;", None, "", Context::Attribute);
        check("fn f() { v![é::b|] }", Some("é"), "b", Context::Plain);
    }

    #[test]
    fn brackets_without_partners() {
        check("fn f() { g(a::|", Some("a"), "", Context::Plain);
        check("fn f() { g(h[a::b|\n}\nfn g() { (", Some("a"), "b", Context::Plain);
        check("use a::{b, c::|\n\nfn f() {}", Some("a::c"), "", Context::Import);
        check("mod m { /* ( */ use a::{\"(\", b::|", Some("a::b"), "", Context::Import);
    }

    #[test]
    fn nothing_is_typed() {
        for text in ["// a::|", "\"a::|\"", "\"a::|", "fn |() {}", "fn f() { a.b| }", "fn f() { Self::| }", "1|", "'|'"]
        {
            assert_eq!(found(text), None, "{text}");
        }
        assert_eq!(found("fn f<T>() { T::| }"), None);
        assert_eq!(found("fn f() } a::|"), None);
    }
}
