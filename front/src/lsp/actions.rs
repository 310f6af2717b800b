//! Code actions: an import that nothing names is taken away; one is added for a name that nothing has there.

use std::io::Write;
use std::ops::Range;
use std::sync::Arc;

use anyhow::Result;
use serde_json::{json, Value};

use super::answers::asked_file;
use super::message::INVALID_PARAMS;
use super::text::Text;
use super::{place_of, Failure, Server};
use crate::question::{Context, Question};
use crate::syntax::{Block, Item, ItemKind, UseTree, Visibility};
use crate::token::{has_word, Position, Span};
use crate::unit::joined;
use crate::workspace::Key;

pub(super) const KIND: &str = "quickfix";

/// A name that a `use` brings.
#[derive(Debug)]
struct Imported {
    name: String,
    path: String,
    span: Span,
    /// What goes with it where it is taken away.
    cut: Span,
    /// The whole `use`.
    whole: Span,
}

impl<W: Write> Server<W> {
    pub(super) fn code_actions(&mut self, params: &Value) -> Result<Result<Value, Failure>> {
        let key = match asked_file(params) {
            Ok(it) => it,
            Err(it) => return Ok(Err(it)),
        };
        let places = (place_of(&params["range"]["start"]), place_of(&params["range"]["end"]));
        let (Some(start), Some(end)) = places else {
            return Ok(Err(Failure(INVALID_PARAMS, "`range` has a `start` and an `end`".to_owned())));
        };
        let is_wanted = |it: &Value| it.as_str().is_some_and(|it| it.is_empty() || it == KIND);
        let is_other = params["context"]["only"].as_array().is_some_and(|it| !it.iter().any(is_wanted));
        let text = self.unit_text(&key);
        let is_current = self.documents.get(&key).is_some_and(|it| Arc::ptr_eq(&it.text, &text));
        let parsed = self.space.as_ref().and_then(|it| it.parsed(&key)).filter(|it| it.error.is_none()).cloned();
        let Some(parsed) = parsed.filter(|_| is_current && !is_other) else {
            return Ok(Ok(json!([])));
        };
        let asked = [start, end].map(|it| text.position(text.offset(it.0, it.1)));
        let mut found = Vec::new();
        imports_in(&parsed.unit.items, asked, &mut found);
        let mut actions = Vec::new();
        for it in found {
            if self.is_named(&key, &text, &it) || self.is_trait(&key, &it)? {
                continue;
            }
            let edit = json!({"range": text.range_of(cut_of(&text, &it)), "newText": ""});
            actions.push(json!({
                "title": format!("Remove the import of `{}`, which nothing names", it.name),
                "kind": KIND,
                "edit": {"changes": {self.uri(&key): [edit]}},
            }));
        }
        self.imports_to_add(&key, &text, asked, &mut actions)?;
        Ok(Ok(actions.into()))
    }

    /// Whether the name stands elsewhere in the file, or in one of a module below, in whatever way.
    fn is_named(&mut self, key: &Key, text: &Text, it: &Imported) -> bool {
        let own = text.offset_of(it.whole.start)..text.offset_of(it.whole.end);
        if has_word(text.as_str(), &it.name, own) {
            return true;
        }
        let Some(space) = self.space.as_ref() else {
            return true;
        };
        let mut below: Vec<Key> = Vec::new();
        for krate in space.crates_of(key) {
            let module = space.module_of(krate, key).unwrap_or_default();
            let files = space.files(krate).iter().filter(|it| it.0 != *key && it.1.starts_with(module));
            below.extend(files.map(|it| it.0.clone()));
        }
        below.iter().any(|other| has_word(self.unit_text(other).as_str(), &it.name, 0..0))
    }

    /// Whether it is a trait, whose methods may be called without its name.
    fn is_trait(&mut self, key: &Key, it: &Imported) -> Result<bool> {
        let Some(space) = self.space.as_ref() else {
            return Ok(true);
        };
        let Some(krate) = space.crates_of(key).first().copied() else {
            return Ok(true);
        };
        let place = space.place_of(krate, key, it.span.start);
        let (path, context) = (it.path.clone(), Context::Import);
        let question = Question { krate, place, whole: path.clone(), path, context };
        let replies = self.with_space(|it| it.ask_paths(std::slice::from_ref(&question)))?;
        // Into a stub nobody knows.
        let reply = replies.and_then(|mut it| it.pop()).unwrap_or_default();
        let found = &reply["ok"]["types"]["def"];
        Ok(found.is_null() || found["kind"] == "Trait")
    }
}

/// The names that private imports bring whose place is in the range.
fn imports_in(items: &[Item], asked: [Position; 2], made: &mut Vec<Imported>) {
    let meets = |it: Span| it.start <= asked[1] && asked[0] <= it.end && !it.is_of_macro();
    for item in items.iter().filter(|it| meets(it.span)) {
        match &item.kind {
            ItemKind::Use(tree) if matches!(item.visibility, Visibility::Private | Visibility::Own) => {
                let whole = Span { start: item.start, end: item.span.end };
                let from = made.len();
                leaves_of(tree, "", whole, whole, made);
                let mut at = from;
                while at < made.len() {
                    if meets(made[at].span) {
                        at += 1;
                    } else {
                        made.remove(at);
                    }
                }
            }
            ItemKind::Module(Some(inner)) | ItemKind::Trait(inner) | ItemKind::Impl { items: inner, .. } => {
                imports_in(inner, asked, made);
            }
            _ => {}
        }
        in_blocks(&item.blocks, asked, made);
    }
}

fn in_blocks(blocks: &[Arc<Block>], asked: [Position; 2], made: &mut Vec<Imported>) {
    for it in blocks {
        imports_in(&it.items, asked, made);
        in_blocks(&it.blocks, asked, made);
    }
}

fn span_of(tree: &UseTree) -> Span {
    match tree {
        UseTree::Single { path, alias } => {
            Span { start: path.span.start, end: alias.as_ref().map_or(path.span.end, |it| it.span.end) }
        }
        UseTree::Glob { span, .. } | UseTree::List { span, .. } => *span,
    }
}

fn leaves_of(tree: &UseTree, prefix: &str, cut: Span, whole: Span, made: &mut Vec<Imported>) {
    match tree {
        UseTree::Single { path, alias } => {
            let path = joined(prefix, &path.text);
            let name = match alias {
                Some(it) => it.text.to_string(),
                None => path.rsplit("::").next().unwrap_or_default().to_owned(),
            };
            if name != "_" {
                made.push(Imported { name, path, span: span_of(tree), cut, whole });
            }
        }
        UseTree::Glob { .. } => {}
        UseTree::List { path, trees, .. } => {
            let prefix = joined(prefix, path.as_ref().map_or("", |it| &it.text));
            for (at, it) in trees.iter().enumerate() {
                let (own, next) = (span_of(it), trees.get(at + 1).map(span_of));
                let before = at.checked_sub(1).map(|it| span_of(&trees[it]));
                let cut = match (before, next) {
                    (_, Some(next)) => Span { start: own.start, end: next.start },
                    (Some(before), None) => Span { start: before.end, end: own.end },
                    (None, None) => cut,
                };
                leaves_of(it, &prefix, cut, whole, made);
            }
        }
    }
}

/// What is taken away; of a whole `use` its lines, where nothing else stands on them.
fn cut_of(text: &Text, it: &Imported) -> Range<usize> {
    let (start, end) = (text.offset_of(it.cut.start), text.offset_of(it.cut.end));
    if it.cut != it.whole {
        return start..end.max(start);
    }
    let all = text.as_str();
    let line = all[..start].rfind('\n').map_or(0, |it| it + 1);
    let behind = all[end..].find('\n').map_or(all.len(), |it| end + it + 1);
    let is_alone = all[line..start].trim().is_empty() && all[end..behind].trim().is_empty();
    if is_alone {
        line..behind
    } else {
        start..end
    }
}

#[cfg(test)]
mod tests {
    use super::*;
    use crate::syntax::unit_of;
    use crate::token::{on_a_thread, tokens_of, Hash};

    /// The text without each import in turn, by its name.
    fn check(text: &str, wanted: &[(&str, &str)]) {
        let unit = on_a_thread(|| unit_of(&tokens_of(text).unwrap(), Hash::default())).unwrap();
        let shown = Text::new(text.to_owned());
        let mut found = Vec::new();
        imports_in(&unit.items, [shown.position(0), shown.position(text.len())], &mut found);
        let cut = |it: &Imported| {
            let mut left = text.to_owned();
            left.replace_range(cut_of(&shown, it), "");
            (it.path.clone(), left)
        };
        let made: Vec<(String, String)> = found.iter().map(cut).collect();
        let made: Vec<(&str, &str)> = made.iter().map(|it| (&*it.0, &*it.1)).collect();
        assert_eq!(made, wanted, "{text}");
    }

    #[test]
    fn what_is_taken_away() {
        check("use a::b;\nfn f() {}\n", &[("a::b", "fn f() {}\n")]);
        check("fn f() {} use a::b as c; fn g() {}", &[("a::b", "fn f() {}  fn g() {}")]);
        check("#[cfg(x)]\n    use a::b; // b\n", &[("a::b", " // b\n")]);
        check("pub use a::b; pub(crate) use c::d; use e::*; use f as _;", &[]);
        check(
            "use a::{b, c as d, e};",
            &[("a::b", "use a::{c as d, e};"), ("a::c", "use a::{b, e};"), ("a::e", "use a::{b, c as d};")],
        );
        check("use a::{self, b::{c}};\n", &[("a", "use a::{b::{c}};\n"), ("a::b::c", "use a::{self};\n")]);
        check(
            "mod m { use a::{b}; } fn f() { use c::d; }",
            &[("a::b", "mod m {  } fn f() { use c::d; }"), ("c::d", "mod m { use a::{b}; } fn f() {  }")],
        );
    }
}
