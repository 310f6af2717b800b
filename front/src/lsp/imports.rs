//! Code actions: an import is added for a name that nothing has where it stands.

use std::io::Write;

use anyhow::Result;
use serde_json::{json, Value};

use super::actions::KIND;
use super::answers::{sites_of, spans_of_blocks};
use super::completion::written;
use super::text::Text;
use super::Server;
use crate::question::{Context, Question};
use crate::site::Site;
use crate::syntax::{Item, ItemKind};
use crate::token::{Position, Span};
use crate::unit::Step;
use crate::workspace::Key;

/// Of more names in a range the others get no action.
const MOST_NAMES: usize = 20;

/// So many paths are offered for a name.
const MOST_PATHS: usize = 10;

impl<W: Write> Server<W> {
    /// Adds the actions that import what paths in a range begin with.
    pub(super) fn imports_to_add(
        &mut self,
        key: &Key,
        text: &Text,
        asked: [Position; 2],
        actions: &mut Vec<Value>,
    ) -> Result<()> {
        let Some(space) = self.space.as_ref() else {
            return Ok(());
        };
        let Some((krate, parsed)) = space.crates_of(key).first().copied().zip(space.parsed(key).cloned()) else {
            return Ok(());
        };
        let meets = |span: Span| span.start <= asked[1] && asked[0] <= span.end;
        let blocks = spans_of_blocks(space, krate, key);
        let mut names: Vec<(String, [bool; 3])> = Vec::new();
        for site in sites_of(text.as_str(), &blocks, |_, span| meets(span)) {
            let Some((first, wanted)) = wanted_of(&site) else {
                continue;
            };
            let known = (first.to_owned(), wanted);
            if names.contains(&known) || names.len() == MOST_NAMES {
                continue;
            }
            names.push(known);
            let Some(space) = self.space.as_ref() else {
                break;
            };
            let place = space.place_of(krate, key, site.span.start);
            let context = if wanted[2] { site.context } else { Context::Plain };
            let (path, whole) = (first.to_owned(), first.to_owned());
            let question = Question { krate, place: place.clone(), path, whole, context };
            let replies = self.with_space(|it| it.ask_paths(std::slice::from_ref(&question)))?;
            let Some(reply) = replies.and_then(|mut it| it.pop()).filter(|it| it["error"].is_null()) else {
                continue;
            };
            let has = |(of, is_wanted): (&str, bool)| is_wanted && !reply["ok"][of].is_null();
            let offset = import_offset(&parsed.unit.items, site.span.start, text);
            let (false, Some((offset, before, behind))) =
                (["types", "values", "macros"].into_iter().zip(wanted).any(has), offset)
            else {
                continue;
            };
            // What is private to a block is imported by no path.
            let module: Vec<Step> = place.into_iter().take_while(|it| matches!(it, Step::Module(_))).collect();
            let paths = self.with_space(|it| it.importable(krate, &module, first, wanted))?.unwrap_or_default();
            let range = text.range_of(offset..offset);
            let uri = self.uri(key);
            actions.extend(paths.iter().take(MOST_PATHS).map(|it| action(it, &uri, &range, [&before, &behind])));
        }
        Ok(())
    }
}

/// The action that imports a path, written in a range of a file with this before and behind it.
fn action(path: &str, uri: &str, range: &Value, [before, behind]: [&str; 2]) -> Value {
    let names: Vec<String> = path.split("::").enumerate().map(segment).collect();
    let edit = json!({"range": range, "newText": format!("{before}use {};{behind}", names.join("::"))});
    json!({"title": format!("Import `{path}`"), "kind": KIND, "edit": {"changes": {uri: [edit]}}})
}

fn segment((at, name): (usize, &str)) -> String {
    if at == 0 {
        name.to_owned()
    } else {
        written(name)
    }
}

/// The name that a path begins with, and whether it has to be a type, a value or a macro.
fn wanted_of(site: &Site) -> Option<(&str, [bool; 3])> {
    let first = site.path.split("::").next()?;
    if matches!(first, "" | "crate" | "self" | "super") || first.starts_with('$') || site.context == Context::Import {
        return None;
    }
    let is_single = !site.goes_on && !site.path.contains("::");
    Some(match site.context {
        _ if !is_single => (first, [true, false, false]),
        Context::Call | Context::Attribute => (first, [false, false, true]),
        _ => (first, [true, true, false]),
    })
}

/// Where an import is put in the module around a position, and what goes before and behind it: behind the imports above,
/// else before the first item.
fn import_offset(items: &[Item], at: Position, text: &Text) -> Option<(usize, String, String)> {
    let around = items.iter().find(|it| it.span.contains(at));
    if let Some(ItemKind::Module(Some(inner))) = around.map(|it| &it.kind) {
        if let Some(found) = import_offset(inner, at, text).filter(|_| inner.iter().any(|it| it.contains(at))) {
            return Some(found);
        }
    }
    let indent = |at: Position| {
        let before = text.line_before(at);
        if before.trim().is_empty() {
            before.to_owned()
        } else {
            String::new()
        }
    };
    let above = items.iter().take_while(|it| it.span.end <= at);
    if let Some(it) = above.filter(|it| matches!(it.kind, ItemKind::Use(_))).last() {
        return Some((text.offset_of(it.span.end), format!("\n{}", indent(it.start)), String::new()));
    }
    let first = items.iter().find(|it| !matches!(it.kind, ItemKind::ExternCrate { .. }))?;
    Some((text.offset_of(first.start), String::new(), format!("\n\n{}", indent(first.start))))
}

#[cfg(test)]
mod tests {
    use super::*;
    use crate::syntax::unit_of;
    use crate::token::{on_a_thread, tokens_of, Hash};

    /// The text with `use x;` for the place at the `|`.
    fn check(text: &str, wanted: &str) {
        let offset = text.find('|').unwrap();
        let text = text.replacen('|', "", 1);
        let unit = on_a_thread(|| unit_of(&tokens_of(&text).unwrap(), Hash::default())).unwrap();
        let shown = Text::new(text.clone());
        let (at, before, behind) = import_offset(&unit.items, shown.position(offset), &shown).unwrap();
        assert_eq!(format!("{}{before}use x;{behind}{}", &text[..at], &text[at..]), wanted);
    }

    #[test]
    fn where_an_import_is_put() {
        check("//! A.\n\nfn f() { |S; }\n", "//! A.\n\nuse x;\n\nfn f() { S; }\n");
        check("use a;\n\nfn f() { |S; }\nuse b;\n", "use a;\nuse x;\n\nfn f() { S; }\nuse b;\n");
        check(
            "extern crate a;\n/// B.\n#[c]\nfn f() { |S; }",
            "extern crate a;\nuse x;\n\n/// B.\n#[c]\nfn f() { S; }",
        );
        check(
            "use a;\nmod m {\n    use b;\n\n    fn f() { |S; }\n}\n",
            "use a;\nmod m {\n    use b;\n    use x;\n\n    fn f() { S; }\n}\n",
        );
        check("mod m {\n    fn f() { |S; }\n}\n", "mod m {\n    use x;\n\n    fn f() { S; }\n}\n");
    }
}
