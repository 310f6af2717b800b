//! Edits of files by which only items come, go or change whose names stand nowhere else: the program looks none of these
//! names up, so that it replies the same without being asked.

use std::collections::{BTreeSet, HashMap};

use serde_json::Value;

use crate::token::{has_word, is_of_word};

/// The kinds of nodes that bind names and, without attributes, look none up.
const PLAIN: [&str; 8] = ["Const", "Enum", "Fn", "Static", "Struct", "Trait", "TypeAlias", "Union"];

/// An edit of more names isn't looked through.
pub(super) const MOST_NAMES: usize = 50;

/// A longer name may be one that the program refuses.
const MOST_OF_NAME: usize = 1000;

/// In a longer command there may be more nodes than the program takes.
const MOST_OF_LINE: usize = 4 << 20;

/// What a command says, if it isn't too long.
pub(super) fn value_of(line: &str) -> Option<Value> {
    serde_json::from_str(Some(line).filter(|it| it.len() <= MOST_OF_LINE)?).ok()
}

/// The command that sets a file, as it was and as it is now.
pub(super) struct Edit {
    before: Value,
    now: Value,
}

impl Edit {
    /// None where one of the commands is none.
    pub fn read(before: &str, now: &str) -> Option<Edit> {
        Some(Edit { before: value_of(before)?, now: value_of(now)? })
    }
}

/// A node by its kind and its id.
type Known<'a> = (&'a str, [Option<u64>; 2]);

fn known(node: &Value) -> Known<'_> {
    (node["kind"].as_str().unwrap_or_default(), [0, 1].map(|at| node["id"][at].as_u64()))
}

/// What a node has besides the nodes in it.
fn head(node: &Value) -> impl Iterator<Item = (&String, &Value)> {
    node.as_object().into_iter().flatten().filter(|it| it.0 != "nodes")
}

/// Whether a node is what another was, but perhaps for what is in it if it is a module.
fn is_kept(node: &Value, others: &HashMap<Known, &Value>) -> bool {
    let other = others.get(&known(node));
    other.is_some_and(|it| *it == node || node["kind"] == "Module" && head(node).eq(head(it)))
}

/// Whether a visibility names no module by its name.
pub(super) fn is_plain_visibility(value: &Value) -> bool {
    let is_word = |it: &str| matches!(it, "crate" | "self" | "super");
    value.is_string() || value.is_null() || value["in"].as_str().is_some_and(|it| it.split("::").all(is_word))
}

/// A node that comes or goes.
pub(super) struct Changed<'a> {
    /// The names of the inline modules around it in its file.
    pub modules: Vec<&'a str>,
    pub node: &'a Value,
    /// Whether it comes.
    pub is_new: bool,
}

/// What edits do.
#[derive(Default)]
pub(super) struct Changes<'a> {
    pub changed: Vec<Changed<'a>>,
    /// What stays as it is.
    kept: Vec<&'a Value>,
}

impl<'a> Changes<'a> {
    /// Adds those of a file. None where what stays changes its order, or attributes of the file change.
    pub fn add(&mut self, edit: &'a Edit) -> Option<()> {
        let (before, now) = (&edit.before["unit"], &edit.now["unit"]);
        self.kept.push(&now["attrs"]);
        self.add_nodes(&before["nodes"], &now["nodes"], &[]).filter(|()| before["attrs"] == now["attrs"])
    }

    fn add_nodes(&mut self, before: &'a Value, now: &'a Value, modules: &[&'a str]) -> Option<()> {
        let (before, now) = (before.as_array()?, now.as_array()?);
        let by_known =
            |all: &'a [Value]| -> HashMap<Known<'a>, &'a Value> { all.iter().map(|it| (known(it), it)).collect() };
        let (of_before, of_now) = (by_known(before), by_known(now));
        let (stayed, left): (Vec<_>, Vec<_>) = before.iter().partition(|it| is_kept(it, &of_now));
        let (stays, comes): (Vec<_>, Vec<_>) = now.iter().partition(|it| is_kept(it, &of_before));
        if !stayed.iter().map(|it| known(it)).eq(stays.iter().map(|it| known(it))) {
            return None;
        }
        let of = |all: Vec<&'a Value>, is_new| {
            all.into_iter().map(move |node| Changed { modules: modules.to_vec(), node, is_new })
        };
        self.changed.extend(of(left, false).chain(of(comes, true)));
        for (was, is) in stayed.into_iter().zip(stays) {
            if was == is {
                self.kept.push(is);
                continue;
            }
            self.kept.extend(head(is).map(|it| it.1));
            let modules = [modules, &[is["name"].as_str()?]].concat();
            self.add_nodes(&was["nodes"], &is["nodes"], &modules)?;
        }
        Some(())
    }

    /// Whether only items come, go or change whose names stand neither in what stays nor elsewhere.
    pub fn are_unnamed(&self, stands_elsewhere: impl Fn(&str) -> bool) -> bool {
        let names: Option<Vec<Vec<&str>>> = self.changed.iter().map(|it| plain_names(it.node)).collect();
        let Some(names) = names.map(|it| it.into_iter().flatten().collect::<BTreeSet<&str>>()) else {
            return false;
        };
        let stands = |name: &&str| self.kept.iter().any(|it| stands_in(it, name)) || stands_elsewhere(name);
        names.len() <= MOST_NAMES && !names.iter().any(stands)
    }
}

/// The names of an item that looks none up: its own and those of its variants. None of other nodes.
pub(super) fn plain_names(node: &Value) -> Option<Vec<&str>> {
    let mut names = vec![node["name"].as_str()?];
    for (field, value) in node.as_object()? {
        let is_plain = match &**field {
            "kind" => PLAIN.contains(&value.as_str()?),
            "id" | "name" | "shape" => true,
            "vis" => is_plain_visibility(value),
            "fields" => value.as_array()?.iter().all(is_plain_visibility),
            "items" => value.as_array()?.is_empty(),
            "variants" => {
                let variants = value.as_array()?;
                for it in variants {
                    names.push(it["name"].as_str()?);
                }
                let is_plain = |it: &String| matches!(&**it, "id" | "name" | "shape");
                variants.iter().filter_map(Value::as_object).all(|it| it.keys().all(is_plain))
            }
            _ => false,
        };
        if !is_plain {
            return None;
        }
    }
    names.iter().all(|it| is_plain_name(it)).then_some(names)
}

/// Whether a name is one word, and short enough for the program.
pub(super) fn is_plain_name(name: &str) -> bool {
    name.len() <= MOST_OF_NAME && name.chars().all(is_of_word)
}

/// Whether a word stands in a text of these values.
fn stands_in(value: &Value, word: &str) -> bool {
    match value {
        Value::String(it) => has_word(it, word, 0..0),
        Value::Array(all) => all.iter().any(|it| stands_in(it, word)),
        Value::Object(all) => all.values().any(|it| stands_in(it, word)),
        _ => false,
    }
}

/// Whether by these edits only items come, go or change whose names stand neither in the rest of these files nor elsewhere.
pub(super) fn are_unnamed(edits: &[Edit], stands_elsewhere: impl Fn(&str) -> bool) -> bool {
    let mut changes = Changes::default();
    edits.iter().all(|it| changes.add(it).is_some()) && changes.are_unnamed(stands_elsewhere)
}

#[cfg(test)]
mod tests {
    use super::*;
    use crate::cfg::Options;
    use crate::syntax::unit_of;
    use crate::token::{on_a_thread, tokens_of, Hash};
    use crate::unit::{build_without, Without};
    use crate::workspace::hand_in::set_file;

    fn command(text: &str) -> String {
        let unit = on_a_thread(|| unit_of(&tokens_of(text).unwrap(), Hash::default())).unwrap();
        let without = Without { associated: true, ..Without::default() };
        set_file("a.rs", &build_without(&unit, &Options::default(), &|_| None, without).json)
    }

    fn is_unnamed(before: &str, now: &str, other: &str) -> bool {
        let edit = Edit::read(&command(before), &command(now)).unwrap();
        are_unnamed(&[edit], |name| has_word(&command(other), name, 0..0))
    }

    const TEXT: &str = "use b::c; pub mod m { fn d() {} use super::e; } struct F; #[g] fn h() {} m::i!(); impl F {}";

    #[test]
    fn items_that_nothing_names() {
        for more in [
            "fn x() {}",
            "pub(crate) struct x(pub u8, u8); union y { a: u8 } pub(super) const z: u8 = 1;",
            "enum x { y, z(u8) } static mut w: u8 = 1; type v = u8; trait t { fn f(); } impl t for x {}",
        ] {
            let now = format!("{TEXT}{more}");
            assert!(is_unnamed(TEXT, &now, "use b::*;") && is_unnamed(&now, TEXT, "use b::*;"), "{more}");
        }
        assert!(is_unnamed(TEXT, &TEXT.replace("fn d() {}", "pub fn x() {}"), ""));
        assert!(is_unnamed(TEXT, &TEXT.replace("fn d() {}", "fn x() {} pub fn d(_: u8) {}"), ""));
        assert!(is_unnamed(&format!("{TEXT} fn x() {{}}"), &format!("const y: u8 = 1; {TEXT} pub fn x() {{}}"), ""));
    }

    #[test]
    fn items_that_something_names() {
        for other in ["use a::x;", "use x::{a, b};", "x!();", "#[a(x)] struct S;", "pub(in x) fn f() {}", "fn x() {}"] {
            assert!(!is_unnamed(TEXT, &format!("{TEXT} fn x() {{}}"), other), "{other}");
            assert!(!is_unnamed(TEXT, &format!("{TEXT} enum y {{ x }}"), other), "{other}");
        }
        for name in ["b", "c", "m", "e", "F", "g", "h", "i"] {
            assert!(!is_unnamed(TEXT, &format!("fn {name}() {{}} {TEXT}"), ""), "{name}");
        }
    }

    #[test]
    fn what_else_an_edit_may_do() {
        for (from, to) in [
            ("use b::c;", "use b::x;"),
            ("use b::c;", ""),
            ("use super::e;", "use super::e as x;"),
            ("pub mod m", "mod m"),
            ("fn d() {}", "#[x] fn d() {}"),
            ("fn d() {}", "pub(in super::m) fn d() {}"),
            ("#[g] fn h", "fn h"),
            ("m::i!();", ""),
            ("fn d() {} use super::e;", "use super::e; fn d() {}"),
            ("struct F;", "struct F; enum x { #[cfg(y)] z }"),
            ("struct F;", "struct F; struct x(pub(in crate::y) u8);"),
            ("struct F;", "struct F; extern \"C\" { fn x(); }"),
            ("struct F;", "struct F; mod x {}"),
            ("struct F;", "struct F; fn e\u{301}() {}"),
            ("struct F;", "struct F; macro_rules! x { () => {} }"),
            ("use b::c;", "#![x] use b::c;"),
        ] {
            let now = TEXT.replace(from, to);
            assert!(now != TEXT && !is_unnamed(TEXT, &now, ""), "{to}");
        }
        let long = "x".repeat(MOST_OF_NAME + 1);
        assert!(!is_unnamed(TEXT, &format!("{TEXT} fn {long}() {{}}"), ""));
        let many: String = (0..=MOST_NAMES).map(|it| format!("fn x{it}() {{}}")).collect();
        assert!(!is_unnamed(TEXT, &format!("{TEXT} {many}"), ""));
    }
}
