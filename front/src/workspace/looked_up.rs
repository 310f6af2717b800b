//! What of a session is looked up where only what is told of some crates is asked.
//!
//! The program looks up each name by itself: where a path leads hangs on the items, the imports and the globs that have one
//! of its names, and on no others. So an item whose name stands in no path changes nothing that is told, and neither does
//! an import of another crate that binds such a name; what stands in that import alone isn't looked up then.

use std::collections::{BTreeSet, HashMap, HashSet};

use serde_json::Value;

use super::unnamed::{is_plain_name, plain_names, value_of};
use crate::token::words_of;

/// What the program looks up by itself: the prelude of a crate, by its edition.
const ALWAYS: [&str; 7] = ["core", "prelude", "rust_2015", "rust_2018", "rust_2021", "rust_2024", "std"];

/// The names that an import binds. None where it has a glob, an attribute or a name that is no word.
fn import_names(node: &Value) -> Option<Vec<&str>> {
    fn bound<'a>(tree: &'a Value, around: &'a str, made: &mut Vec<&'a str>) -> Option<()> {
        let last_of = |path: &'a str| match path.rsplit("::").next() {
            Some("self" | "") | None => path.rsplit("::").nth(1).unwrap_or(around),
            Some(it) => it,
        };
        if let Some(path) = tree["single"].as_str() {
            made.push(tree["as"].as_str().unwrap_or(last_of(path)));
            return Some(());
        }
        let around = tree["path"].as_str().map_or(around, last_of);
        tree["list"].as_array()?.iter().try_for_each(|it| bound(it, around, made))
    }
    let mut made = Vec::new();
    bound(&node["tree"], "", &mut made)?;
    (node["attrs"].is_null() && made.iter().all(|it| is_plain_name(it))).then_some(made)
}

/// The names by which a node is found that is left out where none of them is looked up. None of one that stays.
fn names_of(node: &Value, is_told: bool) -> Option<Vec<&str>> {
    match node["kind"].as_str()? {
        "Use" if !is_told => import_names(node),
        _ => plain_names(node),
    }
}

/// The words that are looked up.
#[derive(Default)]
struct Words<'a> {
    all: HashSet<&'a str>,
    /// Those whose imports aren't looked through yet.
    due: Vec<&'a str>,
    /// The imports of crates of which nothing is told, by the names that they bind.
    imports: HashMap<&'a str, Vec<&'a Value>>,
}

impl<'a> Words<'a> {
    fn add_text(&mut self, text: &'a str) {
        for it in words_of(text) {
            if self.all.insert(it) {
                self.due.push(it);
            }
        }
    }

    fn add_value(&mut self, value: &'a Value) {
        match value {
            Value::String(it) => self.add_text(it),
            Value::Array(all) => all.iter().for_each(|it| self.add_value(it)),
            Value::Object(all) => all.values().for_each(|it| self.add_value(it)),
            _ => {}
        }
    }

    /// Adds those of a unit, if it is one.
    fn add_unit(&mut self, unit: &'a Value, is_told: bool) {
        self.add_value(&unit["attrs"]);
        self.add_nodes(&unit["nodes"], is_told);
    }

    fn add_nodes(&mut self, nodes: &'a Value, is_told: bool) {
        for node in nodes.as_array().into_iter().flatten() {
            match names_of(node, is_told) {
                None => self.add_kept(node, is_told),
                Some(names) if node["kind"] == "Use" => {
                    names.into_iter().for_each(|it| self.imports.entry(it).or_default().push(node));
                }
                Some(_) => {}
            }
        }
    }

    /// Adds those of a node that stays.
    fn add_kept(&mut self, node: &'a Value, is_told: bool) {
        for (field, value) in node.as_object().into_iter().flatten() {
            match &**field {
                "nodes" => self.add_nodes(value, is_told),
                "kind" => {}
                "name" if node["kind"] != "ExternCrate" => {}
                _ => self.add_value(value),
            }
        }
    }

    /// Adds those of the imports that bind one of them, and so on.
    fn follow(&mut self) {
        while let Some(word) = self.due.pop() {
            for it in self.imports.remove(word).into_iter().flatten() {
                self.add_value(it);
            }
        }
    }
}

/// Takes the nodes away whose names aren't looked up, and keeps these names. Answers whether there are any.
fn take_away(nodes: &mut Value, is_told: bool, stays: &dyn Fn(&str) -> bool, names: &mut BTreeSet<String>) -> bool {
    let mut is_changed = false;
    let Some(nodes) = nodes.as_array_mut() else {
        return false;
    };
    nodes.retain_mut(|node| {
        let Some(of_node) = names_of(node, is_told) else {
            is_changed |= node.get_mut("nodes").is_some_and(|it| take_away(it, is_told, stays, names));
            return true;
        };
        if of_node.iter().any(|it| stays(it)) {
            return true;
        }
        names.extend(of_node.into_iter().map(str::to_owned));
        is_changed = true;
        false
    });
    is_changed
}

/// The command with this value without these nodes, if it has any of them.
fn take_away_of(
    mut value: Value,
    is_told: bool,
    stays: &dyn Fn(&str) -> bool,
    names: &mut BTreeSet<String>,
) -> Option<String> {
    let nodes = value.pointer_mut("/unit/nodes")?;
    take_away(nodes, is_told, stays, names).then(|| value.to_string())
}

/// A command that sets a file or an expansion, and whether something is told of the crate to which it belongs.
pub(super) type Command = (String, bool);

/// The words that are looked up by what is asked, and by the commands with these values.
fn looked_up(commands: &[Command], values: &[Option<Value>], asked: &[&str]) -> HashSet<String> {
    let mut words = Words::default();
    ALWAYS.iter().chain(asked).for_each(|it| words.add_text(it));
    for ((line, is_told), value) in commands.iter().zip(values) {
        match value {
            Some(it) => {
                words.add_unit(&it["unit"], *is_told);
                words.add_value(&it["inner"]);
            }
            None => words.add_text(line),
        }
    }
    words.follow();
    words.all.into_iter().map(str::to_owned).collect()
}

/// These commands without what isn't looked up, and the names of that.
pub(super) fn without_others(commands: &[Command], asked: &[&str]) -> (Vec<String>, BTreeSet<String>) {
    let values: Vec<Option<Value>> = commands.iter().map(|it| value_of(&it.0)).collect();
    let looked_up = looked_up(commands, &values, asked);
    let stays = |name: &str| looked_up.contains(name);
    let mut names = BTreeSet::new();
    let mut lines = Vec::with_capacity(commands.len());
    for ((line, is_told), value) in commands.iter().zip(values) {
        let shorter = value.and_then(|it| take_away_of(it, *is_told, &stays, &mut names));
        lines.push(shorter.unwrap_or_else(|| line.clone()));
    }
    (lines, names)
}

/// A command that sets a file of which something is told, without the items that have these names alone. None where it
/// looks one of the names up.
pub(super) fn without(line: &str, names: &BTreeSet<String>) -> Option<String> {
    let value = value_of(line)?;
    let mut words = Words::default();
    words.add_unit(&value["unit"], true);
    if words.all.iter().any(|it| names.contains(*it)) {
        return None;
    }
    let stays = |name: &str| !names.contains(name);
    let shorter = take_away_of(value, true, &stays, &mut BTreeSet::new());
    Some(shorter.unwrap_or_else(|| line.to_owned()))
}

#[cfg(test)]
mod tests {
    use super::*;
    use crate::cfg::Options;
    use crate::syntax::unit_of;
    use crate::token::{on_a_thread, tokens_of, Hash};
    use crate::unit::{build_without, Without};
    use crate::workspace::hand_in::set_file;

    fn command(text: &str) -> String {
        let unit = on_a_thread(|| unit_of(&tokens_of(text).unwrap(), Hash::default())).unwrap();
        let without = Without { associated: true, ..Without::default() };
        set_file("a.rs", &build_without(&unit, &Options::default(), &|_| None, without).json)
    }

    /// The names of what is left out of a crate of which nothing is told, and of one of which something is.
    fn left_out(below: &str, told: &str) -> String {
        let commands = [(command(below), false), (command(told), true)];
        let (lines, names) = without_others(&commands, &["{\"do\":\"resolve\",\"at\":[1],\"path\":\"asked\"}"]);
        for (line, (whole, _)) in lines.iter().zip(&commands) {
            assert!(line == whole || line.len() < whole.len() && value_of(line).is_some(), "{line}");
        }
        names.into_iter().collect::<Vec<_>>().join(" ")
    }

    #[test]
    fn what_is_not_looked_up() {
        for (below, told, wanted) in [
            ("fn a() {} pub struct B(u8); enum C { D, E } const _: u8 = 1;", "", "B C D E a"),
            ("fn a() {} mod m { fn b() {} extern \"C\" { fn c(); } }", "use x::a;", "b c"),
            ("fn a() {} fn b() {}", "use x::{self, y::a};", "b"),
            ("enum A { B } fn B() {}", "use x::B;", ""),
            // Of what is told of imports count, whatever they bind.
            ("", "use x::a; pub use y::b; fn a() {} fn c() {}", "c"),
            // An import elsewhere counts where its name does.
            ("use x::a; pub use y::b as c; fn a() {} fn b() {}", "", "a b c"),
            ("use x::a; pub use y::b as c; fn a() {} fn b() {}", "use d::c;", "a"),
            ("use x::{y::{self, z}, w as _}; fn x() {} fn w() {}", "use y;", ""),
            ("use x::{y::{self, z}, w as _}; fn x() {} fn w() {}", "", "_ w x y z"),
            ("use a::b; use b::c; use c::d; fn a() {}", "use d;", ""),
            ("use self::a::*; fn a() {} fn b() {}", "", "b"),
            // Macros, attributes, conditions, visibilities, the prelude and what is asked.
            ("m!(); n::o!(); fn m() {} fn n() {} fn o() {} macro_rules! p { () => { q!() } } fn q() {}", "", "q"),
            ("#[a::b(c)] struct A; #[derive(d)] struct B; fn a() {} fn b() {} fn d() {}", "", ""),
            ("#[cfg(x)] fn a() {} #[x] use y::z; fn z() {}", "", ""),
            ("pub(in a::b) fn c() {} fn a() {} fn b() {}", "", ""),
            ("extern crate a as b; fn a() {} fn b() {}", "", ""),
            ("use a::std; use b::rust_2021; use c::prelude; fn asked() {}", "", ""),
        ] {
            assert_eq!(left_out(below, told), wanted, "{below} | {told}");
        }
    }

    #[test]
    fn paths_in_place_of_items() {
        let asking = "{\"do\":\"set expansion\",\"key\":{},\"inner\":[\"core::concat\",\"m::name\"]}".to_owned();
        let below = command("pub use x::name; pub use y::other; fn concat() {} fn key() {}");
        let (lines, names) = without_others(&[(below, false), (asking.clone(), true)], &[]);
        assert_eq!(names.into_iter().collect::<Vec<_>>(), ["key", "other"]);
        assert_eq!(lines[1], asking);
    }

    #[test]
    fn an_edited_file_without_them() {
        let names: BTreeSet<String> = ["a", "b", "C"].map(str::to_owned).into_iter().collect();
        let with = |text: &str| without(&command(text), &names);
        for (text, wanted) in [
            ("fn a() {} fn x() {} use y::x;", "fn x() {} use y::x;"),
            ("mod m { fn b() {} } enum C { a }", "mod m {}"),
            ("enum C { x } fn y() {}", "enum C { x } fn y() {}"),
        ] {
            let wanted = value_of(&command(wanted));
            assert_eq!(with(text).as_deref().and_then(value_of), wanted, "{text}");
        }
        for text in
            ["use x::a;", "use x as a;", "a!();", "fn a() {} use a::x;", "#[b] fn x() {}", "pub(in b) fn x() {}"]
        {
            assert_eq!(with(text), None, "{text}");
        }
    }
}
