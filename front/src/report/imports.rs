//! Imports that aren't resolved: how far they are reached, and what can't be judged for what isn't read.

use std::collections::{BTreeMap, HashMap, HashSet};
use std::sync::Arc;

use anyhow::Result;
use serde_json::Value;

use super::{expanded_note, place_at, question, Diagnostic, Meaning, Report, PRIVATE};
use crate::question::{names_of, BUILTIN_TYPES};
use crate::token::Span;
use crate::unit::{steps_of, Detail, Id, Leaf};
use crate::workspace::{Bound as BoundName, Key, Leads, Located, ModulePlace, PastItem, Workspace};

/// An import that isn't resolved, while it is looked into.
pub(crate) struct Import {
    pub krate: u32,
    pub located: Located,
    pub path: String,
    pub binds: Option<Arc<str>>,
    span: Span,
    /// How far its path is reached.
    reached: Reached,
}

/// How far the path of an import is reached that isn't resolved.
#[derive(Clone, Default)]
pub(crate) struct Reached {
    /// How many of its names are.
    count: usize,
    /// What the last of these is.
    last: Value,
    /// What the next stands for in the module that the last one is, by namespace, where that isn't visible to the import.
    hidden: Value,
    /// A visible name of that module that is like the next.
    similar: Option<Arc<str>>,
}

impl Reached {
    /// So many names are reached, and the next isn't there.
    pub fn to(count: usize, last: Value) -> Reached {
        Reached { count, last, ..Reached::default() }
    }

    /// What the last name is that is reached.
    pub fn last(&self) -> &Value {
        &self.last
    }
}

/// As answers have them.
pub(crate) const NAMESPACES: [&str; 3] = ["types", "values", "macros"];

/// How many letters differ between two names, at most `most`: a letter more, one less, another one, or two in turn.
fn distance(one: &[char], other: &[char], most: usize) -> Option<usize> {
    let mut rows: [Vec<usize>; 3] = [Vec::new(), Vec::new(), (0..=other.len()).collect()];
    for (at, letter) in one.iter().enumerate() {
        rows.rotate_left(1);
        let mut row = vec![at + 1];
        for (to, it) in other.iter().enumerate() {
            let least = (rows[1][to] + usize::from(letter != it)).min(rows[1][to + 1] + 1).min(row[to] + 1);
            let are_swapped = at > 0 && to > 0 && one[at - 1] == *it && other[to - 1] == *letter;
            row.push(if are_swapped { least.min(rows[0][to - 1] + 1) } else { least });
        }
        rows[2] = row;
    }
    rows[2].last().copied().filter(|it| *it <= most)
}

/// The name that is most like another, if one is: by few letters, in relation to its length, or but for capitals.
fn most_similar<'a>(name: &str, names: impl Iterator<Item = &'a Arc<str>>) -> Option<&'a Arc<str>> {
    let letters: Vec<char> = name.chars().collect();
    let (most, lower) = (letters.len().max(3) / 3, name.to_lowercase());
    let far = |it: &str| match it.to_lowercase() == lower {
        true => Some(0),
        false => distance(&letters, &it.chars().collect::<Vec<_>>(), most),
    };
    names.filter(|it| ***it != *name).filter_map(|it| Some((far(it)?, it))).min_by_key(|it| it.0).map(|it| it.1)
}

/// Names in modules; `*` stands for any name.
pub(super) type Bound = HashSet<(u32, Vec<String>, String)>;

/// A crate's number, and the names from its root.
pub(super) type Module = (u32, Vec<String>);

/// What is asked of those imports of a crate in whose paths a type may stand before the last name: which leaf, and the
/// command. `leaves` are those of all its imports, each with its module and its path.
pub(crate) fn past_items(
    krate: u32,
    is_old: bool,
    leaves: &[(Vec<String>, &str)],
    is_type_name: &dyn Fn(&str) -> bool,
) -> Vec<(usize, String)> {
    let mut types: HashMap<&str, bool> = HashMap::new();
    let mut is_type = |name| *types.entry(name).or_insert_with(|| BUILTIN_TYPES.contains(&name) || is_type_name(name));
    let mut asks = Vec::new();
    for (number, (place, path)) in leaves.iter().enumerate() {
        let Some((holder, _)) = path.rsplit_once("::").filter(|it| it.1 != "*") else {
            continue;
        };
        if !holder.split("::").any(&mut is_type) {
            continue;
        }
        let before = if is_old && prefixes(path, true)[0].starts_with("::") { "::" } else { "" };
        let path = format!("{before}{}", path.trim_start_matches(before));
        asks.push((number, question(krate, place, &path)));
    }
    asks
}

/// The path up to each of its names but the last. Of an import in the edition 2015 it counts from the crate's root.
pub(crate) fn prefixes(path: &str, is_old: bool) -> Vec<String> {
    let names = names_of(path);
    let is_plain = !matches!(names[0].as_str(), "crate" | "self" | "super") && !names[0].starts_with('$');
    let before = if path.starts_with("::") || (is_old && is_plain) { "::" } else { "" };
    let count = if names.len() > 1 { names.len() - 1 } else { 1 };
    (1..=count).map(|it| format!("{before}{}", names[..it].join("::"))).collect()
}

impl Workspace {
    /// Adds the modules into which a glob brings names of a crate for which a stub stands, or of a module that was added,
    /// each with the name `*`.
    pub(super) fn follow_globs(&mut self, crates: &[u32], bound: &mut Bound) -> Result<()> {
        self.find_globs(crates)?;
        let mut to: Vec<(Module, Module)> = Vec::new();
        for krate in crates.iter().copied() {
            for (at, leads) in self.globs.get(&krate).map_or(&[][..], |it| &it.1) {
                match leads {
                    Leads::Stub => drop(bound.insert((krate, at.clone(), "*".to_owned()))),
                    Leads::Module(number, module) => to.push(((*number, module.clone()), (krate, at.clone()))),
                }
            }
        }
        let mut before = usize::MAX;
        while bound.len() != before {
            before = bound.len();
            for ((from_krate, from), (krate, at)) in &to {
                if bound.contains(&(*from_krate, from.clone(), "*".to_owned())) {
                    bound.insert((*krate, at.clone(), "*".to_owned()));
                }
            }
        }
        Ok(())
    }

    /// Asks where the globs lead of those of the crates that were resolved again.
    pub(super) fn find_globs(&mut self, crates: &[u32]) -> Result<()> {
        let is_due = |it: &u32| self.globs.get(it).map(|it| it.0) != Some(self.times_resolved(*it));
        let due: Vec<u32> = crates.iter().copied().filter(is_due).collect();
        let mut globs = Vec::new();
        for krate in due.iter().copied() {
            let is_old = self.crates.all[krate as usize].edition == "2015";
            for (key, module) in self.files(krate) {
                for (node, leaves) in self.built(key).into_iter().flat_map(|it| it.uses()) {
                    for leaf in leaves.iter().filter(|it| it.binds.as_deref() == Some("*")) {
                        let mut at = module.clone();
                        at.extend(node.modules.iter().map(|it| it.to_string()));
                        let path = prefixes(&leaf.path, is_old).pop().unwrap_or_default();
                        globs.push((krate, at, path));
                    }
                }
            }
        }
        let asks: Vec<String> = globs.iter().map(|(krate, at, path)| question(*krate, at, path)).collect();
        let replies = self.ask_all(&asks)?;
        for krate in due {
            self.globs.insert(krate, (self.times_resolved(krate), Vec::new()));
        }
        for ((krate, at, _), reply) in globs.into_iter().zip(replies) {
            let found = &reply["ok"]["types"]["def"];
            let leads = match self.module_of_definition(found) {
                _ if self.is_of_stub(found) => Leads::Stub,
                Some((number, module)) => Leads::Module(number, module),
                None => continue,
            };
            if let Some(it) = self.globs.get_mut(&krate) {
                it.1.push((at, leads));
            }
        }
        Ok(())
    }

    /// Tells the imports that name what an enum or another item doesn't hold, as a variant that isn't there. The program
    /// takes them as the item itself, so each path is asked that a type may stand in.
    pub(super) fn imports_past_items(&mut self, krate: u32, report: &mut Report) -> Result<()> {
        let times = self.times_resolved(krate);
        if self.past_items.get(&krate).map(|it| it.0) != Some(times) {
            let mut leaves: Vec<(Vec<String>, &str)> = Vec::new();
            let mut items = Vec::new();
            for (key, module) in self.files(krate) {
                for (node, of_node) in self.built(key).into_iter().flat_map(|it| it.uses()) {
                    for (at, leaf) in of_node.iter().enumerate() {
                        let names = node.modules.iter().map(|it| it.to_string());
                        leaves.push((module.iter().cloned().chain(names).collect(), &*leaf.path));
                        items.push((key, node.id, at));
                    }
                }
            }
            let is_old = self.crates.all[krate as usize].edition == "2015";
            let asks = past_items(krate, is_old, &leaves, &|it| self.is_type_name(it));
            let item = |(key, node, leaf): (&Key, Id, usize)| PastItem { file: key.clone(), node, leaf };
            let items: Vec<PastItem> = asks.iter().map(|it| item(items[it.0])).collect();
            let asks: Vec<String> = asks.into_iter().map(|it| it.1).collect();
            let replies = self.ask_unnoted(&asks)?;
            let found = items.into_iter().zip(replies).filter(|it| !it.1["ok"]["stop"].is_null());
            let found = found.map(|it| it.0).collect();
            self.past_items.insert(krate, (times, found));
        }
        for PastItem { file: key, node, leaf: at } in &self.past_items[&krate].1 {
            let Some(node) = self.built(key).and_then(|it| it.find("Use", *node)) else {
                continue;
            };
            if let Detail::Use(leaves) = &node.detail {
                report.diagnostics.push(self.past_item_diagnostic(krate, key, &leaves[*at]));
            }
        }
        Ok(())
    }

    fn past_item_diagnostic(&self, krate: u32, key: &Key, leaf: &Leaf) -> Diagnostic {
        let (holder, name) = leaf.path.rsplit_once("::").unwrap_or(("", &leaf.path));
        Diagnostic {
            place: place_at(key, leaf.span),
            kind: "unresolved import".to_owned(),
            code: Some("E0432"),
            message: format!("unresolved import `{}`", leaf.path),
            label: format!("no `{name}` in `{holder}`"),
            krate: self.crates.all[krate as usize].title.clone(),
            notes: Vec::new(),
            related: Vec::new(),
        }
    }

    pub(crate) fn import(&self, krate: u32, it: &Value) -> Option<Import> {
        let located = self.locate(krate, &it["item"])?;
        let Detail::Use(leaves) = &located.node.detail else {
            return None;
        };
        let leaf = leaves.get(it["place"].as_u64()? as usize)?.clone();
        let span = if located.is_expanded { located.span } else { leaf.span };
        Some(Import { krate, located, path: leaf.path, binds: leaf.binds, span, reached: Reached::default() })
    }

    /// Finds how far the paths of the imports go. Those of a crate are asked once after each time that it was resolved,
    /// name by name, and none behind a crate for which a stub stands.
    pub(super) fn follow(&mut self, imports: &mut [Import]) -> Result<()> {
        let mut of_crates: BTreeMap<u32, Vec<&mut Import>> = BTreeMap::new();
        for it in imports {
            of_crates.entry(it.krate).or_default().push(it);
        }
        let (mut due, mut fresh) = (Vec::new(), Vec::new());
        for (krate, imports) in &mut of_crates {
            let times = self.times_resolved(*krate);
            let known = self.reached.get(krate).filter(|it| it.0 == times && it.1.len() == imports.len());
            if let Some((_, known)) = known {
                for (import, reached) in imports.iter_mut().zip(known) {
                    import.reached = reached.clone();
                }
                continue;
            }
            fresh.push(*krate);
            let is_old = self.crates.all[*krate as usize].edition == "2015";
            due.extend(imports.iter_mut().map(|it| (prefixes(&it.path, is_old), &mut **it)));
        }
        for count in 0.. {
            due.retain(|(prefixes, it)| {
                it.reached.count == count && prefixes.len() > count && !self.is_of_stub(&it.reached.last)
            });
            if due.is_empty() {
                break;
            }
            let mut places: HashMap<String, usize> = HashMap::new();
            let mut asks = Vec::new();
            let mut whose = Vec::new();
            for (prefixes, it) in &due {
                let ask = question(it.krate, &it.located.module, &prefixes[count]);
                whose.push(*places.entry(ask).or_insert_with_key(|ask| {
                    asks.push(ask.clone());
                    asks.len() - 1
                }));
            }
            let replies = self.ask_all(&asks)?;
            for ((_, import), at) in due.iter_mut().zip(whose) {
                let found = &replies[at]["ok"]["types"]["def"];
                if !found.is_null() && replies[at]["ok"]["stop"].is_null() {
                    (import.reached.count, import.reached.last) = (count + 1, found.clone());
                }
            }
        }
        let due = of_crates.iter_mut().filter(|it| fresh.contains(it.0)).flat_map(|it| it.1.iter_mut());
        self.find_hidden(due.map(|it| &mut **it).collect())?;
        for (krate, imports) in of_crates {
            let reached = imports.into_iter().map(|it| it.reached.clone()).collect();
            self.reached.insert(krate, (self.times_resolved(krate), reached));
        }
        Ok(())
    }

    /// Finds the names that aren't reached since they aren't visible to the imports. Each is asked in the module of which
    /// it is one.
    fn find_hidden(&mut self, imports: Vec<&mut Import>) -> Result<()> {
        let mut asks = Vec::new();
        let mut due = Vec::new();
        for it in imports {
            let names = names_of(&it.path);
            let Some(name) = names.get(it.reached.count).filter(|it| *it != "*") else {
                continue;
            };
            let known = it.reached.count > 0 && !self.is_of_stub(&it.reached.last);
            if let Some((krate, module)) = self.module_of_definition(&it.reached.last).filter(|_| known) {
                asks.push(question(krate, &module, &format!("self::{name}")));
                due.push((it, (krate, steps_of(&module))));
            }
        }
        let mut lacking = Vec::new();
        for ((it, place), mut reply) in due.into_iter().zip(self.ask_all(&asks)?) {
            let is_there = NAMESPACES.iter().any(|of| !reply["ok"][of].is_null());
            if is_there && reply["ok"]["stop"].is_null() {
                it.reached.hidden = reply["ok"].take();
            } else {
                lacking.push((it, place));
            }
        }
        // Where edits are followed, a name that comes would change what is told.
        if !self.is_brief() {
            return Ok(());
        }
        let places: Vec<ModulePlace> = lacking.iter().map(|it| it.1.clone()).collect();
        for ((it, _), scope) in lacking.into_iter().zip(self.scopes(&places)?) {
            let names = names_of(&it.path);
            let (at, is_last) = (steps_of(&it.located.module), it.reached.count + 1 == names.len());
            let is_seen = |bound: &[Option<BoundName>; 3]| {
                let them = bound.iter().take(if is_last { 3 } else { 1 });
                them.flatten().any(|bound| bound.seen.at(it.krate, &at))
            };
            let seen = scope.names.iter().filter(|it| is_seen(&it.1)).map(|it| &it.0);
            it.reached.similar = most_similar(&names[it.reached.count], seen).cloned();
        }
        Ok(())
    }

    /// Whether a definition is one of a crate for which a stub stands.
    pub(crate) fn is_of_stub(&self, definition: &Value) -> bool {
        let krate = definition["crate"].as_u64().and_then(|it| self.crates.all.get(it as usize));
        krate.is_some_and(|it| it.is_stub)
    }

    pub(super) fn is_unjudged(&self, it: &Import, bound: &Bound) -> bool {
        self.is_of_stub(&it.reached.last) || self.follows_from(it, bound)
    }

    /// Whether the name that isn't reached is one of these.
    pub(super) fn follows_from(&self, it: &Import, bound: &Bound) -> bool {
        let names = names_of(&it.path);
        let Some(name) = names.get(it.reached.count) else {
            return false;
        };
        let (krate, module) = match it.reached.count {
            0 => (it.krate, it.located.module.clone()),
            _ => match self.module_of_definition(&it.reached.last) {
                Some(it) => it,
                None => return false,
            },
        };
        let own = it.binds.as_deref() == Some(&**name) && krate == it.krate && module == it.located.module;
        let mut key = (krate, module, name.clone());
        let found = !own && bound.contains(&key);
        key.2 = "*".to_owned();
        found || bound.contains(&key)
    }

    pub(super) fn import_diagnostic(&self, it: &Import) -> Diagnostic {
        let names = names_of(&it.path);
        let Reached { count, last, hidden, similar } = &it.reached;
        let missing = names.get(*count).cloned().unwrap_or_default();
        let before = names[..(*count).min(names.len())].join("::");
        let label = match (count, &*missing) {
            (0, _) => format!("no crate, module or item `{missing}` is in scope here"),
            (_, "*") => format!("`{before}` is neither a module nor an enum"),
            _ if count + 1 == names.len() => format!("no `{missing}` in `{before}`"),
            _ => format!("could not find `{missing}` in `{before}`"),
        };
        let mut notes = expanded_note(&it.located);
        notes.extend(similar.iter().map(|it| format!("a similar name is there: `{it}`")));
        let may_be_crate = names.len() > 1 && !matches!(&*missing, "crate" | "self" | "super");
        if *count == 0 && may_be_crate && self.crates.all[it.krate as usize].edition != "2015" {
            notes.push(format!("if the crate `{missing}` is wanted, add it to the dependencies in Cargo.toml"));
        }
        let (what, path, place) = self.described(last);
        let related = place.filter(|_| *count > 0).map(|it| (format!("{what} `{path}`"), it));
        let made = Diagnostic {
            place: place_at(&it.located.file, it.span),
            kind: "unresolved import".to_owned(),
            code: Some("E0432"),
            message: format!("unresolved import `{}`", it.path),
            label,
            krate: self.crates.all[it.krate as usize].title.clone(),
            notes,
            related: related.into_iter().collect(),
        };
        let hidden = NAMESPACES.into_iter().map(|it| &hidden[it]).find(|it| !it.is_null());
        let hidden = hidden.map(|it| self.meaning("", it)).filter(|it| it.visibility != "pub");
        let Some(Meaning { what, place, brought_by, visibility, .. }) = hidden else {
            return made;
        };
        let (what, place) = match brought_by {
            Some((_, place)) => (format!("{what} import"), Some(place)),
            None => (what, place),
        };
        let message = format!("{what} `{missing}` is private");
        let note = visibility.starts_with("in ").then(|| format!("it is visible {visibility}"));
        let notes = made.notes.iter().cloned().chain(note).collect();
        let related = place.map(|it| (format!("{what} `{missing}`"), it)).into_iter().collect();
        Diagnostic { code: Some(PRIVATE), label: format!("private {what}"), message, notes, related, ..made }
    }
}

#[cfg(test)]
mod tests {
    use super::*;

    #[test]
    fn names_that_are_similar() {
        let names =
            ["HashMap", "HashSet", "BTreeMap", "hash_map", "Price", "tax", "a", "b", "Été"].map(Arc::<str>::from);
        for (name, wanted) in [
            ("HashMpa", Some("HashMap")),
            ("HashMa", Some("HashMap")),
            ("HasMaps", Some("HashMap")),
            ("HashSett", Some("HashSet")),
            ("hashset", Some("HashSet")),
            ("Hash_map", Some("hash_map")),
            ("Rebate", None),
            ("Prize", Some("Price")),
            ("Prizes", Some("Price")),
            ("tex", Some("tax")),
            ("tx", Some("tax")),
            ("xt", None),
            ("été", Some("Été")),
            ("HashMap", None),
        ] {
            assert_eq!(most_similar(name, names.iter()).map(|it| &**it), wanted, "{name}");
        }
    }
}
