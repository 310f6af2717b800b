//! What is told of imports after an edit, before the program has it: those resolve whose paths end with the name of an item
//! that comes, or with a variant of it, and those no longer do whose paths end with the name of one that goes.
//!
//! Such a path leads to the module that gets or loses the item, to one that takes it by a glob, or to one in which such an
//! import gives it a name. Where nothing else stands for the name in any of these, neither before nor then, and every
//! look-up of it there is that of an import that sees it, these imports are known, and all other look-ups end as before.
//! Those of macro calls, attributes and derives do: items are no macros, and no path leads through one to a macro.

use std::collections::{BTreeMap, HashMap, HashSet};
use std::path::Path;
use std::sync::Arc;

use anyhow::Result;
use serde_json::{json, Value};

use super::files::{key_of, parse};
use super::lookups::{Glob, Importing, LookUp, Questions, Source, Use};
use super::unnamed::{plain_names, Changed, Changes};
use super::{Key, KnownBy, ModulePlace, Parsed, Seen, Sent, Workspace};
use crate::question::Context;
use crate::report::{prefixes, question, Reached, Report, NAMESPACES};
use crate::syntax::Unit;
use crate::unit::{Built, Step};

/// A longer way isn't followed.
const MOST_NAMES: usize = 500;

/// What the program is going to tell of crates, and how far their unresolved imports are going to be reached.
#[derive(Clone, Default)]
pub(super) struct Ahead(HashMap<u32, (Arc<Value>, Vec<Reached>)>);

impl Ahead {
    /// How far the imports of a crate are going to be reached that aren't resolved then, where that is another than now.
    pub fn reached(&self, krate: u32) -> Option<&Vec<Reached>> {
        self.0.get(&krate).map(|it| &it.1)
    }
}

/// A name in a module.
type Named = (ModulePlace, String);

/// An item that comes or goes.
struct Item<'a> {
    node: &'a Value,
    is_new: bool,
}

impl Item<'_> {
    /// Whether it is an enum that comes with a variant of this name.
    fn brings_variant(&self, name: &str) -> bool {
        let mut variants = self.node["variants"].as_array().into_iter().flatten();
        self.is_new && variants.any(|it| it["name"] == name)
    }
}

/// What stands for a name where an item does that comes or goes.
#[derive(Clone, PartialEq)]
struct Standing {
    /// The number of the item.
    item: usize,
    /// Whether it stands for a variant of the item.
    is_variant: bool,
    /// Who sees it: all of these.
    seen: Vec<Seen>,
    /// How many nodes of the module write the name before the edit.
    written: usize,
}

/// Names that stand for items, by their numbers.
type Standings = Vec<(Named, Standing)>;

/// Modules in which a name is looked up, each with what does that.
type LookedIn = Vec<(ModulePlace, Use)>;

/// The names that stand for items that come or go, and the imports whose paths end there.
#[derive(Default)]
struct Followed {
    names: HashMap<Named, Standing>,
    imports: Vec<(Importing, usize)>,
}

/// A crate and what it is that is edited in it.
struct EditedFile<'a> {
    krate: u32,
    key: &'a Key,
    now: &'a Built,
    sources: &'a [Source],
    globs: &'a [Glob],
}

/// The items that come or go, each with its name in its module and who sees it. None where one comes and another goes with
/// one name.
fn items<'a>(krate: u32, module: &[Step], changes: &Changes<'a>) -> Option<(Vec<Item<'a>>, Standings)> {
    let (mut items, mut standing, mut names) = (Vec::new(), Vec::new(), HashSet::new());
    for Changed { modules, node, is_new } in &changes.changed {
        let name = *plain_names(node)?.first()?;
        let within = modules.iter().map(|it| Step::Module((*it).to_owned()));
        let place: ModulePlace = (krate, module.iter().cloned().chain(within).collect());
        let visibility = node["vis"].as_str().or(node["vis"]["in"].as_str()).unwrap_or("self");
        let seen = vec![Seen::by(visibility, &place)?];
        let item = items.len();
        items.push(Item { node, is_new: *is_new });
        let stands = Standing { item, is_variant: false, seen, written: usize::from(!is_new) };
        standing.push(((place, name.to_owned()), stands));
        if !names.insert(name) {
            return None;
        }
    }
    Some((items, standing))
}

/// How many nodes of a module write a name.
fn written(sources: &[Source], ((krate, module), name): &Named) -> usize {
    let mut count = 0;
    for it in sources.iter().filter(|it| it.krate == *krate && it.built.has_word(name)) {
        let is_in =
            |node: &&crate::unit::Node| !node.is_left_out && node.of.is_none() && node.place_in(&it.place) == *module;
        for node in it.built.nodes.iter().filter(is_in) {
            let bound = node.leaves().iter().filter(|it| it.binds.as_deref() == Some(name)).count();
            // Of an `extern crate` with two names, either.
            count += bound + usize::from(node.name.split(' ').any(|it| it == name));
        }
    }
    count
}

fn is_nothing(reply: &Value) -> bool {
    reply.get("ok").is_some() && NAMESPACES.iter().all(|of| reply["ok"][of].is_null())
}

/// Whether a name stands for one item of a file alone.
fn is_only(reply: &Value, krate: u32, key: &Key, item: &Value) -> bool {
    let found = NAMESPACES.iter().map(|of| &reply["ok"][of]["def"]);
    let is_it = |it: &Value| it["crate"] == krate && it["id"] == item["id"] && it["in"] == json!([**key]);
    !is_nothing(reply) && found.filter(|it| !it.is_null()).all(is_it)
}

/// Whether what is told is that this import isn't resolved.
fn is_of(told: &Value, it: &Importing) -> bool {
    let item = &told["item"];
    let is_node = item["id"] == json!([it.node.0, it.node.1]) && item["in"] == json!([*it.file]);
    told["kind"] == "unresolved import" && is_node && told["place"] == it.leaf
}

impl Workspace {
    /// What is told then, where items alone come or go and all that looks their names up are imports that become resolved or
    /// unresolved.
    pub(super) fn imports_ahead(
        &mut self,
        (krate, module): (u32, Vec<Step>),
        key: &Key,
        changes: &Changes,
        now: &Built,
        sources: &[Source],
        globs: &[Glob],
    ) -> Result<Option<Ahead>> {
        let Some((items, standing)) = items(krate, &module, changes) else {
            return Ok(None);
        };
        let edited = EditedFile { krate, key, now, sources, globs };
        let Some(Followed { names, imports }) = self.follow_names(&items, standing, &edited)? else {
            return Ok(None);
        };
        if !self.stand_for_nothing_else(&items, &names, &edited)? {
            return Ok(None);
        }
        // Where names are told that are like one that isn't there, it would be looked for.
        if self.is_brief && items.iter().any(|it| !it.is_new) {
            return Ok(None);
        }
        self.patched(&items, imports)
    }

    /// Follows names along globs and imports. None where something else than the end of an import looks one of them up.
    fn follow_names(&mut self, items: &[Item], from: Standings, edited: &EditedFile) -> Result<Option<Followed>> {
        let mut followed = Followed::default();
        let mut look_ups = HashMap::new();
        let mut due = from;
        while let Some((named, standing)) = due.pop() {
            if let Some(known) = followed.names.get(&named) {
                if *known == standing {
                    continue;
                }
                return Ok(None);
            }
            if followed.names.len() == MOST_NAMES {
                return Ok(None);
            }
            let (place, name) = &named;
            if !look_ups.contains_key(name) {
                let Some(found) = self.places_looked_in(place, name, edited)? else {
                    return Ok(None);
                };
                look_ups.insert(name.clone(), found);
            }
            for (_, used) in look_ups[name].iter().filter(|it| it.0 == *place) {
                let (import, is_variant) = match used {
                    Use::End(it) => (it, false),
                    Use::Holder(it) => (it, true),
                    // Behind an item that isn't a module no macro is found.
                    Use::TowardsMacro => continue,
                    Use::Other => return Ok(None),
                };
                let is_seen = standing.seen.iter().all(|it| it.at(import.krate, &import.module));
                let Some(seen) = import.seen.clone().filter(|_| is_seen && !import.is_expanded) else {
                    return Ok(None);
                };
                let variant = import.path.rsplit("::").next().filter(|_| is_variant);
                if variant.is_some_and(|it| standing.is_variant || !items[standing.item].brings_variant(it)) {
                    return Ok(None);
                }
                // Variants are public.
                let around = standing.seen.iter().filter(|_| !is_variant);
                let (seen, item) = (around.cloned().chain([seen]).collect(), standing.item);
                let stands = Standing { item, is_variant: is_variant || standing.is_variant, seen, written: 1 };
                due.push((((import.krate, import.module.clone()), import.binds.to_string()), stands));
                followed.imports.push((import.clone(), item));
            }
            for Glob { to, seen, .. } in edited.globs.iter().filter(|it| it.from == *place) {
                if standing.seen.iter().all(|it| it.at(to.0, &to.1)) {
                    let Some(seen) = seen.clone() else {
                        return Ok(None);
                    };
                    let seen = standing.seen.iter().cloned().chain([seen]).collect();
                    due.push(((to.clone(), name.clone()), Standing { seen, written: 0, ..standing.clone() }));
                }
            }
            followed.names.insert(named, standing);
        }
        Ok(Some(followed))
    }

    /// Where a name is looked up. None where that isn't known.
    fn places_looked_in(&mut self, place: &ModulePlace, name: &str, edited: &EditedFile) -> Result<Option<LookedIn>> {
        let EditedFile { krate, key, now, sources, .. } = edited;
        let mut questions = Questions::default();
        // It may come to the root of the crate from there.
        let places = [place.clone(), (*krate, Vec::new())];
        let named = places.map(|it| (it, HashSet::from([name.to_owned()]))).into_iter().collect();
        let Some(found) = self.look_ups((*krate, key), &named, true, now, sources, &mut questions) else {
            return Ok(None);
        };
        let replies = self.ask_all(&questions.lines)?;
        if replies.iter().any(|it| it.get("error").is_some()) {
            return Ok(None);
        }
        let is_other = |it: &LookUp| it.first.is_some_and(|it| !replies[it]["ok"]["types"].is_null());
        let place = |it: LookUp| {
            let place = self.place_looked_in(&it, &replies)?;
            let used = if is_other(&it) { Use::Other } else { it.used };
            Some((place, used))
        };
        Ok(Some(found.into_iter().filter_map(place).collect()))
    }

    /// Whether, where such an item isn't, nothing is that has its name, and where it is, nothing else.
    fn stand_for_nothing_else(
        &mut self,
        items: &[Item],
        names: &HashMap<Named, Standing>,
        edited: &EditedFile,
    ) -> Result<bool> {
        let EditedFile { krate, key, sources, globs, .. } = edited;
        let ask = |it: &Self, (krate, place): &ModulePlace, name: &str| {
            it.question_in(*krate, place, &format!("self::{name}"), Context::Import)
        };
        let mut asks = Vec::new();
        let mut of_others = Vec::new();
        for (named, standing) in names {
            let (place, name) = named;
            if written(sources, named) != standing.written {
                return Ok(false);
            }
            asks.push(ask(self, place, name));
            // What another glob would bring then.
            let is_gone = !items[standing.item].is_new;
            for it in globs.iter().filter(|it| is_gone && it.to == *place) {
                if !names.contains_key(&(it.from.clone(), name.clone())) {
                    of_others.push(ask(self, &it.from, name));
                }
            }
        }
        let is_as_said = |(standing, reply): (&Standing, &Value)| match &items[standing.item] {
            Item { is_new: true, .. } => is_nothing(reply),
            Item { node, .. } => is_only(reply, *krate, key, node),
        };
        let are_as_said = names.values().zip(&self.ask_all(&asks)?).all(is_as_said);
        Ok(are_as_said && self.ask_all(&of_others)?.iter().all(is_nothing))
    }

    /// What is told where these imports become resolved, or unresolved, by the items with these numbers.
    fn patched(&mut self, items: &[Item], imports: Vec<(Importing, usize)>) -> Result<Option<Ahead>> {
        let mut crates: BTreeMap<u32, Vec<(Importing, bool)>> = BTreeMap::new();
        for (it, item) in imports {
            crates.entry(it.krate).or_default().push((it, items[item].is_new));
        }
        let mut made = Ahead::default();
        for (krate, imports) in crates {
            let told = self.diagnostics(&[krate])?.remove(0);
            let mut told: Vec<Value> = told.as_array().cloned().unwrap_or_default();
            let is_import = |it: &Value| it["kind"] == "unresolved import" && self.import(krate, it).is_some();
            let mut followed: Vec<Value> = told.iter().filter(|it| is_import(it)).cloned().collect();
            let known = self.reached.get(&krate).filter(|it| it.0 == self.times_resolved(krate));
            let mut reached = known.map_or(Vec::new(), |it| it.1.clone());
            if reached.len() != followed.len() {
                return Ok(None);
            }
            for (it, is_resolved) in imports {
                let (at, place) =
                    (told.iter().position(|told| is_of(told, &it)), followed.iter().position(|told| is_of(told, &it)));
                match (is_resolved, at, place) {
                    (true, Some(at), Some(place)) => {
                        told.remove(at);
                        followed.remove(place);
                        reached.remove(place);
                    }
                    (false, None, None) => {
                        let Some(of) = self.reached_without(&it)? else {
                            return Ok(None);
                        };
                        let item = json!({"id": [it.node.0, it.node.1], "in": [*it.file], "kind": "Use"});
                        let unresolved = json!({"item": item, "kind": "unresolved import", "place": it.leaf});
                        told.push(unresolved.clone());
                        followed.push(unresolved);
                        reached.push(of);
                    }
                    _ => return Ok(None),
                }
            }
            made.0.insert(krate, (Arc::new(told.into()), reached));
        }
        Ok(Some(made))
    }

    /// How far an import is reached without the last name of its path.
    fn reached_without(&mut self, it: &Importing) -> Result<Option<Reached>> {
        let is_old = self.crates.all[it.krate as usize].edition == "2015";
        let names: Option<Vec<String>> = it
            .module
            .iter()
            .map(|it| match it {
                Step::Module(name) => Some(name.clone()),
                Step::Block(_) => None,
            })
            .collect();
        let (before, Some(module)) = (prefixes(&it.path, is_old), names) else {
            return Ok(None);
        };
        let Some(last) = before.last() else {
            return Ok(None);
        };
        let mut reply = self.ask(question(it.krate, &module, last))?;
        let found = reply["ok"]["types"]["def"].take();
        let is_reached = !found.is_null() && reply["ok"]["stop"].is_null() && !self.is_of_stub(&found);
        Ok(is_reached.then(|| Reached::to(before.len(), found)))
    }

    /// What is told with a file as it is on the disk, where that is known before the program has it.
    pub fn report_of_file(&mut self, path: &Path) -> Result<Option<Report>> {
        let key = key_of(path)?;
        if !path.is_file() || !self.sent.contains_key(&key) {
            return Ok(None);
        }
        let parsed = parse(path, &key);
        if self.take_unchanged(&key, &parsed) || self.knows_report(&key, &parsed, true)?.is_none() {
            return Ok(None);
        }
        // Places are those of the file as it is.
        let Sent { krate, left_out, .. } = self.sent[&key];
        let made = self.made.as_ref().filter(|it| it.is_of(&key, krate, &parsed.unit, left_out));
        let made = made.map(|it| (it.built.clone(), it.unit.clone()));
        let (mut built, mut unit) = made.unwrap_or_else(|| {
            let made = self.make(&key, krate, &parsed.unit, left_out);
            (made.built, made.unit)
        });
        let mut parsed = Some(Arc::new(parsed));
        self.exchange(&key, &mut built, &mut unit, &mut parsed);
        let report = self.report_ahead(&key);
        self.exchange(&key, &mut built, &mut unit, &mut parsed);
        report.map(Some)
    }

    /// Has a file count as another, and these as what it was.
    fn exchange(&mut self, key: &Key, built: &mut Arc<Built>, unit: &mut Arc<Unit>, parsed: &mut Option<Arc<Parsed>>) {
        if let Some(it) = self.sent.get_mut(key) {
            std::mem::swap(&mut it.built, built);
            std::mem::swap(&mut it.unit, unit);
        }
        let before = match parsed.take() {
            Some(it) => self.parsed.insert(key.clone(), it),
            None => self.parsed.remove(key),
        };
        *parsed = before;
    }

    /// What is told with a text in place of what a file holds of which that is known by its imports.
    pub fn report_ahead(&mut self, key: &Key) -> Result<Report> {
        let known = self.known.get(key).filter(|it| it.by == KnownBy::Imports);
        let Ahead(ahead) = known.map_or(Ahead::default(), |it| it.ahead.clone());
        let mut before = Vec::new();
        for (krate, (told, reached)) in ahead {
            let times = self.times_resolved(krate);
            before.push((krate, self.told.insert(krate, told), self.reached.insert(krate, (times, reached))));
        }
        let report = self.report();
        for (krate, told, reached) in before {
            match told {
                Some(it) => drop(self.told.insert(krate, it)),
                None => drop(self.told.remove(&krate)),
            }
            match reached {
                Some(it) => drop(self.reached.insert(krate, it)),
                None => drop(self.reached.remove(&krate)),
            }
        }
        report
    }
}
