//! Edits of items and imports whose names stand elsewhere too, by which what is told stays the same: the imports that come
//! or go lead to something, and no path looks up one of the names in a module that has it or takes it by a glob. Where
//! imports do, what is told of them may be known too ([`super::ahead`]).
//!
//! A path looks its first name up in the module in which it stands, and each further one in the module to which it leads
//! so far, which the program is asked. Where none of these look-ups meets a name that comes or goes, each ends as before.

use std::collections::{BTreeMap, HashMap, HashSet};
use std::sync::Arc;

use anyhow::Result;
use serde_json::Value;

use super::associated::UnitAt;
use super::recorded::caller_of;
use super::unnamed::{is_plain_name, is_plain_visibility, plain_names, Changes, MOST_NAMES};
use super::{Ahead, Key, KnownBy, ModulePlace, Seen, Workspace};
use crate::cfg::Options;
use crate::question::{names_of, Context};
use crate::syntax::Visibility;
use crate::unit::{
    is_builtin, joined, numbered, paths_of, place_json, quoted, steps_of, Built, Derives, Detail, Id, Node, Step,
};

/// The replies to more questions may take longer than it takes to resolve the crate.
const MOST_QUESTIONS: usize = 1000;

/// A leaf of an import that comes or goes.
struct Import {
    place: Vec<Step>,
    path: String,
    /// Whether it is `self` in a list, so that it takes a module or a type.
    is_self: bool,
}

/// What an edit does to the modules of a file.
struct Bindings {
    /// The names that come or go.
    names: HashMap<ModulePlace, HashSet<String>>,
    imports: Vec<Import>,
}

impl Bindings {
    /// None where the edit does something else: where an import has an attribute or a glob, or is of one name alone, or
    /// where it is in a module beside another of its name. `now` is what the file is then.
    fn read(krate: u32, module: &[Step], changes: &Changes, now: &Built) -> Option<Bindings> {
        let mut imports = Vec::new();
        // How much more often a module gets a name so than it loses it.
        let mut counts: BTreeMap<(&[&str], &str, String), i32> = BTreeMap::new();
        for it in &changes.changed {
            let (node, count) = (it.node, if it.is_new { 1 } else { -1 });
            let mut leaves = Vec::new();
            if !is_only_module(now, &it.modules) {
                return None;
            }
            if node["kind"] != "Use" {
                let name = *plain_names(node)?.first()?;
                *counts.entry((&it.modules, name, node.to_string())).or_default() += count;
                continue;
            }
            if !node["attrs"].is_null() || !is_plain_visibility(&node["vis"]) {
                return None;
            }
            read_leaves(&node["tree"], "", "", &mut leaves)?;
            for (name, path, is_self) in leaves {
                if !is_plain_name(name) {
                    return None;
                }
                if name != "_" {
                    let how = format!("{} {is_self} {path}", node["vis"]);
                    *counts.entry((&it.modules, name, how)).or_default() += count;
                }
                imports.push(Import { place: place_of(module, &it.modules), path, is_self });
            }
        }
        counts.retain(|_, it| *it != 0);
        let mut names: HashMap<ModulePlace, HashSet<String>> = HashMap::new();
        for (modules, name, _) in counts.into_keys() {
            names.entry((krate, place_of(module, modules))).or_default().insert(name.to_owned());
        }
        let count: usize = names.values().map(HashSet::len).sum();
        (count <= MOST_NAMES).then_some(Bindings { names, imports })
    }
}

/// Adds the leaves of a `use` tree in JSON: the name that each binds, its path, and whether it is `self`. None where one is
/// a glob or of one name alone.
fn read_leaves<'a>(
    tree: &'a Value,
    prefix: &str,
    around: &'a str,
    made: &mut Vec<(&'a str, String, bool)>,
) -> Option<()> {
    fn last(path: &str) -> &str {
        path.rsplit("::").next().unwrap_or_default()
    }
    if let Some(single) = tree["single"].as_str() {
        let (path, is_self) = (joined(prefix, single), single == "self");
        let name = if is_self { around } else { last(single) };
        let is_longer = names_of(&path).len() > 1;
        made.push((tree["as"].as_str().unwrap_or(name), path, is_self));
        return is_longer.then_some(());
    }
    let (prefix, around) = match tree["path"].as_str() {
        Some(path) => (joined(prefix, path), last(path)),
        None => (prefix.to_owned(), around),
    };
    tree["list"].as_array()?.iter().try_for_each(|it| read_leaves(it, &prefix, around, made))
}

/// Whether no inline module on the way to this one has a name that another has beside it.
fn is_only_module(built: &Built, modules: &[&str]) -> bool {
    let is_only = |at: usize| {
        let is_beside = |it: &Node| it.modules.iter().map(|it| &**it).eq(modules[..at].iter().copied());
        let is_so_called = |it: &&Node| it.kind == "Module" && *it.name == *modules[at] && is_beside(it);
        built.nodes.iter().filter(is_so_called).count() == 1
    };
    (0..modules.len()).all(is_only)
}

/// A module within the one whose items a file has.
fn place_of(module: &[Step], modules: &[&str]) -> Vec<Step> {
    module.iter().cloned().chain(modules.iter().map(|it| Step::Module((*it).to_owned()))).collect()
}

/// The first name of a path, with what stands before it.
fn first_of(path: &str) -> &str {
    let from = if path.starts_with("::") { 2 } else { 0 };
    let end = path[from..].find("::").map_or(path.len(), |it| from + it);
    &path[..end]
}

/// Where a path looks a name up.
enum Place {
    In(ModulePlace),
    /// In the module to which a path leads, by the number of the question.
    Behind(usize),
}

/// What a path does with a name that it looks up.
#[derive(Clone)]
pub(super) enum Use {
    /// The path of an import ends with it, behind others.
    End(Importing),
    /// The path of an import ends with the name behind it.
    Holder(Importing),
    /// The path of a macro call, of an attribute or of a derive goes on behind it.
    TowardsMacro,
    Other,
}

/// A look-up of a name.
pub(super) struct LookUp {
    pub name: String,
    place: Place,
    /// Where the path begins with the name, the number of the question what that stands for there.
    pub first: Option<usize>,
    pub used: Use,
}

/// A leaf of a `use` in a file, or in what a call expands to, that binds a name.
#[derive(Clone)]
pub(super) struct Importing {
    pub krate: u32,
    /// The module in which it is.
    pub module: Vec<Step>,
    pub file: Key,
    pub is_expanded: bool,
    pub node: Id,
    /// Its place in the `use`.
    pub leaf: usize,
    pub path: String,
    pub binds: Arc<str>,
    /// Who sees what it binds, where that is known without the program.
    pub seen: Option<Seen>,
}

/// A glob: where it leads from, the module in which it is, and who sees what it brings.
pub(super) struct Glob {
    pub from: ModulePlace,
    pub to: ModulePlace,
    pub seen: Option<Seen>,
}

/// Questions, each once.
#[derive(Default)]
pub(super) struct Questions {
    pub lines: Vec<String>,
    numbers: HashMap<String, usize>,
}

impl Questions {
    pub fn add(&mut self, line: String) -> usize {
        *self.numbers.entry(line).or_insert_with_key(|line| {
            self.lines.push(line.clone());
            self.lines.len() - 1
        })
    }
}

/// A file, or what a call expands to.
pub(super) struct Source {
    pub krate: u32,
    pub place: Vec<Step>,
    file: Key,
    is_expanded: bool,
    pub built: Arc<Built>,
}

/// Who sees what a node binds.
fn seen_by(node: &Node, module: &ModulePlace) -> Option<Seen> {
    match &node.visibility {
        Visibility::Private | Visibility::Own => Seen::by("self", module),
        Visibility::Crate => Seen::by("crate", module),
        Visibility::Public => Seen::by("pub", module),
        Visibility::In(path) => Seen::by(&path.text, module),
    }
}

/// A leaf of a `use` by which a path that ends with a name binds something.
fn importing(source: &Source, node: &Node, at: usize) -> Option<Importing> {
    let leaf = node.leaves().get(at).filter(|it| !it.is_self)?;
    let module = node.place_in(&source.place);
    Some(Importing {
        krate: source.krate,
        file: source.file.clone(),
        is_expanded: source.is_expanded,
        node: node.id,
        leaf: at,
        path: leaf.path.clone(),
        binds: leaf.binds.clone()?,
        seen: seen_by(node, &(source.krate, module.clone())),
        module,
    })
}

/// The paths that the program looks up for a node, but for what is in it.
fn paths_of_node(node: &Node, options: &Options, left_out: Derives) -> Vec<(String, Context)> {
    let mut made: Vec<(String, Context)> = match &node.detail {
        Detail::Use(leaves) => leaves.iter().map(|it| (it.path.clone(), Context::Import)).collect(),
        Detail::Call(call) => vec![(call.path.text.to_string(), Context::Call)],
        _ => Vec::new(),
    };
    for (_, it) in node.item.iter().flat_map(|it| numbered(&it.attributes, options)) {
        if it.path.text == "derive" {
            let paths = paths_of(&it).into_iter().flatten().filter(|it| !left_out.hold(&it.text));
            made.extend(paths.map(|it| (it.text.to_string(), Context::Attribute)));
        } else if !is_builtin(&it.path.text) {
            made.push((it.path.text.to_string(), Context::Attribute));
        }
    }
    made
}

/// Whether a visibility in a unit goes through one of these names.
fn has_visibility_in(built: &Built, names: &HashSet<&str>) -> bool {
    let paths = built.json.split("{\"in\":\"").skip(1).filter_map(|it| it.split('"').next());
    paths.flat_map(|it| it.split("::")).any(|it| names.contains(it))
}

/// Whether an import of a crate binds something by what its path leads to: of another crate only what is public.
fn is_bound(reply: &Value, krate: u32, is_self: bool) -> bool {
    let is_seen = |of: &&str| {
        let visibility = &reply["ok"][*of]["vis"];
        visibility == "pub" || visibility["crate"] == krate || visibility["module"]["crate"] == krate
    };
    let namespaces = if is_self { &["types"][..] } else { &["types", "values", "macros"] };
    reply["ok"]["stop"].is_null() && namespaces.iter().any(is_seen)
}

/// The names that modules have or take by globs.
fn with_globs(
    mut names: HashMap<ModulePlace, HashSet<String>>,
    globs: &[Glob],
) -> HashMap<ModulePlace, HashSet<String>> {
    loop {
        let mut is_done = true;
        for Glob { from, to, .. } in globs {
            let taken = names.get(from).cloned().unwrap_or_default();
            let has = names.entry(to.clone()).or_default();
            is_done &= taken.is_subset(has);
            has.extend(taken);
        }
        if is_done {
            return names;
        }
    }
}

impl Workspace {
    /// By what it is known what is told after these changes of a file of one crate, and what is another then. `now` is what
    /// the file is then.
    pub(super) fn known_by_look_ups(
        &mut self,
        krate: u32,
        key: &Key,
        changes: &Changes,
        now: &Built,
    ) -> Result<Option<(KnownBy, Ahead)>> {
        let Some(module) = self.module_of(krate, key).map(steps_of) else {
            return Ok(None);
        };
        let Some(Bindings { names, imports }) = Bindings::read(krate, &module, changes, now) else {
            return Ok(None);
        };
        let mut questions = Questions::default();
        // Another file may have a module of this name.
        let modules = questions.add(format!("{{\"do\":\"modules\",\"file\":{}}}", quoted(key)));
        let sources = self.sources_from(krate);
        let found = self.look_ups((krate, key), &names, imports.is_empty(), now, &sources, &mut questions);
        let globs = self.globs_of(&sources, &mut questions);
        let asked: Vec<[usize; 2]> = imports
            .iter()
            .map(|it| [&it.path, first_of(&it.path)].map(|path| (&it.place, path)))
            .map(|it| it.map(|(place, path)| questions.add(self.question_in(krate, place, path, Context::Import))))
            .collect();
        let (Some(look_ups), Some(globs)) = (found, globs) else {
            return Ok(None);
        };
        if questions.lines.len() > MOST_QUESTIONS {
            return Ok(None);
        }
        let replies = self.ask_all(&questions.lines)?;
        let places = replies[modules]["ok"].as_array().into_iter().flatten();
        let is_there = places.map(Value::to_string).eq([place_json(krate, &module)]);
        if !is_there || replies.iter().any(|it| it.get("error").is_some()) {
            return Ok(None);
        }
        let leads = |number: usize| self.place_of_module(&replies[number]["ok"]["types"]["def"]);
        // What leads into a crate for which a stub stands isn't judged.
        let is_unjudged = |number: usize| self.is_of_stub(&replies[number]["ok"]["types"]["def"]);
        let unbound =
            imports.iter().zip(asked).filter(|(it, [whole, _])| !is_bound(&replies[*whole], krate, it.is_self));
        let unbound: Vec<usize> = unbound.map(|(_, [_, first])| first).collect();
        if !unbound.iter().all(|it| is_unjudged(*it)) {
            return Ok(None);
        }
        let globs: Vec<Glob> =
            globs.into_iter().filter_map(|(number, to, seen)| Some(Glob { from: leads(number)?, to, seen })).collect();
        let names = with_globs(names, &globs);
        let is_met = |it: &LookUp| {
            let module = self.place_looked_in(it, &replies);
            module.is_some_and(|module| names.get(&module).is_some_and(|names| names.contains(&it.name)))
        };
        let made = match (look_ups.iter().any(is_met), imports.is_empty()) {
            (false, _) if unbound.is_empty() => Some((KnownBy::LookUps, Ahead::default())),
            (false, _) => Some((KnownBy::Unjudged, Ahead::default())),
            (true, false) => None,
            (true, true) => {
                let made = self.imports_ahead((krate, module), key, changes, now, &sources, &globs)?;
                made.map(|it| (KnownBy::Imports, it))
            }
        };
        Ok(made.filter(|it| !self.has_similar_of(&names, &it.1)))
    }

    /// The module in which a name is looked up, by the replies to the questions that were noted for it.
    pub(super) fn place_looked_in(&self, it: &LookUp, replies: &[Value]) -> Option<ModulePlace> {
        match &it.place {
            Place::In(it) => Some(it.clone()),
            Place::Behind(number) => self.place_of_module(&replies[*number]["ok"]["types"]["def"]),
        }
    }

    /// Whether a name that is like the one which an import doesn't reach may come from these modules, where such names are
    /// told.
    fn has_similar_of(&self, names: &HashMap<ModulePlace, HashSet<String>>, ahead: &Ahead) -> bool {
        let is_of = |definition: &Value| self.place_of_module(definition).is_some_and(|it| names.contains_key(&it));
        let reached = self.reached.iter().flat_map(|(krate, it)| ahead.reached(*krate).unwrap_or(&it.1));
        self.is_brief && reached.map(|it| it.last()).any(is_of)
    }

    /// The files of the crates from this one on, and what their calls expand to.
    fn sources_from(&self, krate: u32) -> Vec<Source> {
        let is_module = |it: &[Step]| it.iter().all(|it| matches!(it, Step::Module(_)));
        let of_crate = |krate: u32| {
            let units = self.units(krate).into_iter().filter(|it| is_module(&it.place));
            let source = |it: UnitAt| {
                let is_expanded = it.call.is_some();
                Source { krate, place: it.place, file: it.file, is_expanded, built: it.built }
            };
            units.map(source).collect::<Vec<_>>()
        };
        (krate..self.states.len() as u32).flat_map(of_crate).collect()
    }

    /// What looks one of the names up that come or go. None where that isn't known. Where all of them are names of items, which
    /// are no macros, no path of a macro looks them up at its end.
    pub(super) fn look_ups(
        &self,
        (krate, key): (u32, &Key),
        changed: &HashMap<ModulePlace, HashSet<String>>,
        are_items: bool,
        now: &Built,
        sources: &[Source],
        questions: &mut Questions,
    ) -> Option<Vec<LookUp>> {
        let names: HashSet<&str> = changed.values().flatten().map(|it| &**it).collect();
        let has_name = |it: &Built| names.iter().any(|name| it.has_word(name));
        // A macro at the root of a crate may be called by its name alone in others.
        let of_root = changed.get(&(krate, Vec::new()));
        let own = self.built(key)?;
        let mut made = Vec::new();
        for source in sources {
            let built = if Arc::ptr_eq(&source.built, own) { now } else { &*source.built };
            if !has_name(built) {
                continue;
            }
            if built.is_of_paths() || has_visibility_in(built, &names) {
                return None;
            }
            let (of_crate, left_out) =
                (&self.crates.all[source.krate as usize], self.left_out(source.krate, &source.file));
            for node in built.nodes.iter().filter(|it| !it.is_left_out && it.of.is_none()) {
                let place = node.place_in(&source.place);
                for (number, (path, context)) in
                    paths_of_node(node, &of_crate.options, left_out).into_iter().enumerate()
                {
                    // What is in a list looks its path up too.
                    if node.leaves().get(number).is_some_and(|it| it.is_list) {
                        continue;
                    }
                    let is_global = path.starts_with("::");
                    let path_names = names_of(&path);
                    for (at, name) in path_names.iter().enumerate().filter(|it| names.contains(&**it.1)) {
                        let behind = path_names.len() - at - 1;
                        // Items aren't macros.
                        if are_items && behind == 0 && context != Context::Import {
                            continue;
                        }
                        let importing = || importing(source, node, number);
                        let used = match (context, behind) {
                            (Context::Import, 0) if at > 0 => importing().map(Use::End),
                            // In 2015 the first name of an import's path is one of the root.
                            (Context::Import, 1) if at > 0 || of_crate.edition != "2015" => {
                                importing().map(Use::Holder)
                            }
                            (Context::Import, _) | (_, 0) => None,
                            _ => Some(Use::TowardsMacro),
                        };
                        let used = used.unwrap_or(Use::Other);
                        let asked = |count: usize| {
                            let before = if is_global { "::" } else { "" };
                            let path = format!("{before}{}", path_names[..count].join("::"));
                            self.question_in(source.krate, &place, &path, context)
                        };
                        if at > 0 {
                            let place = Place::Behind(questions.add(asked(at)));
                            made.push(LookUp { name: name.clone(), place, first: None, used });
                            continue;
                        }
                        let is_single = path_names.len() == 1 && context != Context::Import;
                        if is_single && source.krate != krate && of_root.is_some_and(|it| it.contains(name)) {
                            return None;
                        }
                        let first = are_items.then(|| questions.add(asked(1)));
                        let mut add = |module: &[Step]| {
                            let place = Place::In((source.krate, module.to_vec()));
                            made.push(LookUp { name: name.clone(), place, first, used: used.clone() });
                        };
                        if of_crate.edition == "2015" {
                            add(&[]);
                        }
                        if !is_global {
                            add(&place);
                        }
                    }
                }
            }
        }
        // What attributes give back, and the like.
        let known: HashSet<*const Built> = sources.iter().map(|it| Arc::as_ptr(&it.built)).collect();
        let mut others = self.expansions.iter().filter(|it| caller_of(it.0).map_or(true, |it| it >= krate));
        let is_unknown = others.any(|it| !known.contains(&Arc::as_ptr(&it.1.built)) && has_name(&it.1.built));
        (!is_unknown).then_some(made)
    }

    /// The globs in these: the number of the question where each leads, the module in which it stands, and who sees what it
    /// brings. None where one has no path.
    fn globs_of(
        &self,
        sources: &[Source],
        questions: &mut Questions,
    ) -> Option<Vec<(usize, ModulePlace, Option<Seen>)>> {
        let mut made = Vec::new();
        for source in sources {
            for (node, leaves) in source.built.uses().filter(|it| !it.0.is_left_out) {
                for leaf in leaves.iter().filter(|it| it.binds.as_deref() == Some("*")) {
                    let path = leaf.path.strip_suffix("::*").filter(|it| !it.is_empty())?;
                    let place = node.place_in(&source.place);
                    let number = questions.add(self.question_in(source.krate, &place, path, Context::Import));
                    let place = (source.krate, place);
                    let seen = seen_by(node, &place);
                    made.push((number, place, seen));
                }
            }
        }
        Some(made)
    }
}
