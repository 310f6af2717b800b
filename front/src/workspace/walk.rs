//! One walk over a crate, in the order in which rustc walks it: textual scope, calls, and what they expand to.

use std::collections::{HashMap, HashSet};
use std::path::{Path, PathBuf};
use std::sync::Arc;

use anyhow::Result;

use super::eager::{gives_calls, Input};
use super::expansions::macro_question;
use super::files::{broken, key_of, parse, path_of_key, Folder};
use super::{Endless, Expansion, How, Key, NotRun, Target, Workspace};
use crate::cfg::Options;
use crate::macros::MOST_TOKENS;
use crate::report::shown;
use crate::syntax::{Attribute, Block, Call, Item, ItemKind, MacroDefinition, Unit};
use crate::token::{Hash, Span, SyntaxError};
use crate::unit::{is_enabled, numbered, text_attribute, Given};

/// The program takes no file of a module that more modules are around.
const MOST_NESTED: usize = 32;
/// A file has the items of at most so many modules.
const MOST_MODULES: usize = 64;

/// One walk over a crate, in the order in which rustc walks it.
pub(super) struct Walk<'a> {
    space: &'a mut Workspace,
    krate: u32,
    limit: usize,
    /// The macros in textual scope, and how to go back.
    scope: HashMap<Arc<str>, Target>,
    log: Vec<(Arc<str>, Option<Target>)>,
    /// How many definitions were come upon.
    defined: usize,
    /// Calls of macros in textual scope in the module that is walked.
    calls: Vec<(Arc<str>, String, Vec<Hash>)>,
    /// The calls in whose expansions the walk is, but for those around the block that it is in.
    chain: Vec<Hash>,
    /// How many calls there are around in all.
    depth: usize,
    /// Where the path of the outermost of these stands.
    outermost: Span,
    /// Whether it is in what a call brings that no rules expand, so that positions are those of another text.
    is_elsewhere: bool,
    files: Vec<(Key, Vec<String>)>,
    /// In how many modules each of these was come upon.
    modules: HashMap<Key, usize>,
    /// The files around, without links.
    around: Vec<Arc<Path>>,
    /// The files that count as broken, since their modules lead back to them or are too many.
    circular: Vec<(Key, SyntaxError)>,
    missing: HashSet<Key>,
    pending: Vec<(Hash, String, Arc<Expansion>)>,
    replaced: HashMap<Hash, Arc<Unit>>,
    units: HashMap<Hash, Arc<Unit>>,
    taken: HashMap<Hash, String>,
    /// What the calls are given that share an expansion.
    shared: HashMap<String, String>,
    /// The keys under which paths are handed in, in place of items.
    asking: HashSet<String>,
    tokens: usize,
    is_too_deep: bool,
    endless: Vec<Endless>,
    without_end: HashSet<Hash>,
    /// How many blocks of expansions were come upon that positions of a file may be in.
    blocks: usize,
    with_blocks: HashSet<Hash>,
    expansions_with_blocks: HashMap<Key, Vec<Arc<Unit>>>,
    open: HashSet<Vec<String>>,
    included: HashSet<Key>,
    /// The paths that were looked up, by module.
    looked_up: HashSet<(Vec<String>, String)>,
    not_run: NotRun,
    in_block: bool,
}

impl Walk<'_> {
    fn new(space: &mut Workspace, krate: u32, limit: usize) -> Walk<'_> {
        Walk {
            space,
            krate,
            limit,
            scope: HashMap::new(),
            log: Vec::new(),
            defined: 0,
            calls: Vec::new(),
            chain: Vec::new(),
            depth: 0,
            outermost: Span::default(),
            is_elsewhere: false,
            files: Vec::new(),
            modules: HashMap::new(),
            around: Vec::new(),
            circular: Vec::new(),
            missing: HashSet::new(),
            pending: Vec::new(),
            replaced: HashMap::new(),
            units: HashMap::new(),
            taken: HashMap::new(),
            shared: HashMap::new(),
            asking: HashSet::new(),
            tokens: 0,
            is_too_deep: false,
            endless: Vec::new(),
            without_end: HashSet::new(),
            blocks: 0,
            with_blocks: HashSet::new(),
            expansions_with_blocks: HashMap::new(),
            open: HashSet::new(),
            included: HashSet::new(),
            looked_up: HashSet::new(),
            not_run: NotRun::new(),
            in_block: false,
        }
    }

    pub(super) fn options(&self) -> &Options {
        &self.space.crates.all[self.krate as usize].options
    }

    pub(super) fn define(&mut self, name: Arc<str>, target: Target) {
        self.defined += 1;
        let before = self.scope.insert(name.clone(), target);
        self.log.push((name, before));
    }

    pub(super) fn go_back(&mut self, mark: usize) {
        while self.log.len() > mark {
            if let Some((name, before)) = self.log.pop() {
                match before {
                    Some(it) => self.scope.insert(name, it),
                    None => self.scope.remove(&name),
                };
            }
        }
    }

    pub(super) fn file(&mut self, key: &Key, folder: &Folder, place: &[String]) {
        let Some(parsed) = self.space.parsed.get(key).cloned().filter(|_| place.len() <= MOST_NESTED) else {
            return;
        };
        let modules = self.modules.entry(key.clone()).or_default();
        if parsed.error.is_none() && *modules >= MOST_MODULES {
            let message = format!("more than {MOST_MODULES} modules have their items in this file");
            self.circular.push((key.clone(), SyntaxError { at: Span::default(), message }));
            return;
        }
        *modules += 1;
        self.files.push((key.clone(), place.to_vec()));
        self.around.push(parsed.real.clone());
        if !parsed.is_plain && is_enabled(&parsed.unit.attributes, self.options()) {
            let chain = std::mem::take(&mut self.chain);
            let (depth, is_elsewhere) = (self.depth, self.is_elsewhere);
            (self.depth, self.is_elsewhere) = (0, false);
            self.items(&parsed.unit.items, folder, place, key);
            (self.chain, self.depth, self.is_elsewhere) = (chain, depth, is_elsewhere);
        }
        self.around.pop();
    }

    /// Whether a file is one of those around. That is told of the file in which its `mod` is written.
    fn is_circular(&mut self, found: &Key, declaring: &Key, item: &Item) -> bool {
        let real = &self.space.parsed[found].real;
        if !self.around.contains(real) {
            return false;
        }
        let message = format!("circular modules: `mod {}` leads back to {}", item.name_text(), shown(real));
        self.circular.push((declaring.clone(), SyntaxError { at: item.span, message }));
        true
    }

    pub(super) fn module(&mut self, item: &Item, walk: impl FnOnce(&mut Self), top: &[Attribute]) {
        let gives_back = |walk: &Self, all: &[Attribute]| {
            numbered(all, walk.options()).iter().any(|it| it.1.path.text == "macro_use")
        };
        let gives_back = gives_back(self, &item.attributes) || gives_back(self, top);
        let (mark, calls, defined) = (self.log.len(), std::mem::take(&mut self.calls), self.defined);
        walk(self);
        let inner = std::mem::replace(&mut self.calls, calls);
        self.settle(inner);
        if !gives_back {
            self.go_back(mark);
            self.defined = defined;
        }
    }

    /// Calls that mean another macro than the last of its name are replaced by what they expand to.
    pub(super) fn settle(&mut self, calls: Vec<(Arc<str>, String, Vec<Hash>)>) {
        for (name, text, chain) in calls {
            if self.scope.get(&name).map(|it| &it.text) != Some(&text) {
                for it in chain {
                    if let Some(unit) = self.units.get(&it) {
                        self.replaced.insert(it, unit.clone());
                    }
                }
            }
        }
    }

    pub(super) fn items(&mut self, items: &[Item], folder: &Folder, place: &[String], key: &Key) {
        let has_bodies = self.space.takes_blocks && !self.is_elsewhere;
        for item in items {
            let is_of_interest = matches!(
                item.kind,
                ItemKind::Macro(_) | ItemKind::Module(_) | ItemKind::Call(_) | ItemKind::ExternBlock(_)
            );
            let associated = match &item.kind {
                ItemKind::Trait(inner) | ItemKind::Impl { items: inner, .. } if has_bodies => &inner[..],
                _ => &[],
            };
            // Those of a call are what it expands to.
            let has_own = !item.blocks.is_empty() && !matches!(item.kind, ItemKind::Call(_));
            let has_blocks = has_bodies && has_own || !associated.is_empty();
            if !(is_of_interest || has_blocks) || !is_enabled(&item.attributes, self.options()) {
                continue;
            }
            for it in std::iter::once(item).chain(associated).filter(|_| has_blocks) {
                if is_enabled(&it.attributes, self.options()) {
                    it.blocks.iter().for_each(|it| self.block(it, folder, place, key));
                }
            }
            match &item.kind {
                ItemKind::Macro(definition) if definition.is_rules => {
                    let target = target_of(self.krate, item.name_text(), Some(definition), item);
                    if is_exported(item, self.options()) {
                        let state = &mut self.space.states[self.krate as usize];
                        state.exported.insert(definition.name.clone(), target.clone());
                    }
                    self.define(definition.name.clone(), target);
                }
                ItemKind::Module(inner) => self.items_of_module(item, inner.as_deref(), folder, place, key),
                ItemKind::Call(call) => {
                    let is_expanded = self.call(call, folder, place, key);
                    if !is_expanded && has_bodies {
                        item.blocks.iter().for_each(|it| self.block(it, folder, place, key));
                    }
                }
                ItemKind::ExternBlock(items) => self.items(items, folder, place, key),
                _ => {}
            }
        }
    }

    /// The items of a module, inline or in the file that is found for it.
    fn items_of_module(&mut self, module: &Item, inner: Option<&[Item]>, folder: &Folder, place: &[String], key: &Key) {
        let path = text_attribute(&module.attributes, "path", self.options());
        let name = module.name_text();
        let mut inside = place.to_vec();
        if !self.in_block {
            inside.push(name.to_owned());
        }
        match inner {
            Some(items) => {
                let folder = folder.inline(name, path.as_deref());
                self.module(module, |walk| walk.items(items, &folder, &inside, key), &[]);
            }
            None if self.in_block => {}
            None => {
                let found = self.find(folder.candidates(name, path.as_deref()));
                let found = found.filter(|it| !self.is_circular(&it.0, key, module));
                if let Some((key, folder)) = found {
                    let top = self.space.parsed[&key].unit.attributes.clone();
                    self.module(module, |walk| walk.file(&key, &folder, &inside), &top);
                }
            }
        }
    }

    /// The macros of a block, and what its calls expand to. They stand in textual scope to its end.
    pub(super) fn block(&mut self, block: &Block, folder: &Folder, place: &[String], key: &Key) {
        if !block.is_given() {
            return;
        }
        self.blocks += usize::from(self.depth > 0);
        let (mark, defined, in_block) = (self.log.len(), self.defined, self.in_block);
        let chain = std::mem::take(&mut self.chain);
        self.in_block = true;
        self.statements(&block.items, &block.blocks, folder, place, key);
        self.go_back(mark);
        (self.chain, self.defined, self.in_block) = (chain, defined, in_block);
    }

    pub(super) fn statements(
        &mut self,
        items: &[Item],
        blocks: &[Arc<Block>],
        folder: &Folder,
        place: &[String],
        key: &Key,
    ) {
        let mut blocks = blocks.iter().peekable();
        for (number, item) in items.iter().enumerate() {
            while let Some(it) = blocks.next_if(|it| it.before <= number) {
                self.block(it, folder, place, key);
            }
            self.items(std::slice::from_ref(item), folder, place, key);
        }
        blocks.for_each(|it| self.block(it, folder, place, key));
    }

    /// The first of the files that is there, read.
    pub(super) fn find(&mut self, candidates: Vec<(PathBuf, bool)>) -> Option<(Key, Folder)> {
        for (path, owns_folder) in candidates {
            let key = key_of(&path).ok()?;
            if !self.space.parsed.contains_key(&key) {
                if !path.is_file() {
                    self.missing.insert(key);
                    continue;
                }
                let parsed = parse(&path, &key);
                self.space.parsed.insert(key.clone(), Arc::new(parsed));
            }
            let folder = Folder::of(&path_of_key(&key), owns_folder);
            return Some((key, folder));
        }
        None
    }

    /// Goes on in what a call expands to. True where rules say what that is.
    pub(super) fn call(&mut self, call: &Arc<Call>, folder: &Folder, place: &[String], key: &Key) -> bool {
        if self.depth >= self.limit || self.tokens > MOST_TOKENS {
            self.is_too_deep = true;
            return false;
        }
        let textual = self.scope.get(&*call.path.text).cloned();
        let Some(target) = textual.clone().or_else(|| self.target_of_path(&call.path.text, place)) else {
            return false;
        };
        let (first, blocks) = (self.pending.len(), self.blocks);
        let is_outermost = self.depth == 0;
        if is_outermost {
            (self.tokens, self.is_too_deep) = (0, false);
            self.outermost = call.path.span;
        }
        let input = gives_calls(call, &target).then(|| self.eager_input(call, place));
        let mut in_body = NotRun::new();
        let not_run = if self.in_block { &mut in_body } else { &mut self.not_run };
        let expansion = self.space.expand(self.krate, call, &target, input.as_ref(), folder, not_run);
        let is_reached = input.as_ref().map_or(true, Input::is_reached);
        let is_unknown = match target.how {
            How::Procedural => expansion.unit.items.is_empty(),
            How::Builtin => target.name == "include" && expansion.is_unknown && is_reached,
            How::Rules(_) => false,
        };
        if is_unknown && !self.in_block {
            self.open.insert(place.to_vec());
        }
        self.included.extend(expansion.file.clone());
        self.tokens += expansion.tokens + 1;
        let mut is_shared = true;
        let mut expansion_key = self.space.expansion_key(self.krate, call, &target);
        if let Some(it) = input.as_ref().filter(|it| !it.paths().is_empty()) {
            is_shared &= self.is_shared(&expansion_key, it.words());
            let inner = Expansion { inner: it.paths(), ..Expansion::of(Arc::default(), None, 0) };
            self.asking.insert(expansion_key.clone());
            self.pending.push((call.identity, expansion_key, Arc::new(inner)));
            expansion_key = it.key(self.krate, call, &target);
        }
        if is_reached && matches!(target.how, How::Builtin) {
            is_shared &= self.is_shared(&expansion_key, format!("{:?} {:?}", expansion.file, expansion.error));
        }
        self.taken.insert(call.identity, expansion_key.clone());
        if is_reached {
            self.pending.push((call.identity, expansion_key, expansion.clone()));
        }
        self.units.insert(call.identity, expansion.unit.clone());
        let (defined, is_elsewhere) = (self.defined, self.is_elsewhere);
        self.is_elsewhere |= expansion.source.is_none();
        self.depth += 1;
        self.chain.push(call.identity);
        if self.in_block {
            // The program is told of the items alone.
            self.replaced.insert(call.identity, expansion.unit.clone());
        } else if textual.is_some() {
            self.calls.push((call.path.text.as_str().into(), target.text.clone(), self.chain.clone()));
        }
        self.statements(&expansion.unit.items, &expansion.unit.blocks, folder, place, key);
        if let (Some(message), false) = (expansion.error.clone(), is_shared) {
            let (file, span) = (key.clone(), self.outermost);
            self.endless.push(Endless { kind: "macro error", file, span, message });
        }
        if self.defined > defined || !is_shared {
            for it in &self.chain {
                self.replaced.insert(*it, self.units[it].clone());
            }
        }
        self.chain.pop();
        self.depth -= 1;
        self.is_elsewhere = is_elsewhere;
        if self.blocks > blocks {
            self.with_blocks.insert(call.identity);
            self.expansions_with_blocks.entry(key.clone()).or_default().push(expansion.unit.clone());
        }
        if is_outermost && self.is_too_deep {
            self.note_endless(call, key, first);
        }
        expansion.source.is_some()
    }

    /// The macro that a path reaches which isn't in textual scope, as far as that is known.
    fn target_of_path(&mut self, path: &str, place: &[String]) -> Option<Target> {
        let question = (place.to_vec(), path.to_owned());
        self.looked_up.insert(question.clone());
        self.space.reached(self.krate, question, self.in_block)
    }

    /// What a call gives to a macro that expands the calls in it first.
    fn eager_input(&mut self, call: &Call, place: &[String]) -> Input {
        let chain = [&self.chain[..], &[call.identity]].concat();
        let Walk { space, scope, looked_up, calls, krate, limit, depth, in_block, .. } = self;
        let mut reach = |space: &mut Workspace, path: &str| {
            if let Some((name, it)) = scope.get_key_value(path) {
                if !*in_block {
                    calls.push((name.clone(), it.text.clone(), chain.clone()));
                }
                return Some(it.clone());
            }
            let question = (place.to_vec(), path.to_owned());
            looked_up.insert(question.clone());
            let found = space.reached(*krate, question.clone(), *in_block);
            // What isn't known is asked.
            space.states[*krate as usize].reached.entry(question).or_insert_with(|| found.clone());
            found
        };
        space.eager_input(*krate, call, (*depth, *limit), &mut reach)
    }

    /// Whether calls that have the key of an expansion are given the same.
    fn is_shared(&mut self, key: &str, given: String) -> bool {
        *self.shared.entry(key.to_owned()).or_insert_with(|| given.clone()) == given
    }

    /// Notes that a call ends nowhere. It and the calls in its expansion, which are pending from `first` on, count as ones
    /// without items.
    fn note_endless(&mut self, call: &Call, key: &Key, first: usize) {
        let name = &call.path.text;
        let message = match self.tokens > MOST_TOKENS {
            true => format!("`{name}!` doesn't end: it expands to more than {MOST_TOKENS} tokens; end it"),
            false => format!(
                "recursion limit reached while expanding `{name}!`: end it, or raise `recursion_limit` above {}",
                self.limit
            ),
        };
        self.endless.push(Endless { kind: "endless macro", file: key.clone(), span: call.path.span, message });
        let none = Arc::new(Expansion { is_endless: true, ..Expansion::of(Arc::default(), None, 0) });
        for it in &mut self.pending[first..] {
            it.2 = none.clone();
            self.replaced.remove(&it.0);
            self.without_end.insert(it.0);
        }
        self.tokens = 0;
    }
}

/// Whether a `macro_rules` is known in its crate's root.
pub(super) fn is_exported(item: &Item, options: &Options) -> bool {
    numbered(&item.attributes, options).iter().any(|it| it.1.path.text == "macro_export")
}

pub(super) fn target_of(krate: u32, name: &str, definition: Option<&Arc<MacroDefinition>>, item: &Item) -> Target {
    let builtin = item.attributes.iter().any(|it| it.path.text == "rustc_builtin_macro");
    let (text, how) = match definition {
        Some(it) if !builtin => (it.hash.text(), How::Rules(it.clone())),
        _ => (format!("builtin {name}"), How::Builtin),
    };
    Target { krate, text, name: name.to_owned(), how }
}

impl Workspace {
    /// Walks a crate. What its calls expand to is added, which isn't handed in yet.
    pub(super) fn walk(
        &mut self,
        krate: u32,
        lines: &mut Vec<String>,
        expansions: &mut Vec<(u32, String, Arc<Expansion>)>,
    ) -> Result<()> {
        let root = self.crates.all[krate as usize].root.clone();
        let key = key_of(&root)?;
        let limit = self.recursion_limit(krate, &key);
        let mut walk = Walk::new(self, krate, limit);
        walk.file(&key, &Folder::of(&root, true), &[]);
        let calls = std::mem::take(&mut walk.calls);
        walk.settle(calls);
        if !walk.circular.is_empty() {
            for (key, error) in std::mem::take(&mut walk.circular) {
                self.count_as_broken(key, error);
            }
            return self.walk(krate, lines, expansions);
        }
        let Walk { files, missing, pending, replaced, units, taken, looked_up, not_run, .. } = walk;
        let Walk { endless, without_end, with_blocks, expansions_with_blocks, open, included, asking, .. } = walk;
        let mut given = Given::default();
        for (identity, key, expansion) in pending {
            given = given.and(expansion.given);
            if !replaced.contains_key(&identity) {
                expansions.push((krate, key, expansion));
            }
        }
        let before: Vec<Hash> = self.states[krate as usize].taken.keys().copied().collect();
        for it in before {
            if !replaced.contains_key(&it) {
                self.replaced.remove(&it);
            }
        }
        self.replaced.extend(replaced);
        self.cache.retain(|it, _| it.0 != krate || units.contains_key(&it.1));
        self.remove_untaken(krate, &taken, &asking, lines);
        for it in files.iter().filter_map(|it| self.parsed.get(&it.0)) {
            given = given.and(it.given);
        }
        let state = &mut self.states[krate as usize];
        state.given = given;
        state.reached.retain(|it, _| looked_up.contains(it));
        state.places = HashMap::new();
        for (at, (key, _)) in files.iter().enumerate() {
            state.places.entry(key.clone()).or_insert(at);
        }
        (state.files, state.missing, state.taken) = (files, missing, taken);
        (state.endless, state.open, state.included) = (endless, open, included);
        (state.without_end, state.with_blocks) = (without_end, with_blocks);
        state.expansions_with_blocks = expansions_with_blocks;
        let kept = self.not_run.entry(krate).or_default();
        kept.retain(|it, _| it.0 != "macro");
        kept.extend(not_run);
        Ok(())
    }

    /// How deep expansions of a crate may nest, by its root file; never deeper than 4,096.
    fn recursion_limit(&self, krate: u32, root: &Key) -> usize {
        let options = &self.crates.all[krate as usize].options;
        let attributes = self.parsed.get(root).map_or(&[][..], |it| &it.unit.attributes);
        let limit = text_attribute(attributes, "recursion_limit", options).and_then(|it| it.parse().ok());
        limit.unwrap_or(128).min(4096)
    }

    /// Removes the expansions that no call of a crate takes any more.
    fn remove_untaken(
        &mut self,
        krate: u32,
        taken: &HashMap<Hash, String>,
        asking: &HashSet<String>,
        lines: &mut Vec<String>,
    ) {
        let used: HashSet<&String> = taken.values().chain(asking).collect();
        let front = format!("{{\"caller\":{krate},");
        let is_left =
            |key: &&String| key.starts_with(&front) && key.contains(",\"call\":\"bang\",") && !used.contains(key);
        let left: Vec<String> = self.expansions.keys().filter(is_left).cloned().collect();
        for key in left {
            lines.push(format!("{{\"do\":\"remove expansion\",\"key\":{key}}}"));
            self.remove_expansion(&key);
        }
    }

    /// Has a file count as one that can't be read, until something changes.
    fn count_as_broken(&mut self, key: Key, error: SyntaxError) {
        let Some(parsed) = self.parsed.get(&key).cloned().filter(|_| !self.circular.contains_key(&key)) else {
            return;
        };
        let counted = broken(&parsed.path, error, parsed.text);
        self.circular.insert(key.clone(), parsed);
        self.parsed.insert(key, Arc::new(counted));
    }

    /// The macro that a path reaches, as far as that is known.
    fn reached(&mut self, krate: u32, question: (Vec<String>, String), in_block: bool) -> Option<Target> {
        match self.states[krate as usize].reached.get(&question).cloned() {
            Some(it) => it,
            // The program doesn't tell that a call of a block is absent.
            None if in_block => self.likely_or_asked(krate, question),
            None => self.likely(krate, question),
        }
    }

    /// The exported macro that a path most likely reaches, which is asked later on: an expansion that is there at once
    /// saves a round.
    pub(super) fn likely(&mut self, krate: u32, question: (Vec<String>, String)) -> Option<Target> {
        let own = &self.crates.all[krate as usize];
        let named = |name: &str| own.dependencies.iter().find(|it| it.1 == name).map(|it| it.0);
        let (crates, name) = match question.1.split_once("::") {
            None => (vec![Some(krate), named("std"), named("core"), named("alloc")], &*question.1),
            Some(("crate", name)) => (vec![Some(krate)], name),
            Some((first, name)) => match first.strip_prefix('$') {
                Some(number) => (vec![number.parse().ok()], name),
                None => (vec![named(first)], name),
            },
        };
        let states = crates.into_iter().flatten().filter_map(|it| self.states.get(it as usize));
        let found = states.filter_map(|it| it.exported.get(name)).next().cloned()?;
        self.states[krate as usize].reached.insert(question, Some(found.clone()));
        Some(found)
    }

    /// The macro that a path most likely reaches, else the one that the program says. Where that is none it is asked
    /// again when the crate is resolved.
    pub(super) fn likely_or_asked(&mut self, krate: u32, question: (Vec<String>, String)) -> Option<Target> {
        let likely = self.likely(krate, question.clone());
        if likely.is_some() {
            return likely;
        }
        let reply = self.program.ask(macro_question(krate, &question.0, &question.1, "bang"));
        let found = reply.ok().and_then(|it| self.target(&it["ok"]["macros"]["def"]));
        self.states[krate as usize].reached.insert(question, found.clone());
        found
    }
}
