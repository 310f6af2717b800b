//! A session over the crates of a package: reads files, expands macros, hands all of it to the program, and keeps what
//! was handed in the same as what the files say.

mod ahead;
mod associated;
mod eager;
mod expanded;
mod expansions;
mod files;
mod hand_in;
mod left_out;
mod looked_at;
mod looked_up;
mod lookups;
mod names;
mod places;
mod recorded;
mod type_names;
mod unnamed;
mod updates;
mod walk;

use std::collections::{BTreeMap, HashMap, HashSet};
use std::path::{Path, PathBuf};
use std::sync::Arc;

use anyhow::{bail, Result};
use serde_json::Value;

use crate::macros::Rules;
use crate::package::Crates;
use crate::program::Program;
use crate::report::Reached;
use crate::syntax::{Call, MacroDefinition, Unit};
use crate::token::{on_a_thread, Hash, Span, SyntaxError};
use crate::unit::{Built, BuiltBlock, Derives, Given, Node};
use ahead::Ahead;
pub(crate) use associated::{Associated, Impl};
use expanded::{Expanded, Moved, Source};
pub(crate) use files::bytes_of;
pub use files::{key_of, parse_text, path_of_key};
use hand_in::{set_block, set_file};
use names::Names;
pub(crate) use names::{Bound, ModulePlace, Seen};
pub(crate) use recorded::Recorded;
use type_names::TypeNames;
pub use updates::KnownBy;

/// The text that the program knows a file by: its absolute path without the first `/`.
pub type Key = Arc<str>;

/// What stands in a file.
#[derive(Clone)]
pub struct Parsed {
    /// Where the file lies.
    pub path: PathBuf,
    /// The same without links.
    real: Arc<Path>,
    /// Without items where the file can't be read.
    pub unit: Arc<Unit>,
    /// Why it can't be read.
    pub error: Option<SyntaxError>,
    /// Of its text.
    pub(crate) text: Hash,
    /// What its items have to do with builtin derives.
    given: Given,
    /// Whether a walk passes its items over.
    is_plain: bool,
    /// Whether macro calls are in it: what it is to the program hangs on what these expand to.
    has_calls: bool,
}

struct Sent {
    /// The crate by whose options it was built: the first of which it is a file.
    krate: u32,
    unit: Arc<Unit>,
    /// What stands in place of its calls, in their order.
    replaced: Vec<Arc<Unit>>,
    /// The expansions of its calls in which blocks are that positions of the file may be in.
    with_blocks: Vec<Arc<Unit>>,
    /// The derives that it was handed in without.
    left_out: Derives,
    built: Arc<Built>,
    blocks: Vec<BuiltBlock>,
}

/// What a file of a crate is made into, by what is looked for in it.
struct Made {
    key: Key,
    krate: u32,
    unit: Arc<Unit>,
    left_out: Derives,
    built: Arc<Built>,
    blocks: Vec<BuiltBlock>,
}

impl Made {
    fn is_of(&self, key: &Key, krate: u32, unit: &Arc<Unit>, left_out: Derives) -> bool {
        self.key == *key && self.krate == krate && Arc::ptr_eq(&self.unit, unit) && self.left_out == left_out
    }
}

/// A block that was handed in.
struct SentBlock {
    krate: u32,
    file: Key,
    /// Among the blocks of the file.
    number: usize,
    built: Arc<Built>,
    is_refused: bool,
}

/// A macro that a call reaches.
#[derive(Clone)]
struct Target {
    krate: u32,
    /// As the keys of expansions name it.
    text: String,
    name: String,
    how: How,
}

#[derive(Clone)]
enum How {
    Rules(Arc<MacroDefinition>),
    Builtin,
    Procedural,
}

struct Expansion {
    unit: Arc<Unit>,
    /// What it was made of by rules.
    source: Option<Source>,
    error: Option<String>,
    tokens: usize,
    /// What its items have to do with builtin derives.
    given: Given,
    is_endless: bool,
    /// Whether what it includes isn't known, as what a build script writes.
    is_unknown: bool,
    /// The file that it includes.
    file: Option<Key>,
    /// The paths in place of items that the macro wants resolved first.
    inner: Vec<String>,
}

impl Expansion {
    fn of(unit: Arc<Unit>, error: Option<String>, tokens: usize) -> Expansion {
        let given = Given::by(&unit.items);
        let (is_endless, is_unknown, file, inner) = (false, false, None, Vec::new());
        Expansion { unit, source: None, error, tokens, given, is_endless, is_unknown, file, inner }
    }
}

struct SentExpansion {
    built: Arc<Built>,
    line: String,
    /// Whether it is one with an error, whether it stands for one that ends nowhere, the derives that it was handed in
    /// without, and the paths in place of items.
    state: (bool, bool, Derives, Vec<String>),
}

#[derive(Default)]
struct CrateState {
    /// The files in the order in which they were come upon, each with the module whose items it has.
    files: Vec<(Key, Vec<String>)>,
    places: HashMap<Key, usize>,
    /// The files that weren't there where a module looked for them.
    missing: HashSet<Key>,
    /// The macros that paths reach, by the module and the path.
    reached: HashMap<(Vec<String>, String), Option<Target>>,
    /// The macros with `macro_export`.
    exported: HashMap<Arc<str>, Target>,
    /// The key of the expansion that a call took.
    taken: HashMap<Hash, String>,
    /// The calls that count as ones without items, and why.
    endless: Vec<Endless>,
    /// These calls and those in their expansions.
    without_end: HashSet<Hash>,
    /// The calls in whose expansions, or in those of the calls there, blocks are that positions of a file may be in.
    with_blocks: HashSet<Hash>,
    /// The expansions of these calls by the file in which they stand.
    expansions_with_blocks: HashMap<Key, Vec<Arc<Unit>>>,
    /// The modules in which a call stands whose items aren't known.
    open: HashSet<Vec<String>>,
    /// The files that `include!` names.
    included: HashSet<Key>,
    /// What its files and expansions have to do with builtin derives.
    given: Given,
    /// The builtin derives that its prelude has.
    in_prelude: Derives,
    /// The derives that its files and expansions are handed in without.
    left_out: Derives,
    /// How often the program resolved it.
    resolved: usize,
}

/// A leaf of a `use`, by its file, its node and its place in the tree.
pub(crate) struct PastItem {
    pub file: Key,
    pub node: crate::unit::Id,
    pub leaf: usize,
}

/// Where a glob leads.
pub(crate) enum Leads {
    /// Into a crate for which a stub stands.
    Stub,
    /// To the module of a crate.
    Module(u32, Vec<String>),
}

/// A call that counts as one without items, of which the program doesn't tell.
#[derive(Clone, Debug)]
pub struct Endless {
    /// `endless macro`, or `macro error` where it can't be expanded here but elsewhere.
    pub kind: &'static str,
    /// The file in which it is written.
    pub file: Key,
    /// Where its path stands.
    pub span: Span,
    /// What is told of it.
    pub message: String,
}

/// How many of what there is.
#[derive(Clone, Copy, Default, Debug)]
pub struct Counts {
    pub crates: usize,
    pub files: usize,
    pub nodes: usize,
    pub expansions: usize,
}

/// A macro that isn't run, with how many calls of it there are in the crates that are asked for.
pub type NotRun = BTreeMap<(&'static str, String), usize>;

/// What is known of crates, each with how often the crate had been resolved then.
type Since<T> = HashMap<u32, (usize, T)>;

/// A text with which it is known what is told.
struct KnownText {
    text: Hash,
    by: KnownBy,
    ahead: Ahead,
}

/// Is told what goes on, how many are done, and of how many.
type Progress = Box<dyn Fn(&str, usize, usize) + Send>;

/// The crates of a package, their files, and a process of the program that has both.
pub struct Workspace {
    /// Which crates there are.
    pub crates: Crates,
    program: Program,
    parsed: HashMap<Key, Arc<Parsed>>,
    sent: HashMap<Key, Sent>,
    /// What was made of a text without calls that wasn't what its file had: it is handed in next.
    made: Option<Made>,
    states: Vec<CrateState>,
    cache: HashMap<(u32, Hash), (String, Arc<Expansion>)>,
    moved: Moved,
    rules: HashMap<Hash, Arc<Result<Rules, String>>>,
    expansions: BTreeMap<String, SentExpansion>,
    /// What attributes gave back, by the item and the attribute's number.
    given_back: HashMap<(Hash, u32), Arc<Built>>,
    replaced: HashMap<Hash, Arc<Unit>>,
    not_run: HashMap<u32, NotRun>,
    elsewhere: HashMap<(String, &'static str, Hash), Arc<Unit>>,
    /// What these have to do with builtin derives.
    given_elsewhere: Given,
    /// Of the files and expansions that were handed in.
    type_names: TypeNames,
    crates_line: String,
    refused: Vec<(Key, String)>,
    /// What stands in the files that count as broken, since their modules lead back to them or are too many.
    circular: HashMap<Key, Arc<Parsed>>,
    /// Whether the program takes the blocks of bodies.
    takes_blocks: bool,
    /// Whether impls, the items of traits and blocks aren't handed in.
    is_brief: bool,
    /// The blocks that were handed in, by their places as JSON.
    blocks: BTreeMap<String, SentBlock>,
    /// What the program tells of a crate since it was resolved last.
    told: HashMap<u32, Arc<Value>>,
    /// The imports of a crate that name what an item doesn't hold.
    pub(crate) past_items: Since<Vec<PastItem>>,
    /// How far the unresolved imports of a crate are reached.
    pub(crate) reached: Since<Vec<Reached>>,
    /// The modules of a crate with a glob, each with where that leads.
    pub(crate) globs: Since<Vec<(Vec<String>, Leads)>>,
    /// The texts of files with which it is known, by what the program has, what is told.
    known: HashMap<Key, KnownText>,
    names: Names,
    progress: Progress,
}

/// Where a node stands.
#[derive(Clone, Debug)]
pub struct Located {
    /// The file, or that of the outermost call that brings the node.
    pub file: Key,
    /// Its name there, or the path of that call.
    pub span: Span,
    /// What is known of it.
    pub node: Node,
    /// The module in which it is written.
    pub module: Vec<String>,
    /// Of a variant.
    pub enum_name: Option<Arc<str>>,
    /// Whether a call brings it.
    pub is_expanded: bool,
}

impl Workspace {
    /// Reads all crates and resolves them. `progress` is told what goes on, how many are done and of how many.
    pub fn open(
        crates: Crates,
        program: &Path,
        elsewhere: Option<&Path>,
        progress: impl Fn(&str, usize, usize) + Send + 'static,
    ) -> Result<Workspace> {
        Workspace::open_as(crates, program, elsewhere, false, Box::new(progress))
    }

    /// The same for reports alone: impls, the items of traits, which no import names, and blocks aren't handed in.
    pub fn open_brief(
        crates: Crates,
        program: &Path,
        elsewhere: Option<&Path>,
        progress: impl Fn(&str, usize, usize) + Send + 'static,
    ) -> Result<Workspace> {
        Workspace::open_as(crates, program, elsewhere, true, Box::new(progress))
    }

    fn open_as(
        crates: Crates,
        program: &Path,
        elsewhere: Option<&Path>,
        is_brief: bool,
        progress: Progress,
    ) -> Result<Workspace> {
        let program = Program::start(program)?;
        let states = crates.all.iter().map(|_| CrateState::default()).collect();
        let mut space = Workspace {
            crates,
            program,
            parsed: HashMap::new(),
            sent: HashMap::new(),
            made: None,
            states,
            cache: HashMap::new(),
            moved: Moved::default(),
            rules: HashMap::new(),
            expansions: BTreeMap::new(),
            given_back: HashMap::new(),
            replaced: HashMap::new(),
            not_run: HashMap::new(),
            elsewhere: HashMap::new(),
            given_elsewhere: Given::default(),
            type_names: TypeNames::default(),
            crates_line: String::new(),
            refused: Vec::new(),
            circular: HashMap::new(),
            takes_blocks: false,
            is_brief,
            blocks: BTreeMap::new(),
            told: HashMap::new(),
            past_items: HashMap::new(),
            reached: HashMap::new(),
            globs: HashMap::new(),
            known: HashMap::new(),
            names: Names::default(),
            progress,
        };
        if let Some(it) = elsewhere {
            space.read_elsewhere(it)?;
        }
        space.read_files()?;
        space.hand_in_crates()?;
        // What is in the prelude decides what is handed in of the others.
        let (of_std, all) = (space.crates.of_std as u32, space.crates.all.len() as u32);
        space.settle_once(&(0..of_std).collect::<Vec<_>>(), false)?;
        space.find_preludes()?;
        space.settle(&(0..all).collect::<Vec<_>>(), false)?;
        Ok(space)
    }

    /// Walks the crates, hands in what changed, and goes on until nothing that a call expands to is absent.
    /// Answers which crates the program resolved. With `is_same` what is told of them stays the same.
    fn settle(&mut self, crates: &[u32], is_same: bool) -> Result<Vec<u32>> {
        self.known.clear();
        let mut resolved = self.settle_once(crates, is_same)?;
        let is_of_std = |it: &u32| (*it as usize) < self.crates.of_std;
        if resolved.iter().any(is_of_std) && self.find_preludes()? {
            let all: Vec<u32> = (0..self.crates.all.len() as u32).collect();
            resolved.extend(self.settle_once(&all, false)?);
            resolved.sort_unstable();
            resolved.dedup();
        }
        Ok(resolved)
    }

    fn settle_once(&mut self, crates: &[u32], is_same: bool) -> Result<Vec<u32>> {
        let mut walk: Vec<u32> = crates.to_vec();
        let mut resolved = HashSet::new();
        let mut asked: HashSet<String> = HashSet::new();
        for round in 1.. {
            let mut lines = Vec::new();
            let mut walked = std::mem::take(&mut walk);
            let mut keys = self.keys_of(&walked);
            let mut pending = Vec::new();
            on_a_thread(|| walked.iter().try_for_each(|it| self.walk(*it, &mut lines, &mut pending)))?;
            let changed = self.leave_out(&mut lines);
            let leaves_the_same_out = changed.is_empty();
            if !leaves_the_same_out {
                asked.clear();
                let more: Vec<u32> = changed.into_iter().filter(|it| !walked.contains(it)).collect();
                on_a_thread(|| more.iter().try_for_each(|it| self.walk(*it, &mut lines, &mut pending)))?;
                walked.extend(more);
            }
            for (krate, key, expansion) in pending {
                self.set_expansion(krate, key, &expansion, &mut lines);
            }
            // Where the walk comes upon anything else than before, what is told is asked.
            let is_same = is_same && round == 1 && leaves_the_same_out && lines.is_empty();
            keys.extend(self.keys_of(&walked));
            let built = self.build_files(keys, &mut lines)?;
            self.set_blocks(&walked, &built, &mut lines);
            self.hand_in(lines)?;
            let reply = self.program.ask("{\"do\":\"refresh\"}".to_owned())?;
            let Some(places) = reply["ok"].as_array() else {
                bail!("the program can't resolve the crates: {}", reply["error"]);
            };
            let crates = places.iter().filter(|it| it.as_array().is_some_and(|it| it.len() == 1));
            let due: Vec<u32> = crates.filter_map(|it| it[0].as_u64().map(|it| it as u32)).collect();
            if due.is_empty() || round > 200 {
                break;
            }
            (self.progress)("resolving", round, round);
            resolved.extend(&due);
            due.iter().for_each(|it| self.states[*it as usize].resolved += 1);
            if is_same && self.refused.is_empty() {
                self.keep_told(&due);
                break;
            }
            due.iter().for_each(|it| drop(self.told.remove(it)));
            let mut changed = HashSet::new();
            let mut lines = Vec::new();
            for (krate, told) in due.iter().zip(self.diagnostics(&due)?) {
                self.reach(*krate, &told, &mut changed, &mut lines, &mut asked)?;
            }
            // Nothing is reported of these.
            self.told.retain(|it, _| *it as usize >= self.crates.of_std);
            if changed.is_empty() && lines.is_empty() {
                break;
            }
            self.hand_in(lines)?;
            walk = changed.into_iter().collect();
            walk.sort_unstable();
        }
        let mut resolved: Vec<u32> = resolved.into_iter().collect();
        resolved.sort_unstable();
        Ok(resolved)
    }

    /// Has what was known of these crates before they were resolved last count for how they are now.
    fn keep_told(&mut self, crates: &[u32]) {
        fn keep<T>(known: &mut Since<T>, krate: u32, times: usize) {
            if let Some(it) = known.get_mut(&krate).filter(|it| it.0 + 1 == times) {
                it.0 = times;
            }
        }
        for it in crates {
            let times = self.states[*it as usize].resolved;
            keep(&mut self.past_items, *it, times);
            keep(&mut self.reached, *it, times);
            keep(&mut self.globs, *it, times);
        }
    }

    /// What the program tells of these crates. It is asked once after each time that it resolved a crate.
    pub(crate) fn diagnostics(&mut self, crates: &[u32]) -> Result<Vec<Arc<Value>>> {
        let due: Vec<u32> = crates.iter().copied().filter(|it| !self.told.contains_key(it)).collect();
        let asks: Vec<String> = due.iter().map(|it| format!("{{\"do\":\"diagnostics\",\"crate\":{it}}}")).collect();
        let replies = self.program.ask_all(&asks)?;
        self.told.extend(due.into_iter().zip(replies.into_iter().map(|mut it| Arc::new(it["ok"].take()))));
        Ok(crates.iter().map(|it| self.told[it].clone()).collect())
    }

    /// Whether it is for reports alone.
    pub(crate) fn is_brief(&self) -> bool {
        self.is_brief
    }

    /// Whether blocks are handed in.
    fn hands_in_blocks(&self) -> bool {
        self.takes_blocks && !self.is_brief
    }

    fn expanded(&self, krate: u32) -> Expanded<'_> {
        Expanded { krate, state: &self.states[krate as usize], cache: &self.cache, moved: &self.moved }
    }

    /// What rules expand a call of a crate to, with the places that its tokens have in its file.
    pub fn expansion_of(&self, krate: u32, call: &Call) -> Option<Arc<Unit>> {
        self.expanded(krate).unit(call)
    }

    /// Asks the program. The line is one command.
    pub fn ask(&mut self, line: String) -> Result<Value> {
        self.program.ask(line)
    }

    /// The replies of the program to these commands, in their order.
    pub fn ask_all(&mut self, lines: &[String]) -> Result<Vec<Value>> {
        self.program.ask_all(lines)
    }

    /// The same, of which nothing is noted.
    pub(crate) fn ask_unnoted(&mut self, lines: &[String]) -> Result<Vec<Value>> {
        let noted = self.program.noted.take();
        let replies = self.program.ask_all(lines);
        self.program.noted = noted;
        replies
    }

    /// The commands by which a new process of the program comes to where this one is.
    pub fn session(&self) -> Vec<String> {
        let mut lines = vec![self.crates_line.clone()];
        let mut files: Vec<_> = self.sent.iter().collect();
        files.sort_by_key(|it| it.0);
        lines.extend(files.into_iter().map(|(key, it)| {
            let is_refused = self.refused.iter().any(|it| it.0 == *key);
            set_file(key, if is_refused { "\"broken\"" } else { &it.built.json })
        }));
        let blocks = self.blocks.iter().filter(|it| !it.1.is_refused);
        lines.extend(blocks.map(|(place, it)| set_block(place, &it.built.json)));
        lines.extend(self.expansions.values().map(|it| it.line.clone()));
        lines.push("{\"do\":\"refresh\"}".to_owned());
        lines
    }

    /// Ends the program and keeps the memory, which takes a process that ends no time to give back.
    pub fn abandon(mut self) {
        self.program.end();
        std::mem::forget(self);
    }

    /// The number of the program's process.
    pub fn program_id(&self) -> u32 {
        self.program.id()
    }

    /// Whether the program runs.
    pub fn is_running(&mut self) -> bool {
        self.program.is_running()
    }

    /// Starts the program anew, and brings it to where this session is.
    pub fn restart(&mut self, program: &Path) -> Result<()> {
        self.program = Program::start(program)?;
        self.told.clear();
        let lines = self.session();
        self.program.ask_all(&lines)?;
        let all: Vec<u32> = (0..self.crates.all.len() as u32).collect();
        self.settle(&all, false)?;
        Ok(())
    }

    /// How many crates, files, nodes and expansions there are.
    pub fn counts(&self) -> Counts {
        Counts {
            crates: self.crates.all.len(),
            files: self.sent.len(),
            nodes: self.sent.values().map(|it| it.built.nodes.len()).sum(),
            expansions: self.expansions.len(),
        }
    }

    /// The files of a crate, and the module whose items each has.
    pub fn files(&self, krate: u32) -> &[(Key, Vec<String>)] {
        &self.states[krate as usize].files
    }

    /// What stands in a file, where it was read.
    pub fn parsed(&self, key: &str) -> Option<&Arc<Parsed>> {
        self.parsed.get(key)
    }

    /// The unit of a file, where it was handed in.
    pub fn built(&self, key: &str) -> Option<&Arc<Built>> {
        self.sent.get(key).map(|it| &it.built)
    }

    /// The modules of a crate in which a call stands whose items aren't known: of a procedural macro, or an `include!` of
    /// what a build script writes.
    pub fn open_modules(&self, krate: u32) -> impl Iterator<Item = &Vec<String>> {
        self.states[krate as usize].open.iter()
    }

    /// Whether a crate declares a type of this name, or an import gives the name to something.
    pub(crate) fn is_type_name(&self, name: &str) -> bool {
        self.type_names.hold(name)
    }

    /// How often the program resolved a crate.
    pub fn times_resolved(&self, krate: u32) -> usize {
        self.states[krate as usize].resolved
    }

    /// The calls of a crate that count as ones without items.
    pub fn endless(&self, krate: u32) -> &[Endless] {
        &self.states[krate as usize].endless
    }

    /// The files that were refused, and why; with an empty key expansions.
    pub fn refused(&self) -> &[(Key, String)] {
        &self.refused
    }

    /// The macros of the crates that are asked for that aren't run.
    pub fn not_run(&self) -> NotRun {
        let mut all = NotRun::new();
        for (krate, them) in &self.not_run {
            if self.crates.all[*krate as usize].is_asked {
                for (name, count) in them {
                    *all.entry(name.clone()).or_default() += count;
                }
            }
        }
        all
    }

    /// The crates in which the file is a module, those that are asked for first.
    pub fn crates_of(&self, key: &str) -> Vec<u32> {
        let mut all: Vec<u32> =
            (0..self.states.len() as u32).filter(|it| self.states[*it as usize].places.contains_key(key)).collect();
        all.sort_by_key(|it| !self.crates.all[*it as usize].is_asked);
        all
    }

    /// The module whose items the file has.
    pub fn module_of(&self, krate: u32, key: &str) -> Option<&[String]> {
        let state = &self.states[krate as usize];
        state.places.get(key).map(|at| &state.files[*at].1[..])
    }
}
