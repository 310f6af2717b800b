//! What was handed in, and what the program said to it, so that after an edit it can be handed in again without reading,
//! expanding and building what didn't change.
//!
//! Where a walk looks at the same in an edited file, it takes the same way, as long as each path reaches the macro that it
//! reached. So the units of all other files and all expansions are those that would be handed in anew. The program is
//! asked what it was asked for the report; where it replies the same, and no import names what an item doesn't hold, the
//! report is the same. Where only items come, go or change whose names nothing looks up, it isn't asked.
//!
//! Handed in again is what may be looked up. The rest is kept apart, for edits that look that up.

use std::collections::{BTreeSet, HashSet};
use std::path::Path;

use anyhow::Result;
use serde::{Deserialize, Serialize};
use serde_json::Value;

use super::expansions::macro_question;
use super::files::key_of;
use super::hand_in::set_file;
use super::looked_at::looked_at;
use super::looked_up::{without, without_others, Command};
use super::unnamed::{are_unnamed, Edit};
use super::{Key, Parsed, Workspace};
use crate::cfg::Options;
use crate::package::Crates;
use crate::program::{hash_of, Program, MOST_BYTES};
use crate::report::past_items;
use crate::syntax::{Item, ItemKind, Unit};
use crate::token::has_word;
use crate::unit::{build_without, quoted, Built, Derives, Id, Without};

/// An import: its node, the modules around it in its file, and its leaves, each with its path and what it binds.
#[derive(Clone, PartialEq, Eq, Serialize, Deserialize)]
pub(crate) struct Import {
    node: Id,
    pub modules: Vec<String>,
    pub leaves: Vec<(String, Option<String>)>,
}

/// What a file is that may be edited.
#[derive(Clone, Serialize, Deserialize)]
struct Editable {
    krate: u32,
    /// The module whose items it has.
    module: Vec<String>,
    left_out: Derives,
    looked_at: u64,
    imports: Vec<Import>,
    type_names: Vec<String>,
}

#[derive(Serialize, Deserialize)]
struct File {
    key: String,
    nodes: usize,
    /// Which of the lines sets it, if one does.
    line: Option<usize>,
    /// Whether it is one of a crate that is asked for, or that stands on one of these.
    is_above: bool,
    editable: Option<Editable>,
}

/// All that was handed in, but for the lines themselves.
#[derive(Serialize, Deserialize)]
pub(crate) struct Recorded {
    files: Vec<File>,
    /// The names of what is left out of the lines that are handed in again, since nothing looks it up.
    left_out: BTreeSet<String>,
    /// The hash of all lines, with what is left out.
    whole: String,
    /// The names of types that stand in no file that may be edited.
    type_names: BTreeSet<String>,
    /// What was asked, and the hash of each reply.
    asked: Vec<(String, String)>,
    /// The crates whose imports were looked at for what an item doesn't hold.
    judged: Vec<u32>,
}

/// The commands of a session, each a line: that of the crates, those of files, and those of expansions.
pub(crate) struct Lines {
    pub whole: String,
    /// Without what nothing looks up.
    pub looked_up: String,
}

/// A file that says something else now.
struct Edited {
    /// Its place among the files.
    at: usize,
    now: Editable,
    nodes: usize,
    /// The command that sets it.
    line: String,
    has_same_globs: bool,
}

/// What is told of names that a glob may bring.
const UNRESOLVED: [&str; 2] = ["\"unresolved import\"", "\"unresolved macro call\""];

fn imports_of(built: &Built) -> Vec<Import> {
    let leaf = |it: &crate::unit::Leaf| (it.path.clone(), it.binds.as_ref().map(|it| it.to_string()));
    let import = |node: &crate::unit::Node, leaves: &[crate::unit::Leaf]| Import {
        node: node.id,
        modules: node.modules.iter().map(|it| it.to_string()).collect(),
        leaves: leaves.iter().map(leaf).collect(),
    };
    built.uses().map(|(node, leaves)| import(node, leaves)).collect()
}

/// Where globs stand, and where they lead.
fn globs(imports: &[Import]) -> impl Iterator<Item = (&[String], &str)> {
    imports.iter().flat_map(|it| {
        let of_it = it.leaves.iter().filter(|it| it.1.as_deref() == Some("*"));
        of_it.map(|leaf| (&it.modules[..], &*leaf.0))
    })
}

impl Editable {
    fn new(krate: u32, module: Vec<String>, left_out: Derives, unit: &Unit, built: &Built) -> Editable {
        let type_names = built.type_names().iter().map(|it| it.to_string()).collect();
        Editable { krate, module, left_out, looked_at: looked_at(unit), imports: imports_of(built), type_names }
    }
}

/// What a crate of procedural macros has for others: the functions in its root that export them. None where a call there
/// may bring more of them.
fn exporting(unit: &Unit) -> Option<Unit> {
    let brings = |it: &Item| matches!(it.kind, ItemKind::Call(_));
    let exports = |it: &&Item| {
        let is_such = |path: &str| path.starts_with("proc_macro") || path == "cfg_attr";
        matches!(it.kind, ItemKind::Function) && it.attributes.iter().any(|it| is_such(&it.path.text))
    };
    let items = unit.items.iter().filter(exports).cloned().collect();
    let made = Unit { attributes: unit.attributes.clone(), items, blocks: Vec::new() };
    (!unit.items.iter().any(brings)).then_some(made)
}

/// The crate in which the call stands whose expansion has a key.
pub(super) fn caller_of(key: &str) -> Option<u32> {
    key.strip_prefix("{\"caller\":")?.split(',').next()?.parse().ok()
}

/// The crate that a question is about.
fn crate_of(line: &str) -> Option<u32> {
    let rest = line.split_once("\"at\":[").or_else(|| line.split_once("\"crate\":"))?.1;
    rest.split(|it: char| !it.is_ascii_digit()).next()?.parse().ok()
}

impl Workspace {
    /// From now on what the program is asked is kept with its replies.
    pub fn note_questions(&mut self) {
        self.program.noted = Some(Vec::new());
    }

    /// What was handed in, and what was asked since [`Workspace::note_questions`]. None where not all could be read.
    pub(crate) fn record(&mut self) -> Result<Option<(Recorded, Lines)>> {
        let is_whole = self.refused.is_empty() && self.circular.is_empty();
        let is_noted = self.program.noted.is_some();
        if !is_whole || !is_noted || !self.is_brief || self.parsed.values().any(|it| it.error.is_some()) {
            return Ok(None);
        }
        let above = self.above_asked();
        self.ask_again(&above)?;
        let mut asked: Vec<(String, String)> = self.program.noted.take().unwrap_or_default();
        asked.retain(|it| crate_of(&it.0).is_some_and(|it| above.contains(&it)));
        asked.sort();
        asked.dedup();
        let (needed, trimmed) = self.needed();
        let mut made = Recorded {
            files: Vec::new(),
            left_out: BTreeSet::new(),
            whole: String::new(),
            type_names: BTreeSet::new(),
            asked,
            judged: (0..self.crates.all.len() as u32).filter(|it| self.crates.all[*it as usize].is_asked).collect(),
        };
        let mut commands: Vec<Command> = vec![(self.crates_line.clone(), true)];
        let mut keys: Vec<&Key> = self.sent.keys().collect();
        keys.sort();
        for key in keys {
            let (file, line) = self.record_file(key, &needed, &trimmed, &mut made.type_names);
            let is_above = self.crates_of(key).iter().any(|it| above.contains(it));
            made.files.push(File { line: line.is_some().then_some(commands.len()), is_above, ..file });
            commands.extend(line.map(|it| (it, is_above)));
        }
        for (key, it) in &self.expansions {
            made.type_names.extend(it.built.type_names().iter().map(|it| it.to_string()));
            let caller = caller_of(key);
            if caller.map_or(true, |it| needed.contains(&it)) {
                commands.push((it.line.clone(), caller.map_or(true, |it| above.contains(&it))));
            }
        }
        let questions: Vec<&str> = made.asked.iter().map(|it| &*it.0).collect();
        let (looked_up, left_out) = without_others(&commands, &questions);
        let whole: Vec<&str> = commands.iter().map(|it| &*it.0).collect();
        let lines = Lines { whole: whole.join("\n"), looked_up: looked_up.join("\n") };
        (made.left_out, made.whole) = (left_out, hash_of(&lines.whole));
        Ok(Some((made, lines)))
    }

    /// A file, and the command that sets it, if it is needed.
    fn record_file(
        &self,
        key: &Key,
        needed: &HashSet<u32>,
        trimmed: &[(Key, Unit, u32)],
        type_names: &mut BTreeSet<String>,
    ) -> (File, Option<String>) {
        let sent = &self.sent[key];
        let of: Vec<u32> = self.crates_of(key);
        let editable = match of[..] {
            [krate] if self.crates.all[krate as usize].is_asked => self.editable(key, krate),
            _ => None,
        };
        if editable.is_none() {
            type_names.extend(sent.built.type_names().iter().map(|it| it.to_string()));
        }
        let without = trimmed.iter().find(|it| it.0 == *key);
        let line = match without {
            _ if of.iter().any(|it| needed.contains(it)) => Some(set_file(key, &sent.built.json)),
            Some((_, unit, krate)) => {
                let options = &self.crates.all[*krate as usize].options;
                let without = Without { derives: sent.left_out, associated: true };
                Some(set_file(key, &build_without(unit, options, &|_| None, without).json))
            }
            None => None,
        };
        let (key, nodes) = (key.to_string(), sent.built.nodes.len());
        (File { key, nodes, line: None, is_above: false, editable }, line)
    }

    /// What an edit of a file of this crate alone has to leave as it is, if it may be edited.
    fn editable(&self, key: &Key, krate: u32) -> Option<Editable> {
        let (state, sent) = (&self.states[krate as usize], &self.sent[key]);
        let mut modules = state.files.iter().filter(|it| it.0 == *key);
        let (module, None) = (modules.next()?.1.clone(), modules.next()) else {
            return None;
        };
        let unit = &self.parsed.get(key)?.unit;
        sent.replaced.is_empty().then(|| Editable::new(krate, module, sent.left_out, unit, &sent.built))
    }

    /// The crates that are asked for, and those that stand on one of them.
    fn above_asked(&self) -> BTreeSet<u32> {
        let mut made = BTreeSet::new();
        for (number, it) in self.crates.all.iter().enumerate() {
            if it.is_asked || it.dependencies.iter().any(|it| made.contains(&it.0)) {
                made.insert(number as u32);
            }
        }
        made
    }

    /// Asks what is told of these crates, and which macros paths reach in them.
    fn ask_again(&mut self, crates: &BTreeSet<u32>) -> Result<()> {
        let mut lines = Vec::new();
        for it in crates {
            lines.push(format!("{{\"do\":\"diagnostics\",\"crate\":{it}}}"));
            let paths = self.states[*it as usize].reached.keys();
            lines.extend(paths.map(|(at, path)| macro_question(*it, at, path, "bang")));
        }
        self.program.ask_all(&lines)?;
        Ok(())
    }

    /// The crates that those that are asked for need: all that they stand on, but behind crates of procedural macros
    /// whose macros stand in functions. Of the root of each of these answers what it exports.
    fn needed(&self) -> (HashSet<u32>, Vec<(Key, Unit, u32)>) {
        let (mut needed, mut trimmed) = (HashSet::new(), Vec::new());
        let mut due: Vec<u32> = (0..self.crates.all.len() as u32).collect();
        due.retain(|it| self.crates.all[*it as usize].is_asked);
        let mut seen: HashSet<u32> = due.iter().copied().collect();
        while let Some(krate) = due.pop() {
            let it = &self.crates.all[krate as usize];
            if it.is_proc_macro && !it.is_asked {
                let key = key_of(&it.root).ok();
                let unit = key.as_ref().and_then(|it| exporting(&self.parsed.get(it)?.unit));
                if let (Some(key), Some(unit)) = (key, unit) {
                    trimmed.push((key, unit, krate));
                    continue;
                }
            }
            needed.insert(krate);
            due.extend(it.dependencies.iter().map(|it| it.0).filter(|it| seen.insert(*it)));
        }
        (needed, trimmed)
    }
}

impl Recorded {
    /// How many nodes there are where these files say something else now. None where not the same may be reported then.
    /// `lines` are the commands without what nothing looks up; `whole` answers all of them.
    pub fn nodes_after(
        &self,
        lines: &str,
        whole: &dyn Fn() -> Option<String>,
        crates: &Crates,
        edited: &[(Key, Parsed)],
        program: &Path,
    ) -> Option<usize> {
        let edits: Vec<Edited> = edited.iter().map(|it| self.edited(crates, it)).collect::<Option<_>>()?;
        let shorter: Option<Vec<String>> = edits.iter().map(|it| without(&it.line, &self.left_out)).collect();
        let is_same = match shorter {
            Some(made) => self.tells_same(crates, lines, made, &edits, edited, program),
            None => {
                let whole = whole().filter(|it| hash_of(it) == self.whole)?;
                let made = edits.iter().map(|it| it.line.clone()).collect();
                self.tells_same(crates, &whole, made, &edits, edited, program)
            }
        };
        let nodes = self.files.iter().enumerate().map(|(at, it)| {
            let edit = edits.iter().find(|it| it.at == at);
            edit.map_or(it.nodes, |it| it.nodes)
        });
        is_same?.then(|| nodes.sum())
    }

    /// What an edited file is now, if it may be edited so.
    fn edited(&self, crates: &Crates, (key, parsed): &(Key, Parsed)) -> Option<Edited> {
        let at = self.files.binary_search_by(|it| (*it.key).cmp(key)).ok()?;
        let before = self.files[at].editable.as_ref()?;
        let options = &crates.all.get(before.krate as usize)?.options;
        let (now, built) = after(before, parsed, options)?;
        let has_same_globs = globs(&now.imports).eq(globs(&before.imports));
        Some(Edited { at, nodes: built.nodes.len(), line: set_file(key, &built.json), now, has_same_globs })
    }

    /// Whether the same is told where edited files are set by these commands in place of those among the lines.
    fn tells_same(
        &self,
        crates: &Crates,
        lines: &str,
        made: Vec<String>,
        edits: &[Edited],
        edited: &[(Key, Parsed)],
        program: &Path,
    ) -> Option<bool> {
        let mut lines: Vec<&str> = lines.lines().collect();
        let places: Vec<usize> = edits.iter().map(|it| self.files[it.at].line).collect::<Option<_>>()?;
        let made: Vec<(usize, String)> = places.into_iter().zip(made).collect();
        if self.is_unnamed(&lines, &made) {
            return Some(true);
        }
        for (at, line) in &made {
            *lines.get_mut(*at)? = line;
        }
        if lines.iter().any(|it| it.len() > MOST_BYTES) {
            return None;
        }
        let mut program = Program::start(program).ok()?;
        let same = self.replies_are_same(crates, &lines, edits, edited, &mut program);
        program.end();
        same.ok()
    }

    /// What each file is now that may be edited.
    fn editable_now<'a>(&'a self, edits: &'a [Edited]) -> Vec<Option<&'a Editable>> {
        let files = self.files.iter().enumerate();
        let now = files.map(|(at, it)| {
            let edit = edits.iter().find(|it| it.at == at);
            edit.map(|it| &it.now).or(it.editable.as_ref())
        });
        now.collect()
    }

    /// Whether these commands in place of others bring, take away or change such items alone whose names stand in nothing
    /// else that is looked up in the crates that are asked about.
    fn is_unnamed(&self, lines: &[&str], made: &[(usize, String)]) -> bool {
        let below: HashSet<usize> = self.files.iter().filter(|it| !it.is_above).filter_map(|it| it.line).collect();
        let edits = made.iter().map(|(at, line)| Edit::read(lines.get(*at)?, line));
        let is_other = |it: &(usize, &&str)| !below.contains(&it.0) && made.iter().all(|(at, _)| *at != it.0);
        let others = lines.iter().enumerate().filter(is_other).map(|it| *it.1);
        let others: Vec<&str> = others.chain(self.asked.iter().map(|it| &*it.0)).collect();
        let stands_elsewhere = |name: &str| others.iter().any(|it| has_word(it, name, 0..0));
        edits.collect::<Option<Vec<Edit>>>().is_some_and(|it| are_unnamed(&it, stands_elsewhere))
    }

    fn replies_are_same(
        &self,
        crates: &Crates,
        lines: &[&str],
        edits: &[Edited],
        edited: &[(Key, Parsed)],
        program: &mut Program,
    ) -> Result<bool> {
        if !program.takes(lines)? {
            return Ok(false);
        }
        program.ask("{\"do\":\"refresh\"}".to_owned())?;
        let questions: Vec<&str> = self.asked.iter().map(|it| &*it.0).collect();
        let replies = program.texts(&questions)?;
        if !self.asked.iter().zip(&replies).all(|(it, reply)| it.1 == hash_of(reply)) {
            return Ok(false);
        }
        // Whether a name is judged that isn't found may hang on globs.
        let is_unresolved = |it: &String| UNRESOLVED.iter().any(|kind| it.contains(kind));
        if edits.iter().any(|it| !it.has_same_globs) && replies.iter().any(is_unresolved) {
            return Ok(false);
        }
        let now = &self.editable_now(edits)[..];
        for ((question, _), reply) in self.asked.iter().zip(&replies) {
            if question.starts_with("{\"do\":\"diagnostics\"") && !self.names_same(now, edited, reply) {
                return Ok(false);
            }
        }
        for krate in &self.judged {
            let asks = self.past_items(crates, *krate, now);
            if program.ask_all(&asks)?.iter().any(|it| !it["ok"]["stop"].is_null()) {
                return Ok(false);
            }
        }
        Ok(true)
    }

    /// Whether what is told of the edited files is told of the same nodes: of imports with the same leaves.
    fn names_same(&self, now: &[Option<&Editable>], edited: &[(Key, Parsed)], reply: &str) -> bool {
        if !edited.iter().any(|it| reply.contains(&quoted(&it.0))) {
            return true;
        }
        let told: Value = serde_json::from_str(reply).unwrap_or_default();
        told["ok"].as_array().into_iter().flatten().filter(|it| it["kind"] != "unconfigured code").all(|it| {
            let nodes = ["item", "call"].map(|of| &it[of]);
            nodes.into_iter().filter(|it| !it.is_null()).all(|it| self.is_same_node(now, edited, it))
        })
    }

    fn is_same_node(&self, now: &[Option<&Editable>], edited: &[(Key, Parsed)], node: &Value) -> bool {
        let Some(key) = node["in"][0].as_str().filter(|key| edited.iter().any(|it| *it.0 == **key)) else {
            return true;
        };
        // In what a call expands to it is the same, as the call is.
        if node["in"].as_array().is_some_and(|it| it.len() > 1) {
            return true;
        }
        let at = self.files.iter().position(|it| it.key == key);
        let (Some(at), "Use", Some(id)) = (at, node["kind"].as_str().unwrap_or_default(), super::places::id_of(node))
        else {
            return false;
        };
        let of = |it: Option<&Editable>| it.and_then(|it| it.imports.iter().find(|it| it.node == id).cloned());
        let before = of(self.files[at].editable.as_ref());
        before.is_some() && before == of(now[at])
    }

    /// What is asked for imports that name what an item doesn't hold.
    fn past_items(&self, crates: &Crates, krate: u32, now: &[Option<&Editable>]) -> Vec<String> {
        let of_types: HashSet<&str> = now.iter().flatten().flat_map(|it| &it.type_names).map(|it| &**it).collect();
        let is_type = |name: &str| of_types.contains(name) || self.type_names.contains(name);
        let own = now.iter().flatten().filter(|it| it.krate == krate);
        let leaves: Vec<(Vec<String>, &str)> = own
            .flat_map(|file| {
                file.imports.iter().flat_map(|import| {
                    let place = [&file.module[..], &import.modules[..]].concat();
                    import.leaves.iter().map(move |leaf| (place.clone(), &*leaf.0))
                })
            })
            .collect();
        let is_old = crates.all[krate as usize].edition == "2015";
        past_items(krate, is_old, &leaves, &is_type).into_iter().map(|it| it.1).collect()
    }
}

/// What an edited file is now, if a walk looks at the same in it.
fn after(before: &Editable, parsed: &Parsed, options: &Options) -> Option<(Editable, Built)> {
    if parsed.error.is_some() || looked_at(&parsed.unit) != before.looked_at {
        return None;
    }
    let without = Without { derives: before.left_out, associated: true };
    let built = build_without(&parsed.unit, options, &|_| None, without);
    let now = Editable::new(before.krate, before.module.clone(), before.left_out, &parsed.unit, &built);
    Some((now, built))
}
