//! What the program is handed: crates, files and blocks, where they are others than it has.

use std::collections::{BTreeMap, HashMap, HashSet};
use std::sync::Arc;

use anyhow::{bail, Result};
use serde_json::{json, Value};

use super::expanded::Expanded;
use super::files::{key_of, on_threads};
use super::left_out::left_out_of;
use super::{CrateState, Key, Made, Sent, SentBlock, Workspace};
use crate::cfg::Options;
use crate::program::MOST_BYTES;
use crate::syntax::{Block, Call, Item, ItemKind, Unit};
use crate::token::Hash;
use crate::unit::{build_blocks, build_without, place_json, quoted, steps_of, Built, BuiltBlock, Known, Step, Without};

/// What a file is to the program, and the blocks in it where these are handed in.
pub(super) fn built_of(
    unit: &Unit,
    options: &Options,
    without: Without,
    replaced: &HashMap<Hash, Arc<Unit>>,
    expanded: Expanded,
    hands_in_blocks: bool,
) -> (Built, Vec<BuiltBlock>) {
    let replaced = |call: &Call| replaced.get(&call.identity).cloned();
    let known = Known { replaced: &replaced, expanded: &|call| expanded.with_blocks(call) };
    let blocks = if hands_in_blocks { build_blocks(unit, options, known) } else { Vec::new() };
    (build_without(unit, options, &replaced, without), blocks)
}

pub(super) fn set_file(key: &str, unit: &str) -> String {
    format!("{{\"do\":\"set file\",\"file\":{},\"unit\":{unit}}}", quoted(key))
}

pub(super) const SET_BLOCK: &str = "{\"do\":\"set block\",\"at\":";

pub(super) fn set_block(place: &str, unit: &str) -> String {
    format!("{SET_BLOCK}{place},\"unit\":{unit}}}")
}

/// The file that a command sets, from behind `"file":`.
pub(super) fn key_at_front(text: &str) -> Option<Key> {
    let mut read = serde_json::Deserializer::from_str(text).into_iter::<String>();
    read.next()?.ok().map(Into::into)
}

/// What stands in place of calls among these items and in what they expand to.
pub(super) fn replaced_in(items: &[Item], replaced: &HashMap<Hash, Arc<Unit>>, made: &mut Vec<Arc<Unit>>) {
    if replaced.is_empty() {
        return;
    }
    pub(super) fn in_blocks(blocks: &[Arc<Block>], replaced: &HashMap<Hash, Arc<Unit>>, made: &mut Vec<Arc<Unit>>) {
        for it in blocks {
            replaced_in(&it.items, replaced, made);
            in_blocks(&it.blocks, replaced, made);
        }
    }
    for item in items {
        in_blocks(&item.blocks, replaced, made);
        match &item.kind {
            ItemKind::Call(call) => {
                if let Some(unit) = replaced.get(&call.identity) {
                    made.push(unit.clone());
                    replaced_in(&unit.items, replaced, made);
                }
            }
            ItemKind::Module(Some(items)) | ItemKind::ExternBlock(items) => replaced_in(items, replaced, made),
            ItemKind::Trait(items) | ItemKind::Impl { items, .. } => {
                items.iter().for_each(|it| in_blocks(&it.blocks, replaced, made));
            }
            _ => {}
        }
    }
}

impl Workspace {
    pub(super) fn hand_in_crates(&mut self) -> Result<()> {
        let mut all = Vec::new();
        for it in &self.crates.all {
            let dependencies: Vec<Value> = it
                .dependencies
                .iter()
                .map(|(number, name, in_paths)| json!({"crate": number, "name": name, "prelude": in_paths}))
                .collect();
            all.push(json!({
                "edition": it.edition,
                "root": &*key_of(&it.root)?,
                "cfg": it.options.json(),
                "deps": dependencies,
                "proc_macro": it.is_proc_macro,
            }));
        }
        let line = json!({"do": "crates", "crates": all}).to_string();
        self.crates_line = line.clone();
        let reply = self.program.ask(line)?;
        if let Some(it) = reply.get("error") {
            bail!("the program refuses the crates: {it}");
        }
        // Of a crate that isn't there, so that nothing is set. Without blocks the command isn't known.
        let place = place_json(self.crates.all.len() as u32, &[Step::Block((0, 0))]);
        let reply = self.program.ask(set_block(&place, "{}"))?;
        self.takes_blocks = reply["error"] != "command";
        Ok(())
    }

    /// The files of these crates.
    pub(super) fn keys_of(&self, crates: &[u32]) -> Vec<Key> {
        crates.iter().flat_map(|it| &self.states[*it as usize].files).map(|it| it.0.clone()).collect()
    }

    /// Those of these files that aren't what was handed in, each with its crate and with what stands in place of its calls.
    fn due_files(&self, keys: Vec<Key>) -> Vec<(Key, u32, Vec<Arc<Unit>>)> {
        let mut work = Vec::new();
        let mut seen = HashSet::new();
        let same =
            |a: &[Arc<Unit>], b: &[Arc<Unit>]| a.len() == b.len() && a.iter().zip(b).all(|(a, b)| Arc::ptr_eq(a, b));
        for key in keys {
            if !seen.insert(key.clone()) {
                continue;
            }
            // One that is a file of none any more stays as it is.
            let krate = self.states.iter().position(|it| it.places.contains_key(&key));
            let (Some(krate), Some(parsed)) = (krate, self.parsed.get(&key)) else {
                continue;
            };
            let mut replaced = Vec::new();
            if !parsed.is_plain {
                replaced_in(&parsed.unit.items, &self.replaced, &mut replaced);
            }
            let with_blocks = self.states[krate].expansions_with_blocks.get(&key).map_or(&[][..], |it| it);
            let is_same = self.sent.get(&key).is_some_and(|it| {
                Arc::ptr_eq(&it.unit, &parsed.unit)
                    && it.krate as usize == krate
                    && it.left_out == left_out_of(&key, &self.states)
                    && same(&it.replaced, &replaced)
                    && same(&it.with_blocks, with_blocks)
            });
            if !is_same {
                work.push((key, krate as u32, replaced));
            }
        }
        work
    }

    /// Adds the commands for those of these files whose unit is another than the one that was handed in. Answers the
    /// files that were built.
    pub(super) fn build_files(&mut self, keys: Vec<Key>, lines: &mut Vec<String>) -> Result<HashSet<Key>> {
        let work = self.due_files(keys);
        let (all, parsed, replaced, has_blocks) =
            (&self.crates.all, &self.parsed, &self.replaced, self.hands_in_blocks());
        let (states, cache, moved, is_brief) = (&self.states, &self.cache, &self.moved, self.is_brief);
        let mut before = self.made.take();
        let is_made = |it: &Made, key: &Key, krate: u32| {
            it.is_of(key, krate, &parsed[key].unit, left_out_of(key, states)) && parsed[key].error.is_none()
        };
        let made = on_threads(&work, |(key, krate, _)| {
            let (parsed, krate) = (&parsed[key], *krate);
            if before.as_ref().is_some_and(|it| is_made(it, key, krate)) {
                return None;
            }
            let expanded = Expanded { krate, state: &states[krate as usize], cache, moved };
            let options = &all[krate as usize].options;
            let without = Without { derives: left_out_of(key, states), associated: is_brief };
            let (mut built, blocks) = built_of(&parsed.unit, options, without, replaced, expanded, has_blocks);
            if parsed.error.is_some() {
                built.json = "\"broken\"".to_owned();
            }
            Some((Arc::new(built), blocks))
        });
        let mut changed = HashSet::new();
        for ((key, krate, replaced), made) in work.into_iter().zip(made) {
            let made = made.or_else(|| before.take().map(|it| (it.built, it.blocks)));
            let Some((built, blocks)) = made else {
                continue;
            };
            let unit = self.parsed[&key].unit.clone();
            let with_blocks = self.states[krate as usize].expansions_with_blocks.get(&key).cloned().unwrap_or_default();
            let left_out = left_out_of(&key, &self.states);
            let sent = Sent { krate, unit, replaced, with_blocks, left_out, built: built.clone(), blocks };
            let before = self.sent.insert(key.clone(), sent);
            self.type_names.add(&built);
            if let Some(it) = &before {
                self.type_names.remove(&it.built);
            }
            if !before.is_some_and(|it| it.built.json == built.json) {
                lines.push(set_file(&key, &built.json));
            }
            changed.insert(key);
        }
        Ok(changed)
    }

    /// Adds the commands for the blocks that are others than those that were handed in, of the crates that were walked, and
    /// of those with a file that was built.
    pub(super) fn set_blocks(&mut self, walked: &[u32], built: &HashSet<Key>, lines: &mut Vec<String>) {
        if !self.hands_in_blocks() {
            return;
        }
        let has_built = |it: &CrateState| built.iter().any(|key| it.places.contains_key(key));
        let due: Vec<bool> =
            self.states.iter().zip(0..).map(|(it, krate)| walked.contains(&krate) || has_built(it)).collect();
        let (before, mut now): (BTreeMap<_, _>, BTreeMap<_, _>) =
            std::mem::take(&mut self.blocks).into_iter().partition(|it| due[it.1.krate as usize]);
        let mut places = Vec::new();
        for (krate, state) in self.states.iter().enumerate().filter(|it| due[it.0]) {
            let krate = krate as u32;
            for (file, module) in &state.files {
                let blocks = self.sent.get(file).map_or(&[][..], |it| &it.blocks);
                if blocks.is_empty() {
                    continue;
                }
                let module = steps_of(module);
                for (number, block) in blocks.iter().enumerate() {
                    let place = place_json(krate, &[&module[..], &block.steps].concat());
                    let (file, built) = (file.clone(), block.built.clone());
                    now.entry(place.clone()).or_insert(SentBlock { krate, file, number, built, is_refused: false });
                    places.push(place);
                }
            }
        }
        for place in before.keys().filter(|it| !now.contains_key(*it)) {
            lines.push(format!("{{\"do\":\"remove block\",\"at\":{place}}}"));
        }
        places.sort_unstable();
        places.dedup();
        for place in places {
            let Some(block) = now.get_mut(&place) else {
                continue;
            };
            match before.get(&place).filter(|it| it.built.json == block.built.json) {
                Some(before) => block.is_refused = before.is_refused,
                None => lines.push(set_block(&place, &block.built.json)),
            }
        }
        self.blocks = now;
    }

    /// Sends the commands. A refused file is handed in as broken, and told; a refused block counts as one that isn't there.
    pub(super) fn hand_in(&mut self, lines: Vec<String>) -> Result<()> {
        let (mut keys, mut sent) = (Vec::with_capacity(lines.len()), Vec::with_capacity(lines.len()));
        for line in lines {
            let key = line.strip_prefix("{\"do\":\"set file\",\"file\":").and_then(key_at_front);
            if line.len() > MOST_BYTES {
                self.refuse_block(&line);
                if let Some(key) = &key {
                    self.refuse(key, "its items take more than 16 MB as JSON; split the file");
                    sent.push(set_file(key, "\"broken\""));
                    keys.push(Some(key.clone()));
                }
                continue;
            }
            if let Some(key) = &key {
                self.refused.retain(|it| it.0 != *key);
            }
            keys.push(key);
            sent.push(line);
        }
        let mut replies = Vec::with_capacity(sent.len());
        for part in sent.chunks(200) {
            replies.extend(self.program.ask_all(part)?);
            (self.progress)("handing in", replies.len(), sent.len());
        }
        let mut again = Vec::new();
        for ((key, line), reply) in keys.iter().zip(&sent).zip(replies) {
            let Some(error) = reply.get("error") else {
                continue;
            };
            if self.refuse_block(line) {
                continue;
            }
            let what = match (error.as_str(), reply.get("what").and_then(Value::as_str)) {
                (Some("too large"), Some(what)) => format!("it passes the limit of the program for `{what}`"),
                (Some("json"), _) => "its items stand deeper in one another than the program takes them".to_owned(),
                (Some(it), _) => format!("the program refuses it: {it}"),
                _ => "the program refuses it".to_owned(),
            };
            match key {
                Some(key) => {
                    self.refuse(key, &what);
                    again.push(set_file(key, "\"broken\""));
                }
                None => self.refused.push(("".into(), format!("an expansion isn't taken: {what}"))),
            }
        }
        if !again.is_empty() {
            self.program.ask_all(&again)?;
        }
        Ok(())
    }

    /// Notes that a block isn't taken. False where the command sets or removes none.
    pub(super) fn refuse_block(&mut self, line: &str) -> bool {
        let Some(rest) = line.strip_prefix(SET_BLOCK) else {
            return line.starts_with("{\"do\":\"remove block\"");
        };
        let mut read = serde_json::Deserializer::from_str(rest).into_iter::<Value>();
        if let Some(Ok(place)) = read.next() {
            if let Some(it) = self.blocks.get_mut(&place.to_string()) {
                it.is_refused = true;
            }
        }
        true
    }

    pub(super) fn refuse(&mut self, key: &Key, why: &str) {
        self.refused.push((key.clone(), why.to_owned()));
    }
}
