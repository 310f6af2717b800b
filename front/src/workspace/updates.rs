//! Edits: files that changed, and texts that an editor has in their place.

use std::collections::HashSet;
use std::path::{Path, PathBuf};
use std::sync::{Arc, PoisonError};

use anyhow::Result;

use super::files::{key_of, parse, parse_text, path_of_key};
use super::hand_in::{built_of, set_file};
use super::left_out::left_out_of;
use super::looked_at::{imports, looked_at};
use super::recorded::caller_of;
use super::unnamed::{Changes, Edit};
use super::{Ahead, Key, KnownText, Made, Parsed, Sent, Workspace};
use crate::syntax::Unit;
use crate::token::Hash;
use crate::unit::{build_without, quoted, Built, BuiltBlock, Derives, Without};

/// By what it is known what is told after an edit.
#[derive(Clone, Copy, PartialEq, Eq, Debug)]
pub enum KnownBy {
    /// The same is, since the names that come or go stand nowhere else.
    Names,
    /// The same is, since nothing that the program has looks them up.
    LookUps,
    /// The same, but an import that comes or goes leads into a crate for which a stub stands, so that it isn't judged.
    Unjudged,
    /// Imports look them up, which become resolved or unresolved, and else at most paths of macros, which lead to none.
    Imports,
}

impl Workspace {
    /// The files that were looked for without being read as modules: those that weren't there, and what `include!` names.
    pub(crate) fn looked_for(&self) -> impl Iterator<Item = PathBuf> + '_ {
        self.states.iter().flat_map(|it| it.missing.iter().chain(&it.included)).map(|it| path_of_key(it))
    }

    /// The files that were read: where each lies, the hash of its text, and its items where that has no error.
    pub(crate) fn read_texts(&self) -> impl Iterator<Item = (&Path, Hash, Option<&Unit>)> {
        self.parsed.values().map(|it| (&*it.path, it.text, Some(&*it.unit).filter(|_| it.error.is_none())))
    }

    /// Whether a change of this file may change something.
    pub fn reads(&self, path: &Path) -> bool {
        let is_included = |key: &Key| self.states.iter().any(|it| it.included.contains(key));
        path.extension().is_some_and(|it| it == "rs") || key_of(path).is_ok_and(|it| is_included(&it))
    }

    /// The files below a folder that were read, or that a module looked for.
    pub fn files_below(&self, folder: &str) -> Vec<Key> {
        let is_below = |key: &&Key| key.strip_prefix(folder).is_some_and(|it| it.starts_with('/'));
        let missing = self.states.iter().flat_map(|it| &it.missing);
        self.parsed.keys().chain(missing).filter(is_below).cloned().collect()
    }

    /// Reads these files again where they changed. Answers which crates were resolved again, or none where nothing
    /// that resolution reads changed.
    pub fn update(&mut self, paths: &[PathBuf]) -> Result<Vec<u32>> {
        let mut crates = self.restore_circular();
        for path in paths {
            let key = key_of(path)?;
            // That the root of a crate isn't there is told of it.
            let is_read = path.is_file() || self.is_root(&key);
            let including = (0..self.states.len()).filter(|it| self.states[*it].included.contains(&key));
            let including: Vec<u32> = including.map(|it| it as u32).collect();
            if !including.is_empty() {
                self.cache.retain(|_, it| it.1.file.as_ref() != Some(&key));
                let is_include = |it: &&String| it.contains("\"text\":\"builtin include\"");
                let all: Vec<String> = self.expansions.keys().filter(is_include).cloned().collect();
                all.iter().for_each(|it| self.remove_expansion(it));
                crates.extend(including);
            }
            if is_read {
                let parsed = parse(path, &key);
                if self.parsed.get(&key).is_some_and(|it| it.text == parsed.text && it.error == parsed.error) {
                    continue;
                }
                if self.take_same(&key, &parsed) {
                    continue;
                }
                self.parsed.insert(key.clone(), Arc::new(parsed));
            } else if self.parsed.remove(&key).is_none() {
                continue;
            }
            crates.extend(self.looking_for(&key));
            if !is_read {
                if let Some(it) = self.sent.remove(&key) {
                    self.type_names.remove(&it.built);
                }
                self.program.ask(format!("{{\"do\":\"remove file\",\"file\":{}}}", quoted(&key)))?;
            }
        }
        let mut crates: Vec<u32> = crates.into_iter().collect();
        crates.sort_unstable();
        if crates.is_empty() {
            return Ok(crates);
        }
        self.settle(&crates, false)
    }

    fn is_root(&self, key: &Key) -> bool {
        self.crates.all.iter().any(|it| key_of(&it.root).is_ok_and(|it| it == *key))
    }

    /// Takes what stands in a file now where its unit is the one that was handed in: only places are others then.
    fn take_same(&mut self, key: &Key, parsed: &Parsed) -> bool {
        let Some(krate) = self.crates_of(key).first().copied().filter(|_| parsed.error.is_none()) else {
            return false;
        };
        let Some(sent) = self.sent.get(key).filter(|_| self.refused.iter().all(|it| it.0 != *key)) else {
            return false;
        };
        // Of what blocks bring, what doesn't end is told although they aren't handed in.
        if self.is_brief && looked_at(&sent.unit) != looked_at(&parsed.unit) {
            return false;
        }
        let left_out = left_out_of(key, &self.states);
        let is_it = |it: &Made| it.is_of(key, krate, &parsed.unit, left_out);
        let made = self.made.take().filter(is_it).unwrap_or_else(|| self.make(key, krate, &parsed.unit, left_out));
        let is_same = |it: (&BuiltBlock, &BuiltBlock)| it.0.is_same(it.1);
        let are_same = made.blocks.len() == sent.blocks.len() && made.blocks.iter().zip(&sent.blocks).all(is_same);
        if made.built.json != sent.built.json || left_out != sent.left_out || !are_same {
            self.made = Some(made).filter(|_| !parsed.has_calls);
            return false;
        }
        let Made { unit, built, blocks, .. } = made;
        let (replaced, with_blocks, krate) = (sent.replaced.clone(), sent.with_blocks.clone(), sent.krate);
        self.type_names.add(&built);
        self.type_names.remove(&sent.built);
        let sent = Sent { krate, unit, replaced, with_blocks, left_out, built, blocks };
        self.sent.insert(key.clone(), sent);
        self.parsed.insert(key.clone(), Arc::new(parsed.clone()));
        true
    }

    /// Makes of the items of a file what is handed in.
    pub(super) fn make(&self, key: &Key, krate: u32, unit: &Arc<Unit>, left_out: Derives) -> Made {
        self.moved.lock().unwrap_or_else(PoisonError::into_inner).clear();
        let (options, expanded) = (&self.crates.all[krate as usize].options, self.expanded(krate));
        let without = Without { derives: left_out, associated: self.is_brief };
        let (built, blocks) = built_of(unit, options, without, &self.replaced, expanded, self.hands_in_blocks());
        Made { key: key.clone(), krate, unit: unit.clone(), left_out, built: Arc::new(built), blocks }
    }

    /// Takes a text in place of what the file holds, as an editor has it.
    pub fn update_text(&mut self, path: &Path, text: &str) -> Result<Vec<u32>> {
        let key = key_of(path)?;
        let parsed = parse_text(path, &key, text);
        self.update_parsed(vec![(key, parsed)])
    }

    /// Takes what [`parse_text`] made in place of what these files hold.
    pub fn update_parsed(&mut self, files: Vec<(Key, Parsed)>) -> Result<Vec<u32>> {
        let is_circular = !self.circular.is_empty();
        let mut crates = self.restore_circular();
        let mut same = Vec::new();
        for (key, parsed) in files {
            let is_same = self.parsed.get(&key).is_some_and(|it| it.text == parsed.text);
            if !is_same && !self.take_same(&key, &parsed) {
                same.push(self.known.get(&key).filter(|it| it.text == parsed.text).map(|it| it.by));
                self.parsed.insert(key.clone(), Arc::new(parsed));
                crates.extend(self.looking_for(&key));
            }
        }
        let mut crates: Vec<u32> = crates.into_iter().collect();
        crates.sort_unstable();
        if crates.is_empty() {
            return Ok(crates);
        }
        // What is known by what the program has is known of one text alone.
        let is_by_names = same.iter().all(|it| *it == Some(KnownBy::Names));
        self.settle(&crates, !is_circular && (is_by_names || same == [Some(KnownBy::LookUps)]))
    }

    /// Takes what [`parse_text`] made in place of what a file holds, where only places are others.
    pub fn take_unchanged(&mut self, key: &Key, parsed: &Parsed) -> bool {
        let is_same = self.parsed.get(key).is_some_and(|it| it.text == parsed.text);
        self.circular.is_empty() && (is_same || self.take_same(key, parsed))
    }

    /// By what it is known what is told with what [`parse_text`] made in place of what a file holds: the same, but for places,
    /// or what [`Workspace::report_ahead`] has. With `may_ask` the program is asked for it.
    pub fn knows_report(&mut self, key: &Key, parsed: &Parsed, may_ask: bool) -> Result<Option<KnownBy>> {
        if let Some(it) = self.known.get(key).filter(|it| it.text == parsed.text) {
            return Ok(Some(it.by));
        }
        let Some((by, ahead)) = self.find_known(key, parsed, may_ask)? else {
            return Ok(None);
        };
        self.known.insert(key.clone(), KnownText { text: parsed.text, by, ahead });
        Ok(Some(by))
    }

    fn find_known(&mut self, key: &Key, parsed: &Parsed, may_ask: bool) -> Result<Option<(KnownBy, Ahead)>> {
        let of = self.crates_of(key);
        let (Some(sent), &[krate]) = (self.sent.get(key), &of[..]) else {
            return Ok(None);
        };
        let state = &self.states[krate as usize];
        let is_once = state.files.iter().filter(|it| it.0 == *key).count() == 1;
        let are_whole = self.parsed.get(key).is_some_and(|it| it.error.is_none()) && parsed.error.is_none();
        let is_known = self.circular.is_empty() && self.refused.is_empty() && sent.replaced.is_empty();
        let is_same = |of: fn(&Unit) -> u64| of(&sent.unit) == of(&parsed.unit);
        if !is_once || !are_whole || !is_known || !is_same(looked_at) {
            return Ok(None);
        }
        // No report hangs on impls and on what is in traits.
        let without = Without { derives: sent.left_out, associated: true };
        let options = &self.crates.all[krate as usize].options;
        let built = |it: &Unit| build_without(it, options, &|_| None, without);
        let (before, now) = (built(&sent.unit), built(&parsed.unit));
        let edit = Edit::read(&set_file(key, &before.json), &set_file(key, &now.json));
        let mut changes = Changes::default();
        let Some(()) = edit.as_ref().and_then(|it| changes.add(it)) else {
            return Ok(None);
        };
        // A crate stands behind all that it stands on.
        let above = self.states[krate as usize..].iter().flat_map(|it| it.places.keys()).filter(|it| *it != key);
        let files: Vec<&Built> = above.filter_map(|it| self.built(it)).map(|it| &**it).collect();
        let is_above = |key: &str| caller_of(key).map_or(true, |it| it >= krate);
        let are_unnamed = is_same(imports)
            && changes.are_unnamed(|name| {
                let mut expansions = self.expansions.iter().filter(|it| is_above(it.0));
                files.iter().any(|it| it.has_word(name)) || expansions.any(|it| it.1.built.has_word(name))
            });
        // A name that is like one which an import doesn't reach may be told.
        if are_unnamed && !(self.is_brief && self.reached.values().any(|it| !it.1.is_empty())) {
            return Ok(Some((KnownBy::Names, Ahead::default())));
        }
        match may_ask && krate as usize >= self.crates.of_std {
            true => self.known_by_look_ups(krate, key, &changes, &now),
            false => Ok(None),
        }
    }

    /// The crates in which the file is a module, or in which a module looked for it.
    fn looking_for(&self, key: &Key) -> Vec<u32> {
        let looks = |it: &u32| {
            let state = &self.states[*it as usize];
            state.places.contains_key(key) || state.missing.contains(key)
        };
        (0..self.states.len() as u32).filter(looks).collect()
    }

    /// Takes the files as they are that counted as broken for their modules: an edit may have changed that. Answers the
    /// crates of which they are files.
    fn restore_circular(&mut self) -> HashSet<u32> {
        let restored = std::mem::take(&mut self.circular);
        let crates = restored.keys().flat_map(|it| self.looking_for(it)).collect();
        self.parsed.extend(restored);
        crates
    }
}
