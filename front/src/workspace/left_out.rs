//! Which derives of builtin macros are left out of what is handed in.

use std::collections::HashMap;

use anyhow::Result;

use super::{CrateState, Key, Workspace};
use crate::unit::{numbered, place_json, quoted, Derives, Detail, DERIVES};
use crate::workspace::key_of;

/// A crate stops after so many rounds of expansions.
const MOST_ROUNDS: usize = 8_192;

/// The derives without which a file is handed in: those that each crate leaves out of which it is one.
pub(super) fn left_out_of(key: &Key, states: &[CrateState]) -> Derives {
    let of_file = states.iter().filter(|it| it.places.contains_key(key)).map(|it| it.left_out);
    of_file.reduce(Derives::and).unwrap_or_default()
}

impl Workspace {
    /// The derives of builtin macros without which a file of a crate, or what its calls expand to, is handed in.
    pub(crate) fn left_out(&self, krate: u32, key: &Key) -> Derives {
        let state = &self.states[krate as usize];
        left_out_of(key, &self.states).and(state.left_out)
    }

    /// Asks which builtin derives the crates' preludes have. True where that is news. The standard library's crates have
    /// no prelude.
    pub(super) fn find_preludes(&mut self) -> Result<bool> {
        let is_of_std = |it: &u32| (*it as usize) < self.crates.of_std;
        let mut questions = Vec::new();
        for (number, krate) in self.crates.all.iter().enumerate().skip(self.crates.of_std) {
            for (dependency, _, in_paths) in krate.dependencies.iter().filter(|it| it.1 == "std" || it.1 == "core") {
                if *in_paths && is_of_std(dependency) {
                    questions.push((number, *dependency, krate.edition.clone()));
                }
            }
        }
        let mut known: HashMap<(u32, String), Derives> = HashMap::new();
        for (_, krate, edition) in &questions {
            if known.contains_key(&(*krate, edition.clone())) {
                continue;
            }
            let ask = |name: &&str| {
                let path = quoted(&format!("crate::prelude::rust_{edition}::{name}"));
                format!("{{\"do\":\"resolve\",\"at\":{},\"path\":{path}}}", place_json(*krate, &[]))
            };
            let lines: Vec<String> = DERIVES.iter().map(ask).collect();
            let replies = self.ask_all(&lines)?;
            let found = DERIVES.iter().zip(replies).filter(|(name, reply)| {
                let found = &reply["ok"]["macros"];
                let located = found["def"]["crate"].as_u64().and_then(|it| self.locate(it as u32, &found["def"]));
                let is_builtin = |it: &Detail| matches!(it, Detail::Builtin(it) if it == *name);
                found["vis"] == "pub" && located.is_some_and(|it| is_builtin(&it.node.detail))
            });
            let found = found.map(|it| Derives::of(it.0)).fold(Derives::default(), Derives::or);
            known.insert((*krate, edition.clone()), found);
        }
        let mut preludes: Vec<Option<Derives>> = vec![None; self.states.len()];
        for (number, krate, edition) in questions {
            let found = known[&(krate, edition)];
            preludes[number] = Some(preludes[number].map_or(found, |it| it.and(found)));
        }
        let mut is_news = false;
        for (state, found) in self.states.iter_mut().zip(preludes) {
            let found = found.unwrap_or_default();
            is_news |= state.in_prelude != found;
            state.in_prelude = found;
        }
        Ok(is_news)
    }

    /// Decides anew which derives are left out. Answers the crates of which that changed; what the program has of their
    /// derives and attributes is removed, so that it tells again that it is absent.
    pub(super) fn leave_out(&mut self, lines: &mut Vec<String>) -> Vec<u32> {
        let given = self.states.iter().map(|it| it.given.names).fold(self.given_elsewhere.names, Derives::or);
        let mut changed = Vec::new();
        for number in 0..self.states.len() {
            let left_out = match self.has_prelude(number) && !self.may_stop(number) {
                true => self.states[number].in_prelude.without(given),
                false => Derives::default(),
            };
            if self.states[number].left_out != left_out {
                self.states[number].left_out = left_out;
                changed.push(number as u32);
            }
        }
        let is_left = |key: &&String| {
            let is_of = |it: &u32| key.starts_with(&format!("{{\"caller\":{it},"));
            !key.contains(",\"call\":\"bang\",") && changed.iter().any(is_of)
        };
        if !changed.is_empty() {
            let left: Vec<String> = self.expansions.keys().filter(is_left).cloned().collect();
            for key in left {
                lines.push(format!("{{\"do\":\"remove expansion\",\"key\":{key}}}"));
                self.remove_expansion(&key);
            }
        }
        changed
    }

    /// Whether a crate has so many macro calls, attributes and other derives that it may stop for want of rounds. Each
    /// round finds one of these, but for rounds that find derives alone, each of which comes behind another.
    fn may_stop(&self, number: usize) -> bool {
        let state = &self.states[number];
        state.taken.len() + state.given.lookups + self.given_elsewhere.lookups > MOST_ROUNDS / 2 - 1
    }

    /// Whether a crate has a prelude, as far as its own attributes say.
    fn has_prelude(&self, number: usize) -> bool {
        let krate = &self.crates.all[number];
        let root = key_of(&krate.root).ok().and_then(|it| self.parsed.get(&it));
        let attributes = root.map(|it| numbered(&it.unit.attributes, &krate.options)).unwrap_or_default();
        attributes.iter().all(|it| it.1.path.text != "no_core")
    }
}
