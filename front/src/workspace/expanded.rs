//! What rules expand calls to, with the places that the tokens of a call have in its file now.

use std::collections::HashMap;
use std::sync::{Arc, Mutex, PoisonError};

use super::expansions::expand_rules;
use super::{CrateState, Expansion};
use crate::macros::Rules;
use crate::syntax::{Call, Unit};
use crate::token::{on_a_thread, Hash, Tokens};

/// What an expansion was made of.
pub(super) struct Source {
    pub rules: Arc<Result<Rules, String>>,
    pub input: Tokens,
    /// The macro's crate.
    pub krate: u32,
}

/// What calls expand to that stand elsewhere in their file than when they were walked, each with what it is given.
pub(super) type Moved = Mutex<HashMap<Hash, (Tokens, Arc<Unit>)>>;

/// The expansions of a crate's calls.
#[derive(Clone, Copy)]
pub(super) struct Expanded<'a> {
    pub krate: u32,
    pub state: &'a CrateState,
    pub cache: &'a HashMap<(u32, Hash), (String, Arc<Expansion>)>,
    pub moved: &'a Moved,
}

impl Expanded<'_> {
    /// What rules expand the call to. None where that isn't known, or where it ends nowhere.
    pub fn unit(&self, call: &Call) -> Option<Arc<Unit>> {
        let (_, expansion) = self.cache.get(&(self.krate, call.identity))?;
        let source = expansion.source.as_ref().filter(|_| !self.state.without_end.contains(&call.identity))?;
        if Arc::ptr_eq(&source.input, &call.input) {
            return Some(expansion.unit.clone());
        }
        let moved = || self.moved.lock().unwrap_or_else(PoisonError::into_inner);
        if let Some((_, unit)) = moved().get(&call.identity).filter(|it| Arc::ptr_eq(&it.0, &call.input)) {
            return Some(unit.clone());
        }
        let unit = on_a_thread(|| expand_rules(&source.rules, call, source.krate)).unit;
        moved().insert(call.identity, (call.input.clone(), unit.clone()));
        Some(unit)
    }

    /// The same, but nothing of an expansion in which no block is that positions of the file may be in.
    pub fn with_blocks(&self, call: &Call) -> Option<Arc<Unit>> {
        if self.state.with_blocks.contains(&call.identity) {
            return self.unit(call);
        }
        let (_, expansion) = self.cache.get(&(self.krate, call.identity))?;
        let is_known = expansion.source.is_some() && !self.state.without_end.contains(&call.identity);
        is_known.then(Arc::default)
    }
}
