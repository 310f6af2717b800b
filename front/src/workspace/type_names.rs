//! The names that types have, and those that imports give to anything.

use std::collections::HashMap;
use std::sync::Arc;

use crate::unit::Built;

/// How often the units that were handed in have each name.
#[derive(Default)]
pub(super) struct TypeNames(HashMap<Arc<str>, usize>);

impl TypeNames {
    pub(super) fn hold(&self, name: &str) -> bool {
        self.0.contains_key(name)
    }

    /// Adds those of a unit.
    pub(super) fn add(&mut self, built: &Built) {
        for it in built.type_names() {
            *self.0.entry(it.clone()).or_default() += 1;
        }
    }

    /// Takes away those of a unit that were added.
    pub(super) fn remove(&mut self, built: &Built) {
        for it in built.type_names() {
            if let Some(count) = self.0.get_mut(it) {
                *count -= 1;
                if *count == 0 {
                    self.0.remove(it);
                }
            }
        }
    }
}
