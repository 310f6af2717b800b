//! What a walk looks at in a file: where that is the same, so is the way of the walk.

use std::collections::hash_map::DefaultHasher;
use std::hash::{Hash as _, Hasher as _};

use crate::syntax::{Attribute, Item, ItemKind, Unit};
use crate::unit::Given;

/// The hash of modules, macros, calls, blocks, attributes of the file, attributes that may be macros, and the names that
/// items give to builtin derives. What a plain item is called, who sees it and what an import names is none of it.
pub(super) fn looked_at(unit: &Unit) -> u64 {
    let mut hasher = DefaultHasher::new();
    unit.attributes.hash(&mut hasher);
    unit.blocks.hash(&mut hasher);
    items(&unit.items, &mut hasher);
    hasher.finish()
}

/// The hash of the imports of a file, but for those in bodies.
pub(super) fn imports(unit: &Unit) -> u64 {
    fn add(all: &[Item], hasher: &mut DefaultHasher) {
        for it in all {
            match &it.kind {
                ItemKind::Use(_) => it.hash(hasher),
                ItemKind::Module(Some(inner)) => add(inner, hasher),
                _ => {}
            }
        }
    }
    let mut hasher = DefaultHasher::new();
    add(&unit.items, &mut hasher);
    hasher.finish()
}

fn items(all: &[Item], hasher: &mut DefaultHasher) {
    for it in all {
        match &it.kind {
            ItemKind::Module(Some(inner)) => {
                ("module", it.name_text(), &it.attributes).hash(hasher);
                items(inner, hasher);
                "end".hash(hasher);
            }
            ItemKind::ExternBlock(inner) => {
                ("extern", &it.attributes).hash(hasher);
                items(inner, hasher);
                "end".hash(hasher);
            }
            ItemKind::Module(None) => ("file", it.name_text(), &it.attributes).hash(hasher),
            ItemKind::Call(_) | ItemKind::Macro(_) => it.hash(hasher),
            ItemKind::Trait(inner) | ItemKind::Impl { items: inner, .. } => {
                if has_blocks(it) || inner.iter().any(has_blocks) {
                    it.hash(hasher);
                }
                attributes(it, hasher);
            }
            _ if has_blocks(it) => it.hash(hasher),
            _ => attributes(it, hasher),
        }
    }
}

fn has_blocks(item: &Item) -> bool {
    !item.blocks.is_empty()
}

/// The attributes of an item, where something is looked up for one of them, and what it has to do with builtin derives.
fn attributes(item: &Item, hasher: &mut DefaultHasher) {
    let Given { names, lookups } = Given::by(std::slice::from_ref(item));
    if lookups > 0 {
        let all: &[Attribute] = &item.attributes;
        ("attributes", item.name_text(), all).hash(hasher);
    }
    // Of these alone it counts which there are.
    if !names.is_none() {
        ("names", names).hash(hasher);
    }
}
