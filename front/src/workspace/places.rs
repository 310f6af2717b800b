//! Where the nodes stand that the program names, and the blocks around positions.

use std::sync::Arc;

use serde_json::{json, Value};

use super::{Key, Located, Workspace};
use crate::token::{Position, Span};
use crate::unit::{place_json, steps_from, steps_of, Built, BuiltBlock, Detail, Node, Step};

/// What a file, a block or an expansion is made of.
struct UnitOf {
    built: Arc<Built>,
    file: Key,
    /// The module in which its items are.
    module: Vec<String>,
    /// Where the outermost call stands that brings it.
    call: Option<Span>,
}

pub(super) fn id_of(item: &Value) -> Option<(u16, u16)> {
    Some((item["id"][0].as_u64()? as u16, item["id"][1].as_u64()? as u16))
}

impl Workspace {
    /// Where a node stands that the program names by `id`, `in` and `kind`.
    pub fn locate(&self, krate: u32, item: &Value) -> Option<Located> {
        let UnitOf { built, file, mut module, call } = self.unit_of(krate, item)?;
        let node = built.find(item["kind"].as_str()?, id_of(item)?)?.clone();
        module.extend(node.modules.iter().map(|it| it.to_string()));
        let enum_name = node.of.filter(|_| node.kind == "Variant").map(|at| built.nodes[at].name.clone());
        let is_expanded = call.is_some();
        Some(Located { file, span: call.unwrap_or(node.span), node, module, enum_name, is_expanded })
    }

    /// The variants of an enum, each with its name and as the program names it.
    pub(crate) fn variants_of(&self, krate: u32, definition: &Value) -> Option<Vec<(Arc<str>, Value)>> {
        let UnitOf { built, .. } = self.unit_of(krate, definition)?;
        let id = id_of(definition)?;
        let at = built.nodes.iter().position(|it| it.kind == "Enum" && it.id == id)?;
        let is_its = |it: &&Node| it.of == Some(at) && it.kind == "Variant" && !it.is_left_out;
        let named = |it: &Node| {
            let mut variant = definition.clone();
            (variant["kind"], variant["id"]) = ("Variant".into(), json!([it.id.0, it.id.1]));
            (it.name.clone(), variant)
        };
        Some(built.nodes[at..].iter().filter(is_its).map(named).collect())
    }

    /// The place of a module, also of one in a block, or of a block's root.
    pub(crate) fn place_of_module(&self, definition: &Value) -> Option<(u32, Vec<Step>)> {
        let krate = definition["crate"].as_u64()? as u32;
        let source = &definition["in"][0];
        match definition["kind"].as_str()? {
            "CrateRoot" => return Some((krate, Vec::new())),
            "BlockExpr" => return Some((krate, steps_from(source))),
            "Module" => {}
            _ => return None,
        }
        let (mut place, located) = self.place_and_node(krate, definition)?;
        place.push(Step::Module(located.node.name.to_string()));
        Some((krate, place))
    }

    /// The module or the block in which a node is declared, and the node.
    pub(crate) fn place_and_node(&self, krate: u32, item: &Value) -> Option<(Vec<Step>, Located)> {
        let (located, source) = (self.locate(krate, item)?, &item["in"][0]);
        let place = match source.is_array() {
            true => located.node.place_in(&steps_from(source)),
            false => steps_of(&located.module),
        };
        Some((place, located))
    }

    /// The unit in which a node is that the program names.
    fn unit_of(&self, krate: u32, item: &Value) -> Option<UnitOf> {
        let source = item["in"].as_array()?;
        let first = source.first()?;
        let block = first.is_array().then(|| self.block(&first.to_string()));
        let key = match block {
            Some(it) => it?.0,
            None => first.as_str()?,
        };
        let (key, sent) = self.sent.get_key_value(key)?;
        let state = self.states.get(krate as usize)?;
        let mut module = state.places.get(key).map(|at| state.files[*at].1.clone()).unwrap_or_default();
        let mut built = sent.built.clone();
        if let Some((_, it)) = block.flatten() {
            module.extend(it.names.iter().cloned());
            built = it.built.clone();
        }
        let mut span = None;
        for call in &source[1..] {
            let node = built.find(call["kind"].as_str()?, id_of(call)?)?;
            module.extend(node.modules.iter().map(|it| it.to_string()));
            span = span.or(Some(node.span));
            built = match (&node.detail, call["attr"].as_u64(), &node.item) {
                (Detail::Call(call), _, _) => {
                    let taken = state.taken.get(&call.identity);
                    let taken = taken.or_else(|| self.states.iter().find_map(|it| it.taken.get(&call.identity)));
                    self.expansions.get(taken?)?.built.clone()
                }
                (_, Some(number), Some(item)) => self.given_back.get(&(item.input?, number as u32))?.clone(),
                _ => return None,
            };
        }
        Some(UnitOf { built, file: key.clone(), module, call: span })
    }

    /// The file and the block of a place, as JSON.
    pub(super) fn block(&self, place: &str) -> Option<(&Key, &BuiltBlock)> {
        let sent = self.blocks.get(place).filter(|it| !it.is_refused)?;
        Some((&sent.file, self.sent.get(&sent.file)?.blocks.get(sent.number)?))
    }

    /// The crate of a block, and the names that lead to it.
    pub fn block_names(&self, place: &str) -> Option<(u32, Vec<String>)> {
        let (key, block) = self.block(place)?;
        let krate = self.blocks.get(place)?.krate;
        let module = self.module_of(krate, key)?;
        Some((krate, module.iter().chain(&block.names).cloned().collect()))
    }

    /// The blocks of a file that the program has, each with its place in a crate.
    pub fn blocks_of(&self, krate: u32, key: &str) -> Vec<(Vec<Step>, &BuiltBlock)> {
        let (Some(module), Some(sent)) = (self.module_of(krate, key), self.sent.get(key)) else {
            return Vec::new();
        };
        let module = steps_of(module);
        let placed = sent.blocks.iter().map(|it| ([&module[..], &it.steps].concat(), it));
        placed.filter(|it| self.block(&place_json(krate, &it.0)).is_some()).collect()
    }

    /// The innermost block around a position of a file that the program has, with its place in a crate.
    pub fn block_at(&self, krate: u32, key: &str, at: Position) -> Option<(Vec<Step>, &BuiltBlock)> {
        let is_around = |it: &BuiltBlock| it.block.contains(at);
        if !self.sent.get(key)?.blocks.iter().any(is_around) {
            return None;
        }
        // Outer blocks come before those in them.
        self.blocks_of(krate, key).into_iter().rev().find(|it| is_around(it.1))
    }
}
