//! Items of traits and impls: which impls a crate has, and what the program lists of them. Macros that are called among
//! such items are expanded when the items are asked for.

use std::collections::{BTreeSet, HashMap, HashSet};
use std::sync::Arc;

use anyhow::Result;
use serde_json::Value;

use super::expansions::macro_question;
use super::files::{path_of_key, Folder};
use super::{Key, NotRun, Workspace};
use crate::macros::MOST_TOKENS;
use crate::question::{question, Question};
use crate::syntax::{ImplHead, Visibility};
use crate::token::{on_a_thread, Span};
use crate::unit::{numbered, paths_of, place_json, quoted, steps_of, Built, Detail, Node, Step};

/// What calls among the items of a trait or an impl expand to is handed in at most so many times.
const MOST_ROUNDS: usize = 200;

/// What a crate is made of: a file, a block, or what a call expands to.
pub(super) struct UnitAt {
    pub built: Arc<Built>,
    /// The module or the block in which its items are.
    pub place: Vec<Step>,
    pub file: Key,
    /// Where the outermost call stands that brings it.
    pub call: Option<Span>,
}

/// An item of a trait or an impl.
#[derive(Clone, Debug)]
pub(crate) struct Associated {
    pub name: Arc<str>,
    /// As the program names it.
    pub kind: &'static str,
    pub file: Key,
    /// Where its name stands, or the call that brings it.
    pub span: Span,
    pub visibility: Visibility,
}

impl Associated {
    /// Its namespace, and what it is, in words.
    pub fn words(&self) -> (&'static str, &'static str) {
        match self.kind {
            "Fn" => ("value", "associated function"),
            "TypeAlias" => ("type", "associated type"),
            _ => ("value", "associated constant"),
        }
    }
}

/// An impl where it is written, with those of its items that have a name.
#[derive(Clone, Debug)]
pub(crate) struct Impl {
    pub head: ImplHead,
    pub krate: u32,
    /// The module or the block in which it is written.
    pub place: Vec<Step>,
    pub file: Key,
    /// Where it begins, or the call that brings it.
    pub span: Span,
    /// From its first word to its last.
    whole: Span,
    pub items: Vec<Associated>,
    /// Whether macros are called among its items.
    pub has_calls: bool,
    /// How many impls of its place come before it in its file. None where a call brings it.
    number: Option<usize>,
}

impl Workspace {
    /// The files of a crate, the blocks in them, and what their calls expand to.
    pub(super) fn units(&self, krate: u32) -> Vec<UnitAt> {
        let state = &self.states[krate as usize];
        let mut made = Vec::new();
        for (number, (key, module)) in state.files.iter().enumerate() {
            let Some(sent) = self.sent.get(key) else {
                continue;
            };
            let (built, place) = (sent.built.clone(), steps_of(module));
            made.push(UnitAt { built, place, file: key.clone(), call: None });
            if state.places.get(key) == Some(&number) {
                made.extend(self.blocks_of(krate, key).into_iter().map(|(place, it)| {
                    let (built, file) = (it.built.clone(), key.clone());
                    UnitAt { built, place, file, call: None }
                }));
            }
        }
        let mut at = 0;
        while at < made.len() {
            let UnitAt { built, place, file, call } = &made[at];
            let mut more = Vec::new();
            for node in built.calls().filter(|it| !it.is_left_out) {
                let Detail::Call(called) = &node.detail else {
                    continue;
                };
                let key = state.taken.get(&called.identity);
                if let Some(it) = key.and_then(|it| self.expansions.get(it)) {
                    let (built, place, file) = (it.built.clone(), node.place_in(place), file.clone());
                    more.push(UnitAt { built, place, file, call: call.or(Some(node.span)) });
                }
            }
            made.extend(more);
            at += 1;
        }
        made
    }

    /// The names of the `macro_rules!` of a crate.
    pub(crate) fn rules_of(&self, krate: u32) -> BTreeSet<Arc<str>> {
        let mut made = BTreeSet::new();
        for it in self.units(krate) {
            let nodes = it.built.nodes.iter().filter(|it| it.kind == "MacroRules" && !it.is_left_out);
            made.extend(nodes.map(|it| it.name.clone()));
        }
        made
    }

    /// The names that stand for what may have another name.
    fn aliases(&self) -> HashSet<&str> {
        let blocks = self.blocks.values().map(|it| &it.built);
        let all =
            self.sent.values().map(|it| &it.built).chain(blocks).chain(self.expansions.values().map(|it| &it.built));
        all.flat_map(|it| it.aliases()).map(|it| &**it).collect()
    }

    /// The impls in these crates whose type is written as a path that may name what is called so, those of traits or the
    /// others, with their items of a name, or with all.
    pub(crate) fn impls(&self, crates: &[u32], type_name: &str, is_of_trait: bool, name: Option<&str>) -> Vec<Impl> {
        let aliases = self.aliases();
        let wanted = |it: &ImplHead| {
            let last = it.self_type.as_ref().and_then(|it| it.text.rsplit("::").next());
            it.is_of_trait == is_of_trait && last.is_some_and(|it| it == type_name || aliases.contains(it))
        };
        crates.iter().flat_map(|it| self.impls_in(*it, &wanted, name)).collect()
    }

    fn impls_in(&self, krate: u32, wanted: &dyn Fn(&ImplHead) -> bool, name: Option<&str>) -> Vec<Impl> {
        let mut made = Vec::new();
        for unit in self.units(krate) {
            let mut before: HashMap<&[Arc<str>], usize> = HashMap::new();
            for (node, items) in unit.built.impls().filter(|it| !it.0.is_left_out) {
                let Detail::Impl(head) = &node.detail else {
                    continue;
                };
                let count = before.entry(&node.modules).or_default();
                let number = unit.call.is_none().then_some(*count);
                *count += 1;
                if !wanted(head) {
                    continue;
                }
                let span_of = |it: &Node| unit.call.unwrap_or(it.span);
                let mut found = Impl {
                    head: head.clone(),
                    krate,
                    place: node.place_in(&unit.place),
                    file: unit.file.clone(),
                    span: span_of(node),
                    whole: node.whole,
                    items: Vec::new(),
                    has_calls: false,
                    number,
                };
                for it in items.filter(|it| !it.is_left_out) {
                    found.has_calls |= it.kind == "MacroCall";
                    // No other items may stand there.
                    let is_named = name.map_or(!it.name.is_empty(), |name| *it.name == *name);
                    if is_named && matches!(it.kind, "Fn" | "Const" | "TypeAlias") {
                        found.items.push(Associated {
                            name: it.name.clone(),
                            kind: it.kind,
                            file: unit.file.clone(),
                            span: span_of(it),
                            visibility: it.visibility.clone(),
                        });
                    }
                }
                made.push(found);
            }
        }
        made
    }

    /// The items of an impl that has them by a name, or all: its own, and those that calls in it bring.
    pub(crate) fn items_of_impl(&mut self, it: &Impl, name: Option<&str>) -> Result<Vec<Associated>> {
        let mut items = it.items.clone();
        if it.has_calls {
            items.extend(self.brought_into(it, name)?);
        }
        Ok(items)
    }

    /// The items of a trait of this crate that a path names.
    pub(crate) fn items_of_trait(&mut self, path: &Question, krate: u32) -> Result<Vec<Associated>> {
        let command = format!(
            "{{\"do\":\"trait items\",\"at\":{},\"path\":{}}}",
            place_json(path.krate, &path.place),
            quoted(&path.path)
        );
        let listed = self.listed(krate, &command)?.unwrap_or_default();
        Ok(listed.into_iter().filter_map(|it| self.associated(krate, &it.1)).collect())
    }

    /// The paths of the derives of a type, each of which stands for an impl of the trait that it names, if it names one.
    pub(crate) fn derives_of(&self, krate: u32, definition: &Value) -> Vec<Question> {
        let Some((place, located)) = self.place_and_node(krate, definition) else {
            return Vec::new();
        };
        let options = &self.crates.all[krate as usize].options;
        let attributes = located.node.item.map_or(Vec::new(), |it| numbered(&it.attributes, options));
        let derives = attributes.iter().filter(|it| it.1.path.text == "derive");
        let paths = derives.flat_map(|it| paths_of(&it.1).unwrap_or_default());
        paths.map(|it| question(krate, &place, &it.text)).collect()
    }

    /// The items of a name, or all, that the program lists for an impl.
    fn brought_into(&mut self, it: &Impl, name: Option<&str>) -> Result<Vec<Associated>> {
        let Some(number) = it.number else {
            return Ok(Vec::new());
        };
        // Where an attribute may be a macro its impl is counted later.
        for number in std::iter::once(number).chain((0..MOST_ROUNDS).filter(|it| *it != number)) {
            let command =
                format!("{{\"do\":\"impl items\",\"at\":{},\"impl\":{number}}}", place_json(it.krate, &it.place));
            let Some(listed) = self.listed(it.krate, &command)? else {
                break;
            };
            let is_it = |found: &Associated| found.file == it.file && it.whole.contains(found.span.start);
            let located: Vec<Associated> =
                listed.into_iter().filter_map(|(_, item)| self.associated(it.krate, &item)).collect();
            if located.first().is_some_and(is_it) {
                return Ok(located.into_iter().filter(|it| name.map_or(true, |name| *it.name == *name)).collect());
            }
        }
        Ok(Vec::new())
    }

    /// An item that the program lists.
    fn associated(&self, krate: u32, item: &Value) -> Option<Associated> {
        let located = self.locate(krate, item)?;
        let Node { name, kind, visibility, .. } = located.node;
        Some(Associated { name, kind, file: located.file, span: located.span, visibility })
    }

    /// The items that the program lists, with their names. None where it refuses the command.
    fn listed(&mut self, krate: u32, command: &str) -> Result<Option<Vec<(String, Value)>>> {
        let mut tokens = 0;
        for round in 0.. {
            let mut reply = self.program.ask(command.to_owned())?;
            let Some(answer) = reply.get_mut("ok") else {
                return Ok(None);
            };
            let told = answer["diagnostics"].take();
            let absent = |it: &&Value| it["kind"] == "macro error" && it["error"] == "absent";
            let mut lines = Vec::new();
            for it in told.as_array().into_iter().flatten().filter(absent) {
                if round < MOST_ROUNDS && tokens < MOST_TOKENS {
                    tokens += self.expand_associated(krate, it, &mut lines)?;
                }
            }
            if lines.is_empty() {
                let items = answer["items"].as_array_mut().map(std::mem::take).unwrap_or_default();
                let named = |mut it: Value| Some((it["name"].as_str()?.to_owned(), it["def"].take()));
                return Ok(Some(items.into_iter().filter_map(named).collect()));
            }
            self.hand_in(lines)?;
        }
        Ok(None)
    }

    /// Adds the command that sets what a call among the items of a trait or an impl expands to. Answers how many tokens
    /// that are.
    fn expand_associated(&mut self, krate: u32, absent: &Value, lines: &mut Vec<String>) -> Result<usize> {
        let Some(located) = self.locate(krate, &absent["item"]) else {
            return Ok(0);
        };
        let Detail::Call(call) = &located.node.detail else {
            return Ok(0);
        };
        let question = macro_question(krate, &located.module, &call.path.text, "bang");
        let reply = self.program.ask(question)?;
        let Some(target) = self.target(&reply["ok"]["macros"]["def"]) else {
            return Ok(0);
        };
        let folder = Folder::of(&path_of_key(&located.file), true);
        let expansion = on_a_thread(|| self.expand(krate, call, &target, None, &folder, &mut NotRun::new()));
        let key = self.expansion_key(krate, call, &target);
        self.states[krate as usize].taken.insert(call.identity, key.clone());
        self.set_expansion(krate, key, &expansion, lines);
        Ok(expansion.tokens)
    }
}
