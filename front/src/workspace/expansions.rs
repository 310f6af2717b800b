//! What calls, derives and attributes expand to, and the macros that they reach.

use std::collections::{BTreeMap, HashSet};
use std::path::Path;
use std::sync::Arc;

use anyhow::{bail, Context, Result};
use serde_json::{json, Value};

use super::eager::Input;
use super::expanded::Source;
use super::files::{bytes_of, key_of, parse_text, Folder};
use super::{Expansion, How, Key, Located, NotRun, SentExpansion, Target, Workspace};
use crate::cfg::string_of;
use crate::macros::Rules;
use crate::syntax::{statements_of, unit_of, Attribute, Call, Item, MacroDefinition, Unit};
use crate::token::{count, on_a_thread, opened, tokens_of, Hash, Kind, SyntaxError, Token};
use crate::unit::{
    build_without, is_builtin, numbered, paths_of, place_json, quoted, steps_of, Built, Detail, Given, Without,
};

pub(super) fn expand_rules(rules: &Result<Rules, String>, call: &Call, krate: u32) -> Expansion {
    let made = match rules {
        Ok(it) => it.expand(&call.input, krate),
        Err(error) => Err(error.clone()),
    };
    let tokens = made.as_ref().map_or(0, |it| count(it));
    let around = Hash::default().with("expansion").with(&call.identity.text());
    let unit = made.and_then(|it: Vec<Token>| match call.is_statement {
        true => Ok(statements_of(&it, around)),
        false => unit_of(&it, around).map_err(|it| it.message),
    });
    match unit {
        Ok(unit) => Expansion::of(Arc::new(unit), None, tokens),
        Err(error) => Expansion::of(Arc::default(), Some(error), tokens),
    }
}

/// What stands in the file that `include!` names.
pub(super) fn included(call: &Call, input: Option<&Input>, folder: &Path) -> Expansion {
    let none = Expansion::of(Arc::default(), input.and_then(|it| it.error.clone()), 0);
    if none.error.is_some() {
        return none;
    }
    let name = match (&opened(&call.input)[..], input) {
        (_, Some(it)) => it.text.clone(),
        ([Token { kind: Kind::Literal(it), .. }, ..], None) => string_of(it),
        _ => None,
    };
    let Some(name) = name else {
        return Expansion { is_unknown: true, ..none };
    };
    let path = folder.join(name);
    let around: Key = call.identity.text().into();
    let file = key_of(&path).ok();
    let text = bytes_of(&path).and_then(|it| {
        String::from_utf8(it).map_err(|_| std::io::Error::new(std::io::ErrorKind::InvalidData, "it isn't UTF-8"))
    });
    match text {
        Ok(text) => {
            let parsed = parse_text(&path, &around, &text);
            let error = parsed.error.map(|it| format!("{}: {}", path.display(), it.message));
            Expansion { file, ..Expansion::of(parsed.unit, error, text.len() / 4) }
        }
        Err(error) => Expansion { error: Some(format!("{} can't be read: {error}", path.display())), file, ..none },
    }
}

pub(super) fn key_json(caller: u32, krate: u32, text: &str, call: &str, input: &str) -> String {
    format!("{{\"caller\":{caller},\"crate\":{krate},\"text\":{},\"call\":{call},\"input\":\"{input}\"}}", quoted(text))
}

pub(super) fn macro_question(krate: u32, at: &[String], path: &str, sub: &str) -> String {
    format!(
        "{{\"do\":\"resolve\",\"at\":{},\"path\":{},\"shadow\":\"module\",\"sub\":\"{sub}\"}}",
        place_json(krate, &steps_of(at)),
        quoted(path)
    )
}

impl Workspace {
    pub(super) fn expansion_key(&self, caller: u32, call: &Call, target: &Target) -> String {
        let input = call.input_hash.text();
        key_json(caller, target.krate, &target.text, "\"bang\"", &input)
    }

    /// Adds the command that sets what a key expands to, if that is news.
    pub(super) fn set_expansion(
        &mut self,
        krate: u32,
        key: String,
        expansion: &Expansion,
        lines: &mut Vec<String>,
    ) -> Arc<Built> {
        let left_out = self.states[krate as usize].left_out;
        let state = (expansion.error.is_some(), expansion.is_endless, left_out, expansion.inner.clone());
        if let Some(it) = self.expansions.get(&key).filter(|it| it.state == state) {
            return it.built.clone();
        }
        let options = &self.crates.all[krate as usize].options;
        let without = Without { derives: left_out, associated: self.is_brief };
        let (built, what) = match expansion.inner.is_empty() {
            true => (build_without(&expansion.unit, options, &|_| None, without), "unit"),
            false => (Built::of_paths(&expansion.inner), "inner"),
        };
        let built = Arc::new(built);
        let error = expansion.error.as_ref().map_or(String::new(), |it| format!(",\"error\":{}", quoted(it)));
        let line = format!("{{\"do\":\"set expansion\",\"key\":{key},\"{what}\":{}{error}}}", built.json);
        lines.push(line.clone());
        self.type_names.add(&built);
        if let Some(it) = self.expansions.insert(key, SentExpansion { built: built.clone(), line, state }) {
            self.type_names.remove(&it.built);
        }
        built
    }

    /// Gives up what a key expands to.
    pub(super) fn remove_expansion(&mut self, key: &str) {
        if let Some(it) = self.expansions.remove(key) {
            self.type_names.remove(&it.built);
        }
    }

    pub(super) fn rules_of_macro(&mut self, definition: &MacroDefinition) -> Arc<Result<Rules, String>> {
        self.rules.entry(definition.hash).or_insert_with(|| Arc::new(Rules::read(definition))).clone()
    }

    #[allow(clippy::too_many_arguments)]
    pub(super) fn expand(
        &mut self,
        krate: u32,
        call: &Call,
        target: &Target,
        input: Option<&Input>,
        folder: &Folder,
        not_run: &mut NotRun,
    ) -> Arc<Expansion> {
        if matches!(target.how, How::Procedural) {
            *not_run.entry(("macro", target.name.clone())).or_default() += 1;
        }
        let cached = (krate, call.identity);
        let text = format!("{} {}{}", target.krate, target.text, input.map_or(String::new(), Input::words));
        if let Some((before, it)) = self.cache.get(&cached) {
            if *before == text {
                return it.clone();
            }
        }
        let elsewhere = (target.name.clone(), "bang", call.input_hash);
        let made = match (&target.how, self.elsewhere.get(&elsewhere)) {
            (_, Some(unit)) => Expansion::of(unit.clone(), None, 0),
            (How::Rules(definition), None) => {
                let rules = self.rules_of_macro(definition);
                let source = Source { rules: rules.clone(), input: call.input.clone(), krate: target.krate };
                let made = expand_rules(&rules, call, target.krate);
                Expansion { source: made.error.is_none().then_some(source), ..made }
            }
            (How::Builtin, None) if target.name == "include" => included(call, input, &folder.of_file),
            _ => Expansion::of(Arc::default(), None, 0),
        };
        let made = Arc::new(made);
        self.cache.insert(cached, (text, made.clone()));
        made
    }

    /// Finds what the absent calls of a crate reach, and whether what paths reached before still holds.
    pub(super) fn reach(
        &mut self,
        krate: u32,
        diagnostics: &Value,
        changed: &mut HashSet<u32>,
        lines: &mut Vec<String>,
        asked: &mut HashSet<String>,
    ) -> Result<()> {
        let mut questions: BTreeMap<(Vec<String>, String), ()> = BTreeMap::new();
        for it in self.states[krate as usize].reached.keys() {
            questions.insert(it.clone(), ());
        }
        let mut decorated = Vec::new();
        for it in diagnostics.as_array().into_iter().flatten() {
            if it["kind"] != "macro error" || it["error"] != "absent" {
                continue;
            }
            let Some(located) = self.locate(krate, &it["item"]) else {
                continue;
            };
            let path = it["path"].as_str().unwrap_or_default().to_owned();
            if located.node.kind == "MacroCall" {
                questions.insert((located.module, path), ());
            } else {
                decorated.push((located, path, it["item"].to_string()));
            }
        }
        let questions: Vec<(Vec<String>, String)> = questions.into_keys().collect();
        let asks: Vec<String> = questions.iter().map(|(at, path)| macro_question(krate, at, path, "bang")).collect();
        let replies = self.program.ask_all(&asks)?;
        for (question, reply) in questions.into_iter().zip(replies) {
            let target = self.target(&reply["ok"]["macros"]["def"]);
            let same = |a: &Option<Target>, b: &Option<Target>| match (a, b) {
                (Some(a), Some(b)) => a.krate == b.krate && a.text == b.text,
                (None, None) => true,
                _ => false,
            };
            let before = self.states[krate as usize].reached.get(&question);
            if !before.is_some_and(|it| same(it, &target)) {
                changed.insert(krate);
                self.states[krate as usize].reached.insert(question, target);
            }
        }
        let asks: Vec<String> =
            decorated.iter().map(|(it, path, _)| macro_question(krate, &it.module, path, "attr")).collect();
        let replies = self.program.ask_all(&asks)?;
        for ((located, path, text), reply) in decorated.into_iter().zip(replies) {
            let Some(target) = self.target(&reply["ok"]["macros"]["def"]) else {
                continue;
            };
            self.decorated(krate, &located, &path, &text, &target, lines, asked);
        }
        Ok(())
    }

    /// A derive brings nothing, and an attribute gives its item back, unless an expansion comes from elsewhere.
    #[allow(clippy::too_many_arguments)]
    pub(super) fn decorated(
        &mut self,
        krate: u32,
        located: &Located,
        path: &str,
        text: &str,
        target: &Target,
        lines: &mut Vec<String>,
        asked: &mut HashSet<String>,
    ) {
        let Some(item) = located.node.item.clone() else {
            return;
        };
        let Some(input) = item.input else {
            return;
        };
        let options = self.crates.all[krate as usize].options.clone();
        let attributes = numbered(&item.attributes, &options);
        let derives = attributes.iter().filter(|it| it.1.path.text == "derive");
        let is_derived = derives.flat_map(|it| paths_of(&it.1)).flatten().any(|it| it.text == path);
        let key = key_json(krate, target.krate, &target.text, "\"derive\"", &input.text());
        if is_derived && asked.insert(format!("{krate} {text} {key}")) {
            *self.not_run.entry(krate).or_default().entry(("derive", target.name.clone())).or_default() += 1;
            let unit = self.elsewhere.get(&(target.name.clone(), "derive", input)).cloned().unwrap_or_default();
            let expansion = Expansion::of(unit, None, 0);
            self.set_expansion(krate, key, &expansion, lines);
            return;
        }
        for (number, _) in attributes.iter().filter(|it| it.1.path.text == path) {
            let call = format!("[\"attr\",{number}]");
            let key = key_json(krate, target.krate, &target.text, &call, &input.text());
            if !asked.insert(format!("{krate} {text} {key}")) {
                continue;
            }
            *self.not_run.entry(krate).or_default().entry(("attribute", target.name.clone())).or_default() += 1;
            let unit = match self.elsewhere.get(&(target.name.clone(), "attr", input)) {
                Some(it) => it.clone(),
                None => {
                    let mut given = Item::clone(&item);
                    let stays = |it: &(u32, Attribute)| {
                        it.0 > *number || is_builtin(&it.1.path.text) && it.1.path.text != "derive"
                    };
                    given.attributes = attributes.iter().filter(|it| stays(it)).map(|it| it.1.clone()).collect();
                    Arc::new(Unit { items: vec![given], ..Unit::default() })
                }
            };
            let expansion = Expansion::of(unit, None, 0);
            let built = self.set_expansion(krate, key, &expansion, lines);
            self.given_back.insert((input, *number), built);
            return;
        }
    }

    /// The macro that a definition is.
    pub(super) fn target(&self, definition: &Value) -> Option<Target> {
        let krate = definition["crate"].as_u64()? as u32;
        let is_procedural = definition["kind"] == "ProcMacro";
        let mut definition = definition.clone();
        if is_procedural {
            definition["kind"] = json!("Fn");
        }
        let node = self.locate(krate, &definition)?.node;
        let name = node.name.to_string();
        Some(match node.detail {
            Detail::Macro(it) => Target { krate, text: it.hash.text(), name, how: How::Rules(it) },
            Detail::Builtin(it) => Target { krate, text: format!("builtin {it}"), name: it, how: How::Builtin },
            Detail::Derive(it) => Target { krate, text: it.clone(), name: it, how: How::Procedural },
            _ if is_procedural => Target { krate, text: name.clone(), name, how: How::Procedural },
            _ => return None,
        })
    }

    /// Entries of a file of expansions: JSON lines with `macro`, `call` (`bang`, `derive` or `attr`), `input` and
    /// `expansion`, the last two as Rust text.
    pub(super) fn read_elsewhere(&mut self, path: &Path) -> Result<()> {
        let text = std::fs::read_to_string(path).with_context(|| format!("{} can't be read", path.display()))?;
        for (at, line) in text.lines().enumerate().filter(|it| !it.1.trim().is_empty()) {
            let place = format!("{}:{}", path.display(), at + 1);
            let entry: Value = serde_json::from_str(line).with_context(|| format!("{place} is no JSON"))?;
            let field = |name: &str| {
                entry[name].as_str().map(str::to_owned).with_context(|| format!("{place} has no text `{name}`"))
            };
            let call = match &*field("call")? {
                "bang" => "bang",
                "derive" => "derive",
                "attr" => "attr",
                it => bail!("{place}: `call` is `bang`, `derive` or `attr`, not `{it}`"),
            };
            let (name, input, expansion) = (field("macro")?, field("input")?, field("expansion")?);
            let made = on_a_thread(|| -> Result<(Hash, Unit), SyntaxError> {
                let input = tokens_of(&input)?;
                Ok((
                    Hash::default().with_tokens(&input),
                    unit_of(&tokens_of(&expansion)?, Hash::default().with(&place))?,
                ))
            });
            let (hash, unit) = made.map_err(|it| anyhow::anyhow!("{place}: {}", it.message))?;
            self.given_elsewhere = self.given_elsewhere.and(Given::by(&unit.items));
            self.elsewhere.insert((name, call, hash), Arc::new(unit));
        }
        Ok(())
    }
}
