//! What paths name, at places of files and where they are typed.

use std::path::Path;

use anyhow::{bail, Context as _, Result};
use serde::Serialize;
use serde_json::Value;

use super::{place_at, prefixes, Place};
use crate::question::{names_of, Context, Question};
use crate::site::{is_local, modules_at, path_at, FoundPath};
use crate::syntax::Item;
use crate::token::{on_a_thread, tokens_of, Position, Span};
use crate::unit::{place_json, steps_of, Detail, Step};
use crate::workspace::{key_of, Located, Workspace};

/// What a path names in one namespace.
#[derive(Clone, Debug, Serialize)]
pub struct Meaning {
    /// `type`, `value` or `macro`.
    pub namespace: &'static str,
    /// As `struct`, `function`, `builtin type`.
    pub what: String,
    /// As `crate::a::B` or `serde::Serialize`.
    pub path: String,
    #[serde(skip_serializing_if = "Option::is_none")]
    pub place: Option<Place>,
    /// Of an item of an impl, that impl: `impl`, or `impl of a::Trait`.
    #[serde(skip_serializing_if = "Option::is_none")]
    pub within: Option<(String, Place)>,
    /// The import, glob or `extern crate` that brought it.
    #[serde(skip_serializing_if = "Option::is_none")]
    pub brought_by: Option<(String, Place)>,
    /// `pub`, or where it is seen, in words.
    pub visibility: String,
}

/// What a path names, in each namespace.
#[derive(Clone, Debug, Serialize)]
pub struct Answer {
    /// As it was asked.
    pub path: String,
    /// The module in which the path was looked up.
    pub module: String,
    /// One for each namespace in which it names something.
    pub meanings: Vec<Meaning>,
    /// The first name that wasn't resolved, where the path goes on past what holds no names.
    #[serde(skip_serializing_if = "Option::is_none")]
    pub stopped_at: Option<String>,
    #[serde(skip_serializing_if = "Vec::is_empty")]
    pub notes: Vec<String>,
}

/// What a path names, and the first name that isn't found where it goes on past what holds no such name.
pub(super) type Named = (Vec<Meaning>, Option<String>);

impl Answer {
    /// As `where` and `resolve` print it.
    pub fn text(&self) -> String {
        let mut text = format!("`{}` in {}\n", self.path, self.module);
        let mut before: Option<String> = None;
        for it in &self.meanings {
            let mut lines = String::new();
            let place = it
                .place
                .as_ref()
                .map_or(String::new(), |it| format!("\n      at {}:{}:{}", it.file, it.line, it.column));
            lines.push_str(&format!("{} {}{place}\n", it.what, it.path));
            if let Some((what, place)) = &it.within {
                lines.push_str(&format!("      in an {what} at {}:{}:{}\n", place.file, place.line, place.column));
            }
            if let Some((what, place)) = &it.brought_by {
                let article = if what.starts_with(['a', 'e', 'i']) { "an" } else { "a" };
                lines.push_str(&format!(
                    "      brought by {article} {what} at {}:{}:{}\n",
                    place.file, place.line, place.column
                ));
            }
            lines.push_str(&format!("      visible: {}\n", it.visibility));
            let as_before = before.as_ref() == Some(&lines);
            match as_before {
                true => text.push_str(&format!("  as a {} the same\n", it.namespace)),
                false => text.push_str(&format!("  as a {}: {lines}", it.namespace)),
            }
            before = Some(lines);
        }
        if self.meanings.is_empty() {
            text.push_str("  names no item, module or macro\n");
        }
        if let Some(it) = &self.stopped_at {
            text.push_str(&format!("  the path goes on with `{it}`, which isn't found\n"));
        }
        for it in &self.notes {
            text.push_str(&format!("  note: {it}\n"));
        }
        text
    }
}

impl Workspace {
    /// The module that a definition is.
    pub fn module_of_definition(&self, definition: &Value) -> Option<(u32, Vec<String>)> {
        let krate = definition["crate"].as_u64()? as u32;
        if definition["kind"] == "CrateRoot" {
            return Some((krate, Vec::new()));
        }
        if definition["kind"] == "BlockExpr" {
            return self.block_names(&definition["in"][0].to_string());
        }
        let located = self.locate(krate, definition)?;
        let mut module = located.module;
        module.push(located.node.name.to_string());
        Some((krate, module))
    }

    /// What the path at a place of a file names.
    pub fn answer_at(&mut self, file: &Path, at: Position) -> Result<Answer> {
        let path = file.canonicalize().unwrap_or_else(|_| file.to_owned());
        let key = key_of(&path)?;
        let Some(krate) = self.crates_of(&key).first().copied() else {
            bail!("{} is no file of these crates", file.display());
        };
        let text = std::fs::read_to_string(&path).with_context(|| format!("{} can't be read", file.display()))?;
        let (mut place, items) = self.place_and_items(krate, &key, at);
        let Some((found, inner)) = path_at(&text, items, at, &|it| self.expansion_of(krate, it)) else {
            bail!("no path stands at {}:{}:{}", file.display(), at.line, at.column);
        };
        let blocks: Vec<Span> = self.blocks_of(krate, &key).iter().map(|it| it.1.block.span).collect();
        place.extend(steps_of(&inner));
        let is_local = on_a_thread(|| tokens_of(&text).is_ok_and(|it| is_local(&it, &blocks, at)));
        if is_local {
            let note = "a local name (a variable, a parameter, `Self` or an item of the body), a field or a method: \
                        these aren't looked up";
            let module = self.place_text(krate, &place);
            let notes = vec![note.to_owned()];
            return Ok(Answer { path: found.path, module, meanings: Vec::new(), stopped_at: None, notes });
        }
        let FoundPath { path, whole, context, block } = found;
        let mut answer = self.answer(Question { krate, place, path, whole, context })?;
        if block.is_some_and(|block| blocks.iter().all(|it| it.start != block)) {
            answer.notes.push("the body around it has items of its own, which aren't looked at".to_owned());
        }
        Ok(answer)
    }

    /// The module of a file or the block in it that stands around a position, and its items.
    pub(super) fn place_and_items(&self, krate: u32, key: &str, at: Position) -> (Vec<Step>, &[Item]) {
        match self.block_at(krate, key, at) {
            Some((place, it)) => (place, &it.block.items),
            None => {
                let items = self.parsed(key).map_or(&[][..], |it| &it.unit.items);
                (self.module_of(krate, key).map_or(Vec::new(), steps_of), items)
            }
        }
    }

    /// The place in which a path is looked up that stands at a position of a file.
    pub fn place_of(&self, krate: u32, key: &str, at: Position) -> Vec<Step> {
        let (mut place, items) = self.place_and_items(krate, key, at);
        place.extend(steps_of(&modules_at(items, at, &|it| self.expansion_of(krate, it))));
        place
    }

    /// Asks what a path names.
    pub fn answer(&mut self, question: Question) -> Result<Answer> {
        let found = self.meanings_of(&question, 0)?;
        let Question { krate, place, path, context, .. } = question;
        let module = self.place_text(krate, &place);
        let (meanings, stopped_at) = match found {
            Ok(it) => it,
            Err(error) if error == "unknown place" => bail!(
                "there is no module {module}; where a condition leaves it out, --test, --features or --cfg may set that"
            ),
            Err(error) if error == "command" => bail!("`{path}` is no path"),
            Err(error) => bail!("the program can't answer: {error}"),
        };
        let mut notes = Vec::new();
        if meanings.is_empty() && self.leads_into_stub(krate, &place, &path, context)? {
            notes.push(format!("it leads into {}: what isn't in that isn't known", self.crates.std));
        }
        Ok(Answer { module, path, meanings, stopped_at, notes })
    }

    /// Whether a path goes on behind something of a crate for which a stub stands.
    fn leads_into_stub(&mut self, krate: u32, place: &[Step], path: &str, context: Context) -> Result<bool> {
        let before = prefixes(path, false).into_iter().filter(|it| it != path);
        let lines: Vec<String> = before.map(|it| self.question_in(krate, place, &it, context)).collect();
        Ok(self.ask_all(&lines)?.iter().any(|it| self.is_of_stub(&it["ok"]["types"]["def"])))
    }

    /// What a path names, or why the program refuses the question. So many aliases were followed.
    pub(super) fn meanings_of(&mut self, question: &Question, aliases: usize) -> Result<Result<Named, String>> {
        let reply = self.ask_paths(std::slice::from_ref(question))?.pop().unwrap_or_default();
        if let Some(it) = reply["error"].as_str() {
            return Ok(Err(it.to_owned()));
        }
        let reply = &reply["ok"];
        let mut meanings = Vec::new();
        let namespaces: &[(&str, &str)] = match question.context {
            Context::Call | Context::Attribute => &[("macros", "macro")],
            _ => &[("types", "type"), ("values", "value"), ("macros", "macro")],
        };
        for (field, namespace) in namespaces {
            if let Some(it) = reply.get(*field).filter(|it| !it.is_null()) {
                meanings.push(self.meaning(namespace, it));
            }
        }
        let stop = reply["stop"].as_u64().map(|it| it as usize);
        let mut names = names_of(&question.path);
        names.retain(|it| !matches!(it.as_str(), "crate" | "self" | "super"));
        if let (Some(at), Some(name), Context::Plain) = (stop, names.last(), question.context) {
            if at + 1 == names.len() {
                let found = self.behind(question, &reply["types"], name, aliases)?;
                if !found.is_empty() {
                    return Ok(Ok((found, None)));
                }
            }
        }
        Ok(Ok((meanings, stop.and_then(|it| names.get(it).cloned()))))
    }

    /// A place in words; a block is named by the items in whose bodies it stands.
    pub fn place_text(&self, krate: u32, place: &[Step]) -> String {
        let block = place.iter().rposition(|it| matches!(it, Step::Block(_)));
        let before = block.and_then(|it| self.block_names(&place_json(krate, &place[..=it])));
        let mut names = before.map_or(Vec::new(), |it| it.1);
        for it in &place[block.map_or(0, |it| it + 1)..] {
            if let Step::Module(it) = it {
                names.push(it.clone());
            }
        }
        self.module_text(krate, &names)
    }

    /// A module in words, as `name_of_a_crate::a`.
    pub fn module_text(&self, krate: u32, module: &[String]) -> String {
        let mut names = vec![self.crates.all[krate as usize].name.clone()];
        names.extend(module.iter().cloned());
        names.join("::")
    }

    pub(super) fn meaning(&self, namespace: &'static str, it: &Value) -> Meaning {
        let definition = &it["def"];
        let (what, path, place) = self.described(definition);
        let brought_by = it.get("import").filter(|it| !it.is_null()).and_then(|it| self.brought(it));
        let visibility = match &it["vis"] {
            Value::String(it) => it.clone(),
            it => match (it["crate"].as_u64(), self.module_of_definition(&it["module"])) {
                (Some(krate), _) => format!("in the crate {}", self.crates.all[krate as usize].name),
                (None, Some((krate, module))) => format!("in {}", self.module_text(krate, &module)),
                _ => "private".to_owned(),
            },
        };
        Meaning { namespace, what, path, place, within: None, brought_by, visibility }
    }

    /// The kind, the path and the place of a definition.
    pub fn described(&self, definition: &Value) -> (String, String, Option<Place>) {
        let (what, path, located) = self.titled(definition);
        let root = || {
            let krate = definition["crate"].as_u64().filter(|_| definition["kind"] == "CrateRoot")?;
            let key = key_of(&self.crates.all[krate as usize].root).ok()?;
            Some(place_at(&key, Span::default()))
        };
        let place = located.map(|it| place_at(&it.file, it.span)).or_else(root);
        (what, path, place)
    }

    /// The kind and the path of a definition, and the node that it is.
    pub(crate) fn titled(&self, definition: &Value) -> (String, String, Option<Located>) {
        if let Some(it) = definition["builtin"].as_str() {
            return ("builtin type".to_owned(), it.to_owned(), None);
        }
        let krate = definition["crate"].as_u64().unwrap_or_default() as u32;
        if definition["kind"] == "CrateRoot" {
            return ("crate".to_owned(), self.crates.all[krate as usize].name.clone(), None);
        }
        let kind = definition["kind"].as_str().unwrap_or_default();
        if let ("BlockExpr", Some((krate, names))) = (kind, self.module_of_definition(definition)) {
            return ("block".to_owned(), self.module_text(krate, &names), None);
        }
        let mut node = definition.clone();
        if kind == "ProcMacro" {
            node["kind"] = "Fn".into();
        }
        let what = match kind {
            "Fn" => "function",
            "Const" => "constant",
            "TypeAlias" => "type alias",
            "MacroRules" | "MacroDef" => "macro",
            "ProcMacro" => "procedural macro",
            "Variant" => "variant",
            it => return self.titled_node(krate, &node, it.to_lowercase()),
        };
        self.titled_node(krate, &node, what.to_owned())
    }

    fn titled_node(&self, krate: u32, node: &Value, what: String) -> (String, String, Option<Located>) {
        let Some(located) = self.locate(krate, node) else {
            return (what, format!("{}::?", self.crates.all[krate as usize].name), None);
        };
        // A `macro_rules` stands in no module.
        let mut names = if located.node.kind == "MacroRules" { Vec::new() } else { located.module.clone() };
        names.extend(located.enum_name.iter().map(|it| it.to_string()));
        names.push(match (&located.node.detail, node["kind"].as_str()) {
            (Detail::Derive(it), _) => it.clone(),
            _ => located.node.name.to_string(),
        });
        (what, self.module_text(krate, &names), Some(located))
    }

    pub(super) fn brought(&self, import: &Value) -> Option<(String, Place)> {
        let source = &import["in"][0];
        let krate = match source.as_str() {
            Some(key) => self.crates_of(key).first().copied()?,
            None => source[0].as_u64()? as u32,
        };
        let what = import["kind"].as_str()?;
        let mut node = import.clone();
        node["kind"] = (if what == "extern crate" { "ExternCrate" } else { "Use" }).into();
        let located = self.locate(krate, &node)?;
        let leaf = match &located.node.detail {
            Detail::Use(leaves) => import["place"].as_u64().and_then(|it| leaves.get(it as usize)),
            _ => None,
        };
        let span = leaf.filter(|_| !located.is_expanded).map_or(located.span, |it| it.span);
        Some((what.to_owned(), place_at(&located.file, span)))
    }
}
