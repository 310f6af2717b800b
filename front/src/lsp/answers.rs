//! What is told at places: definitions, hovers, references, symbols.

use std::collections::{BTreeSet, HashSet};
use std::io::Write;
use std::sync::Arc;

use anyhow::Result;
use serde_json::{json, Value};

use super::declaration::{declaration_at, documentation_of, Declaration};
use super::message::INVALID_PARAMS;
use super::symbols::{symbols_of, Symbol};
use super::uri::key_of_uri;
use super::{key_of_place, place_of, Failure, Server, Waiting};
use crate::question::{Context, Question};
use crate::report::{place_at, Meaning, Place};
use crate::site::{sites, Site};
use crate::syntax::plain;
use crate::token::{on_a_thread, tokens_of, Position, Span};
use crate::unit::{place_json, steps_of, Built, Detail, Node, Step};
use crate::workspace::{parse_text, path_of_key, Key, Workspace};

/// What stands at a place.
enum Found {
    /// An item's own name, and the unit that it is an item of: a file or a block, as the program names it.
    Node(Box<Node>, Value),
    Path(Site),
}

/// A crate, and where in it something is looked up.
struct Scope {
    krate: u32,
    place: Vec<Step>,
}

/// The nodes whose names are written where they are declared.
fn is_declaration(node: &Node) -> bool {
    !matches!(node.kind, "Use" | "ExternCrate" | "ExternBlock" | "Impl" | "MacroCall")
}

/// The sites of a text whose blocks these are. None where the text has no tokens.
pub(super) fn sites_of(text: &str, blocks: &[Span], wanted: impl Fn(&str, Span) -> bool + Sync) -> Vec<Site> {
    on_a_thread(|| tokens_of(text).map(|it| sites(&it, blocks, &wanted)).unwrap_or_default())
}

/// What a file or a block is to the program: its nodes, how the program names it, and its place.
struct Source<'a> {
    built: &'a Built,
    name: Value,
    place: Vec<Step>,
}

/// A file in a crate, and its blocks.
fn sources<'a>(space: &'a Workspace, krate: u32, key: &Key) -> Vec<Source<'a>> {
    let module = space.module_of(krate, key).map_or(Vec::new(), steps_of);
    let mut made = Vec::new();
    made.extend(space.built(key).map(|it| Source { built: it, name: json!(&**key), place: module }));
    for (place, it) in space.blocks_of(krate, key) {
        let name = serde_json::from_str(&place_json(krate, &place)).unwrap_or_default();
        made.push(Source { built: &it.built, name, place });
    }
    made
}

/// Where the blocks of a file stand that the program has.
pub(super) fn spans_of_blocks(space: &Workspace, krate: u32, key: &str) -> Vec<Span> {
    space.blocks_of(krate, key).iter().map(|it| it.1.block.span).collect()
}

/// The file that has the items of a module.
fn file_of(space: &Workspace, module: &str) -> Option<Key> {
    (0..space.crates.all.len() as u32).find_map(|krate| {
        let mut files = space.files(krate).iter();
        files.find(|it| !it.1.is_empty() && space.module_text(krate, &it.1) == module).map(|it| it.0.clone())
    })
}

fn asked_for(site: &Site, krate: u32, place: Vec<Step>) -> Question {
    Question { krate, place, path: site.path.clone(), whole: site.whole.clone(), context: site.context }
}

/// The meanings that fit how a path is written.
fn fitting(site: &Site, meanings: Vec<Meaning>) -> Vec<Meaning> {
    let is_type = |it: &Meaning| it.namespace == "type";
    let is_macro = |it: &Meaning| it.namespace == "macro";
    if site.goes_on {
        return meanings.into_iter().filter(is_type).collect();
    }
    let has_others = meanings.iter().any(|it| !is_macro(it));
    let drops_macros = site.context == Context::Plain && has_others;
    meanings.into_iter().filter(|it| !drops_macros || !is_macro(it)).collect()
}

/// The names by which paths may name one of these, and where those that are written somewhere are declared.
fn names_and_places(space: &Workspace, targets: &[Value]) -> (HashSet<String>, Vec<(Key, Position, Position)>) {
    let (mut names, mut places) = (HashSet::new(), Vec::new());
    for it in targets {
        let place = it["crate"].as_u64().and_then(|krate| {
            let mut node = it.clone();
            if node["kind"] == "ProcMacro" {
                node["kind"] = "Fn".into();
            }
            space.locate(krate as u32, &node)
        });
        match place {
            Some(located) => {
                names.insert(match &located.node.detail {
                    Detail::Derive(it) => it.clone(),
                    _ => located.node.name.to_string(),
                });
                places.push((located.file, located.span.start, located.span.end));
            }
            None => names.extend(space.described(it).1.rsplit("::").next().map(str::to_owned)),
        }
        // A crate's root is also named by where the path begins.
        if it["kind"] == "CrateRoot" {
            names.insert("crate".to_owned());
        }
    }
    (names, places)
}

/// Whether an answer of the program has one of these definitions in a namespace that fits.
fn names_one(site: &Site, reply: &Value, targets: &[Value]) -> bool {
    let namespaces: &[&str] = match (site.goes_on, site.context) {
        (true, _) => &["types"],
        (_, Context::Call | Context::Attribute) => &["macros"],
        (_, Context::Import) => &["types", "values", "macros"],
        (_, Context::Plain) => &["types", "values"],
    };
    reply["ok"]["stop"].is_null() && namespaces.iter().any(|it| targets.contains(&reply["ok"][*it]["def"]))
}

impl<W: Write> Server<W> {
    /// The file that a request speaks of, and the position in the text of which its items are.
    pub(super) fn asked(&mut self, params: &Value) -> Result<(Key, Position), Failure> {
        let key = asked_file(params)?;
        let place = place_of(&params["position"]);
        let (line, character) =
            place.ok_or_else(|| Failure(INVALID_PARAMS, "`position` has a `line` and a `character`".to_owned()))?;
        let text = self.unit_text(&key);
        let position = match self.documents.get(&key).map(|it| &it.text) {
            Some(now) if !Arc::ptr_eq(now, &text) => text.position(now.moved(&text, now.offset(line, character))),
            _ => text.position(text.offset(line, character)),
        };
        Ok((key, position))
    }

    /// What stands at a position of a file, and where it stands.
    fn found(&mut self, key: &Key, at: Position) -> Option<(Found, Scope)> {
        let text = self.unit_text(key);
        let space = self.space.as_ref()?;
        let krate = space.crates_of(key).first().copied()?;
        space.module_of(krate, key)?;
        let contains = |span: Span| span.start <= at && at <= span.end;
        let is_named = |node: &Node| {
            let (start, end) = (text.offset_of(node.span.start), text.offset_of(node.span.end));
            text.as_str().get(start..end).is_some_and(|it| plain(it) == &*node.name)
        };
        let is_own = |it: &Node| is_declaration(it) && contains(it.span) && is_named(it);
        for source in sources(space, krate, key) {
            if let Some(node) = source.built.nodes.iter().find(|it| is_own(it)) {
                let place = node.place_in(&source.place);
                return Some((Found::Node(Box::new(node.clone()), source.name), Scope { krate, place }));
            }
        }
        space.parsed(key)?;
        let blocks = spans_of_blocks(space, krate, key);
        let site = sites_of(text.as_str(), &blocks, |_, span| contains(span)).pop()?;
        let place = space.place_of(krate, key, site.span.start);
        Some((Found::Path(site), Scope { krate, place }))
    }

    /// What the path of a site names.
    fn meanings(&mut self, site: &Site, scope: &Scope) -> Result<Vec<Meaning>> {
        let answer = self.with_space(|it| it.answer(asked_for(site, scope.krate, scope.place.clone())))?;
        Ok(match answer {
            Some(it) if it.stopped_at.is_none() => fitting(site, it.meanings),
            _ => Vec::new(),
        })
    }

    /// What an item is where it is declared.
    fn own_meanings(&mut self, node: &Node, unit: &Value, key: &Key, scope: &Scope) -> Result<Vec<Meaning>> {
        let mut path = node.name.to_string();
        if let (Some(at), Some(space)) = (node.of, &self.space) {
            let source = sources(space, scope.krate, key).into_iter().find(|it| it.name == *unit);
            let of = source.and_then(|it| it.built.nodes.get(at));
            let holder = of.map(|it| match &it.detail {
                Detail::Impl(head) => head.self_type.as_ref().map_or("", |it| &it.text),
                _ => &it.name,
            });
            path = holder.map_or(path.clone(), |it| format!("{it}::{path}"));
        }
        let place = place_at(key, node.span);
        let context = match node.kind {
            "MacroRules" => Context::Call,
            _ if node.is_associated() => Context::Plain,
            _ => Context::Import,
        };
        let (krate, at) = (scope.krate, scope.place.clone());
        let question = Question { krate, place: at, whole: path.clone(), path, context };
        let answer = self.with_space(|it| it.answer(question.clone()))?;
        let is_own = |it: &Meaning| it.place.as_ref() == Some(&place) && it.brought_by.is_none();
        Ok(answer.map_or(Vec::new(), |it| it.meanings.into_iter().filter(is_own).collect()))
    }

    pub(super) fn definition(&mut self, params: &Value) -> Result<Result<Value, Failure>> {
        let (key, at) = match self.asked(params) {
            Ok(it) => it,
            Err(it) => return Ok(Err(it)),
        };
        let Some((found, scope)) = self.found(&key, at) else {
            return Ok(Ok(Value::Null));
        };
        let mut locations = Vec::new();
        match found {
            Found::Node(node, _) => {
                let place = place_at(&key, node.span);
                let mut path = scope.place;
                path.push(Step::Module(node.name.to_string()));
                let path = self.space.as_ref().map(|it| it.place_text(scope.krate, &path)).unwrap_or_default();
                let file = (node.kind == "Module").then(|| self.file_of(&path)).flatten();
                locations.extend(file.or_else(|| self.location(&place)));
            }
            Found::Path(site) => {
                for it in self.meanings(&site, &scope)? {
                    let file = (it.what == "module").then(|| self.file_of(&it.path)).flatten();
                    let location = file.or_else(|| it.place.as_ref().and_then(|it| self.location(it)));
                    if let Some(it) = location.filter(|it| !locations.contains(it)) {
                        locations.push(it);
                    }
                }
            }
        }
        Ok(Ok(if locations.is_empty() { Value::Null } else { locations.into() }))
    }

    /// The beginning of the file that has the items of a module.
    fn file_of(&mut self, module: &str) -> Option<Value> {
        let found = file_of(self.space.as_ref()?, module)?;
        self.location(&place_at(&found, Span::default()))
    }

    pub(super) fn hover(&mut self, params: &Value) -> Result<Result<Value, Failure>> {
        let (key, at) = match self.asked(params) {
            Ok(it) => it,
            Err(it) => return Ok(Err(it)),
        };
        let Some((found, scope)) = self.found(&key, at) else {
            return Ok(Ok(Value::Null));
        };
        let (meanings, span) = match &found {
            Found::Node(node, unit) => (self.own_meanings(node, unit, &key, &scope)?, node.span),
            Found::Path(site) => (self.meanings(site, &scope)?, site.span),
        };
        if meanings.is_empty() {
            // What no path names, as a method, is declared all the same.
            let declared = matches!(found, Found::Node(..)).then(|| self.declared_at(&key, span.start)).flatten();
            let range = self.range(&key, span);
            let told = declared.map(|it| json!({"contents": {"kind": "markdown", "value": it.text()}, "range": range}));
            return Ok(Ok(told.unwrap_or_default()));
        }
        let folder = self.space.as_ref().map(|it| it.crates.folder.clone()).unwrap_or_default();
        let folder = folder.canonicalize().unwrap_or(folder);
        let shown = |it: &Place| {
            let here = std::env::current_dir().and_then(|it| it.canonicalize()).unwrap_or_default();
            let path = here.join(&it.file);
            let below = path.strip_prefix(&folder).unwrap_or(&path);
            format!("`{}:{}:{}`", below.display(), it.line, it.column)
        };
        let mut parts: Vec<(String, String, Vec<&str>)> = Vec::new();
        for it in &meanings {
            let mut part = format!("{} `{}`", it.what, it.path);
            let mut told = format!("\n\nvisible: {}", it.visibility);
            if let Some((what, place)) = &it.brought_by {
                told = format!("\n\nbrought by: {what} at {}{told}", shown(place));
            }
            if let Some((what, place)) = &it.within {
                told = format!("\n\nin: {what} at {}{told}", shown(place));
            }
            part.push_str(&told);
            match parts.iter_mut().find(|it| it.0 == part) {
                Some(known) => known.2.push(it.namespace),
                None => parts.push((part, self.declared(it), vec![it.namespace])),
            }
        }
        let mut told = Vec::new();
        for (at, (part, declared, names)) in parts.iter().enumerate() {
            // What is a type and a value is declared once.
            let is_last = parts.get(at + 1).map_or(true, |it| it.1 != *declared);
            let declared = if is_last { declared } else { "" };
            told.push(format!("{part}\n\nas: {}{declared}", names.join(", ")));
        }
        let range = self.range(&key, span);
        Ok(Ok(json!({"contents": {"kind": "markdown", "value": told.join("\n\n---\n\n")}, "range": range})))
    }

    /// The head and the documentation of what a meaning names, behind an empty line.
    fn declared(&mut self, meaning: &Meaning) -> String {
        let key = meaning.place.as_ref().and_then(key_of_place);
        let Some((place, key)) = meaning.place.as_ref().zip(key) else {
            return String::new();
        };
        let found = self.declared_at(&key, Position { line: place.line, column: place.column });
        let mut told = found.map_or(String::new(), |it| format!("\n\n{}", it.text()));
        // That of a module may stand at the top of its file.
        let file = match &*meaning.what {
            "crate" => Some(key),
            "module" => self.space.as_ref().and_then(|it| file_of(it, &meaning.path)),
            _ => None,
        };
        let top = file.map(|it| documentation_of(self.unit_text(&it).as_str(), true));
        if let Some(it) = top.filter(|it| !it.is_empty()) {
            told.push_str(&format!("\n\n{it}"));
        }
        told
    }

    /// How the item is declared whose name begins at a position of a file.
    fn declared_at(&mut self, key: &Key, at: Position) -> Option<Declaration> {
        let text = self.unit_text(key);
        let parsed = self.space.as_ref()?.parsed(key)?;
        // A file that is gone has no text.
        declaration_at(&parsed.unit.items, at, &text).filter(|it| !it.head.is_empty())
    }

    pub(super) fn references(&mut self, params: &Value) -> Result<Result<Value, Failure>> {
        let (key, at) = match self.asked(params) {
            Ok(it) => it,
            Err(it) => return Ok(Err(it)),
        };
        let Some((found, scope)) = self.found(&key, at) else {
            return Ok(Ok(Value::Null));
        };
        let targets: Vec<Value> = match &found {
            // Where its type or its trait isn't known, nobody knows who names it.
            Found::Node(node, _) if node.is_associated() => Vec::new(),
            Found::Node(node, unit) => {
                let Some(space) = self.space.as_ref() else {
                    return Ok(Ok(Value::Null));
                };
                let mut all = Vec::new();
                // A block is one of a crate, a file may be one of several.
                let crates = if unit.is_string() { space.crates_of(&key) } else { vec![scope.krate] };
                for krate in crates {
                    let of = |kind: &str| {
                        let id = [node.id.0, node.id.1];
                        json!({"crate": krate, "id": id, "in": [unit], "kind": kind})
                    };
                    all.push(of(node.kind));
                    if node.kind == "Fn" && space.crates.all[krate as usize].is_proc_macro {
                        all.push(of("ProcMacro"));
                    }
                }
                all
            }
            Found::Path(site) => {
                let question = asked_for(site, scope.krate, scope.place.clone());
                let replies = self.with_space(|it| it.ask_paths(std::slice::from_ref(&question)))?;
                let reply = replies.and_then(|mut it| it.pop()).unwrap_or_default();
                let known = ["types", "values", "macros"].map(|it| reply["ok"][it]["def"].clone());
                let mut all: Vec<Value> = known.into_iter().filter(|it| !it.is_null()).collect();
                all.retain(|it| names_one(site, &reply, std::slice::from_ref(it)));
                all
            }
        };
        if targets.is_empty() {
            return Ok(Ok(Value::Null));
        }
        let with_declaration = params["context"]["includeDeclaration"] == json!(true);
        let made = self.references_to(&targets, with_declaration)?;
        Ok(Ok(made.into()))
    }

    /// The words in the files of the crates that are asked for whose paths name one of these.
    fn references_to(&mut self, targets: &[Value], with_declaration: bool) -> Result<Vec<Value>> {
        let Some(space) = self.space.as_ref() else {
            return Ok(Vec::new());
        };
        let (mut names, declared) = names_and_places(space, targets);
        let mut made: BTreeSet<(Key, Position, Position)> = BTreeSet::new();
        made.extend(declared.into_iter().filter(|_| with_declaration));
        let asked: Vec<u32> =
            (0..space.crates.all.len() as u32).filter(|it| space.crates.all[*it as usize].is_asked).collect();
        let files: BTreeSet<Key> = asked.iter().flat_map(|it| space.files(*it)).map(|it| it.0.clone()).collect();
        self.add_aliases(targets, &files, &mut names)?;
        let mut questions = Vec::new();
        let mut whose = Vec::new();
        for key in &files {
            let text = self.unit_text(key);
            let Some(space) = self.space.as_ref() else {
                continue;
            };
            if !names.iter().any(|it| text.as_str().contains(&**it)) {
                continue;
            }
            for krate in space.crates_of(key) {
                let blocks = spans_of_blocks(space, krate, key);
                for site in sites_of(text.as_str(), &blocks, |word, _| names.contains(word)) {
                    let place = space.place_of(krate, key, site.span.start);
                    questions.push(asked_for(&site, krate, place));
                    whose.push((key.clone(), site));
                }
            }
        }
        let replies = self.with_space(|it| it.ask_paths(&questions))?.unwrap_or_default();
        for ((key, site), reply) in whose.into_iter().zip(replies) {
            if names_one(&site, &reply, targets) {
                made.insert((key, site.span.start, site.span.end));
            }
        }
        let mut locations = Vec::new();
        for (key, start, end) in made {
            locations.extend(self.location(&place_at(&key, Span { start, end })));
        }
        Ok(locations)
    }

    /// Adds the other names that imports give to one of these.
    fn add_aliases(&mut self, targets: &[Value], files: &BTreeSet<Key>, names: &mut HashSet<String>) -> Result<()> {
        let Some(space) = self.space.as_ref() else {
            return Ok(());
        };
        let mut questions = Vec::new();
        let mut bound = Vec::new();
        for key in files {
            for krate in space.crates_of(key) {
                let all = sources(space, krate, key);
                for (source, node) in all.iter().flat_map(|it| it.built.nodes.iter().map(move |node| (it, node))) {
                    let Detail::Use(leaves) = &node.detail else {
                        continue;
                    };
                    let place = node.place_in(&source.place);
                    for leaf in leaves {
                        let last = leaf.path.rsplit("::").next().unwrap_or_default();
                        if let Some(name) = leaf.binds.as_ref().filter(|it| names.contains(last) && ***it != *last) {
                            questions.push(space.question_in(krate, &place, &leaf.path, Context::Import));
                            bound.push(name.to_string());
                        }
                    }
                }
            }
        }
        let replies = self.with_space(|it| it.ask_all(&questions))?.unwrap_or_default();
        for (name, reply) in bound.into_iter().zip(replies) {
            if ["types", "values", "macros"].iter().any(|it| targets.contains(&reply["ok"][*it]["def"])) {
                names.insert(name);
            }
        }
        Ok(())
    }

    /// The program isn't asked, so what was typed need not be handed in.
    pub(super) fn symbols(&mut self, params: &Value) -> Result<Value, Failure> {
        let key = asked_file(params)?;
        if let Some(it) = self.documents.get_mut(&key).filter(|it| it.is_dirty && it.typed.is_none()) {
            it.typed = Some(parse_text(&path_of_key(&key), &key, it.text.as_str()));
        }
        let read = self.documents.get(&key).and_then(|it| {
            let typed = it.typed.as_ref().filter(|it| it.error.is_none()).map(|parsed| (&it.text, &it.text, parsed));
            typed.or(it.waits.as_ref().map(|Waiting { text, parsed, .. }| (&it.text, text, parsed)))
        });
        let made: Vec<Value> = match read {
            Some((now, text, parsed)) => {
                let all = symbols_of(&parsed.unit.items, text);
                all.iter().map(|it| symbol(it, &mut |span| text.range_in(now, span))).collect()
            }
            None => {
                let text = self.unit_text(&key);
                let parsed =
                    self.space.as_ref().and_then(|it| it.parsed(&key)).filter(|it| it.error.is_none()).cloned();
                // One that is no module of the package, not yet, or one of those that lead back to it.
                let parsed = parsed.unwrap_or_else(|| parse_text(&path_of_key(&key), &key, text.as_str()).into());
                let all = symbols_of(&parsed.unit.items, &text);
                all.iter().map(|it| symbol(it, &mut |span| self.range(&key, span))).collect()
            }
        };
        if self.has_nested_symbols {
            return Ok(made.into());
        }
        let uri = self.uri(&key);
        let mut flat = Vec::new();
        flatten(&made, None, &uri, &mut flat);
        Ok(flat.into())
    }
}

/// A symbol as the editor takes it. `range` is where a span of its file is now.
fn symbol(it: &Symbol, range: &mut dyn FnMut(Span) -> Value) -> Value {
    let mut made = json!({
        "name": it.name,
        "kind": it.kind,
        "range": range(it.span),
        "selectionRange": range(it.name_span),
    });
    if !it.detail.is_empty() {
        made["detail"] = it.detail.as_str().into();
    }
    if !it.children.is_empty() {
        made["children"] = it.children.iter().map(|it| symbol(it, range)).collect();
    }
    made
}

pub(super) fn asked_file(params: &Value) -> Result<Key, Failure> {
    let uri = params["textDocument"]["uri"].as_str();
    uri.and_then(key_of_uri).ok_or_else(|| Failure(INVALID_PARAMS, "`textDocument` has the `uri` of a file".to_owned()))
}

fn flatten(symbols: &[Value], around: Option<&str>, uri: &str, made: &mut Vec<Value>) {
    for it in symbols {
        let mut flat = json!({
            "name": it["name"], "kind": it["kind"], "location": {"uri": uri, "range": it["range"]},
        });
        if let Some(around) = around {
            flat["containerName"] = around.into();
        }
        made.push(flat);
        if let Some(children) = it["children"].as_array() {
            flatten(children, it["name"].as_str(), uri, made);
        }
    }
}
