//! Diagnostics and answers at places in files.

mod answers;
mod associated;
mod imports;

use std::collections::HashMap;
use std::path::Path;
use std::sync::Arc;

use anyhow::Result;
use serde::Serialize;
use serde_json::Value;

use crate::question::names_of;
use crate::syntax::{calls_among, Item};
use crate::token::{Span, Token};
use crate::unit::{numbered, paths_of, place_json, quoted, steps_of, Detail};
use crate::workspace::{bytes_of, key_of, path_of_key, Key, Located, NotRun, Workspace};
pub use answers::{Answer, Meaning};
pub(crate) use associated::MOST_ALIASES;
pub(crate) use imports::{past_items, prefixes, Reached, NAMESPACES};
use imports::{Bound, Import};

/// A place in a file.
#[derive(Clone, PartialEq, Eq, PartialOrd, Ord, Hash, Debug, Serialize)]
pub struct Place {
    /// Below the current folder if it lies there, else absolute.
    pub file: String,
    /// From 1.
    pub line: u32,
    /// From 1, in characters.
    pub column: u32,
    /// The line of its last character.
    pub end_line: u32,
    /// The column behind that.
    pub end_column: u32,
}

/// Something that isn't resolved, or couldn't be read.
#[derive(Clone, PartialEq, Eq, PartialOrd, Ord, Hash, Debug, Serialize)]
pub struct Diagnostic {
    /// What the carets stand below.
    pub place: Place,
    /// As the program names it, or `syntax`, `refused` or `endless macro`.
    pub kind: String,
    /// The number that rustc gives such an error.
    #[serde(skip_serializing_if = "Option::is_none")]
    pub code: Option<&'static str>,
    /// What stands behind `error`.
    pub message: String,
    /// What stands beside the caret.
    pub label: String,
    /// The crate in which it is.
    #[serde(rename = "crate")]
    pub krate: String,
    #[serde(skip_serializing_if = "Vec::is_empty")]
    pub notes: Vec<String>,
    /// What stands elsewhere that has to do with it, each with its place.
    #[serde(skip)]
    pub related: Vec<(String, Place)>,
}

/// The number that rustc gives to the error that a name isn't visible.
const PRIVATE: &str = "E0603";

/// What isn't resolved in the crates that are asked for.
#[derive(Debug, Default)]
pub struct Report {
    /// By file and line.
    pub diagnostics: Vec<Diagnostic>,
    /// How many imports and calls weren't judged, since they go into a crate for which a stub stands, or into a file that
    /// couldn't be read.
    pub unjudged: usize,
    /// Files of other crates, and expansions, that couldn't be read.
    pub elsewhere: Vec<String>,
    /// The procedural macros that are used, and how often.
    pub not_run: NotRun,
}

impl Report {
    /// Whether something couldn't be read, so that not all was judged.
    pub fn is_partial(&self) -> bool {
        self.diagnostics.iter().any(|it| ["syntax", "refused", "endless macro"].contains(&&*it.kind))
    }
}

/// Where the paths of attributes stand, by the crate and the item, which stays where it is while a report is made.
type SpansOfItems = HashMap<(u32, *const Item), HashMap<u64, (Span, Vec<Span>)>>;

/// What isn't resolved in crates, as the program tells it.
#[derive(Default)]
struct Unresolved {
    imports: Vec<Import>,
    /// The calls that reach no macro, each with its crate.
    calls: Vec<(u32, Value)>,
    /// The modules whose files aren't there, each with the name `*`.
    absent: Bound,
}

/// A path as messages show it: below the current folder, or absolute.
pub fn shown(path: &Path) -> String {
    let here = std::env::current_dir().ok().and_then(|it| it.canonicalize().ok());
    let below = here.as_ref().and_then(|it| path.strip_prefix(it).ok());
    below.unwrap_or(path).display().to_string()
}

/// A span of a file as a place.
pub fn place_at(key: &str, span: Span) -> Place {
    Place {
        file: shown(&path_of_key(key)),
        line: span.start.line.max(1),
        column: span.start.column.max(1),
        end_line: span.end.line.max(1),
        end_column: span.end.column.max(1),
    }
}

/// The command that asks what a path names.
pub fn question(krate: u32, module: &[String], path: &str) -> String {
    format!("{{\"do\":\"resolve\",\"at\":{},\"path\":{}}}", place_json(krate, &steps_of(module)), quoted(path))
}

impl Workspace {
    /// What isn't resolved, in the order of files and lines.
    pub fn report(&mut self) -> Result<Report> {
        let mut report = Report { not_run: self.not_run(), ..Report::default() };
        let has_stub = self.crates.all.iter().any(|it| it.is_stub);
        let others = self.crates.of_std as u32..self.crates.all.len() as u32;
        // Where something isn't read, what can't be judged for that is found through all crates.
        let is_partial = has_stub || others.clone().any(|it| self.has_unread(it));
        let judged: Vec<u32> = others.filter(|it| is_partial || self.crates.all[*it as usize].is_asked).collect();
        let Unresolved { imports, calls, absent } = self.unresolved(&judged, &mut report)?;
        let mut bound = absent;
        self.unread_modules(&judged, &mut bound);
        if is_partial && !imports.is_empty() {
            self.follow_globs(&judged, &mut bound)?;
        }
        let imports = self.judged_imports(imports, &mut bound, &mut report);
        // What a glob might have brought is told beside it, as rustc does.
        let unresolved: Bound = imports
            .iter()
            .filter(|it| it.binds.as_deref() != Some("*"))
            .filter_map(|it| Some((it.krate, it.located.module.clone(), it.binds.as_ref()?.to_string())))
            .collect();
        for it in imports.iter().filter(|it| self.crates.all[it.krate as usize].is_asked) {
            if !self.follows_from(it, &unresolved) {
                report.diagnostics.push(self.import_diagnostic(it));
            }
        }
        for krate in judged.iter().copied().filter(|it| self.crates.all[*it as usize].is_asked).collect::<Vec<_>>() {
            self.imports_past_items(krate, &mut report)?;
        }
        let mut spans = SpansOfItems::new();
        for (krate, it) in calls {
            if self.crates.all[krate as usize].is_asked {
                self.call_diagnostic(krate, &it, (&bound, &unresolved), &mut spans, &mut report)?;
            }
        }
        self.files_report(&mut report);
        report.diagnostics.sort();
        report.diagnostics.dedup();
        Ok(report)
    }

    /// What the program tells of these crates. What is neither an import nor a call goes into the report.
    fn unresolved(&mut self, crates: &[u32], report: &mut Report) -> Result<Unresolved> {
        let lists = self.diagnostics(crates)?;
        let mut made = Unresolved::default();
        for (krate, list) in crates.iter().copied().zip(lists) {
            for it in list.as_array().into_iter().flatten() {
                let is_given_back = |it: &Value| {
                    let source = it["in"].as_array().into_iter().flatten();
                    source.into_iter().any(|it| !it["attr"].is_null())
                };
                if it["kind"] == "unresolved module" {
                    let located = self.locate(krate, &it["item"]);
                    made.absent.extend(located.map(|it| {
                        let module = it.module.into_iter().chain([it.node.name.to_string()]).collect();
                        (krate, module, "*".to_owned())
                    }));
                }
                match it["kind"].as_str().unwrap_or_default() {
                    // What the attribute of a procedural macro takes for its own.
                    "invalid derive target" | "malformed derive" if is_given_back(&it["item"]) => {}
                    "unresolved macro call" if is_given_back(&it["call"]) => {}
                    "unresolved import" => made.imports.extend(self.import(krate, it)),
                    "unresolved macro call" => made.calls.push((krate, it.clone())),
                    _ if self.crates.all[krate as usize].is_asked => self.other(krate, it, report),
                    _ => {}
                }
            }
        }
        self.follow(&mut made.imports)?;
        Ok(made)
    }

    /// The imports that can be judged: neither a stub nor what couldn't be read stands in their way, nor another that
    /// can't be judged. The names that the others bind are added to `bound`.
    fn judged_imports(&self, mut imports: Vec<Import>, bound: &mut Bound, report: &mut Report) -> Vec<Import> {
        loop {
            let before = imports.len();
            let mut rest = Vec::new();
            for it in imports {
                if self.is_unjudged(&it, bound) {
                    report.unjudged += usize::from(self.crates.all[it.krate as usize].is_asked);
                    if let Some(name) = &it.binds {
                        bound.insert((it.krate, it.located.module.clone(), name.to_string()));
                    }
                } else {
                    rest.push(it);
                }
            }
            if rest.len() == before {
                return rest;
            }
            imports = rest;
        }
    }

    fn is_unread(&self, key: &str) -> bool {
        self.refused().iter().any(|it| &*it.0 == key) || self.parsed(key).is_some_and(|it| it.error.is_some())
    }

    /// Whether not all of a crate's items are known.
    fn has_unread(&self, krate: u32) -> bool {
        self.open_modules(krate).next().is_some() || self.files(krate).iter().any(|it| self.is_unread(&it.0))
    }

    /// Adds the modules whose files couldn't be read, and those with calls whose items aren't known, each with the name `*`.
    fn unread_modules(&self, crates: &[u32], bound: &mut Bound) {
        for krate in crates.iter().copied() {
            let unread = self.files(krate).iter().filter(|it| self.is_unread(&it.0)).map(|it| &it.1);
            for module in unread.chain(self.open_modules(krate)) {
                bound.insert((krate, module.clone(), "*".to_owned()));
            }
        }
    }

    /// Where the paths of an item's attributes stand, by their numbers, each with those of its derives that are handed in.
    fn spans_of_attributes(&self, krate: u32, file: &Key, item: &Item) -> HashMap<u64, (Span, Vec<Span>)> {
        let left_out = self.left_out(krate, file);
        let all = numbered(&item.attributes, &self.crates.all[krate as usize].options).into_iter();
        let spans = all.map(|(number, it)| {
            let derived = paths_of(&it).unwrap_or_default().into_iter().filter(|it| !left_out.hold(&it.text));
            (u64::from(number), (it.path.span, derived.map(|it| it.span).collect()))
        });
        spans.collect()
    }

    fn call_diagnostic(
        &mut self,
        krate: u32,
        it: &Value,
        (bound, unresolved): (&Bound, &Bound),
        spans: &mut SpansOfItems,
        report: &mut Report,
    ) -> Result<()> {
        let Some(located) = self.locate(krate, &it["call"]) else {
            return Ok(());
        };
        let path = it["path"].as_str().unwrap_or_default();
        let names = names_of(path);
        let key = |name: &str| (krate, located.module.clone(), name.to_owned());
        // An import is told by which the name isn't known, and rustc tells no more either.
        if names.first().is_some_and(|it| unresolved.contains(&key(it))) {
            return Ok(());
        }
        if names.len() > 1 {
            let reply = self.ask(question(krate, &located.module, &prefixes(path, false)[0]))?;
            if self.is_of_stub(&reply["ok"]["types"]["def"]) {
                report.unjudged += 1;
                return Ok(());
            }
        }
        if names.first().is_some_and(|it| bound.contains(&key(it)) || bound.contains(&key("*"))) {
            report.unjudged += 1;
            return Ok(());
        }
        let what = match (it["call"]["derive"].is_null(), it["call"]["attr"].is_null()) {
            (false, _) => "derive macro",
            (_, false) => "attribute",
            _ => "macro",
        };
        let call = &it["call"];
        let mut span = located.span;
        if let (Detail::Call(called), false) = (&located.node.detail, located.is_expanded) {
            // It may be the path of a call in what this one is given.
            let inner = if called.path.text == path { None } else { span_of_call(&called.input, path) };
            span = inner.unwrap_or(span);
        }
        if let (Some(number), Some(item), false) = (call["attr"].as_u64(), &located.node.item, located.is_expanded) {
            let spans = spans.entry((krate, Arc::as_ptr(item)));
            let spans = spans.or_insert_with(|| self.spans_of_attributes(krate, &located.file, item));
            if let Some((of_attribute, derived)) = spans.get(&number) {
                let derived = call["derive"].as_u64().and_then(|it| derived.get(it as usize));
                span = *derived.unwrap_or(of_attribute);
            }
        }
        report.diagnostics.push(Diagnostic {
            place: place_at(&located.file, span),
            kind: "unresolved macro call".to_owned(),
            code: (names.len() > 1).then_some("E0433"),
            message: format!("cannot find {what} `{path}` in this scope"),
            label: format!("no {what} of this name"),
            krate: self.crates.all[krate as usize].title.clone(),
            notes: expanded_note(&located),
            related: Vec::new(),
        });
        Ok(())
    }

    fn other(&self, krate: u32, it: &Value, report: &mut Report) {
        let kind = it["kind"].as_str().unwrap_or_default();
        if kind == "unconfigured code" {
            return;
        }
        let Some(located) = self.locate(krate, &it["item"]) else {
            return;
        };
        let name = &located.node.name;
        let mut notes = expanded_note(&located);
        let (code, message, label) = match kind {
            "unresolved module" => {
                let candidates = it["candidates"].as_array().into_iter().flatten().filter_map(Value::as_str);
                let folder = path_of_key(&located.file).parent().map(Path::to_owned).unwrap_or_default();
                let key = |it: &str| key_of(&folder.join(it)).ok();
                let files: Vec<String> = candidates.filter_map(key).map(|it| shown(&path_of_key(&it))).collect();
                notes.push(format!("to create the module `{name}`, create the file {}", files.join(" or ")));
                (Some("E0583"), format!("file not found for module `{name}`"), "no such file".to_owned())
            }
            "unresolved extern crate" => {
                notes.push(format!("if `{name}` is wanted, add it to the dependencies in Cargo.toml"));
                (Some("E0463"), format!("can't find crate for `{name}`"), "can't find crate".to_owned())
            }
            "macro error" if it["error"] == "absent" => {
                let path = it["path"].as_str().unwrap_or_default();
                (None, format!("what `{path}` expands to isn't known"), "it isn't expanded".to_owned())
            }
            "macro error" => {
                let error = it["error"].as_str().unwrap_or_default();
                (None, error.to_owned(), format!("in what `{}` expands to", it["path"].as_str().unwrap_or_default()))
            }
            "invalid derive target" => (
                Some("E0774"),
                "`derive` may only be applied to `struct`s, `enum`s and `union`s".to_owned(),
                "not one of these".to_owned(),
            ),
            "malformed derive" => {
                (None, "malformed `derive` attribute".to_owned(), "its derives can't be read".to_owned())
            }
            _ => (None, kind.to_owned(), String::new()),
        };
        report.diagnostics.push(Diagnostic {
            place: place_at(&located.file, located.span),
            kind: kind.to_owned(),
            code,
            message,
            label,
            krate: self.crates.all[krate as usize].title.clone(),
            notes,
            related: Vec::new(),
        });
    }

    /// The files that couldn't be read.
    fn files_report(&self, report: &mut Report) {
        for (number, krate) in self.crates.all.iter().enumerate() {
            for (key, _) in self.files(number as u32) {
                let refused = self.refused().iter().find(|it| it.0 == *key).map(|it| &it.1);
                let error = self.parsed(key).and_then(|it| it.error.as_ref());
                let (kind, at, message) = match (error, refused) {
                    (Some(it), _) => ("syntax", it.at, &it.message),
                    (None, Some(it)) => ("refused", Span::default(), it),
                    (None, None) => continue,
                };
                let place = place_at(key, at);
                if !krate.is_asked {
                    report.elsewhere.push(format!("{}:{}: {message}", place.file, place.line));
                    continue;
                }
                report.diagnostics.push(Diagnostic {
                    place,
                    kind: kind.to_owned(),
                    code: None,
                    message: message.clone(),
                    label: String::new(),
                    krate: krate.title.clone(),
                    notes: vec!["the file counts as one without items".to_owned()],
                    related: Vec::new(),
                });
            }
        }
        for number in (0..self.crates.all.len() as u32).filter(|it| self.crates.all[*it as usize].is_asked) {
            for it in self.endless(number) {
                report.diagnostics.push(Diagnostic {
                    place: place_at(&it.file, it.span),
                    kind: it.kind.to_owned(),
                    code: None,
                    message: it.message.clone(),
                    label: "it counts as one without items".to_owned(),
                    krate: self.crates.all[number as usize].title.clone(),
                    notes: Vec::new(),
                    related: Vec::new(),
                });
            }
        }
        let refused = self.refused().iter().filter(|it| it.0.is_empty());
        report.elsewhere.extend(refused.map(|it| it.1.clone()));
        report.elsewhere.sort();
        report.elsewhere.dedup();
    }
}

/// Where the path of a call stands among tokens, or in what other calls there are given.
fn span_of_call(tokens: &[Token], path: &str) -> Option<Span> {
    calls_among(tokens).into_iter().find_map(|(it, input)| match it.text == path {
        true => Some(it.span),
        false => span_of_call(input, path),
    })
}

fn expanded_note(located: &Located) -> Vec<String> {
    match located.is_expanded {
        true => vec!["in what this macro expands to".to_owned()],
        false => Vec::new(),
    }
}

impl Diagnostic {
    /// As rustc prints errors. `lines` are those of the file.
    pub fn text(&self, lines: &[&str], colored: bool) -> String {
        let (red, blue, bold, off) = match colored {
            true => ("\x1b[1;31m", "\x1b[1;34m", "\x1b[1m", "\x1b[0m"),
            false => ("", "", "", ""),
        };
        let code = self.code.map_or(String::new(), |it| format!("[{it}]"));
        let Place { file, line, column, end_line, end_column } = &self.place;
        let mut text = format!("{red}error{code}{off}{bold}: {}{off}\n", self.message);
        let number = line.to_string();
        let pad = " ".repeat(number.len());
        text.push_str(&format!("{pad}{blue}-->{off} {file}:{line}:{column}\n"));
        if let Some(source) = lines.get(*line as usize - 1).filter(|_| self.kind != "refused") {
            // Of a long line what stands around the place.
            let all: Vec<char> = source.trim_end().replace('\t', " ").chars().collect();
            let column = *column as usize - 1;
            let from = if all.len() > 200 { column.saturating_sub(60).min(all.len()) } else { 0 };
            let to = (from + 200).min(all.len());
            let (before, after) = (if from > 0 { "..." } else { "" }, if to < all.len() { "..." } else { "" });
            let source: String = all[from..to].iter().collect();
            let end = if end_line == line { *end_column as usize - 1 } else { all.len() };
            let width = end.min(to).saturating_sub(column).max(1);
            let carets = "^".repeat(width);
            let space = " ".repeat(before.len() + column.saturating_sub(from));
            let label = if self.label.is_empty() { String::new() } else { format!(" {}", self.label) };
            text.push_str(&format!("{pad} {blue}|{off}\n{blue}{number} |{off} {before}{source}{after}\n"));
            text.push_str(&format!("{pad} {blue}|{off} {space}{red}{carets}{label}{off}\n"));
        }
        for (what, Place { file, line, column, .. }) in self.related.iter().filter(|_| self.code == Some(PRIVATE)) {
            text.push_str(&format!("{pad} {blue}={off} {bold}note{off}: {what} is at {file}:{line}:{column}\n"));
        }
        for it in &self.notes {
            text.push_str(&format!("{pad} {blue}={off} {bold}note{off}: {it}\n"));
        }
        text
    }
}

/// The lines of files, read once.
#[derive(Default)]
pub struct Texts(HashMap<String, String>);

impl Texts {
    /// A diagnostic with the line of its file.
    pub fn show(&mut self, it: &Diagnostic, colored: bool) -> String {
        let text = self.0.entry(it.place.file.clone()).or_insert_with(|| {
            String::from_utf8_lossy(&bytes_of(Path::new(&it.place.file)).unwrap_or_default()).into_owned()
        });
        it.text(&text.lines().collect::<Vec<_>>(), colored)
    }
}
