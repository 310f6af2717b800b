//! Files: their keys, what stands in them, and in which files modules are looked for.

use std::collections::{HashMap, HashSet};
use std::path::{Component, Path, PathBuf};
use std::sync::Arc;

use anyhow::{bail, Result};

use super::walk::{is_exported, target_of};
use super::{Key, Parsed, Target, Workspace};
use crate::cfg::Options;
use crate::syntax::{unit_of, Block, Item, ItemKind};
use crate::token::{on_a_thread, spawn, tokens_of, Hash, Span, SyntaxError, MOST_BYTES};
use crate::unit::{is_enabled, text_attribute, Given};

/// The key of the file at a path.
pub fn key_of(path: &Path) -> Result<Key> {
    let mut parts: Vec<&str> = Vec::new();
    for it in path.components() {
        match it {
            Component::Normal(it) => match it.to_str() {
                Some(it) => parts.push(it),
                None => bail!("the path {} isn't UTF-8; rename it", path.display()),
            },
            Component::ParentDir => {
                parts.pop();
            }
            _ => {}
        }
    }
    Ok(parts.join("/").into())
}

/// The path that a key stands for.
pub fn path_of_key(key: &str) -> PathBuf {
    Path::new("/").join(key)
}

/// The bytes of a file. What is no file, as a pipe, or has more than [`MOST_BYTES`] is refused.
pub(crate) fn bytes_of(path: &Path) -> std::io::Result<Vec<u8>> {
    let about = std::fs::metadata(path)?;
    let refused = |text: String| std::io::Error::new(std::io::ErrorKind::InvalidData, text);
    if !about.is_file() {
        return Err(refused("it is no file".to_owned()));
    }
    if about.len() > MOST_BYTES as u64 {
        return Err(refused(format!("it has more than {} MB; split it", MOST_BYTES >> 20)));
    }
    std::fs::read(path)
}

pub(super) fn parse(path: &Path, key: &Key) -> Parsed {
    let bytes = match bytes_of(path) {
        Ok(it) => it,
        Err(error) => {
            let message = format!("this file can't be read: {error}");
            return broken(path, SyntaxError { at: Span::default(), message }, Hash::default());
        }
    };
    let text = match String::from_utf8(bytes) {
        Ok(it) => it,
        Err(error) => {
            let good = error.utf8_error().valid_up_to();
            let line = error.as_bytes()[..good].iter().filter(|it| **it == b'\n').count() as u32 + 1;
            let start = crate::token::Position { line, column: 1 };
            let at = Span { start, end: start };
            let message = "this file isn't UTF-8 from this line on; save it as UTF-8".to_owned();
            return broken(path, SyntaxError { at, message }, Hash::default());
        }
    };
    parse_text(path, key, &text)
}

pub(super) fn broken(path: &Path, error: SyntaxError, text: Hash) -> Parsed {
    let (path, real, given) = (path.to_owned(), real_path(path), Given::default());
    let unit = Arc::default();
    Parsed { path, real, unit, error: Some(error), text, given, is_plain: true, has_calls: false }
}

/// The path without links, by which one knows a file that is reached by several.
fn real_path(path: &Path) -> Arc<Path> {
    path.canonicalize().unwrap_or_else(|_| path.to_owned()).into()
}

/// What stands in the text of a file.
pub fn parse_text(path: &Path, key: &Key, text: &str) -> Parsed {
    let hash = Hash::default().with(text);
    let made = on_a_thread(|| tokens_of(text).and_then(|it| unit_of(&it, Hash::default().with(key))));
    match made {
        Ok(unit) => {
            let (given, is_plain) = (Given::by(&unit.items), unit.items.iter().all(is_plain));
            let (path, real, has_calls) = (path.to_owned(), real_path(path), hold_calls(&unit.items));
            Parsed { path, real, unit: Arc::new(unit), error: None, text: hash, given, is_plain, has_calls }
        }
        Err(error) => broken(path, error, hash),
    }
}

/// Whether an item holds no other modules, macros, calls or blocks that a walk goes through.
fn is_plain(item: &Item) -> bool {
    let inner = match &item.kind {
        ItemKind::Macro(_) | ItemKind::Module(_) | ItemKind::Call(_) | ItemKind::ExternBlock(_) => return false,
        ItemKind::Trait(inner) | ItemKind::Impl { items: inner, .. } => &inner[..],
        _ => &[],
    };
    item.blocks.is_empty() && inner.iter().all(|it| it.blocks.is_empty())
}

/// Whether macro calls are among these items, or in them.
fn hold_calls(items: &[Item]) -> bool {
    fn in_blocks(blocks: &[Arc<Block>]) -> bool {
        blocks.iter().any(|it| hold_calls(&it.items) || in_blocks(&it.blocks))
    }
    items.iter().any(|item| {
        let is_one = matches!(item.kind, ItemKind::Call(_));
        is_one || in_blocks(&item.blocks) || hold_calls(item.inner())
    })
}

/// Does the work for each on as many threads as there are cores, at most four.
pub(super) fn on_threads<T: Send + Sync, R: Send>(all: &[T], work: impl Fn(&T) -> R + Sync) -> Vec<R> {
    let threads = std::thread::available_parallelism().map_or(1, |it| it.get()).min(4).min(all.len());
    let next = std::sync::atomic::AtomicUsize::new(0);
    let mut made: Vec<(usize, R)> = std::thread::scope(|scope| {
        let run = || {
            let mut mine = Vec::new();
            loop {
                let at = next.fetch_add(1, std::sync::atomic::Ordering::Relaxed);
                match all.get(at) {
                    Some(it) => mine.push((at, work(it))),
                    None => return mine,
                }
            }
        };
        let running: Vec<_> = (0..threads).map(|_| spawn(scope, run)).collect();
        let join = |it: std::thread::ScopedJoinHandle<Vec<(usize, R)>>| match it.join() {
            Ok(it) => it,
            Err(panic) => std::panic::resume_unwind(panic),
        };
        running.into_iter().flat_map(join).collect()
    });
    made.sort_by_key(|it| it.0);
    made.into_iter().map(|it| it.1).collect()
}

/// Where the items of a module are looked for.
#[derive(Clone)]
pub(super) struct Folder {
    pub(super) of_file: PathBuf,
    of_module: PathBuf,
    is_inline: bool,
}

impl Folder {
    pub(super) fn of(path: &Path, owns_folder: bool) -> Folder {
        let of_file = path.parent().unwrap_or(Path::new("/")).to_owned();
        let stem = path.file_stem().unwrap_or_default();
        let of_module = if owns_folder || stem == "mod" { of_file.clone() } else { of_file.join(stem) };
        Folder { of_file, of_module, is_inline: false }
    }

    /// From where a `path` attribute counts.
    pub(super) fn base(&self) -> &Path {
        if self.is_inline {
            &self.of_module
        } else {
            &self.of_file
        }
    }

    /// The folder of an inline module.
    pub(super) fn inline(&self, name: &str, path: Option<&str>) -> Folder {
        let of_module = match path {
            Some(it) => self.base().join(it),
            None => self.of_module.join(name),
        };
        Folder { of_file: self.of_file.clone(), of_module, is_inline: true }
    }

    /// The files in which a module's items may stand, and whether each owns the folder that it lies in.
    pub(super) fn candidates(&self, name: &str, path: Option<&str>) -> Vec<(PathBuf, bool)> {
        match path {
            Some(it) => vec![(self.base().join(it), true)],
            None => vec![
                (self.of_module.join(format!("{name}.rs")), false),
                (self.of_module.join(name).join("mod.rs"), true),
            ],
        }
    }
}

/// The files of the modules that these items declare.
pub(super) fn declared(items: &[Item], options: &Options, folder: &Folder, found: &mut Vec<(PathBuf, bool)>) {
    for item in items {
        let ItemKind::Module(inner) = &item.kind else {
            continue;
        };
        if !is_enabled(&item.attributes, options) {
            continue;
        }
        let path = text_attribute(&item.attributes, "path", options);
        match inner {
            Some(items) => declared(items, options, &folder.inline(item.name_text(), path.as_deref()), found),
            None => {
                let all = folder.candidates(item.name_text(), path.as_deref());
                found.extend(all.into_iter().find(|it| it.0.is_file()));
            }
        }
    }
}

/// Adds the macros that these items and those of their inline modules export.
fn add_exported(items: &[Item], options: &Options, krate: u32, made: &mut HashMap<Arc<str>, Target>) {
    for item in items.iter().filter(|it| is_enabled(&it.attributes, options)) {
        match &item.kind {
            ItemKind::Module(Some(items)) => add_exported(items, options, krate, made),
            ItemKind::Macro(definition) if definition.is_rules && is_exported(item, options) => {
                let target = target_of(krate, item.name_text(), Some(definition), item);
                made.insert(definition.name.clone(), target);
            }
            _ => {}
        }
    }
}

/// The files around a module's, without links.
struct Around {
    real: Arc<Path>,
    outer: Option<Arc<Around>>,
}

impl Around {
    fn holds(mut of: Option<&Around>, real: &Path) -> bool {
        while let Some(it) = of {
            if *it.real == *real {
                return true;
            }
            of = it.outer.as_deref();
        }
        false
    }
}

impl Workspace {
    /// Reads the files of all crates, level by level, as far as no macro brings more of them.
    pub(super) fn read_files(&mut self) -> Result<()> {
        let mut level: Vec<(u32, PathBuf, bool, Option<Arc<Around>>)> = Vec::new();
        for (number, krate) in self.crates.all.iter().enumerate() {
            if !krate.root.is_file() {
                bail!("{}, the root of {}, isn't there", krate.root.display(), krate.title);
            }
            level.push((number as u32, krate.root.clone(), true, None));
        }
        let mut seen: HashSet<(u32, Key)> = HashSet::new();
        let mut done = 0;
        while !level.is_empty() {
            let mut work = Vec::new();
            let mut entries = Vec::new();
            for (krate, path, owns_folder, around) in level.drain(..) {
                let key = key_of(&path)?;
                if seen.insert((krate, key.clone())) {
                    if !self.parsed.contains_key(&key) && !work.iter().any(|it: &(Key, PathBuf)| it.0 == key) {
                        work.push((key.clone(), path.clone()));
                    }
                    entries.push((krate, key, Folder::of(&path, owns_folder), around));
                }
            }
            let parsed = on_threads(&work, |(key, path)| parse(path, key));
            for ((key, _), it) in work.into_iter().zip(parsed) {
                self.parsed.insert(key, Arc::new(it));
            }
            done += entries.len();
            (self.progress)("reading", done, done);
            for (krate, key, folder, around) in entries {
                let options = &self.crates.all[krate as usize].options;
                let parsed = &self.parsed[&key];
                // One that leads back to a file around it is told when the crate is walked.
                let is_circular = Around::holds(around.as_deref(), &parsed.real);
                if is_enabled(&parsed.unit.attributes, options) && !is_circular {
                    let mut found = Vec::new();
                    declared(&parsed.unit.items, options, &folder, &mut found);
                    if !parsed.is_plain {
                        let state = &mut self.states[krate as usize];
                        add_exported(&parsed.unit.items, options, krate, &mut state.exported);
                    }
                    let around = Some(Arc::new(Around { real: parsed.real.clone(), outer: around }));
                    level.extend(found.into_iter().map(|(path, owns)| (krate, path, owns, around.clone())));
                }
            }
        }
        Ok(())
    }
}
