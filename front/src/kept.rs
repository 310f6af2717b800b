//! What Cargo and rustc answered, kept beside what Cargo builds for as long as nothing changes on which it stands.
//!
//! Of a file that is its length and when it was written, of a folder the names in it. What was written shortly before it
//! was asked for may be written again without another time, so then no answer is kept. [`told`] keeps what was told of a
//! package.

pub mod told;

use std::collections::hash_map::DefaultHasher;
use std::collections::BTreeSet;
use std::ffi::OsStr;
use std::hash::{Hash, Hasher};
use std::path::{Path, PathBuf};
use std::time::{Duration, SystemTime};

use serde::de::DeserializeOwned;
use serde::{Deserialize, Serialize};

/// What a path was when an answer was kept.
#[derive(PartialEq, Eq, Serialize, Deserialize, Debug)]
enum Stamp {
    Missing,
    File(u64, Duration),
    /// The hash of the names in it.
    Folder(u64),
}

#[derive(Serialize, Deserialize)]
struct Kept {
    asked: Vec<String>,
    stands_on: Vec<(PathBuf, Stamp)>,
    answer: String,
}

/// Where the answers for a package are kept, if Cargo has built something.
pub(crate) struct Keeper {
    folder: Option<PathBuf>,
}

/// What is written later than so long before the question isn't settled.
const UNSETTLED: Duration = Duration::from_secs(1);

impl Keeper {
    /// That of a package by its manifest.
    pub fn of(manifest: &Path) -> Keeper {
        let manifest = manifest.canonicalize().unwrap_or_default();
        let named = std::env::var_os("CARGO_TARGET_DIR").map(PathBuf::from);
        let mut folders = named.into_iter().chain(manifest.ancestors().skip(1).map(|it| it.join("target")));
        // Cargo writes this file into a folder of its own.
        let found = folders.find(|it| it.join("CACHEDIR.TAG").is_file());
        Keeper { folder: found.map(|it| it.join("nogsimat")) }
    }

    /// The answer to what is asked, if it still holds.
    pub fn find(&self, asked: &[String]) -> Option<String> {
        let kept: Kept = self.read(asked)?;
        let holds = kept.asked == asked && kept.stands_on.iter().all(|(path, it)| stamp(path).0 == *it);
        holds.then_some(kept.answer)
    }

    /// Keeps the answer to what was asked at a time. Where that fails it is asked for again.
    pub fn keep(&self, asked: &[String], at: SystemTime, stands_on: BTreeSet<PathBuf>, answer: &str) {
        let stamps = stands_on.into_iter().map(|it| Some((settled(&it, at)?, it)));
        let Some(stands_on) = stamps.map(|it| it.map(|(stamp, path)| (path, stamp))).collect() else {
            return;
        };
        self.write(asked, &Kept { asked: asked.to_vec(), stands_on, answer: answer.to_owned() });
    }

    /// What was written by these words.
    fn read<T: DeserializeOwned>(&self, words: &[String]) -> Option<T> {
        serde_json::from_str(&self.read_text(words)?).ok()
    }

    fn read_text(&self, words: &[String]) -> Option<String> {
        std::fs::read_to_string(self.path(words)?).ok()
    }

    fn write(&self, words: &[String], kept: &impl Serialize) {
        if let Ok(text) = serde_json::to_string(kept) {
            self.write_text(words, &text);
        }
    }

    fn write_text(&self, words: &[String], text: &str) {
        let path = self.path(words);
        let Some((path, folder)) = path.as_ref().and_then(|it| Some((it, it.parent()?))) else {
            return;
        };
        // Others may read it meanwhile.
        let new = path.with_extension(std::process::id().to_string());
        let _ = std::fs::create_dir_all(folder)
            .and_then(|()| std::fs::write(&new, text))
            .and_then(|()| std::fs::rename(&new, path));
    }

    fn path(&self, asked: &[String]) -> Option<PathBuf> {
        let mut hasher = DefaultHasher::new();
        asked.hash(&mut hasher);
        Some(self.folder.as_ref()?.join(format!("{:016x}.json", hasher.finish())))
    }
}

/// What a path is, unless it was written so late that it may be written again without another time.
fn settled(path: &Path, at: SystemTime) -> Option<Stamp> {
    let (stamp, written) = stamp(path);
    Some(stamp).filter(|_| written.map_or(true, |it| it + UNSETTLED < at))
}

/// What a path is, and when it was written.
fn stamp(path: &Path) -> (Stamp, Option<SystemTime>) {
    let Ok(data) = std::fs::metadata(path) else {
        return (Stamp::Missing, None);
    };
    let written = data.modified().ok();
    if !data.is_dir() {
        let since = written.and_then(|it| it.duration_since(SystemTime::UNIX_EPOCH).ok());
        return (Stamp::File(data.len(), since.unwrap_or_default()), written);
    }
    let entries = std::fs::read_dir(path).into_iter().flatten().flatten();
    // Editors keep files of their own beside those that they write.
    let is_hidden = |it: &str| it.starts_with('.') || it.ends_with('~');
    let names = entries.map(|it| it.file_name().to_string_lossy().into_owned()).filter(|it| !is_hidden(it));
    let mut hasher = DefaultHasher::new();
    names.collect::<BTreeSet<_>>().hash(&mut hasher);
    (Stamp::Folder(hasher.finish()), None)
}

/// What the answers of tools stand on besides files.
pub(crate) fn environment() -> Vec<String> {
    let here = std::env::current_dir().unwrap_or_default();
    let mut made = vec![here.to_string_lossy().into_owned()];
    let is_read = |it: &str| it.starts_with("CARGO") || it.starts_with("RUST") || it == "PATH" || it == "HOME";
    let all = std::env::vars_os().map(|(name, value)| [name, value].map(|it| it.to_string_lossy().into_owned()));
    let mut read: Vec<String> = all.filter(|it| is_read(&it[0])).map(|it| it.join("=")).collect();
    read.sort();
    made.extend(read);
    made
}

/// The files that say which tool a name or a path means, where rustup may choose it.
pub(crate) fn files_of_tool(tool: &OsStr) -> BTreeSet<PathBuf> {
    let mut made = BTreeSet::new();
    let path = std::env::var_os("PATH").unwrap_or_default();
    let folders = match Path::new(tool).components().count() {
        1 => std::env::split_paths(&path).collect(),
        _ => vec![PathBuf::new()],
    };
    for it in folders {
        let file = it.join(tool);
        let is_there = file.exists();
        made.insert(file);
        if is_there {
            break;
        }
    }
    made.extend(home("RUSTUP_HOME", ".rustup").map(|it| it.join("settings.toml")));
    for it in std::env::current_dir().unwrap_or_default().ancestors() {
        made.extend(["rust-toolchain", "rust-toolchain.toml"].map(|name| it.join(name)));
    }
    made
}

/// The files in which Cargo is configured.
pub(crate) fn configurations() -> BTreeSet<PathBuf> {
    let here = std::env::current_dir().unwrap_or_default();
    let folders = here.ancestors().map(|it| it.join(".cargo")).chain(home("CARGO_HOME", ".cargo"));
    folders.flat_map(|it| ["config", "config.toml"].map(|name| it.join(name))).collect()
}

fn home(variable: &str, name: &str) -> Option<PathBuf> {
    let named = std::env::var_os(variable).map(PathBuf::from);
    named.or_else(|| std::env::var_os("HOME").map(|it| Path::new(&it).join(name)))
}
