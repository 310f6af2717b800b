//! What was told of a package, kept for as long as its files say the same.
//!
//! Where nothing was told but that all names are resolved, files say the same while their items do: an edit of a body, of
//! a comment or of the lines between items changes none. Else their texts have to be the same, since what is told has
//! lines and places of them.
//!
//! Where all names were resolved and the items of some files are others now, what was handed in is kept too: it is handed
//! in again with these files as they are, and where the program says the same to it, the same is told.

use std::collections::hash_map::DefaultHasher;
use std::collections::BTreeSet;
use std::hash::{Hash as _, Hasher as _};
use std::path::{Path, PathBuf};
use std::time::SystemTime;

use serde::{Deserialize, Serialize};

use super::{environment, settled, stamp, Keeper, Stamp};
use crate::package::{Crates, Wanted};
use crate::syntax::Unit;
use crate::token::Hash;
use crate::workspace::{bytes_of, key_of, parse_text, Key, Parsed, Recorded, Workspace};

/// A part of what is told.
#[derive(Clone, PartialEq, Eq, Serialize, Deserialize, Debug)]
pub enum Part {
    Text(String),
    /// How many nodes there are.
    Nodes,
    /// How long it took.
    Time,
}

/// What was told, and with which status.
#[derive(Clone, PartialEq, Eq, Serialize, Deserialize, Debug)]
pub struct Told {
    /// In their order.
    pub parts: Vec<Part>,
    /// How many nodes there were.
    pub nodes: usize,
    /// The status of the command.
    pub status: u8,
    /// Whether it may have lines and places of files.
    pub has_places: bool,
}

/// A file that was read.
#[derive(Serialize, Deserialize)]
struct Text {
    path: PathBuf,
    /// Where it is settled.
    stamp: Option<Stamp>,
    text: String,
    /// The hash of its items, where these alone count.
    items: Option<u64>,
}

#[derive(Serialize, Deserialize)]
struct KeptTold {
    asked: Vec<String>,
    stands_on: Vec<(PathBuf, Stamp)>,
    texts: Vec<Text>,
    told: Told,
    /// What was handed in, where that is kept beside.
    recorded: Option<Recorded>,
}

/// What a command tells of a package, and where that is kept.
pub struct ToldKeeper {
    keeper: Keeper,
    /// What is asked, whatever the package is.
    words: Vec<String>,
    /// The same with what the package is.
    asked: Vec<String>,
    /// The tools that it stands on, and what is given to them.
    files: Vec<PathBuf>,
    at: SystemTime,
}

// The parts of what was handed in, each in a file of its own.

const WHOLE: &str = "all of it";
const LOOKED_UP: &str = "what is looked up";

/// Of the items of a file, but not of where they stand.
fn hash_of(unit: &Unit) -> u64 {
    let mut hasher = DefaultHasher::new();
    unit.hash(&mut hasher);
    hasher.finish()
}

/// What became of a file.
enum Now {
    /// It says what it said.
    Same,
    /// Its items are others.
    Edited(Key, Parsed),
    /// It can't be read.
    Gone,
}

impl Text {
    fn now(&self) -> Now {
        if self.stamp.as_ref().is_some_and(|it| *it == stamp(&self.path).0) {
            return Now::Same;
        }
        let text = bytes_of(&self.path).ok().and_then(|it| String::from_utf8(it).ok());
        let (Some(text), Ok(key)) = (text, key_of(&self.path)) else {
            return Now::Gone;
        };
        if Hash::default().with(&text).text() == self.text {
            return Now::Same;
        }
        let parsed = parse_text(&self.path, &key, &text);
        match self.items {
            Some(items) if parsed.error.is_none() && hash_of(&parsed.unit) == items => Now::Same,
            _ => Now::Edited(key, parsed),
        }
    }
}

impl ToldKeeper {
    /// That of a package. `words` say in which form it is told, `files` are those that have a part in it besides its own.
    /// To be called before the files are read.
    pub fn of(wanted: &Wanted, crates: &Crates, mut words: Vec<String>, files: Vec<PathBuf>) -> ToldKeeper {
        let manifest = if wanted.path.is_dir() { wanted.path.join("Cargo.toml") } else { wanted.path.clone() };
        words.push(format!("{wanted:?}"));
        words.extend(files.iter().map(|it| it.display().to_string()));
        let asked = words.iter().cloned().chain(environment()).chain(crates.words()).collect();
        ToldKeeper { keeper: Keeper::of(&manifest), words, asked, files, at: SystemTime::now() }
    }

    /// What was told, if it still holds, by itself or by what the program says to what is handed in again.
    pub fn find(&self, crates: &Crates, program: &Path) -> Option<Told> {
        let kept: KeptTold = self.keeper.read(&self.words)?;
        if kept.asked != self.asked || !kept.stands_on.iter().all(|(path, it)| stamp(path).0 == *it) {
            return None;
        }
        if kept.texts.iter().all(|it| matches!(it.now(), Now::Same)) {
            return Some(kept.told);
        }
        self.again(crates, program)
    }

    /// The words by which a part of what was handed in is kept.
    fn words_of_record(&self, part: &str) -> Vec<String> {
        self.words.iter().cloned().chain([format!("handed in: {part}")]).collect()
    }

    /// The same by what the program says to what is handed in again.
    fn again(&self, crates: &Crates, program: &Path) -> Option<Told> {
        let text = self.keeper.read_text(&self.words_of_record(LOOKED_UP))?;
        let (first, lines) = text.split_once('\n')?;
        let mut kept: KeptTold = serde_json::from_str(first).ok()?;
        if kept.asked != self.asked || !kept.stands_on.iter().all(|(path, it)| stamp(path).0 == *it) {
            return None;
        }
        let recorded = kept.recorded.take()?;
        let mut edited = Vec::new();
        for it in &mut kept.texts {
            match it.now() {
                Now::Same => {}
                Now::Edited(key, parsed) => {
                    let unit = Some(&*parsed.unit).filter(|_| it.items.is_some());
                    *it = self.text(&parsed.path, parsed.text, unit);
                    edited.push((key, parsed));
                }
                Now::Gone => return None,
            }
        }
        let whole = || self.keeper.read_text(&self.words_of_record(WHOLE));
        kept.told.nodes = recorded.nodes_after(lines, &whole, crates, &edited, program)?;
        self.keeper.write(&self.words, &kept);
        Some(kept.told)
    }

    fn text(&self, path: &Path, text: Hash, unit: Option<&Unit>) -> Text {
        let (stamp, items) = (settled(path, self.at), unit.map(hash_of));
        Text { path: path.to_owned(), stamp, text: text.text(), items }
    }

    /// Keeps what is told.
    pub fn keep(&self, space: &mut Workspace, told: &Told) {
        let own = std::env::current_exe().ok();
        let files: BTreeSet<PathBuf> =
            own.into_iter().chain(self.files.iter().cloned()).chain(space.looked_for()).collect();
        let stamps = files.into_iter().map(|it| Some((settled(&it, self.at)?, it)));
        let Some(stands_on) = stamps.map(|it| it.map(|(stamp, path)| (path, stamp))).collect() else {
            return;
        };
        let counts = |_: &&Unit| !told.has_places;
        let read = space.read_texts().map(|(path, hash, unit)| self.text(path, hash, unit.filter(counts)));
        let mut texts: Vec<Text> = read.collect();
        texts.sort_by(|one, two| one.path.cmp(&two.path));
        let (asked, told) = (self.asked.clone(), told.clone());
        let mut kept = KeptTold { asked, stands_on, texts, told, recorded: None };
        self.keeper.write(&self.words, &kept);
        if kept.told.has_places {
            return;
        }
        if let Ok(Some((recorded, lines))) = space.record() {
            kept.recorded = Some(recorded);
            let first = serde_json::to_string(&kept).unwrap_or_default();
            self.keeper.write_text(&self.words_of_record(WHOLE), &lines.whole);
            self.keeper.write_text(&self.words_of_record(LOOKED_UP), &format!("{first}\n{}", lines.looked_up));
        }
    }
}
