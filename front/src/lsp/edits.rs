//! Texts of the editor: handed to the session, and what is told of them.

use std::collections::{BTreeMap, HashSet};
use std::io::Write;
use std::path::PathBuf;
use std::sync::Arc;

use super::message::notification;
use super::text::Text;
use anyhow::Result;
use serde_json::{json, Value};

use super::{key_of_place, span_of, Document, Phase, Server, Waiting, ERROR};
use crate::report::Diagnostic;
use crate::unit::Built;
use crate::workspace::{bytes_of, parse_text, path_of_key, Key, KnownBy, Parsed};

/// What became of a text.
pub(super) enum Reading {
    /// The items of its file are those of this text.
    Taken,
    /// It doesn't parse.
    Broken,
    /// What stands in it isn't handed in yet: what is told is known.
    Waits(Waiting),
}

/// The text of a file, and what stands in it.
pub(super) type Typed = (Key, Arc<Text>, Parsed);

impl<W: Write> Server<W> {
    /// Whether the file has the items of a module.
    pub(super) fn is_module(&self, key: &Key) -> bool {
        self.space.as_ref().is_some_and(|it| !it.crates_of(key).is_empty())
    }

    /// Reads files that aren't open in the editor.
    pub(super) fn read_files(&mut self, keys: &[Key]) -> Result<()> {
        let (mut texts, mut others) = (Vec::new(), Vec::new());
        for key in keys {
            let text = bytes_of(&path_of_key(key)).ok().and_then(|it| String::from_utf8(it).ok());
            match text {
                Some(text) if self.is_module(key) => {
                    let parsed = parse_text(&path_of_key(key), key, &text);
                    texts.push((key.clone(), Arc::new(Text::new(text)), parsed));
                }
                // Not there any more, no UTF-8, new, or included by another.
                _ => others.push(key.clone()),
            }
        }
        for (key, text, reading) in self.read_texts(texts, false)? {
            if matches!(reading, Reading::Taken) {
                self.texts.insert(key, text);
            }
        }
        self.update_files(&others)
    }

    /// Has files read as they are on the disk.
    pub(super) fn update_files(&mut self, keys: &[Key]) -> Result<()> {
        if keys.is_empty() {
            return Ok(());
        }
        for key in keys {
            self.texts.remove(key);
            self.needs_report |= self.errors.remove(key).is_some() || self.touched.contains(key);
        }
        let paths: Vec<PathBuf> = keys.iter().map(|it| path_of_key(it)).collect();
        let resolved = self.with_space(|it| it.update(&paths))?;
        self.needs_report |= resolved.is_some_and(|it| !it.is_empty());
        Ok(())
    }

    /// Hands texts in, where they don't wait, and then also those that do.
    pub(super) fn read_texts(&mut self, texts: Vec<Typed>, may_wait: bool) -> Result<Vec<(Key, Arc<Text>, Reading)>> {
        let (mut readings, mut work) = (Vec::new(), Vec::new());
        for (key, text, parsed) in texts {
            let Some(space) = self.space.as_mut() else {
                readings.push((key, text, Reading::Taken));
                continue;
            };
            let has_items = space.built(&key).is_some() && space.parsed(&key).is_some_and(|it| it.error.is_none());
            if let (Some(error), true) = (&parsed.error, has_items) {
                self.errors.insert(key.clone(), error.clone());
                self.needs_report = true;
                readings.push((key, text, Reading::Broken));
                continue;
            }
            // A text that waits may not be the present one, which doesn't parse then.
            let document = self.documents.get(&key);
            let is_present = document.map_or(true, |it| Arc::ptr_eq(&it.text, &text));
            // Where the items stand that are told of has to be known.
            let is_known = document.is_some_and(|it| it.good.is_some());
            let is_mended = is_present && self.errors.remove(&key).is_some();
            // What was told ahead was so of another text.
            self.needs_report |= is_mended || self.touched.contains(&key) || self.has_told_ahead;
            if space.take_unchanged(&key, &parsed) {
                readings.push((key, text, Reading::Taken));
                continue;
            }
            let known_by = match is_known {
                true => self.with_space(|it| it.knows_report(&key, &parsed, may_wait))?.flatten(),
                false => None,
            };
            let may_wait = |it: &KnownBy| may_wait && self.may_wait_beside_others(&key, *it, &readings);
            let reading = match known_by.filter(may_wait) {
                Some(known_by) => {
                    self.needs_report |= known_by == KnownBy::Imports;
                    Reading::Waits(Waiting { text: text.clone(), parsed, known_by })
                }
                None => {
                    work.push((key.clone(), parsed));
                    Reading::Taken
                }
            };
            readings.push((key, text, reading));
        }
        if !work.is_empty() {
            self.end_waiting(&mut readings, &mut work);
            self.hand_in(work)?;
        }
        Ok(readings)
    }

    /// Whether a text may wait beside those that do. What is known by what the program has is known of one text alone.
    fn may_wait_beside_others(&self, key: &Key, known_by: KnownBy, readings: &[(Key, Arc<Text>, Reading)]) -> bool {
        let before = self.documents.iter().filter(|it| it.0 != key).filter_map(|it| it.1.waits.as_ref());
        let now = readings.iter().filter_map(|it| match &it.2 {
            Reading::Waits(it) => Some(it),
            _ => None,
        });
        before.chain(now).all(|it| it.known_by == KnownBy::Names && known_by == KnownBy::Names)
    }

    /// Takes all texts that wait among those that are handed in, which may name what stands in them.
    fn end_waiting(&mut self, readings: &mut [(Key, Arc<Text>, Reading)], work: &mut Vec<(Key, Parsed)>) {
        for (key, _, reading) in readings.iter_mut() {
            match std::mem::replace(reading, Reading::Taken) {
                Reading::Waits(it) => work.push((key.clone(), it.parsed)),
                it => *reading = it,
            }
        }
        let is_taken = |key: &Key| readings.iter().any(|it| it.0 == *key && matches!(it.2, Reading::Taken));
        for (key, document) in self.documents.iter_mut().filter(|it| !is_taken(it.0)) {
            if let Some(it) = document.waits.take() {
                document.good = Some(it.text);
                work.push((key.clone(), it.parsed));
            }
        }
    }

    /// Hands in what stands in files.
    fn hand_in(&mut self, work: Vec<(Key, Parsed)>) -> Result<()> {
        let built = |it: &Self, key: &Key| it.space.as_ref().and_then(|it| it.built(key).cloned());
        let before: Vec<(Key, Option<Arc<Built>>)> =
            work.iter().map(|(key, _)| (key.clone(), built(self, key))).collect();
        let work = std::cell::RefCell::new(work);
        // After a new start the texts are in it already.
        let resolved = self.with_space(|it| it.update_parsed(work.take()))?;
        self.needs_report |= resolved.is_some_and(|it| !it.is_empty());
        for (key, before) in before {
            self.needs_report |= match (before, built(self, &key)) {
                (Some(before), Some(after)) => before.json != after.json,
                (before, after) => before.is_some() || after.is_some(),
            };
        }
        Ok(())
    }

    /// Hands in what was typed, and publishes what that changes. What changes nothing of it may wait.
    pub(super) fn flush(&mut self, may_wait: bool) -> Result<()> {
        self.read_typed(may_wait)?;
        self.publish_report()
    }

    /// Hands in what was typed, but for what may wait.
    pub(super) fn read_typed(&mut self, may_wait: bool) -> Result<()> {
        let mut texts: Vec<Typed> = Vec::new();
        for (key, it) in &mut self.documents {
            let parse = || parse_text(&path_of_key(key), key, it.text.as_str());
            let typed = it.is_dirty.then(|| it.typed.take().unwrap_or_else(parse));
            let is_past = typed.as_ref().is_some_and(|it| it.error.is_none());
            let waiting = if may_wait { None } else { it.waits.take() };
            texts.extend(waiting.filter(|_| !is_past).map(|it| (key.clone(), it.text, it.parsed)));
            texts.extend(typed.map(|parsed| (key.clone(), it.text.clone(), parsed)));
            it.is_dirty = false;
        }
        texts.sort_by(|one, two| one.0.cmp(&two.0));
        for (key, text, reading) in self.read_texts(texts, may_wait)? {
            let Some(document) = self.documents.get_mut(&key) else {
                continue;
            };
            match reading {
                Reading::Taken => (document.good, document.waits) = (Some(text), None),
                Reading::Waits(it) => document.waits = Some(it),
                Reading::Broken => {}
            }
        }
        Ok(())
    }

    /// Publishes what is told, where a report is due.
    pub(super) fn publish_report(&mut self) -> Result<()> {
        self.has_answered = false;
        if !std::mem::take(&mut self.needs_report) || self.phase != Phase::Serving {
            return Ok(());
        }
        let is_ahead = |it: &Document| it.waits.as_ref().is_some_and(|it| it.known_by == KnownBy::Imports);
        let ahead = self.documents.iter().find(|it| is_ahead(it.1)).map(|it| it.0.clone());
        let report = self.with_space(|it| match &ahead {
            Some(key) => it.report_ahead(key),
            None => it.report(),
        })?;
        self.has_told_ahead = ahead.is_some();
        // A new start of the program asks for a report, which this one is.
        self.needs_report = false;
        self.publish(report.map(|it| it.diagnostics).unwrap_or_default())
    }

    pub(super) fn publish(&mut self, diagnostics: Vec<Diagnostic>) -> Result<()> {
        let mut now: BTreeMap<Key, Vec<Value>> = BTreeMap::new();
        let mut listed = HashSet::new();
        self.touched.clear();
        for it in diagnostics {
            let Some(key) = key_of_place(&it.place) else {
                continue;
            };
            let made = self.listed(&key, &it);
            // A file of two crates has what is wrong in it once.
            if listed.insert(format!("{key} {made}")) {
                now.entry(key).or_default().push(made);
            }
        }
        for (key, error) in self.errors.clone() {
            let is_used = self.space.as_ref().is_some_and(|it| !it.crates_of(&key).is_empty());
            if !is_used {
                continue;
            }
            // The place is one of the text as it is now.
            let range = match self.documents.get(&key) {
                Some(it) => it.text.range(error.at),
                None => {
                    let read = bytes_of(&path_of_key(&key)).unwrap_or_default();
                    Text::new(String::from_utf8_lossy(&read).into_owned()).range(error.at)
                }
            };
            now.entry(key).or_default().push(json!({
                "range": range,
                "severity": ERROR,
                "source": "nogsimat",
                "message": format!("{}\nuntil it is mended the file counts as it was before", error.message),
            }));
        }
        self.touched.extend(now.keys().cloned());
        let mut keys: Vec<Key> = self.published.keys().chain(now.keys()).cloned().collect();
        keys.sort();
        keys.dedup();
        for key in keys {
            let uri = self.uri(&key);
            let list = now.remove(&key).unwrap_or_default();
            let (old_uri, old) = self.published.remove(&key).unwrap_or_else(|| (uri.clone(), Vec::new()));
            if old_uri != uri {
                self.send_list(&old_uri, &[])?;
            }
            if old_uri != uri || old != list {
                self.send_list(&uri, &list)?;
            }
            if !list.is_empty() {
                self.published.insert(key, (uri, list));
            }
        }
        Ok(())
    }

    /// A diagnostic of a file as the editor takes it.
    fn listed(&mut self, key: &Key, it: &Diagnostic) -> Value {
        let mut related = Vec::new();
        for (text, place) in &it.related {
            if let Some(location) = self.location(place) {
                self.touched.extend(key_of_place(place));
                related.push(json!({"location": location, "message": text}));
            }
        }
        let mut text = it.message.clone();
        for part in std::iter::once(&it.label).chain(&it.notes).filter(|it| !it.is_empty()) {
            text.push('\n');
            text.push_str(part);
        }
        let mut made = json!({
            "range": self.range(key, span_of(&it.place)),
            "severity": ERROR,
            "source": "nogsimat",
            "message": text,
        });
        if let Some(code) = it.code {
            made["code"] = code.into();
        }
        if !related.is_empty() {
            made["relatedInformation"] = related.into();
        }
        made
    }

    pub(super) fn send_list(&mut self, uri: &str, list: &[Value]) -> Result<()> {
        let params = json!({"uri": uri, "diagnostics": list});
        self.send(&notification("textDocument/publishDiagnostics", params))
    }

    /// Whether what was published of a file went out under another name than the editor has for it now.
    pub(super) fn is_renamed(&self, key: &Key) -> bool {
        self.published.get(key).is_some_and(|it| it.0 != self.uri(key))
    }

    /// The text from which the items of a file were read, as far as it is known.
    pub(super) fn unit_text(&mut self, key: &Key) -> Arc<Text> {
        if let Some(it) = self.documents.get(key) {
            return it.good.as_ref().unwrap_or(&it.text).clone();
        }
        if let Some(it) = self.texts.get(key) {
            return it.clone();
        }
        let read = bytes_of(&path_of_key(key)).unwrap_or_default();
        let text = Arc::new(Text::new(String::from_utf8_lossy(&read).into_owned()));
        self.texts.insert(key.clone(), text.clone());
        text
    }
}
