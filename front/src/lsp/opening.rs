//! Opening the package of the folder, on a thread beside the messages.

use std::io::Write;
use std::panic::{catch_unwind, AssertUnwindSafe};
use std::path::{Path, PathBuf};
use std::time::Instant;

use super::message::{self, notification};
use anyhow::{anyhow, Context as _, Result};
use serde_json::{json, Value};

use super::uri::path_of_uri;
use super::{Event, Opened, Server, ERROR, INFO};
use crate::package::{Crates, Wanted};
use crate::program;
use crate::workspace::Workspace;

/// What goes on while a package is opened, in words.
pub(super) fn progress_text(what: &str, done: usize, of: usize) -> String {
    match what {
        "reading" => format!("reading, {done} files"),
        "resolving" => format!("resolving, round {done}"),
        _ => format!("{what} {done} of {of}"),
    }
}

impl<W: Write> Server<W> {
    /// The folder of the package: that of the editor, or the nearest above it with a `Cargo.toml`.
    pub(super) fn package(&self) -> Option<PathBuf> {
        let found = self.folder.as_ref()?.1.ancestors().find(|it| it.join("Cargo.toml").is_file());
        found.map(Path::to_owned)
    }

    /// Takes the package of a file, where the editor's folder has none.
    pub(super) fn open_beside(&mut self, uri: &str) -> Result<()> {
        let file = path_of_uri(uri).and_then(|it| it.canonicalize().ok());
        let found = file.as_ref().and_then(|it| it.ancestors().skip(1).find(|it| it.join("Cargo.toml").is_file()));
        let Some(found) = found.map(Path::to_owned) else {
            return Ok(());
        };
        self.folder = Some((found.clone(), found));
        self.open()
    }

    /// Reads the package, with the texts of the editor in place of those of its files.
    pub(super) fn open(&mut self) -> Result<()> {
        self.space = None;
        self.texts.clear();
        self.errors.clear();
        self.needs_report = true;
        let given = self.settings.wanted.path.as_path();
        let path = if given == Path::new(".") { self.package() } else { Some(given.to_owned()) };
        let Some(path) = path else {
            return Ok(());
        };
        let start = Instant::now();
        self.openings += 1;
        let number = self.openings;
        let (send, settings) = (self.send.clone(), self.settings.clone());
        std::thread::spawn(move || {
            let told = send.clone();
            let progress = move |what: &str, done: usize, of: usize| {
                let _ = told.send(Event::Progress(number, progress_text(what, done, of)));
            };
            let work = || -> Result<Opened> {
                let program = program::find(settings.program.as_deref())?;
                let crates = Crates::read(&Wanted { path, ..settings.wanted.clone() })?;
                let space = Workspace::open(crates, &program, settings.expansions.as_deref(), progress)?;
                Ok((program, space))
            };
            let opened = catch_unwind(AssertUnwindSafe(work));
            let opened =
                opened.unwrap_or_else(|_| Err(anyhow!("something went wrong (see the server's standard error)")));
            let _ = send.send(Event::Opened(number, Box::new(opened)));
        });
        match self.wait_for(number)? {
            Ok((program, space)) => {
                let counts = space.counts();
                let text = format!(
                    "Nogsimat: {} crates, {} files, {} nodes read in {} ms; {}",
                    counts.crates,
                    counts.files,
                    counts.nodes,
                    start.elapsed().as_millis(),
                    space.crates.std
                );
                (self.program, self.space) = (program, Some(space));
                for it in self.documents.values_mut() {
                    (it.is_dirty, it.waits, it.good) = (true, None, None);
                }
                self.log(INFO, &text)
            }
            Err(error) => self.show(ERROR, &format!("Nogsimat: {error:#}. A save tries again")),
        }
    }

    /// Waits until the package is opened, and shows the editor how that goes. Messages that come meanwhile are kept;
    /// cancelled requests are answered at once.
    pub(super) fn wait_for(&mut self, number: u32) -> Result<Result<Opened>> {
        let token = format!("nogsimat/open/{number}");
        let mut is_shown = false;
        if self.shows_progress {
            self.send(&json!({
                "jsonrpc": "2.0", "id": token, "method": "window/workDoneProgress/create", "params": {"token": token},
            }))?;
        }
        loop {
            match self.events.recv().context("the server holds a sender itself")? {
                Event::Read(message::Read::Message(it)) if it["method"].is_null() && it["id"] == token => {
                    // Where the editor refuses, nothing may be shown by this token.
                    is_shown = self.shows_progress && it.get("result").is_some();
                    if is_shown {
                        let value = json!({"kind": "begin", "title": "Nogsimat", "message": "reading the package"});
                        self.progress(&token, value)?;
                    }
                }
                Event::Read(it) => {
                    self.queue.push_back(it);
                    self.cancel()?;
                }
                Event::Progress(of, text) if is_shown && of == number => {
                    self.progress(&token, json!({"kind": "report", "message": text}))?;
                }
                Event::Opened(of, it) if of == number => {
                    if is_shown {
                        self.progress(&token, json!({"kind": "end"}))?;
                    }
                    return Ok(*it);
                }
                Event::Progress(..) | Event::Opened(..) => {}
            }
        }
    }

    pub(super) fn progress(&mut self, token: &str, value: Value) -> Result<()> {
        self.send(&notification("$/progress", json!({"token": token, "value": value})))
    }
}
