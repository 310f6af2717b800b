//! A language server over the package of the folder that an editor opens.
//!
//! Edits go to the resolver's program as they are typed; a text that doesn't parse leaves the items of its file as they
//! were. [`text`] counts as editors do, [`message`] frames messages.

mod actions;
mod answers;
mod completion;
mod declaration;
mod edits;
mod found_symbols;
mod imports;
pub mod message;
mod opening;
pub mod symbols;
pub mod text;
mod uri;

use std::collections::{BTreeMap, HashMap, HashSet, VecDeque};
use std::io::{BufReader, Read, Write};
use std::panic::{catch_unwind, AssertUnwindSafe};
use std::path::{Path, PathBuf};
use std::sync::mpsc::{channel, Receiver, RecvTimeoutError, Sender};
use std::sync::Arc;
use std::time::{Duration, Instant};

use anyhow::{Context as _, Result};
use serde_json::{json, Value};

use crate::package::Wanted;
use crate::report::Place;
use crate::token::{Position, Span, SyntaxError};
use crate::workspace::{key_of, path_of_key, Key, KnownBy, Parsed, Workspace};
use message::{error, notification, reply};
use text::Text;
use uri::{key_of_path, key_of_uri, path_of_uri, uri_of_path};

/// What the server is started with.
#[derive(Clone, Debug, Default)]
pub struct Settings {
    /// What is wanted of the package; its path is that of the editor's folder where it is `.`.
    pub wanted: Wanted,
    /// The resolver's program, where it is named.
    pub program: Option<PathBuf>,
    /// A file with what calls of procedural macros expand to.
    pub expansions: Option<PathBuf>,
}

/// What the server waits for.
enum Event {
    Read(message::Read),
    /// What goes on while a package is opened, by the number of the opening.
    Progress(u32, String),
    Opened(u32, Box<Result<Opened>>),
}

/// The resolver's program, and the session with it.
type Opened = (PathBuf, Workspace);

/// Serves until the editor ends it or the input ends. Answers whether the editor had asked to shut down.
pub fn serve(settings: Settings, input: impl Read + Send + 'static, output: impl Write) -> Result<bool> {
    let (send, events) = channel();
    let reads = send.clone();
    std::thread::spawn(move || {
        let mut input = BufReader::new(input);
        loop {
            let read = message::read(&mut input);
            let is_end = matches!(read, message::Read::End);
            if reads.send(Event::Read(read)).is_err() || is_end {
                return;
            }
        }
    });
    let mut server = Server::new(settings, output, send, events);
    loop {
        while let Ok(it) = server.events.try_recv() {
            server.keep(it);
        }
        server.cancel()?;
        if server.queue.is_empty() {
            server.guarded(|it| it.flush(true))?;
            match server.next_event()? {
                Some(it) => server.keep(it),
                None => break,
            }
            continue;
        }
        match server.queue.pop_front() {
            Some(message::Read::Message(it)) => {
                if it["method"] == "exit" {
                    break;
                }
                server.take(&it)?;
            }
            Some(message::Read::Malformed) => {
                server.send(&error(&Value::Null, message::PARSE_ERROR, "the content is no JSON"))?;
            }
            Some(message::Read::End) | None => break,
        }
    }
    Ok(server.phase == Phase::ShutDown)
}

#[derive(Clone, Copy, PartialEq, Eq)]
enum Phase {
    New,
    Serving,
    ShutDown,
}

/// Why a request has no result: the protocol's number, and words.
struct Failure(i64, String);

/// A file that is open in the editor.
struct Document {
    uri: String,
    text: Arc<Text>,
    /// The text from which the items of the file were read.
    good: Option<Arc<Text>>,
    is_dirty: bool,
    /// What stands in a text that isn't handed in, where it was read.
    typed: Option<Parsed>,
    waits: Option<Waiting>,
}

/// The last text of a file that parses, where it is known what is told of it: it is handed in when something is asked, with
/// another text, or when nothing comes for a while.
struct Waiting {
    text: Arc<Text>,
    parsed: Parsed,
    known_by: KnownBy,
}

struct Server<W: Write> {
    settings: Settings,
    output: W,
    events: Receiver<Event>,
    send: Sender<Event>,
    /// The messages that aren't done yet.
    queue: VecDeque<message::Read>,
    phase: Phase,
    /// The folder as the editor names it, and where it is.
    folder: Option<(PathBuf, PathBuf)>,
    space: Option<Workspace>,
    program: PathBuf,
    documents: HashMap<Key, Document>,
    /// Texts of files that aren't open.
    texts: HashMap<Key, Arc<Text>>,
    /// Why the present texts of files don't parse whose last items are kept.
    errors: HashMap<Key, SyntaxError>,
    /// What was published, by file, and how the editor named the file.
    published: BTreeMap<Key, (String, Vec<Value>)>,
    /// The files of which diagnostics speak.
    touched: HashSet<Key>,
    needs_report: bool,
    /// Whether what is published is what is known to be told of a text that waits.
    has_told_ahead: bool,
    /// Whether an answer went out since a report was due.
    has_answered: bool,
    /// When the program was started again.
    restarts: Vec<Instant>,
    /// How often it was since some work with it was done.
    failures: usize,
    has_nested_symbols: bool,
    registers_watchers: bool,
    shows_progress: bool,
    /// How often a package was opened.
    openings: u32,
}

/// What waits to be handed in is when nothing comes for so long.
const PAUSE: Duration = Duration::from_millis(200);

/// More often than this, within a minute or for the same work, the program isn't started again.
const MOST_RESTARTS: usize = 3;

/// What is told of a file that was there and is there.
const FILE_CHANGED: u32 = 2;

const ERROR: u32 = 1;
const WARNING: u32 = 2;
const INFO: u32 = 3;
const LOG: u32 = 4;

impl<W: Write> Server<W> {
    fn new(settings: Settings, output: W, send: Sender<Event>, events: Receiver<Event>) -> Server<W> {
        Server {
            settings,
            output,
            events,
            send,
            queue: VecDeque::new(),
            phase: Phase::New,
            folder: None,
            space: None,
            program: PathBuf::new(),
            documents: HashMap::new(),
            texts: HashMap::new(),
            errors: HashMap::new(),
            published: BTreeMap::new(),
            touched: HashSet::new(),
            needs_report: false,
            has_told_ahead: false,
            has_answered: false,
            restarts: Vec::new(),
            failures: 0,
            has_nested_symbols: false,
            registers_watchers: false,
            shows_progress: false,
            openings: 0,
        }
    }

    /// Keeps a message for later. What an opening tells that nobody waits for is passed over.
    fn keep(&mut self, event: Event) {
        if let Event::Read(it) = event {
            self.queue.push_back(it);
        }
    }

    /// Waits for the next event, and hands in what waits if none comes for a while.
    fn next_event(&mut self) -> Result<Option<Event>> {
        if self.documents.values().any(|it| it.waits.is_some()) {
            match self.events.recv_timeout(PAUSE) {
                Err(RecvTimeoutError::Timeout) => self.guarded(|it| it.flush(false))?,
                it => return Ok(it.ok()),
            };
        }
        Ok(self.events.recv().ok())
    }

    fn send(&mut self, it: &Value) -> Result<()> {
        message::write(&mut self.output, it).context("standard output can't be written")
    }

    fn show(&mut self, kind: u32, text: &str) -> Result<()> {
        self.send(&notification("window/showMessage", json!({"type": kind, "message": text})))
    }

    fn log(&mut self, kind: u32, text: &str) -> Result<()> {
        self.send(&notification("window/logMessage", json!({"type": kind, "message": text})))
    }

    /// Answers the requests that are still queued and that were cancelled.
    fn cancel(&mut self) -> Result<()> {
        let queue = &mut self.queue;
        let mut cancelled = Vec::new();
        let mut at = 0;
        while at < queue.len() {
            let id = match &queue[at] {
                message::Read::Message(it) if it["method"] == "$/cancelRequest" && it.get("id").is_none() => {
                    it["params"]["id"].clone()
                }
                _ => {
                    at += 1;
                    continue;
                }
            };
            queue.remove(at);
            let is_it = |it: &message::Read| match it {
                message::Read::Message(it) => it["id"] == id && it["method"].is_string() && !id.is_null(),
                _ => false,
            };
            if let Some(found) = queue.iter().take(at).position(is_it) {
                queue.remove(found);
                at -= 1;
                cancelled.push(id);
            }
        }
        for id in cancelled {
            self.send(&error(&id, message::REQUEST_CANCELLED, "cancelled"))?;
        }
        Ok(())
    }

    fn take(&mut self, message: &Value) -> Result<()> {
        let id = message.get("id").cloned();
        let Some(method) = message["method"].as_str() else {
            // The editor's answers to what it was asked have no method.
            let is_answer = message.is_object() && (message.get("result").is_some() || message.get("error").is_some());
            return match is_answer {
                true => Ok(()),
                false => self.send(&error(
                    &id.unwrap_or(Value::Null),
                    message::INVALID_REQUEST,
                    "a message is an object with a `method`",
                )),
            };
        };
        let params = message.get("params").unwrap_or(&Value::Null);
        match id {
            Some(id) => self.request(&id, method, params),
            None if self.phase == Phase::Serving => {
                self.guarded(|it| it.notified(method, params))?;
                Ok(())
            }
            None => Ok(()),
        }
    }

    /// Does the work. Where it panics, all is read anew.
    fn guarded<T>(&mut self, work: impl FnOnce(&mut Self) -> Result<T>) -> Result<Option<T>> {
        match catch_unwind(AssertUnwindSafe(|| work(self))) {
            Ok(it) => it.map(Some),
            Err(_) => {
                self.show(ERROR, "Nogsimat: something went wrong (see the server's standard error); reading all anew")?;
                if catch_unwind(AssertUnwindSafe(|| self.open())).is_err() {
                    self.space = None;
                }
                // It may be one of these texts that can't be read. The next edit tries again.
                self.documents.values_mut().for_each(|it| (it.is_dirty, it.typed, it.waits) = (false, None, None));
                Ok(None)
            }
        }
    }

    fn request(&mut self, id: &Value, method: &str, params: &Value) -> Result<()> {
        let refused = match (self.phase, method) {
            (Phase::New, "initialize") => None,
            (Phase::New, _) => Some((message::NOT_INITIALIZED, "`initialize` comes first")),
            (Phase::Serving, "initialize") => Some((message::INVALID_REQUEST, "`initialize` comes once")),
            (Phase::Serving, _) => None,
            (Phase::ShutDown, _) => Some((message::INVALID_REQUEST, "the server was shut down")),
        };
        if let Some((code, text)) = refused {
            return self.send(&error(id, code, text));
        }
        let result = self.guarded(|it| it.result(method, params))?;
        match result {
            Some(Ok(it)) => self.send(&reply(id, it)),
            Some(Err(Failure(code, text))) => self.send(&error(id, code, &text)),
            None => self.send(&error(id, message::INTERNAL_ERROR, "something went wrong")),
        }
    }

    fn result(&mut self, method: &str, params: &Value) -> Result<Result<Value, Failure>> {
        Ok(match method {
            "initialize" => Ok(self.initialize(params)),
            "shutdown" => {
                self.phase = Phase::ShutDown;
                Ok(Value::Null)
            }
            "textDocument/definition" => self.flushed()?.definition(params)?,
            "textDocument/hover" => self.flushed()?.hover(params)?,
            "textDocument/references" => self.flushed()?.references(params)?,
            "textDocument/documentSymbol" => self.symbols(params),
            "textDocument/codeAction" => self.flushed()?.code_actions(params)?,
            "workspace/symbol" => Ok(self.flushed()?.found_symbols(params)),
            "textDocument/completion" => self.flushed()?.completion(params)?,
            _ => Err(Failure(message::METHOD_NOT_FOUND, format!("`{method}` isn't known"))),
        })
    }

    /// Hands in what was typed. What is told of it is published behind the answer of one request, before that of the next.
    fn flushed(&mut self) -> Result<&mut Self> {
        self.read_typed(false)?;
        if self.has_answered {
            self.publish_report()?;
        }
        self.has_answered = self.needs_report;
        Ok(self)
    }

    fn initialize(&mut self, params: &Value) -> Value {
        self.phase = Phase::Serving;
        let folder = params["workspaceFolders"][0]["uri"].as_str().or(params["rootUri"].as_str());
        let folder = folder.and_then(path_of_uri).or(params["rootPath"].as_str().map(PathBuf::from));
        self.folder = folder.and_then(|it| Some((it.clone(), it.canonicalize().ok()?)));
        let can = &params["capabilities"];
        self.has_nested_symbols =
            can["textDocument"]["documentSymbol"]["hierarchicalDocumentSymbolSupport"] == json!(true);
        self.registers_watchers = can["workspace"]["didChangeWatchedFiles"]["dynamicRegistration"] == json!(true);
        self.shows_progress = can["window"]["workDoneProgress"] == json!(true);
        json!({
            "capabilities": {
                "positionEncoding": "utf-16",
                "textDocumentSync": {"openClose": true, "change": 2, "save": {"includeText": false}},
                "definitionProvider": true,
                "hoverProvider": true,
                "referencesProvider": true,
                "documentSymbolProvider": true,
                "workspaceSymbolProvider": true,
                "codeActionProvider": {"codeActionKinds": ["quickfix"]},
                "completionProvider": {"triggerCharacters": [":"]},
            },
            "serverInfo": {"name": "cargo-nogsimat", "version": env!("CARGO_PKG_VERSION")},
        })
    }

    fn notified(&mut self, method: &str, params: &Value) -> Result<()> {
        let document = &params["textDocument"];
        let key = document["uri"].as_str().and_then(key_of_uri);
        match (method, key) {
            ("initialized", _) => {
                self.register_watchers()?;
                self.open()
            }
            ("textDocument/didOpen", Some(key)) => self.take_document(key, document),
            ("textDocument/didChange", Some(key)) => {
                self.edit_document(&key, &params["contentChanges"]);
                Ok(())
            }
            ("textDocument/didSave", _) if self.space.is_none() => self.open(),
            // One that another includes is taken as it is on the disk.
            ("textDocument/didSave", Some(key)) if !self.is_module(&key) => self.update_files(&[key]),
            ("textDocument/didClose", Some(key)) => self.close_document(&key),
            ("workspace/didChangeWatchedFiles", _) => self.read_changed_files(&params["changes"]),
            _ => Ok(()),
        }
    }

    /// Asks the editor to tell of files that change, if it can.
    fn register_watchers(&mut self) -> Result<()> {
        if !self.registers_watchers {
            return Ok(());
        }
        let watchers = ["**/*.rs", "**/Cargo.toml", "**/Cargo.lock"].map(|it| json!({"globPattern": it}));
        let registration = json!({
            "id": "files",
            "method": "workspace/didChangeWatchedFiles",
            "registerOptions": {"watchers": watchers},
        });
        self.send(&json!({
            "jsonrpc": "2.0", "id": "watchers", "method": "client/registerCapability",
            "params": {"registrations": [registration]},
        }))
    }

    /// Takes the text of a file that was opened in the editor.
    fn take_document(&mut self, key: Key, document: &Value) -> Result<()> {
        let (Some(uri), Some(text)) = (document["uri"].as_str(), document["text"].as_str()) else {
            return Ok(());
        };
        if !uri.ends_with(".rs") && document["languageId"] != "rust" {
            return Ok(());
        }
        let text = Arc::new(Text::new(text.to_owned()));
        let is_known = self.space.as_ref().is_some_and(|it| it.built(&key).is_some());
        let good = is_known.then(|| self.unit_text(&key));
        self.texts.remove(&key);
        let document = Document { uri: uri.to_owned(), text, good, is_dirty: true, typed: None, waits: None };
        self.documents.insert(key.clone(), document);
        self.needs_report |= self.is_renamed(&key);
        match self.space.is_none() && self.package().is_none() {
            true => self.open_beside(uri),
            false => Ok(()),
        }
    }

    /// Edits the text of a file that is open in the editor.
    fn edit_document(&mut self, key: &Key, changes: &Value) {
        let Some(document) = self.documents.get_mut(key) else {
            return;
        };
        for it in changes.as_array().into_iter().flatten() {
            let Some(new) = it["text"].as_str() else {
                continue;
            };
            let range = match it["range"].is_object() {
                true => match (place_of(&it["range"]["start"]), place_of(&it["range"]["end"])) {
                    (Some(start), Some(end)) => Some([start, end]),
                    _ => continue,
                },
                false => None,
            };
            Arc::make_mut(&mut document.text).edit(range, new);
        }
        (document.is_dirty, document.typed) = (true, None);
    }

    /// Has a file count as it is on the disk that was closed in the editor.
    fn close_document(&mut self, key: &Key) -> Result<()> {
        let Some(document) = self.documents.remove(key) else {
            return Ok(());
        };
        self.texts.extend(document.good.map(|it| (key.clone(), it)));
        self.needs_report |= self.is_renamed(key);
        self.read_files(std::slice::from_ref(key))
    }

    /// Reads files that changed on the disk, or the whole package where a manifest did.
    fn read_changed_files(&mut self, changes: &Value) -> Result<()> {
        let changes = changes.as_array().into_iter().flatten();
        let named = changes.filter_map(|it| Some((path_of_uri(it["uri"].as_str()?)?, it["type"] == FILE_CHANGED)));
        let mut paths: Vec<(PathBuf, bool)> = named.collect();
        // What Cargo builds there is none of the package.
        let target = self.space.as_ref().map(|it| it.crates.folder.join("target"));
        paths.retain(|it| !target.as_ref().is_some_and(|target| it.0.starts_with(target)));
        let is_manifest = |it: &Path| it.file_name().is_some_and(|it| it == "Cargo.toml" || it == "Cargo.lock");
        if paths.iter().any(|it| is_manifest(&it.0)) {
            return self.open();
        }
        let Some(space) = &self.space else {
            self.texts.clear();
            return Ok(());
        };
        let mut keys: Vec<Key> = Vec::new();
        for (path, is_same_file) in &paths {
            let Some(key) = key_of_path(path) else {
                continue;
            };
            if space.reads(&path_of_key(&key)) {
                keys.push(key);
            } else if !is_same_file {
                // Of a folder that comes or goes its files may not be told.
                keys.extend(space.files_below(&key));
            }
        }
        keys.retain(|it| !self.documents.contains_key(it));
        keys.sort();
        keys.dedup();
        self.read_files(&keys)
    }

    /// Does the work with the session. Where the program died it is started again with the present files, and the work
    /// is done again.
    fn with_space<T>(&mut self, work: impl Fn(&mut Workspace) -> Result<T>) -> Result<Option<T>> {
        loop {
            let Some(space) = &mut self.space else {
                return Ok(None);
            };
            let error = match work(space) {
                Ok(it) => {
                    self.failures = 0;
                    return Ok(Some(it));
                }
                Err(it) => it,
            };
            if space.is_running() {
                self.log(LOG, &format!("Nogsimat: {error:#}"))?;
                return Ok(None);
            }
            self.restart(&error)?;
        }
    }

    fn restart(&mut self, error: &anyhow::Error) -> Result<()> {
        let now = Instant::now();
        self.restarts.retain(|it| now.duration_since(*it) < Duration::from_secs(60));
        self.needs_report = true;
        if self.restarts.len().max(self.failures) >= MOST_RESTARTS {
            self.space = None;
            self.restarts.clear();
            self.failures = 0;
            return self.show(ERROR, &format!("Nogsimat: {error:#}. It isn't started again; a save tries again"));
        }
        self.restarts.push(now);
        self.failures += 1;
        let Some(space) = &mut self.space else {
            return Ok(());
        };
        match space.restart(&self.program) {
            Ok(()) => self.show(
                WARNING,
                "Nogsimat: the resolver's program stopped; it was started again with the files as they are now",
            ),
            Err(error) if space.is_running() => {
                self.space = None;
                self.show(ERROR, &format!("Nogsimat: {error:#}. A save tries again"))
            }
            Err(error) => self.restart(&error),
        }
    }

    /// A range of a file as it is now.
    fn range(&mut self, key: &Key, span: Span) -> Value {
        let text = self.unit_text(key);
        let now = self.documents.get(key).map_or(&text, |it| &it.text);
        text.range_in(now, span)
    }

    /// A place, where its file isn't one of the stub.
    fn location(&mut self, place: &Place) -> Option<Value> {
        let key = key_of_place(place)?;
        let space = self.space.as_ref()?;
        if space.crates_of(&key).first().is_some_and(|it| space.crates.all[*it as usize].is_stub) {
            return None;
        }
        let range = self.range(&key, span_of(place));
        Some(json!({"uri": self.uri(&key), "range": range}))
    }

    /// The file as the editor names it.
    fn uri(&self, key: &Key) -> String {
        if let Some(it) = self.documents.get(key) {
            return it.uri.clone();
        }
        let path = path_of_key(key);
        let moved = self.folder.as_ref().and_then(|(named, is)| Some(named.join(path.strip_prefix(is).ok()?)));
        uri_of_path(&moved.unwrap_or(path))
    }
}

fn span_of(place: &Place) -> Span {
    Span {
        start: Position { line: place.line, column: place.column },
        end: Position { line: place.end_line, column: place.end_column },
    }
}

fn key_of_place(place: &Place) -> Option<Key> {
    let here = std::env::current_dir().and_then(|it| it.canonicalize()).unwrap_or_default();
    key_of(&here.join(&place.file)).ok()
}

fn place_of(it: &Value) -> Option<(u32, u32)> {
    let number = |name: &str| Some(it[name].as_u64()?.min(u64::from(u32::MAX)) as u32);
    Some((number("line")?, number("character")?))
}
