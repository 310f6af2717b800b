//! The language server under edits: random ones, and a recorded session of 200, each beside a fresh server.

use std::collections::BTreeMap;
use std::path::Path;

use crate::common::client::Client;
#[cfg(unix)]
use crate::common::{client::program, logged, write_script};
use crate::common::{market, own, package, Dice};
use cargo_nogsimat::lsp::message;
use cargo_nogsimat::lsp::text::Text;
use serde_json::{json, Value};

const FILES: [&str; 5] =
    ["shop/src/lib.rs", "shop/src/model.rs", "shop/src/price.rs", "shop/src/report.rs", "codec/src/lib.rs"];

/// An edit of a text: what stands in a range of bytes, and what comes in its place.
fn edit(text: &str, number: usize, dice: &mut Dice) -> (std::ops::Range<usize>, String) {
    let starts: Vec<usize> = std::iter::once(0).chain(text.match_indices('\n').map(|it| it.0 + 1)).collect();
    // Between items, where a line is empty.
    let gaps: Vec<usize> = text.match_indices("\n\n").map(|it| it.0 + 1).collect();
    let gap = if gaps.is_empty() { text.len() } else { gaps[dice.below(gaps.len())] };
    let added: Vec<(usize, usize)> = text
        .match_indices("// added")
        .filter_map(|it| {
            let start = text[..it.0].rfind('\n').map_or(0, |it| it + 1);
            Some((start, it.0 + text[it.0..].find('\n')? + 1))
        })
        .collect();
    let name = format!("Added{}", dice.below(6));
    match dice.below(10) {
        0 | 1 => (gap..gap, format!("pub struct {name}{number}; // added\n")),
        2 => (gap..gap, format!("use crate::model::{name}; // added 🦀\n")),
        3 => (gap..gap, format!("pub use crate::price::{{Price as {name}{number}, Nothing{number}}}; // added\r\n")),
        4 => (
            gap..gap,
            format!("/* é\u{301}🦀 */ pub mod m{number} {{ pub use super::*; pub enum {name} {{ A }} }} // added\n"),
        ),
        5 => (gap..gap, "ids! { One Two } // added\n".to_owned()),
        6 | 7 if !added.is_empty() => {
            let (start, end) = added[dice.below(added.len())];
            (start..end, String::new())
        }
        // A body.
        _ => match text.find("let ") {
            Some(at) => (at..at, format!("let _{number} = \"é🦀\"; ")),
            None => {
                let at = starts[dice.below(starts.len())];
                (at..at, "// a line\n".to_owned())
            }
        },
    }
}

/// What may be typed in the midst of a file, so that for a while it mostly doesn't parse.
const HALVES: [&str; 12] = ["{", "}", "(", ")", "\"", "/*", "use ", "pub fn f", "struct", "mod m {", "::", "r#\"🦀"];

/// An edit after which a text mostly doesn't parse: a few characters come or go anywhere in it.
fn half_edit(text: &str, dice: &mut Dice) -> (std::ops::Range<usize>, String) {
    let starts: Vec<usize> = text.char_indices().map(|it| it.0).chain([text.len()]).collect();
    let at = dice.below(starts.len());
    match dice.below(3) {
        0 => (starts[at]..starts[(at + 1 + dice.below(8)).min(starts.len() - 1)], String::new()),
        _ => (starts[at]..starts[at], HALVES[dice.below(HALVES.len())].to_owned()),
    }
}

/// The texts of all files behind an edit, and what the server told then.
struct Texts {
    /// The last ones that parse.
    parsed: Vec<String>,
    present: Vec<String>,
    published: BTreeMap<String, Value>,
}

impl Texts {
    /// A fresh server, which reads the texts that parse and is then given the present ones. It tells the same.
    fn told_afresh(&self, folder: &Path, number: usize) -> Client {
        for (name, text) in FILES.iter().zip(&self.parsed) {
            std::fs::write(folder.join(name), text).unwrap();
        }
        let mut fresh = Client::start(folder, &[]);
        fresh.initialize();
        if self.parsed != self.present {
            FILES.iter().zip(&self.parsed).for_each(|(name, text)| fresh.open(name, text));
        }
        for (at, name) in FILES.iter().enumerate().filter(|it| self.parsed[it.0] != self.present[it.0]) {
            let document = json!({"uri": format!("file://DIR/{name}"), "version": 2});
            let change = json!({"textDocument": document, "contentChanges": [{"text": self.present[at]}]});
            fresh.notify("textDocument/didChange", change);
        }
        assert_eq!(self.published, fresh.published, "behind edit {}", number + 1);
        fresh
    }
}

/// Whether the present text of a file parses, as the server tells.
fn is_whole(client: &Client, file: usize) -> bool {
    let list = client.published.get(&format!("file://DIR/{}", FILES[file]));
    !list.is_some_and(|it| it.to_string().contains("until it is mended"))
}

const ASKED: [&str; 6] = ["definition", "hover", "references", "documentSymbol", "completion", "codeAction"];

fn ask_at(client: &mut Client, (method, file, (line, character)): (&str, usize, (u32, u32))) -> Value {
    let position = json!({"line": line, "character": character});
    let params = json!({
        "textDocument": {"uri": format!("file://DIR/{}", FILES[file])}, "position": position,
        "range": {"start": position, "end": position}, "context": {"includeDeclaration": true, "diagnostics": []},
    });
    client.request(&format!("textDocument/{method}"), params)
}

/// 200 edits, behind about half of which all files parse. Behind each a fresh server, which reads the last texts that parse
/// and is then given the present ones, tells and answers the same.
#[test]
fn random_edits_beside_a_fresh_server() {
    let folder = market();
    let mut client = Client::start(folder.path(), &[]);
    client.initialize();
    let mut texts: Vec<String> =
        FILES.iter().map(|it| std::fs::read_to_string(folder.path().join(it)).unwrap()).collect();
    for (name, text) in FILES.iter().zip(&texts) {
        client.open(name, text);
    }
    let mut parsed = texts.clone();
    let mut dice = Dice(11);
    let mut points = Vec::new();
    for number in 1..=200 {
        let halves: Vec<usize> = (0..FILES.len()).filter(|it| texts[*it] != parsed[*it]).collect();
        let (is_half, act) = (!halves.is_empty(), dice.below(4));
        let at = if is_half { halves[dice.below(halves.len())] } else { dice.below(FILES.len()) };
        let (range, new) = match act {
            // Back to where it parsed.
            0 if is_half => (0..texts[at].len(), parsed[at].clone()),
            0 | 1 if !is_half => edit(&texts[at], number, &mut dice),
            _ => half_edit(&texts[at], &mut dice),
        };
        let shown = Text::new(texts[at].clone()).range_of(range.clone());
        texts[at].replace_range(range, &new);
        let document = json!({"uri": format!("file://DIR/{}", FILES[at]), "version": number});
        let changes = json!([{"range": shown, "text": new}]);
        client.notify("textDocument/didChange", json!({"textDocument": document, "contentChanges": changes}));
        if is_whole(&client, at) {
            parsed[at] = texts[at].clone();
        }
        let mut asked = Vec::new();
        for _ in 0..6 {
            let file = dice.below(FILES.len());
            let starts: Vec<usize> = texts[file].char_indices().map(|it| it.0).collect();
            let place = Text::new(texts[file].clone()).place(starts[dice.below(starts.len())]);
            asked.push((ASKED[dice.below(ASKED.len())], file, place));
        }
        let answers: Vec<Value> = asked.iter().map(|it| ask_at(&mut client, *it)).collect();
        let (parsed, present, published) = (parsed.clone(), texts.clone(), client.published.clone());
        points.push((Texts { parsed, present, published }, asked, answers));
    }
    let whole = points.iter().filter(|it| it.0.parsed == it.0.present).count();
    assert!((60..=140).contains(&whole), "all files parse behind {whole} edits");
    let answers = || points.iter().flat_map(|it| &it.2);
    let is_empty = |it: &&Value| it.is_null() || it.as_array().is_some_and(Vec::is_empty);
    let (all, empty) = (answers().count(), answers().filter(is_empty).count());
    assert!(empty * 3 < all * 2, "{empty} of {all} answers have nothing");
    on_threads(&points, |folder, number, (texts, asked, answers)| {
        let mut fresh = texts.told_afresh(folder, number);
        for (asked, answer) in asked.iter().zip(answers) {
            assert_eq!(*answer, ask_at(&mut fresh, *asked), "behind edit {}: {asked:?}", number + 1);
        }
    });
}

/// Does the work for each of these on some threads, each with a package of its own.
fn on_threads<T: Sync>(all: &[T], work: impl Fn(&Path, usize, &T) + Sync) {
    let next = std::sync::atomic::AtomicUsize::new(0);
    let run = || {
        let folder = market();
        loop {
            let number = next.fetch_add(1, std::sync::atomic::Ordering::Relaxed);
            let Some(it) = all.get(number) else {
                return;
            };
            work(folder.path(), number, it);
        }
    };
    std::thread::scope(|scope| {
        let threads: Vec<_> = (0..4).map(|_| scope.spawn(run)).collect();
        threads.into_iter().for_each(|it| it.join().unwrap());
    });
}

/// An edit as it is recorded: the file, what stands in a range of the editor, and what comes in its place.
type Typed = (usize, std::ops::Range<usize>, String);

/// Puts together what a person may type: items a few characters at a time, lines that are taken away, commented out or
/// moved, a name that is changed everywhere in a file, and steps back.
struct Typist {
    texts: Vec<String>,
    dice: Dice,
    /// The edits, each with what stood there before.
    made: Vec<(Typed, String)>,
    /// Where among these what was done last begins.
    last: usize,
}

impl Typist {
    fn edit(&mut self, file: usize, range: std::ops::Range<usize>, new: &str) {
        let old = self.texts[file][range.clone()].to_owned();
        self.texts[file].replace_range(range.clone(), new);
        self.made.push(((file, range, new.to_owned()), old));
    }

    /// Types a text, some characters at a time.
    fn write(&mut self, file: usize, at: usize, text: &str) {
        let characters: Vec<char> = text.chars().collect();
        let (mut from, mut at) = (0, at);
        while from < characters.len() {
            let to = (from + 6 + self.dice.below(14)).min(characters.len());
            let part: String = characters[from..to].iter().collect();
            self.edit(file, at..at, &part);
            (from, at) = (to, at + part.len());
        }
    }

    fn line(&mut self, file: usize, wanted: impl Fn(&str) -> bool) -> Option<std::ops::Range<usize>> {
        let text = &self.texts[file];
        let mut start = 0;
        let mut found = Vec::new();
        for line in text.split_inclusive('\n') {
            if wanted(line) {
                found.push(start..start + line.len());
            }
            start += line.len();
        }
        let count = found.len();
        (count > 0).then(|| found.swap_remove(self.dice.below(count)))
    }

    fn act(&mut self) {
        let file = self.dice.below(FILES.len());
        let number = self.made.len();
        let name = format!("Added{}", self.dice.below(5));
        let gap = |it: &str| it.trim().is_empty();
        let gap = self.line(file, gap).map_or(self.texts[file].len(), |it| it.start);
        match self.dice.below(11) {
            0 => self.write(file, gap, &format!("pub struct {name}(u32); // typed\n")),
            1 => self.write(file, gap, &format!("use crate::price::{name}; // typed\n")),
            2 => self.write(file, gap, &format!("pub use shop::{{model::*, {name} as Other{number}}}; // typed é\n")),
            3 => {
                let body = "use self::inner::Kept; mod inner { pub struct Kept; } let _ = Kept; crate::price::tax";
                self.write(file, gap, &format!("fn body_{number}() {{ {body}; }} // typed 🦀\n"));
            }
            4 => {
                let items =
                    format!("pub mod pasted{number} {{\n    pub use super::*;\n    pub enum {name} {{ A }}\n}}\n");
                self.edit(file, gap..gap, &items);
            }
            5 | 6 => {
                if let Some(it) = self.line(file, |it| it.contains("// typed")) {
                    self.edit(file, it, "");
                }
            }
            7 => {
                if let Some(it) = self.line(file, |it| it.starts_with("use ") || it.starts_with("pub use ")) {
                    self.edit(file, it.start..it.start, "// ");
                }
            }
            8 => {
                if let Some(it) = self.line(file, |it| it.starts_with("// use ") || it.starts_with("// pub use ")) {
                    self.edit(file, it.start..it.start + 3, "");
                }
            }
            9 => {
                let (old, new) = if self.texts[file].contains("Price") { ("Price", "Cost") } else { ("Cost", "Price") };
                while let Some(at) = self.texts[file].find(old) {
                    self.edit(file, at..at + old.len(), new);
                }
            }
            // Back to before what was done last.
            _ => {
                for at in (self.last..number).rev() {
                    let ((file, range, new), old) = self.made[at].clone();
                    self.edit(file, range.start..range.start + new.len(), &old);
                }
            }
        }
        self.last = number;
    }

    /// A place in a word of a text.
    fn word(&mut self, file: usize) -> (u32, u32) {
        let text = &self.texts[file];
        let is_word = |it: char| it.is_alphanumeric() || it == '_';
        let starts: Vec<usize> = text
            .char_indices()
            .filter(|it| is_word(it.1) && !text[..it.0].chars().next_back().is_some_and(is_word))
            .map(|it| it.0)
            .collect();
        let at = if starts.is_empty() { 0 } else { starts[self.dice.below(starts.len())] };
        Text::new(text.clone()).place(at)
    }
}

/// The edits of a session, each with what is asked behind it.
fn record(folder: &Path) -> Vec<Value> {
    let texts: Vec<String> = FILES.iter().map(|it| std::fs::read_to_string(folder.join(it)).unwrap()).collect();
    let mut typist = Typist { texts: texts.clone(), dice: Dice(46), made: Vec::new(), last: 0 };
    while typist.made.len() < 200 {
        typist.act();
    }
    let edits: Vec<Typed> = typist.made.drain(..200).map(|it| it.0).collect();
    typist.texts = texts;
    let mut made = Vec::new();
    for (file, range, new) in edits {
        let shown = Text::new(typist.texts[file].clone()).range_of(range.clone());
        typist.texts[file].replace_range(range, &new);
        let asked = if typist.dice.below(2) == 0 { file } else { typist.dice.below(FILES.len()) };
        let (line, character) = typist.word(asked);
        let method = ["definition", "definition", "hover", "hover", "references", "documentSymbol"];
        made.push(json!({
            "file": FILES[file], "range": shown, "text": new,
            "ask": method[typist.dice.below(method.len())], "in": FILES[asked], "at": [line, character],
        }));
    }
    made
}

/// The diagnostics that are published, each on a line.
fn lines_of(published: &BTreeMap<String, Value>) -> Vec<String> {
    let lists = published.iter().flat_map(|(uri, list)| list.as_array().unwrap().iter().map(move |it| (uri, it)));
    let lines = lists.map(|(uri, it)| {
        let (start, message) = (&it["range"]["start"], it["message"].as_str().unwrap().replace('\n', "; "));
        format!("{}:{}:{}: {message}", uri.replace("file://DIR/", ""), start["line"], start["character"])
    });
    lines.collect()
}

/// A session of 200 edits is recorded in `lsp/session.jsonl`: a line has an edit, what is asked behind it, the answer,
/// and which diagnostics came and went. Replayed it gives the same, and so does a fresh server at each point, which reads
/// the last texts that parse. Without the file a session is recorded from a seed.
#[test]
fn a_recorded_session() {
    let folder = market();
    let path = own("tests/lsp/session.jsonl");
    let stored = std::fs::read_to_string(&path).ok();
    let mut steps: Vec<Value> = match &stored {
        Some(it) => it.lines().map(|it| serde_json::from_str(it).unwrap()).collect(),
        None => record(folder.path()),
    };
    assert_eq!(steps.len(), 200);
    let mut client = Client::start(folder.path(), &[]);
    client.initialize();
    let mut texts: Vec<Text> = Vec::new();
    for name in FILES {
        let text = std::fs::read_to_string(folder.path().join(name)).unwrap();
        client.open(name, &text);
        texts.push(Text::new(text));
    }
    let mut parsed = texts.clone();
    let mut points = Vec::new();
    let mut before = lines_of(&client.published);
    for (number, step) in steps.iter_mut().enumerate() {
        take_edit(&mut client, step, number + 1, &mut texts);
        let answer = ask(&mut client, step);
        let now = lines_of(&client.published);
        let (came, went): (Vec<&String>, Vec<&String>) = (
            now.iter().filter(|it| !before.contains(it)).collect(),
            before.iter().filter(|it| !now.contains(it)).collect(),
        );
        let made = json!({"answer": answer, "came": came, "went": went});
        for (name, made) in made.as_object().unwrap() {
            let is_stored = stored.is_some() && std::env::var_os("UPDATE").is_none();
            assert!(!is_stored || step[name] == *made, "{name} of line {}: {made}", number + 1);
            step[name] = made.clone();
        }
        before = now;
        let at = FILES.iter().position(|it| step["file"] == *it).unwrap();
        if is_whole(&client, at) {
            parsed[at] = texts[at].clone();
        }
        let [parsed, present] = [&parsed, &texts].map(|all| all.iter().map(|it| it.as_str().to_owned()).collect());
        points.push((Texts { parsed, present, published: client.published.clone() }, step.clone()));
    }
    if stored.is_none() || std::env::var_os("UPDATE").is_some() {
        let text: String = steps.iter().map(|it| format!("{it}\n")).collect();
        std::fs::write(&path, text).unwrap();
    }
    let whole = points.iter().filter(|it| it.0.parsed == it.0.present).count();
    assert!((100..190).contains(&whole), "all files parse at {whole} points");
    assert!(steps.iter().filter(|it| !it["answer"].is_null()).count() >= 60);
    on_threads(&points, |folder, number, (texts, step)| {
        let mut fresh = texts.told_afresh(folder, number);
        assert_eq!(step["answer"], ask(&mut fresh, step), "line {}", number + 1);
    });
}

/// Asks what a step of a session asks.
fn ask(client: &mut Client, step: &Value) -> Value {
    let place = (step["at"][0].as_u64().unwrap() as u32, step["at"][1].as_u64().unwrap() as u32);
    let method = format!("textDocument/{}", step["ask"].as_str().unwrap());
    client.at(&method, step["in"].as_str().unwrap(), place)
}

/// Edits a file as a step of a session does.
fn take_edit(client: &mut Client, step: &Value, version: usize, texts: &mut [Text]) {
    let (file, new) = (step["file"].as_str().unwrap(), step["text"].as_str().unwrap());
    let place = |it: &Value| (it["line"].as_u64().unwrap() as u32, it["character"].as_u64().unwrap() as u32);
    let range = [place(&step["range"]["start"]), place(&step["range"]["end"])];
    texts[FILES.iter().position(|it| *it == file).unwrap()].edit(Some(range), new);
    let document = json!({"uri": format!("file://DIR/{file}"), "version": version});
    let changes = json!([{"range": step["range"], "text": new}]);
    client.notify("textDocument/didChange", json!({"textDocument": document, "contentChanges": changes}));
}

/// Files that change together behind the editor's back: their crate is resolved once.
#[cfg(unix)]
#[test]
fn files_that_change_together() {
    let names: Vec<String> = (0..12).map(|it| format!("m{it}")).collect();
    let root: String = names.iter().map(|it| format!("mod {it};\n")).collect();
    let folder = package(&[("src/lib.rs", &root)]);
    let path = |name: &String| folder.path().join(format!("src/{name}.rs"));
    names.iter().for_each(|it| std::fs::write(path(it), "pub struct S;\n").unwrap());
    let (log, script) = (folder.path().join("log"), folder.path().join("program"));
    let text = logged(&log.to_string_lossy(), &program().to_string_lossy());
    write_script(&script, &format!("#!/bin/sh\n{text}\n"));
    let mut client = Client::start(folder.path(), &["--program", script.to_str().unwrap()]);
    client.initialize();
    let refreshed = |client: &mut Client, names: &[String]| {
        let before = std::fs::read_to_string(&log).unwrap();
        let change = |it: &String| json!({"uri": format!("file://DIR/src/{it}.rs"), "type": 2});
        let changes: Vec<Value> = names.iter().map(change).collect();
        client.notify("workspace/didChangeWatchedFiles", json!({"changes": changes}));
        let now = std::fs::read_to_string(&log).unwrap();
        now[before.len()..].lines().filter(|it| it.contains("\"refresh\"")).count()
    };
    // An import of nothing in each, a bracket too many in one, and one that isn't there any more.
    names.iter().for_each(|it| std::fs::write(path(it), "use crate::nothing::S;\n").unwrap());
    std::fs::write(path(&names[3]), "}").unwrap();
    assert_eq!(refreshed(&mut client, &names), 1);
    assert_eq!(client.published.len(), 12);
    std::fs::remove_file(path(&names[5])).unwrap();
    names[6..].iter().for_each(|it| std::fs::write(path(it), "pub struct S;\n").unwrap());
    assert!(refreshed(&mut client, &names[5..]) <= 2);
    let told: Vec<&str> = client.published.keys().map(|it| it.rsplit('/').next().unwrap()).collect();
    assert_eq!(told, ["lib.rs", "m0.rs", "m1.rs", "m2.rs", "m3.rs", "m4.rs"]);
    assert_eq!(client.end(), 1);
}

/// Takes a gate away when that is said, or after a minute: where the editor is slow, what waits is handed in meanwhile.
#[cfg(unix)]
fn opened_later(gate: &Path) -> std::sync::mpsc::Sender<()> {
    let (send, receive) = std::sync::mpsc::channel();
    let gate = gate.to_owned();
    std::thread::spawn(move || {
        let _ = receive.recv_timeout(std::time::Duration::from_secs(60));
        std::fs::remove_file(gate).unwrap();
    });
    send
}

/// Items that nothing names: what is told is published at its new place before the program has them, and what is asked
/// afterwards is answered with them.
#[cfg(unix)]
#[test]
fn items_that_nothing_names_wait() {
    let text = "mod a;\nuse crate::a::nothing;\n";
    let folder = package(&[("src/lib.rs", text), ("src/a.rs", "pub struct S;\nimpl S {}\n")]);
    let (gate, script) = (folder.path().join("gate"), folder.path().join("program"));
    let wait = format!("while [ -e {} ]; do sleep 0.01; done", gate.display());
    let passes = format!("while IFS= read -r line; do {wait}; printf '%s\\n' \"$line\"; done");
    write_script(&script, &format!("#!/bin/sh\n{passes} | {}\n", program().display()));
    let mut client = Client::start(folder.path(), &["--program", script.to_str().unwrap()]);
    client.initialize();
    client.open("src/lib.rs", text);
    client.open("src/a.rs", "pub struct S;\nimpl S {}\n");
    let uri = |name: &str| format!("file://DIR/src/{name}");
    let insert = |name: &str, line: u32, text: &str| {
        let range = json!({"start": {"line": line, "character": 0}, "end": {"line": line, "character": 0}});
        let params = json!({"textDocument": {"uri": uri(name)}, "contentChanges": [{"range": range, "text": text}]});
        message::notification("textDocument/didChange", params)
    };
    std::fs::write(&gate, "").unwrap();
    // The symbols of the file are those of the text, which the program isn't asked for.
    let document = json!({"textDocument": {"uri": uri("lib.rs")}});
    let asked = json!({"jsonrpc": "2.0", "id": 1, "method": "textDocument/documentSymbol", "params": document});
    let opened = opened_later(&gate);
    client.send_all(&[insert("lib.rs", 1, "pub fn added() {}\n"), asked]);
    let received = client.receive_to(|it| it["id"] == 1);
    let is_moved = |it: &Value| it["params"]["diagnostics"][0]["range"]["start"]["line"] == 2;
    if !received.iter().any(is_moved) {
        client.receive_to(is_moved);
    }
    let symbols = received.last().unwrap()["result"].as_array().unwrap();
    let added = symbols.iter().find(|it| it["name"] == "added").unwrap();
    let range = json!({"start": {"line": 1, "character": 0}, "end": {"line": 1, "character": 17}});
    assert_eq!(added["location"]["range"], range);
    let _ = opened.send(());
    let hover = client.at("textDocument/hover", "src/lib.rs", (1, 8));
    assert!(hover["contents"]["value"].as_str().unwrap().starts_with("function `one::added`"), "{hover}");
    client.send(&insert("a.rs", 1, "pub enum Kind { One }\n"));
    let found = client.at("textDocument/definition", "src/a.rs", (1, 10));
    assert_eq!((&found[0]["uri"], &found[0]["range"]["start"]["line"]), (&json!(uri("a.rs")), &json!(1)));
    // An import of one of them, and one of what is taken away.
    client.exchange(&[insert("lib.rs", 0, "use self::a::Kind::One;\n")]);
    assert_eq!(lines_of(&client.published).len(), 1, "{:?}", client.published);
    let whole = json!({"textDocument": {"uri": uri("a.rs")}, "contentChanges": [{"text": "pub struct S;\n"}]});
    client.exchange(&[message::notification("textDocument/didChange", whole)]);
    assert_eq!(lines_of(&client.published).len(), 2, "{:?}", client.published);
    assert_eq!(client.end(), 1);
}

/// Imports of an item that comes or goes are told before the program has the edit.
#[cfg(unix)]
#[test]
fn imports_of_items_that_wait() {
    let (text, others) =
        ("pub struct Old;\n", "use crate::a::New;\npub use crate::a::Old;\nuse super::b::Old as Older;\n");
    let folder = package(&[("src/lib.rs", "mod a;\nmod b;\n"), ("src/a.rs", text), ("src/b.rs", others)]);
    let (gate, script) = (folder.path().join("gate"), folder.path().join("program"));
    let wait = format!("case $line in *'\"set file\"'*) while [ -e {} ]; do sleep 0.01; done;; esac", gate.display());
    let passes = format!("while IFS= read -r line; do {wait}; printf '%s\\n' \"$line\"; done");
    write_script(&script, &format!("#!/bin/sh\n{passes} | {}\n", program().display()));
    let mut client = Client::start(folder.path(), &["--program", script.to_str().unwrap()]);
    client.initialize();
    client.open("src/a.rs", text);
    client.exchange(&[]);
    let of_new = "src/b.rs:0:4: unresolved import `crate::a::New`";
    let is_told = |client: &Client, wanted: &[&str]| {
        let told = lines_of(&client.published);
        assert!(told.len() == wanted.len() && told.iter().zip(wanted).all(|it| it.0.starts_with(it.1)), "{told:?}");
    };
    is_told(&client, &[of_new]);
    std::fs::write(&gate, "").unwrap();
    let opened = opened_later(&gate);
    for (now, wanted) in [
        ("pub struct New;\npub struct Old;\n", &[][..]),
        ("pub struct Old;\n", &[of_new]),
        ("fn alone() {}\n", &[of_new, "src/b.rs:1:8: unresolved import `crate::a::Old`"]),
        ("fn alone() {}\npub struct Old;\n", &[of_new]),
        ("pub enum New {}\npub struct Old;\n", &[]),
    ] {
        let document = json!({"uri": "file://DIR/src/a.rs"});
        let params = json!({"textDocument": document, "contentChanges": [{"text": now}]});
        client.send(&message::notification("textDocument/didChange", params));
        client.receive_to(|it| it["method"] == "textDocument/publishDiagnostics");
        is_told(&client, wanted);
        assert!(gate.exists(), "{now}");
    }
    let _ = opened.send(());
    client.exchange(&[]);
    is_told(&client, &[]);
    assert_eq!(client.end(), 1);
}

/// What isn't resolved the program isn't asked again behind an edit that leaves what is told as it is.
#[cfg(unix)]
#[test]
fn what_is_known_is_not_asked_again() {
    let text = "mod a;\nuse crate::nothing;\nuse crate::a::*;\nuse crate::a::Kind::{One, Two};\n\
        macro_rules! m { () => { pub struct Brought; } }\nm!();\n";
    let folder = package(&[("src/lib.rs", text), ("src/a.rs", "pub enum Kind { One }\n")]);
    let (log, script) = (folder.path().join("log"), folder.path().join("program"));
    let logged = logged(&log.to_string_lossy(), &program().to_string_lossy());
    write_script(&script, &format!("#!/bin/sh\n{logged}\n"));
    let mut client = Client::start(folder.path(), &["--program", script.to_str().unwrap()]);
    client.initialize();
    client.open("src/lib.rs", text);
    let start = json!({"line": 0, "character": 0});
    for (number, (added, errors, asked)) in [
        ("pub fn added() {}\n", 2, ["set file", "refresh"].as_slice()),
        ("use crate::a::Kind as Way;\n", 2, &["modules", "resolve", "set file", "refresh"]),
        ("use crate::none;\n", 3, &["modules", "resolve", "set file", "refresh", "diagnostics", "resolve"]),
    ]
    .into_iter()
    .enumerate()
    {
        let before = std::fs::read_to_string(&log).unwrap().len();
        let document = json!({"uri": "file://DIR/src/lib.rs", "version": number});
        let change = json!({"range": {"start": start, "end": start}, "text": added});
        client.send(&message::notification(
            "textDocument/didChange",
            json!({"textDocument": document, "contentChanges": [change]}),
        ));
        client.receive_to(|it| it["method"] == "textDocument/publishDiagnostics");
        client.exchange(&[]);
        let told = lines_of(&client.published);
        assert_eq!(told.len(), errors, "{told:?}");
        assert!(told.iter().any(|it| it.starts_with(&format!("src/lib.rs:{}:", number + 2))), "{told:?}");
        let lines = std::fs::read_to_string(&log).unwrap()[before..].to_owned();
        let words =
            lines.lines().map(|it| serde_json::from_str::<Value>(it).unwrap()["do"].as_str().unwrap().to_owned());
        let mut words: Vec<String> = words.collect();
        words.dedup();
        assert_eq!(words, asked, "{added}");
    }
    assert_eq!(client.end(), 1);
}

/// A text that doesn't parse leaves what was typed before it, and an import comes with the item in another file that it
/// names.
#[test]
fn what_waits_is_not_lost() {
    let text = "mod a;\nmod b;\nuse crate::a::nothing;\n";
    let folder = package(&[("src/lib.rs", text), ("src/a.rs", "\n"), ("src/b.rs", "\n")]);
    let mut client = Client::start(folder.path(), &[]);
    client.initialize();
    client.open("src/lib.rs", text);
    client.open("src/a.rs", "\n");
    client.open("src/b.rs", "\n");
    let insert = |name: &str, line: u32, text: &str| {
        let range = json!({"start": {"line": line, "character": 0}, "end": {"line": line, "character": 0}});
        let document = json!({"uri": format!("file://DIR/src/{name}.rs")});
        let params = json!({"textDocument": document, "contentChanges": [{"range": range, "text": text}]});
        message::notification("textDocument/didChange", params)
    };
    let is_told = |it: &Value, name: &str| {
        let uri = it["params"]["uri"].as_str().unwrap_or_default();
        it["method"] == "textDocument/publishDiagnostics" && uri.ends_with(&format!("/src/{name}.rs"))
    };
    client.send(&insert("lib", 2, "pub fn added() {}\n"));
    client.receive_to(|it| is_told(it, "lib"));
    client.send(&insert("lib", 0, "}\n"));
    client.receive_to(|it| is_told(it, "lib"));
    let asked = json!({"textDocument": {"uri": "file://DIR/src/lib.rs"}});
    let symbols = client.request("textDocument/documentSymbol", asked);
    let added = symbols.as_array().unwrap().iter().find(|it| it["name"] == "added").unwrap();
    assert_eq!(added["location"]["range"]["start"]["line"], 3);
    let hover = client.at("textDocument/hover", "src/lib.rs", (3, 8));
    assert!(hover["contents"]["value"].as_str().unwrap().starts_with("function `one::added`"), "{hover}");
    assert_eq!(lines_of(&client.published).len(), 2, "{:?}", client.published);
    // Mended.
    let range = json!({"start": {"line": 0, "character": 0}, "end": {"line": 1, "character": 0}});
    let params =
        json!({"textDocument": {"uri": "file://DIR/src/lib.rs"}, "contentChanges": [{"range": range, "text": ""}]});
    client.exchange(&[message::notification("textDocument/didChange", params)]);
    assert_eq!(lines_of(&client.published).len(), 1, "{:?}", client.published);
    // An item, and at once what names it: nothing is told of that.
    let edits =
        [insert("a", 0, "pub struct Fresh;\n"), insert("b", 0, "use crate::a::Fresh;\n"), insert("lib", 0, "//\n")];
    client.send_all(&edits);
    let received = client.receive_to(|it| is_told(it, "lib"));
    assert!(!received.iter().any(|it| is_told(it, "b")), "{received:?}");
    client.exchange(&[]);
    assert_eq!(lines_of(&client.published).len(), 1, "{:?}", client.published);
    assert_eq!(client.end(), 1);
}

/// Whatever is typed and asked, nothing panics.
#[test]
fn edits_without_sense() {
    const PIECES: [&str; 24] = [
        "{",
        "}",
        "(",
        ")",
        "[",
        "]",
        "<",
        ">",
        "::",
        "use ",
        "fn f",
        "let x = ",
        "|",
        "=>",
        ";",
        ",",
        "\"",
        "'",
        "🦀",
        "e\u{301}",
        "\r\n",
        "\r",
        "macro_rules! m ",
        "r#\"",
    ];
    let folder = market();
    let mut client = Client::start(folder.path(), &[]);
    client.initialize();
    let name = "shop/src/lib.rs";
    let text = std::fs::read_to_string(folder.path().join(name)).unwrap();
    client.open(name, &text);
    let mut dice = Dice(5);
    let document = json!({"uri": format!("file://DIR/{name}")});
    for number in 0..300 {
        let mut place = || json!({"line": dice.below(45), "character": dice.below(60)});
        let (start, end, asked) = (place(), place(), place());
        let range = json!({"start": start, "end": if dice.below(8) == 0 { end } else { start.clone() }});
        let mut changes = vec![json!({"range": range, "text": PIECES[dice.below(PIECES.len())]})];
        if number % 25 == 24 {
            changes = vec![json!({"text": text})];
        }
        let ask = |method: &str| {
            let params = json!({"textDocument": document, "position": asked, "context": {"includeDeclaration": true}});
            json!({"jsonrpc": "2.0", "id": method, "method": format!("textDocument/{method}"), "params": params})
        };
        let change = json!({"textDocument": document, "contentChanges": changes});
        let mut sent = vec![message::notification("textDocument/didChange", change)];
        sent.extend(["definition", "hover", "references", "documentSymbol"].map(ask));
        let made = client.exchange(&sent);
        let is_answered = |it: &&Value| it.get("id").is_some() && it.get("error").is_none();
        assert_eq!(made.iter().filter(is_answered).count(), 4, "after edit {number}: {made:?}");
        assert!(made.iter().all(|it| it["method"] != "window/showMessage"), "after edit {number}: {made:?}");
    }
    assert_eq!(client.end(), 1);
}
