//! The language server under messages in any order: edits in ranges that are none, files that come and go on the disk and in
//! the editor, a manifest that is damaged and mended, requests of every kind that are cancelled or not. Each request is
//! answered once, and a fresh server tells and answers the same.

use std::collections::BTreeMap;
use std::path::Path;

use cargo_nogsimat::lsp::message;
use serde_json::{json, Value};

use crate::common::client::Client;
use crate::common::{copy, market, Dice};

/// Files, and what may stand in them.
const FILES: [(&str, [&str; 3]); 5] = [
    (
        "shop/src/lib.rs",
        [
            "pub mod model;\nmod price;\npub mod report;\npub use model::Item as Goods;\nmacro_rules! line_end { () => {}; }\n",
            "mod price; mod extra; pub use extra::*;\r\npub use price::Price;\r\nuse crate::extra::Nothing;\r\n",
            "pub mod all { pub use crate::price::{Price, tax}; } #[path = \"price.rs\"] mod price; pub mod model {}\n",
        ],
    ),
    (
        "shop/src/price.rs",
        [
            "pub struct Price(u32);\npub(super) fn tax(price: Price) -> Price { price }\n",
            "/* 🦀é */ pub struct Price; pub use crate::model::Item;\nuse crate::none;\n",
            "",
        ],
    ),
    (
        "shop/src/model.rs",
        [
            "use codec::prelude::*;\nuse crate::price::*;\npub enum Item { Book }\npub struct Order { price: Price }\n",
            "pub enum Item { Gift }\nuse self::Item::Book;\n",
            "pub use crate::report::report as Item;\n",
        ],
    ),
    (
        "shop/src/extra.rs",
        ["pub struct Extra;\n", "pub use crate::price::Price as Cost;\npub mod deep;\n", "codec::ids! { One Two }\n"],
    ),
    (
        "codec/src/lib.rs",
        [
            "pub mod prelude { pub use crate::Codec; }\npub struct Codec;\n",
            "#[macro_export] macro_rules! ids { ($($name:ident)*) => { $(pub struct $name;)* } }\npub mod prelude {}\n",
            "pub mod prelude { pub struct Item; }\nuse nothing::at_all;\n",
        ],
    ),
];

const MANIFEST: &str = "shop/Cargo.toml";

/// What is typed somewhere.
const PIECES: [&str; 10] =
    ["", "🦀", "\r\n", "\r", "{", "}", "use crate::price::Price;\n", "e\u{301}", "mod x;", "é::"];

/// The methods of requests; of some the server knows nothing.
const METHODS: [&str; 9] = [
    "textDocument/definition",
    "textDocument/hover",
    "textDocument/references",
    "textDocument/documentSymbol",
    "textDocument/completion",
    "textDocument/codeAction",
    "workspace/symbol",
    "textDocument/rename",
    "$/nothing",
];

/// A text edited as the protocol has it, by the numbers of UTF-16 alone.
fn edited(text: &str, range: [(u32, u32); 2], new: &str) -> String {
    let all: Vec<u16> = text.encode_utf16().collect();
    let [carriage, feed] = ['\r' as u16, '\n' as u16];
    let ends = |at: usize| all[at] == feed || all[at] == carriage && all.get(at + 1) != Some(&feed);
    let starts: Vec<usize> = std::iter::once(0).chain((0..all.len()).filter(|it| ends(*it)).map(|it| it + 1)).collect();
    let offset = |(line, character): (u32, u32)| {
        let Some(start) = starts.get(line as usize) else {
            return all.len();
        };
        let is_end = |it: &usize| *it == all.len() || all[*it] == feed || all[*it] == carriage;
        let end = (*start..=all.len()).find(is_end).unwrap();
        let at = end.min(start + character as usize);
        // Within a character counts as before it.
        let is_within = at > 0 && at < all.len() && (0xdc00..0xe000).contains(&all[at]);
        at - usize::from(is_within)
    };
    let (from, to) = (offset(range[0]), offset(range[1]));
    let whole = [&all[..from], &new.encode_utf16().collect::<Vec<_>>(), &all[to.max(from)..]].concat();
    String::from_utf16(&whole).unwrap()
}

fn uri(name: &str) -> String {
    format!("file://DIR/{name}")
}

/// What an editor and its disk have, and what it sends.
struct Editor<'a> {
    folder: &'a Path,
    dice: Dice,
    open: BTreeMap<&'static str, String>,
    sent: Vec<Value>,
    /// How many requests were sent.
    asked: usize,
}

impl Editor<'_> {
    fn notify(&mut self, method: &str, params: Value) {
        self.sent.push(message::notification(method, params));
    }

    fn file(&mut self) -> (&'static str, &'static str) {
        let (name, texts) = FILES[self.dice.below(FILES.len())];
        (name, texts[self.dice.below(texts.len())])
    }

    fn number(&mut self) -> u32 {
        match self.dice.below(12) {
            0 => u32::MAX,
            1 => 1000,
            _ => self.dice.below(30) as u32,
        }
    }

    fn place(&mut self) -> (u32, u32) {
        (self.number() / 5, self.number())
    }

    fn take(&mut self, name: &'static str, text: &str) {
        self.open.insert(name, text.to_owned());
        let document = json!({"uri": uri(name), "languageId": "rust", "version": 1, "text": text});
        self.notify("textDocument/didOpen", json!({"textDocument": document}));
    }

    fn close(&mut self, name: &'static str) {
        self.open.remove(name);
        self.notify("textDocument/didClose", json!({"textDocument": {"uri": uri(name)}}));
    }

    /// Some edits of a file, wherever they are, of which the editor tells at once.
    fn edit(&mut self, name: &'static str) {
        let mut changes = Vec::new();
        for _ in 0..=self.dice.below(3) {
            let (range, new) = ([self.place(), self.place()], PIECES[self.dice.below(PIECES.len())]);
            if let Some(text) = self.open.get_mut(name) {
                *text = edited(text, range, new);
            }
            let [start, end] = range.map(|it| json!({"line": it.0, "character": it.1}));
            changes.push(json!({"range": {"start": start, "end": end}, "text": new}));
        }
        let document = json!({"uri": uri(name), "version": null});
        self.notify("textDocument/didChange", json!({"textDocument": document, "contentChanges": changes}));
    }

    fn change_whole(&mut self, name: &'static str, text: &str) {
        self.open.insert(name, text.to_owned());
        let params = json!({"textDocument": {"uri": uri(name)}, "contentChanges": [{"text": text}]});
        self.notify("textDocument/didChange", params);
    }

    /// A file on the disk has this text, or isn't there.
    fn write(&mut self, name: &str, text: Option<&str>) {
        let path = self.folder.join(name);
        match text {
            Some(it) => std::fs::write(path, it).unwrap(),
            None => drop(std::fs::remove_file(path)),
        }
        let kind = if text.is_some() { 1 + self.dice.below(2) } else { 3 };
        self.notify(
            "workspace/didChangeWatchedFiles",
            json!({"changes": [{"uri": uri(name), "type": kind}, {"uri": uri("shop/src"), "type": 2}]}),
        );
    }

    fn save(&mut self, name: &'static str) {
        if let Some(text) = self.open.get(name).cloned() {
            self.write(name, Some(&text));
        }
        self.notify("textDocument/didSave", json!({"textDocument": {"uri": uri(name)}}));
    }

    /// A request, which may be cancelled at once.
    fn ask(&mut self) {
        let number = self.asked;
        self.asked += 1;
        let id = match self.dice.below(3) {
            0 => json!(number),
            1 => json!(-1 - number as i64),
            _ => json!(format!("a\u{301} {number}")),
        };
        let at = self.place();
        let at = json!({"line": at.0, "character": at.1});
        let document = json!({"uri": uri(self.file().0)});
        let params = json!({
            "textDocument": document, "position": at, "range": {"start": at, "end": at},
            "context": {"includeDeclaration": true}, "query": "pr",
        });
        let method = METHODS[self.dice.below(METHODS.len())];
        self.sent.push(json!({"jsonrpc": "2.0", "id": id, "method": method, "params": params}));
        if self.dice.below(4) == 0 {
            // Of an id in another form no request is cancelled.
            let other = json!(id.to_string());
            let id = if self.dice.below(3) == 0 { other } else { id };
            self.notify("$/cancelRequest", json!({"id": id}));
        }
    }

    fn act(&mut self) {
        let (name, text) = self.file();
        match self.dice.below(14) {
            0 | 1 => self.take(name, text),
            2 => self.close(name),
            3 | 4 => self.edit(name),
            5 if self.open.contains_key(name) => self.change_whole(name, text),
            6 => self.write(name, Some(text)),
            7 if name.starts_with("shop/src") && name != FILES[0].0 => self.write(name, None),
            8 => self.save(name),
            9 if self.dice.below(3) == 0 => {
                let text = std::fs::read_to_string(self.folder.join(MANIFEST)).unwrap();
                let mended = text.strip_prefix("damaged").map(str::to_owned);
                let text = mended.unwrap_or_else(|| format!("damaged{text}"));
                self.write(MANIFEST, Some(&text));
            }
            10 => self.sent.push(json!({"jsonrpc": "2.0", "id": "none", "result": null})),
            11 => self.notify("no/such", json!([1, {"a": null}])),
            _ => self.ask(),
        }
    }

    /// Has all texts be Rust's again, so that no file counts as it was before.
    fn mend(&mut self) {
        for name in self.open.keys().copied().collect::<Vec<_>>() {
            let text = FILES.iter().find(|it| it.0 == name).unwrap().1[self.dice.below(3)];
            self.change_whole(name, text);
        }
    }
}

/// A fresh server over the same files, with the same texts.
fn fresh(editor: &Editor) -> (tempfile::TempDir, Client) {
    let folder = tempfile::TempDir::new().unwrap();
    copy(editor.folder, folder.path());
    let mut client = Client::start(folder.path(), &[]);
    client.initialize();
    for (name, text) in &editor.open {
        client.open(name, text);
    }
    (folder, client)
}

#[test]
fn messages_in_any_order_beside_a_fresh_server() {
    let folder = market();
    let mut client = Client::start(folder.path(), &[]);
    client.initialize();
    let mut editor =
        Editor { folder: folder.path(), dice: Dice(46), open: BTreeMap::new(), sent: Vec::new(), asked: 0 };
    for round in 0..24 {
        let before = editor.asked;
        for _ in 0..20 {
            editor.act();
            // Some of them come alone, the others at once.
            if editor.dice.below(3) == 0 {
                let sent = std::mem::take(&mut editor.sent);
                editor.asked -= answered(&mut client, &sent);
            }
        }
        editor.mend();
        let sent = std::mem::take(&mut editor.sent);
        editor.asked -= answered(&mut client, &sent);
        assert_eq!(editor.asked, before, "round {round}: each request is answered once");
        let (_folder, mut fresh) = fresh(&editor);
        assert_eq!(client.published, fresh.published, "round {round}");
        for _ in 0..12 {
            let (name, place) = (editor.file().0, editor.place());
            let method = METHODS[editor.dice.below(5)];
            let made = client.at(method, name, place);
            assert_eq!(made, fresh.at(method, name, place), "round {round}: {method} at {place:?} of {name}");
        }
    }
    assert_eq!(client.end(), 1);
}

/// How many requests are answered when these messages are done. Nothing goes wrong.
fn answered(client: &mut Client, sent: &[Value]) -> usize {
    let made = client.exchange(sent);
    let is_wrong = |it: &&Value| it["params"]["message"].as_str().is_some_and(|it| it.contains("something went wrong"));
    assert!(!made.iter().any(|it| is_wrong(&it)), "{made:?}");
    made.iter().filter(|it| it.get("id").is_some() && it.get("method").is_none()).count()
}
