//! The language server as an editor calls it.

use std::collections::BTreeMap;
use std::io::{BufReader, Write};
use std::path::{Path, PathBuf};
use std::process::{Child, ChildStdin, Command, Stdio};
use std::sync::mpsc::{channel, Receiver};
use std::time::Duration;

use cargo_nogsimat::lsp::message::{self, Read};
use serde_json::{json, Value};

use super::own;

/// The resolver's program, which is there.
pub fn program() -> PathBuf {
    cargo_nogsimat::program::find(None).unwrap()
}

/// By then a server that says nothing has come to a halt, however slow the machine is.
const LONGEST: Duration = Duration::from_secs(1800);

/// A server, and what it sends.
pub struct Client {
    pub child: Child,
    pub input: Option<ChildStdin>,
    messages: Receiver<Value>,
    folder: String,
    next: u32,
    /// What was published last, by file, lists without diagnostics left out.
    pub published: BTreeMap<String, Value>,
}

impl Client {
    pub fn start(folder: &Path, words: &[&str]) -> Client {
        program();
        let mut child = Command::new(env!("CARGO_BIN_EXE_cargo-nogsimat"))
            .args(["nogsimat", "lsp", "--no-std"])
            .args(words)
            .stdin(Stdio::piped())
            .stdout(Stdio::piped())
            .spawn()
            .unwrap();
        let (send, messages) = channel();
        let mut output = BufReader::new(child.stdout.take().unwrap());
        std::thread::spawn(move || {
            while let Read::Message(it) = message::read(&mut output) {
                if send.send(it).is_err() {
                    return;
                }
            }
        });
        let folder = folder.canonicalize().unwrap().to_str().unwrap().to_owned();
        let input = child.stdin.take();
        Client { child, input, messages, folder, next: 0, published: BTreeMap::new() }
    }

    pub fn write(&mut self, bytes: &[u8]) {
        let input = self.input.as_mut().unwrap();
        input.write_all(bytes).unwrap();
        input.flush().unwrap();
    }

    pub fn receive(&mut self) -> Value {
        let made = self.messages.recv_timeout(LONGEST).expect("the server answers");
        if made["method"] == "textDocument/publishDiagnostics" {
            let uri = made["params"]["uri"].as_str().unwrap().replace(&self.folder, "DIR");
            let list = &made["params"]["diagnostics"];
            match list.as_array().unwrap().is_empty() {
                true => self.published.remove(&uri),
                false => self.published.insert(uri, self.steady(list)),
            };
        }
        made
    }

    pub fn send(&mut self, it: &Value) {
        self.send_all(std::slice::from_ref(it));
    }

    /// What comes up to the first message for which this holds.
    pub fn receive_to(&mut self, is_last: impl Fn(&Value) -> bool) -> Vec<Value> {
        let mut made = Vec::new();
        loop {
            made.push(self.receive());
            if made.last().is_some_and(&is_last) {
                return made;
            }
        }
    }

    /// Sends these at once.
    pub fn send_all(&mut self, sent: &[Value]) {
        let mut bytes = Vec::new();
        for it in sent {
            message::write(&mut bytes, &self.placed(it)).unwrap();
        }
        self.write(&bytes);
    }

    /// Sends these at once, and answers what comes until the server has done all of it.
    pub fn exchange(&mut self, sent: &[Value]) -> Vec<Value> {
        // What is told may come behind the answer of one request, and comes before that of the next.
        let ids = ["first", "last"].map(|it| json!(format!("{it}-{}", self.next)));
        self.next += 1;
        let last = |id: &Value| json!({"jsonrpc": "2.0", "id": id, "method": "textDocument/hover", "params": {}});
        self.send_all(&[sent, &[last(&ids[0]), last(&ids[1])]].concat());
        let mut made = self.receive_to(|it| it["id"] == ids[1]);
        made.retain(|it| !ids.contains(&it["id"]));
        self.steady_all(&made)
    }

    /// What of these is the same each time: not what is logged, which has sizes and times.
    pub fn steady_all(&self, all: &[Value]) -> Vec<Value> {
        all.iter().filter(|it| it["method"] != "window/logMessage").map(|it| self.steady(it)).collect()
    }

    pub fn notify(&mut self, method: &str, params: Value) -> Vec<Value> {
        self.exchange(&[message::notification(method, params)])
    }

    pub fn request(&mut self, method: &str, params: Value) -> Value {
        let made = self.exchange(&[json!({"jsonrpc": "2.0", "id": 0, "method": method, "params": params})]);
        made.into_iter().find(|it| it["id"] == 0).unwrap()["result"].clone()
    }

    pub fn initialize(&mut self) {
        let params = json!({"processId": null, "rootUri": "file://DIR", "capabilities": {}});
        self.request("initialize", params);
        self.notify("initialized", json!({}));
    }

    pub fn open(&mut self, name: &str, text: &str) {
        let document = json!({"uri": format!("file://DIR/{name}"), "languageId": "rust", "version": 1, "text": text});
        self.notify("textDocument/didOpen", json!({"textDocument": document}));
    }

    pub fn at(&mut self, method: &str, name: &str, place: (u32, u32)) -> Value {
        let position = json!({"line": place.0, "character": place.1});
        self.request(method, json!({"textDocument": {"uri": format!("file://DIR/{name}")}, "position": position}))
    }

    fn placed(&self, it: &Value) -> Value {
        serde_json::from_str(&it.to_string().replace("DIR", &self.folder)).unwrap()
    }

    fn steady(&self, it: &Value) -> Value {
        let text = it.to_string().replace(&self.folder, "DIR").replace(own("").to_str().unwrap(), "FRONT/");
        let mut made: Value = serde_json::from_str(&text).unwrap();
        // What Cargo says hangs on its version.
        let message = made["params"]["message"].as_str().filter(|it| it.contains("Cargo can't resolve"));
        if let Some((first, _)) = message.and_then(|it| it.split_once('\n')) {
            made["params"]["message"] = format!("{first} ..").into();
        }
        made
    }

    pub fn end(mut self) -> i32 {
        let mut bytes = Vec::new();
        message::write(&mut bytes, &message::notification("exit", Value::Null)).unwrap();
        self.write(&bytes);
        self.child.wait().unwrap().code().unwrap()
    }
}

impl Drop for Client {
    fn drop(&mut self) {
        self.input = None;
        let _ = self.child.kill();
        let _ = self.child.wait();
    }
}
