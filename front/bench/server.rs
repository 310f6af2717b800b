//! The language server, as an editor drives it.

use std::io::BufReader;
use std::path::Path;
use std::process::{Child, ChildStdin, ChildStdout, Command, Stdio};
use std::time::Instant;

use anyhow::{bail, Context as _, Result};
use cargo_nogsimat::lsp::message::{self, Read};
use serde_json::{json, Value};

use crate::{file, processor_of, told, Cli, TABLE};

struct Server {
    child: Child,
    input: ChildStdin,
    output: BufReader<ChildStdout>,
    next: u32,
}

impl Server {
    fn start(cli: &Cli) -> Result<Server> {
        let mut command = Command::new(std::env::current_exe()?.with_file_name("cargo-nogsimat"));
        command.args(["nogsimat", "lsp"]);
        match &cli.std_sources {
            Some(it) => command.arg("--std-sources").arg(it),
            None => command.arg("--no-std"),
        };
        command.args(&cli.options);
        let mut child = command.stdin(Stdio::piped()).stdout(Stdio::piped()).spawn().context("the server starts")?;
        let input = child.stdin.take().context("its input is a pipe")?;
        let output = BufReader::new(child.stdout.take().context("its output is a pipe")?);
        Ok(Server { child, input, output, next: 0 })
    }

    fn notify(&mut self, method: &str, params: Value) -> Result<()> {
        Ok(message::write(&mut self.input, &message::notification(method, params))?)
    }

    /// The result of a request, which comes behind all that the server was sent before.
    fn ask(&mut self, method: &str, params: Value) -> Result<Value> {
        self.next += 1;
        let id = self.next;
        message::write(&mut self.input, &json!({"jsonrpc": "2.0", "id": id, "method": method, "params": params}))?;
        loop {
            match message::read(&mut self.output) {
                Read::Message(mut it) if it["id"] == id => return Ok(it["result"].take()),
                Read::Message(_) => {}
                _ => bail!("the server ends"),
            }
        }
    }

    /// Waits until what was sent is handed in, and what is told of it is published.
    fn settle(&mut self) -> Result<()> {
        (0..2).try_for_each(|_| self.ask("textDocument/hover", json!({})).map(drop))
    }

    /// Waits until diagnostics are published.
    fn published(&mut self) -> Result<()> {
        loop {
            match message::read(&mut self.output) {
                Read::Message(it) if it["method"] == "textDocument/publishDiagnostics" => return Ok(()),
                Read::Message(_) => {}
                _ => bail!("the server ends"),
            }
        }
    }

    /// The processes that it has started, the resolver's program among them, where Linux tells them.
    fn children(&self) -> Vec<u32> {
        let threads = std::fs::read_dir(format!("/proc/{}/task", self.child.id())).into_iter().flatten().flatten();
        let lists = threads.filter_map(|it| std::fs::read_to_string(it.path().join("children")).ok());
        lists.flat_map(|it| it.split_whitespace().filter_map(|it| it.parse().ok()).collect::<Vec<u32>>()).collect()
    }
}

/// An item, and a line that looks it up. Both have a number for `#`.
struct LookedUp {
    what: &'static str,
    looking: &'static str,
    item: &'static str,
}

const LOOKED_UP: [LookedUp; 6] = [
    LookedUp { what: "an import", looking: "use self::wanted_# as Wanted#;\n", item: "fn wanted_#() {}\n" },
    LookedUp { what: "a macro call", looking: "self::called_#!();\n", item: "fn called_#() {}\n" },
    LookedUp { what: "an attribute", looking: "#[self::marked_#] struct Marked#;\n", item: "fn marked_#() {}\n" },
    LookedUp { what: "a derive", looking: "#[derive(self::Derived#)] struct Of#;\n", item: "trait Derived# {}\n" },
    LookedUp { what: "a longer import", looking: "use self::Kind#::One as One#;\n", item: "enum Kind# { One }\n" },
    LookedUp { what: "a call's longer path", looking: "self::Holder#::called!();\n", item: "struct Holder#;\n" },
];

fn numbered(text: &str, number: usize) -> String {
    text.replace("#[", "\0").replace('#', &number.to_string()).replace('\0', "#[")
}

/// The most memory that a process has had, in megabytes.
fn memory_of(process: u32) -> u64 {
    let text = std::fs::read_to_string(format!("/proc/{process}/status")).unwrap_or_default();
    let line = text.lines().find_map(|it| it.strip_prefix("VmHWM:"));
    line.and_then(|it| it.split_whitespace().next()?.parse::<u64>().ok()).unwrap_or_default() / 1024
}

/// A server with a file that is open in it.
struct Opened<'a> {
    cli: &'a Cli,
    server: Server,
    uri: String,
    /// The text that was opened.
    text: String,
    /// The server, and the program.
    processes: [u32; 2],
}

impl Opened<'_> {
    fn open<'a>(cli: &'a Cli, path: &Path, text: String) -> Result<Opened<'a>> {
        let mut server = Server::start(cli)?;
        let uri = format!("file://{}", path.display());
        let root = format!("file://{}", cli.folder.canonicalize()?.display());
        server.ask("initialize", json!({"processId": null, "rootUri": root, "capabilities": {}}))?;
        server.notify("initialized", json!({}))?;
        let document = json!({"uri": uri, "languageId": "rust", "version": 1, "text": text});
        server.notify("textDocument/didOpen", json!({"textDocument": document}))?;
        // A request without a place, so that its answer takes no time of its own.
        server.settle()?;
        let program = server.children().first().copied().unwrap_or_default();
        let processes = [server.child.id(), program];
        Ok(Opened { cli, server, uri, text, processes })
    }

    /// Edits the file time and again. `change` is the edit of each number.
    fn edits(&mut self, what: &str, change: &dyn Fn(usize) -> Value) -> Result<()> {
        let mut times = Vec::new();
        let before = self.processes.map(processor_of);
        for it in 0..self.cli.edits {
            let change = json!({"textDocument": {"uri": self.uri, "version": it + 2}, "contentChanges": [change(it)]});
            let start = Instant::now();
            self.server.notify("textDocument/didChange", change)?;
            self.server.ask("textDocument/hover", json!({}))?;
            times.push(start.elapsed().as_secs_f64() * 1000.0);
            // What is told of the edit comes before the next answer.
            self.server.ask("textDocument/hover", json!({}))?;
        }
        let after = self.processes.map(processor_of);
        told(what, times, [after[0] - before[0], after[1] - before[1]]);
        Ok(())
    }

    fn change(&mut self, from: Value, to: Value, text: &str) -> Result<()> {
        let change = json!({"range": {"start": from, "end": to}, "text": text});
        let document = json!({"uri": self.uri, "version": 1});
        self.server.notify("textDocument/didChange", json!({"textDocument": document, "contentChanges": [change]}))
    }

    /// Puts lines in at a place above an import of nothing, and waits each time until that is published where it is then.
    fn published(&mut self, what: &str, place: &Value, text: &dyn Fn(usize) -> String) -> Result<()> {
        let mut times = Vec::new();
        let before = self.processes.map(processor_of);
        for it in 0..self.cli.edits {
            let start = Instant::now();
            self.change(place.clone(), place.clone(), &text(it))?;
            self.server.published()?;
            times.push(start.elapsed().as_secs_f64() * 1000.0);
        }
        let after = self.processes.map(processor_of);
        told(what, times, [after[0] - before[0], after[1] - before[1]]);
        self.server.settle()?;
        Ok(())
    }

    /// Adds items above what looks them up, one after the other, and waits each time until that is published.
    fn looked_up(&mut self, place: &Value, it: &LookedUp) -> Result<()> {
        let lines = |text: &str| (0..self.cli.edits).map(|at| numbered(text, at)).collect::<Vec<String>>();
        let (looking, items) = (lines(it.looking), lines(it.item));
        self.change(place.clone(), place.clone(), &looking.concat())?;
        self.server.settle()?;
        let (mut times, mut of_processor) = (Vec::new(), [0.0; 2]);
        for item in &items {
            let before = self.processes.map(processor_of);
            let start = Instant::now();
            self.change(place.clone(), place.clone(), item)?;
            self.server.published()?;
            times.push(start.elapsed().as_secs_f64() * 1000.0);
            let after = self.processes.map(processor_of);
            (0..2).for_each(|it| of_processor[it] += after[it] - before[it]);
            // What waits is handed in, so that each edit is one of what the program has.
            self.server.settle()?;
        }
        told(&format!("an item is added that {} looks up, published", it.what), times, of_processor);
        let end = place["line"].as_u64().unwrap_or_default() + (looking.len() + items.len()) as u64;
        self.change(place.clone(), json!({"line": end, "character": 0}), "")?;
        self.server.settle()
    }

    /// Adds an item of each kind above an import of nothing.
    fn added(&mut self, place: &Value) -> Result<()> {
        self.published("an item is added that nothing names, published", place, &|it| {
            format!("fn told_{it}() {{}}\n")
        })?;
        LOOKED_UP.iter().try_for_each(|it| self.looked_up(place, it))
    }

    /// Adds the import at a place above one of nothing, and takes it away again.
    fn added_and_taken_away(&mut self, place: &Value) -> Result<()> {
        let next = json!({"line": place["line"].as_u64().unwrap_or_default() + 1, "character": 0});
        let import = format!("{}\n", self.cli.import);
        let edits = [("added", place, &*import), ("taken away", &next, "")];
        let mut times = [Vec::new(), Vec::new()];
        let mut of_processor = [[0.0; 2]; 2];
        for _ in 0..self.cli.edits {
            for (at, (_, end, text)) in edits.iter().enumerate() {
                let before = self.processes.map(processor_of);
                let start = Instant::now();
                self.change(place.clone(), (*end).clone(), text)?;
                self.server.published()?;
                times[at].push(start.elapsed().as_secs_f64() * 1000.0);
                // What waits is handed in, so that each edit is one of what the program has.
                self.server.settle()?;
                let after = self.processes.map(processor_of);
                (0..2).for_each(|it| of_processor[at][it] += after[it] - before[it]);
            }
        }
        for ((what, ..), (times, of_processor)) in edits.into_iter().zip(times.into_iter().zip(of_processor)) {
            told(&format!("an import is {what}, published (processor: and handed in)"), times, of_processor);
        }
        Ok(())
    }

    /// The most memory of both. Ends the server.
    fn end(self) -> Result<()> {
        let [own, program] = self.processes.map(memory_of);
        println!("at most {own} MB, the program {program} MB");
        let mut server = self.server;
        server.ask("shutdown", Value::Null)?;
        server.notify("exit", Value::Null)?;
        server.child.wait()?;
        Ok(())
    }

    /// Types a word behind a path in a body at the end of the file, and asks each time what it may become.
    fn completions(&mut self, what: &str, path: &str) -> Result<()> {
        let line = self.text.lines().count() + self.cli.edits;
        let place = |character: usize| json!({"line": line, "character": character});
        let before = format!("fn typed() {{ {path}");
        self.change(place(0), place(0), &format!("{before} }}\n"))?;
        self.server.settle()?;
        let (mut times, mut count) = (Vec::new(), 0);
        let of_processor = self.processes.map(processor_of);
        for it in 0..self.cli.edits {
            let start = Instant::now();
            self.change(place(before.len() + it), place(before.len() + it), "x")?;
            let params = json!({"textDocument": {"uri": self.uri}, "position": place(before.len() + it + 1)});
            count = self.server.ask("textDocument/completion", params)?.as_array().map_or(0, Vec::len);
            times.push(start.elapsed().as_secs_f64() * 1000.0);
        }
        let after = self.processes.map(processor_of);
        told(&format!("{what}: {count} names"), times, [after[0] - of_processor[0], after[1] - of_processor[1]]);
        self.change(place(0), json!({"line": line + 1, "character": 0}), "")
    }
}

pub fn measure(cli: &Cli, path: &Path) -> Result<()> {
    let start = Instant::now();
    let mut opened = Opened::open(cli, path, file(3, 0, 0))?;
    println!("opened in {:.2} s", start.elapsed().as_secs_f64());
    println!("{TABLE}");
    const BEFORE: &str = "self.second.get(at + ";
    let text = opened.text.clone();
    let mut bodies = text.lines().enumerate().filter_map(|(line, it)| Some((line, it.find(BEFORE)? + BEFORE.len())));
    let (line, column) = bodies.nth(60).context("the file has the body of a function")?;
    opened.edits("the body of a function", &|it| {
        let width = if it == 0 { 1 } else { it.to_string().len() };
        let place = |character: usize| json!({"line": line, "character": character});
        json!({"range": {"start": place(column), "end": place(column + width)}, "text": (it + 1).to_string()})
    })?;
    let end = json!({"line": text.lines().count(), "character": 0});
    opened.edits(
        "an item is added",
        &|it| json!({"range": {"start": end, "end": end}, "text": format!("pub fn added_{it}() {{}}\n")}),
    )?;
    opened.completions("a name is completed", "")?;
    opened.completions("behind a type of the package", "Item0In3::")?;
    opened.completions("behind a type of the standard library", "Vec::")?;
    let place = |line: usize| json!({"line": line, "character": 0});
    let last = place(text.lines().count() + cli.edits);
    opened.change(last.clone(), last.clone(), "use crate::nothing;\n")?;
    opened.server.published()?;
    opened.published("a line in a body, published", &place(line), &|_| "\n".to_owned())?;
    let last = place(text.lines().count() + 2 * cli.edits);
    opened.added(&last)?;
    opened.published("an import is added, published", &last, &|it| format!("use self::Item{it}In3 as Told{it};\n"))?;
    opened.end()
}

/// Measures edits of a file of a package that is there.
pub fn measure_file(cli: &Cli, path: &Path) -> Result<()> {
    let start = Instant::now();
    let mut opened = Opened::open(cli, path, std::fs::read_to_string(path)?)?;
    println!("opened in {:.2} s", start.elapsed().as_secs_f64());
    println!("{TABLE}");
    let end = json!({"line": opened.text.lines().count(), "character": 0});
    opened.change(end.clone(), end.clone(), "use crate::nothing_of_this_name;\n")?;
    opened.server.published()?;
    opened.published("a line, published", &end, &|_| "\n".to_owned())?;
    opened.added(&end)?;
    opened.edits(
        "an item is added, to the answer of a request",
        &|it| json!({"range": {"start": end, "end": end}, "text": format!("pub fn added_{it}() {{}}\n")}),
    )?;
    opened.added_and_taken_away(&end)?;
    let import = |it: usize| format!("{}\n", cli.import.replace(';', &format!(" as Told{it};")));
    opened.edits(
        "an import is added, to the answer of a request",
        &|it| json!({"range": {"start": end, "end": end}, "text": import(it)}),
    )?;
    opened.end()
}
