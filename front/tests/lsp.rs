//! The language server as an editor calls it.
//!
//! The files `lsp/*.jsonl` hold what is sent and what comes back, one JSON object a line: `send` and `receive` with a
//! message, `write` and `remove` with a file below the package's folder, `until` with the number of a request that has to
//! be answered before what follows is done, `say` for the reader. After each run of lines that do something comes what
//! the server sends until it has done all of that, or null where that is nothing; behind the rest the lists of diagnostics
//! that are others then. `DIR` stands for the package's folder.
//! `session.jsonl` is the recorded session of `lsp_edits.rs`. With the variable `UPDATE` set the files are written anew.

use std::collections::BTreeMap;
use std::path::{Path, PathBuf};
use std::process::Command;

use crate::common::client::{program, Client};
#[cfg(unix)]
use crate::common::write_script;
use crate::common::{market, own, server_on_path};
use cargo_nogsimat::lsp::message;
use cargo_nogsimat::lsp::text::Text;
use cargo_nogsimat::program::Program;
use serde_json::{json, Value};

/// What is told comes before an answer or behind it, as the server gets to it, and what is out of date by then may be left
/// out: behind the rest stand the lists that are others now than those in `told`, which are kept there.
fn settled(received: Vec<Value>, told: &mut BTreeMap<String, Value>) -> Vec<Value> {
    let is_list = |it: &Value| it["method"] == "textDocument/publishDiagnostics";
    let (lists, mut made): (Vec<Value>, Vec<Value>) = received.into_iter().partition(is_list);
    let uri = |it: &Value| it["params"]["uri"].as_str().unwrap().to_owned();
    let last: BTreeMap<String, Value> = lists.into_iter().map(|it| (uri(&it), it)).collect();
    for (uri, list) in last {
        let before = told.insert(uri, list["params"]["diagnostics"].clone()).unwrap_or(json!([]));
        if before != list["params"]["diagnostics"] {
            made.push(list);
        }
    }
    made
}

/// Runs the messages of a file; answers the status with which the server ends.
fn run(name: &str) -> i32 {
    let folder = market();
    let client = Client::start(folder.path(), &[]);
    run_with(name, folder.path(), client)
}

/// The same with a server that was started in a folder.
fn run_with(name: &str, folder: &Path, mut client: Client) -> i32 {
    let path = own("tests/lsp").join(name).with_extension("jsonl");
    let text = std::fs::read_to_string(&path).unwrap();
    let lines: Vec<Value> = text.lines().map(|it| serde_json::from_str(it).unwrap()).collect();
    let mut made = Vec::new();
    let mut block = Vec::new();
    let (mut received, mut told) = (Vec::new(), BTreeMap::new());
    let acts = |it: &Value| it.get("receive").is_none();
    for (at, line) in lines.iter().enumerate() {
        if !acts(line) {
            continue;
        }
        made.push(line.clone());
        if let Some(name) = line["write"].as_str() {
            let path = folder.join(name);
            std::fs::create_dir_all(path.parent().unwrap()).unwrap();
            std::fs::write(path, line["text"].as_str().unwrap()).unwrap();
        } else if let Some(name) = line["remove"].as_str() {
            std::fs::remove_file(folder.join(name)).unwrap();
        } else if let Some(it) = line.get("send") {
            block.push(it.clone());
        } else if let Some(id) = line.get("until") {
            client.send_all(&std::mem::take(&mut block));
            let all = client.receive_to(|it| it["id"] == *id);
            received.extend(client.steady_all(&all));
        }
        // A run of lines ends before what is received, or where the reader is told something.
        let is_last = lines.get(at + 1).map_or(true, |it| !acts(it) || it.get("say").is_some());
        if is_last && !(block.is_empty() && received.is_empty()) {
            received.extend(client.exchange(&std::mem::take(&mut block)));
            let received = settled(std::mem::take(&mut received), &mut told);
            if received.is_empty() {
                made.push(json!({"receive": null}));
            }
            made.extend(received.into_iter().map(|it| json!({"receive": it})));
        }
    }
    let written: String = made.iter().map(|it| format!("{it}\n")).collect();
    if std::env::var_os("UPDATE").is_some() {
        std::fs::write(&path, &written).unwrap();
    }
    for (number, (made, wanted)) in written.lines().zip(text.lines()).enumerate() {
        let wanted: Value = serde_json::from_str(wanted).unwrap();
        let made: Value = serde_json::from_str(made).unwrap();
        assert!(std::env::var_os("UPDATE").is_some() || made == wanted, "{name}, line {}: {made}", number + 1);
    }
    assert!(std::env::var_os("UPDATE").is_some() || written.lines().count() == text.lines().count(), "{written}");
    client.end()
}

#[test]
fn how_a_session_begins_and_ends() {
    assert_eq!(run("begin"), 0);
}

/// A program that begins when the file `gate` is in the folder.
#[cfg(unix)]
fn write_gated_program(folder: &Path) -> PathBuf {
    let script = folder.join("program");
    let wait = format!("until [ -e {} ]; do sleep 0.01; done", folder.join("gate").display());
    write_script(&script, &format!("#!/bin/sh\n{wait}\nexec {}\n", program().display()));
    script
}

#[cfg(unix)]
#[test]
fn cancelled_requests() {
    let folder = market();
    let script = write_gated_program(folder.path());
    let client = Client::start(folder.path(), &["--program", script.to_str().unwrap()]);
    assert_eq!(run_with("cancel", folder.path(), client), 1);
}

#[test]
fn messages_out_of_order() {
    assert_eq!(run("order"), 0);
}

#[test]
fn answers_at_places() {
    assert_eq!(run("answers"), 1);
}

#[test]
fn imports_that_nothing_names() {
    assert_eq!(run("actions"), 1);
}

#[test]
fn symbols_of_the_package() {
    assert_eq!(run("found_symbols"), 1);
}

/// Whether the program lists the names of modules.
fn lists_names() -> bool {
    let mut program = Program::start(&program()).unwrap();
    let ask = |it: &str| it.to_owned();
    program.ask(ask("{\"do\":\"crates\",\"crates\":[]}")).unwrap();
    program.ask(ask("{\"do\":\"names\",\"at\":[0]}")).unwrap()["error"] == "unknown place"
}

#[test]
fn names_that_may_stand_next() {
    if lists_names() {
        assert_eq!(run("completion"), 1);
    }
}

#[test]
fn imports_that_are_missing() {
    if lists_names() {
        assert_eq!(run("imports"), 1);
    }
}

/// What a path may begin with, by where it stands.
#[test]
fn first_names() {
    if !lists_names() {
        return;
    }
    let folder = market();
    let mut client = Client::start(folder.path(), &[]);
    client.initialize();
    let name = "shop/src/report.rs";
    client.open(name, "");
    let mut labels = |line: &str| -> Vec<String> {
        let text = format!("mod table;\nuse crate::price::{{tax, Price}};\n{}\n", line.replace('|', ""));
        let document = json!({"uri": format!("file://DIR/{name}"), "version": 2});
        let changes = json!([{"text": text}]);
        client.notify("textDocument/didChange", json!({"textDocument": document, "contentChanges": changes}));
        let made = client.at("textDocument/completion", name, (2, line.find('|').unwrap() as u32));
        made.as_array().unwrap().iter().map(|it| it["label"].as_str().unwrap().to_owned()).collect()
    };
    let mut check = |line: &str, first: &[&str], among: &[&str], none: &[&str]| {
        let made = labels(line);
        assert!(made.iter().zip(first).all(|(made, wanted)| made == wanted), "{line}: {made:?}");
        assert!(among.iter().all(|it| made.iter().any(|made| made == it)), "{line}: {made:?}");
        assert!(!none.iter().any(|it| made.iter().any(|made| made == it)), "{line}: {made:?}");
        let mut once = made.clone();
        once.sort();
        once.dedup();
        assert_eq!(once.len(), made.len(), "{line}: {made:?}");
    };
    let own = ["Price", "f", "table", "tax"];
    let of_std = ["Option", "Some", "Vec", "std", "codec", "crate", "self", "super"];
    check("fn f() { | }", &own, &of_std, &["Item", "Clone!", "println", "alloc", "shop"]);
    // Of the crate's macros one comes by an expansion.
    check("fn f() { | }", &own, &["u8", "println!", "ids!", "line_end!"], &["test!", "codecs!"]);
    check("use c|;", &["Price", "table", "tax"], &of_std, &["u8", "println!", "println", "ids!"]);
    check("#[derive(|)] struct S;", &["table"], &["Clone", "codec"], &["Price", "println", "ids", "u8"]);
    check("fn f() { |!(); }", &["table"], &["println", "ids", "codec"], &["Price", "Clone", "test"]);
    check("fn f() { ::| }", &["codec", "core", "std"], &[], &["Price", "crate", "table"]);
    check("fn f() { |::x; }", &["Price", "table"], &["Vec", "codec", "u8", "crate"], &["tax", "f", "println!"]);
    check("fn f() { use crate::model::Item; | }", &["Item", "Price", "f"], &of_std, &[]);
}

/// A program that doesn't list names: nothing is offered by them, and the rest is answered.
#[cfg(unix)]
#[test]
fn a_program_that_lists_no_names() {
    let folder = market();
    let script = folder.path().join("program");
    let text = format!("#!/bin/sh\nsed -u 's/{{\"do\":\"names\"/{{\"do\":\"none\"/' | {}\n", program().display());
    write_script(&script, &text);
    let mut client = Client::start(folder.path(), &["--program", script.to_str().unwrap()]);
    client.initialize();
    let name = "shop/src/report.rs";
    client.open(name, "use crate::price::{Price};\nfn f() { Order; }\n");
    assert_eq!(client.at("textDocument/completion", name, (0, 19)), json!([]));
    let place = json!({"line": 1, "character": 10});
    let params = json!({
        "textDocument": {"uri": format!("file://DIR/{name}")}, "range": {"start": place, "end": place}, "context": {},
    });
    assert_eq!(client.request("textDocument/codeAction", params), json!([]));
    assert_eq!(client.at("textDocument/definition", name, (0, 20))[0]["uri"], "file://DIR/shop/src/price.rs");
}

#[test]
fn edits_and_files() {
    assert_eq!(run("edits"), 1);
}

#[test]
fn packages_of_a_workspace() {
    assert_eq!(run("packages"), 1);
}

#[test]
fn a_package_without_a_target() {
    assert_eq!(run("no_target"), 1);
}

#[test]
fn manifests_that_are_damaged_and_mended() {
    assert_eq!(run("manifest"), 1);
}

#[test]
fn files_that_vanish() {
    assert_eq!(run("vanishing"), 1);
}

#[test]
fn ranges_outside_of_the_text() {
    assert_eq!(run("ranges"), 1);
}

#[test]
fn ids_and_methods_of_any_form() {
    assert_eq!(run("ids"), 1);
}

#[test]
fn text_outside_ascii() {
    assert_eq!(run("utf16"), 1);
}

/// While a package is opened the editor is shown how that goes, a cancelled request is answered, and the rest waits.
#[cfg(unix)]
#[test]
fn progress_while_a_package_is_opened() {
    let folder = market();
    let (script, gate) = (write_gated_program(folder.path()), folder.path().join("gate"));
    let ask = |id: &str, method: &str| {
        let params = json!({
            "textDocument": {"uri": "file://DIR/shop/src/model.rs"}, "position": {"line": 10, "character": 14},
        });
        json!({"jsonrpc": "2.0", "id": id, "method": method, "params": params})
    };
    let kind = |it: &Value| it["params"]["value"]["kind"].as_str().map(str::to_owned);
    for (takes, answer) in [
        (true, json!({"result": null})),
        (true, json!({"error": {"code": -32601, "message": "no"}})),
        (false, Value::Null),
    ] {
        let _ = std::fs::remove_file(&gate);
        let mut client = Client::start(folder.path(), &["--program", script.to_str().unwrap()]);
        let params = json!({"rootUri": "file://DIR", "capabilities": {"window": {"workDoneProgress": takes}}});
        client.request("initialize", params);
        client.send(&message::notification("initialized", json!({})));
        let is_shown = answer.get("result").is_some();
        let mut token = Value::Null;
        if takes {
            let asked = client.receive();
            assert_eq!(asked["method"], "window/workDoneProgress/create");
            token = asked["params"]["token"].clone();
            let mut answer = answer.clone();
            answer["id"] = asked["id"].clone();
            client.send(&answer);
        }
        client.send(&ask("one", "textDocument/definition"));
        client.send(&ask("two", "textDocument/hover"));
        client.send(&message::notification("$/cancelRequest", json!({"id": "one"})));
        let before = client.receive_to(|it| it["id"] == "one");
        assert_eq!(before.last().unwrap()["error"]["code"], message::REQUEST_CANCELLED);
        std::fs::write(&gate, "").unwrap();
        let mut after = client.receive_to(|it| it["id"] == "two");
        assert!(after.last().unwrap()["result"]["contents"]["value"]
            .as_str()
            .unwrap()
            .contains("`shop::price::Price`"));
        let is_list = |it: &Value| it["method"] == "textDocument/publishDiagnostics";
        if !after.iter().any(is_list) {
            after.extend(client.receive_to(is_list));
        }
        let all: Vec<&Value> = before.iter().chain(&after).collect();
        let told: Vec<String> = all.iter().filter_map(|it| kind(it)).collect();
        if !is_shown {
            assert!(told.is_empty(), "{told:?}");
            continue;
        }
        assert!(all.iter().filter(|it| kind(it).is_some()).all(|it| it["params"]["token"] == token), "{all:?}");
        assert_eq!(told.first().map(String::as_str), Some("begin"), "{told:?}");
        assert_eq!(told.last().map(String::as_str), Some("end"), "{told:?}");
        assert!(told.len() > 3 && told[1..told.len() - 1].iter().all(|it| it == "report"), "{told:?}");
        // The end comes before what was found.
        let place = |holds: &dyn Fn(&Value) -> bool| after.iter().position(holds).unwrap();
        let end = place(&|it| kind(it).as_deref() == Some("end"));
        assert!(end < place(&is_list), "{after:?}");
    }
}

/// A program that is killed is started again with the texts as they are; one that dies each time isn't.
#[cfg(unix)]
#[test]
fn a_program_that_dies() {
    let folder = market();
    let program = program();
    let script = folder.path().join("program");
    let write = |text: &str| write_script(&script, text);
    write(&format!("#!/bin/sh\necho $$ > {}/pid\nexec {}\n", folder.path().display(), program.display()));
    let mut client = Client::start(folder.path(), &["--program", script.to_str().unwrap()]);
    client.initialize();
    assert_eq!(client.published.len(), 1);
    let kill = || {
        let pid = std::fs::read_to_string(folder.path().join("pid")).unwrap();
        assert!(Command::new("kill").args(["-9", pid.trim()]).status().unwrap().success());
    };
    let name = "shop/src/price.rs";
    let text = std::fs::read_to_string(folder.path().join(name)).unwrap();
    client.open(name, &format!("{text}pub struct Rebate;\n"));
    assert!(client.published.is_empty(), "{:?}", client.published);
    kill();
    // `Rebate` is there by the editor's text alone.
    let changes = json!([{"text": format!("{text}pub struct Rebate;\nuse self::Missing;\n")}]);
    let document = json!({"uri": format!("file://DIR/{name}"), "version": 2});
    let told = client.notify("textDocument/didChange", json!({"textDocument": document, "contentChanges": changes}));
    assert_eq!(told[0]["method"], "window/showMessage", "{told:?}");
    assert!(told[0]["params"]["message"].as_str().unwrap().contains("started again"), "{told:?}");
    assert_eq!(client.published.keys().collect::<Vec<_>>(), ["file://DIR/shop/src/price.rs"]);
    kill();
    let made = client.at("textDocument/definition", "shop/src/report.rs", (5, 33));
    assert_eq!(made[0]["uri"], "file://DIR/shop/src/price.rs");
    // One that dies whenever it is started.
    write("#!/bin/sh\nexit 1\n");
    kill();
    let line = json!({"uri": "file://DIR/shop/src/report.rs"});
    let asked = json!({"jsonrpc": "2.0", "id": 7, "method": "textDocument/definition",
        "params": {"textDocument": line, "position": {"line": 5, "character": 33}}});
    let told = client.exchange(&[asked]);
    assert!(told.iter().any(|it| it["id"] == 7 && it["result"].is_null()), "{told:?}");
    let messages: Vec<&str> = told.iter().filter_map(|it| it["params"]["message"].as_str()).collect();
    assert!(messages.iter().any(|it| it.contains("a save tries again")), "{messages:?}");
    // A save.
    write(&format!("#!/bin/sh\nexec {}\n", program.display()));
    client.notify("textDocument/didSave", json!({"textDocument": {"uri": format!("file://DIR/{name}")}}));
    assert_eq!(client.published.keys().collect::<Vec<_>>(), ["file://DIR/shop/src/price.rs"]);
    assert_eq!(client.end(), 1);
}

/// A program that dies at the same question each time: the request is given up, and what comes behind it is answered.
#[cfg(unix)]
#[test]
fn a_request_at_which_the_program_dies() {
    let folder = market();
    let script = folder.path().join("program");
    let halts = "case $line in *crate::price::Fatal*) exit ;; esac";
    let passes = format!("while IFS= read -r line; do {halts}; printf '%s\\n' \"$line\"; done");
    write_script(&script, &format!("#!/bin/sh\n{passes} | {}\n", program().display()));
    let mut client = Client::start(folder.path(), &["--program", script.to_str().unwrap()]);
    client.initialize();
    let name = "shop/src/price.rs";
    let text = std::fs::read_to_string(folder.path().join(name)).unwrap();
    let before = client.published.clone();
    client.open(name, &format!("fn probe() {{ crate::price::Fatal; crate::price::Price; }}\n{text}"));
    let at = |character: u32| {
        let position = json!({"line": 0, "character": character});
        let document = json!({"uri": format!("file://DIR/{name}")});
        json!({"jsonrpc": "2.0", "id": character, "method": "textDocument/definition",
            "params": {"textDocument": document, "position": position}})
    };
    let told = client.exchange(&[at(30)]);
    let answers: Vec<&Value> = told.iter().filter(|it| it["id"] == 30).collect();
    assert!(answers.len() == 1 && answers[0]["result"].is_null(), "{told:?}");
    let messages: Vec<&str> = told.iter().filter_map(|it| it["params"]["message"].as_str()).collect();
    let count = |words: &str| messages.iter().filter(|it| it.contains(words)).count();
    assert_eq!((count("was started again"), count("isn't started again; a save")), (3, 1), "{messages:?}");
    // A save has it started, and other requests are answered.
    client.notify("textDocument/didSave", json!({"textDocument": {"uri": format!("file://DIR/{name}")}}));
    assert_eq!(client.published, before);
    let told = client.exchange(&[at(52)]);
    let answer = told.iter().find(|it| it["id"] == 52).unwrap();
    assert_eq!(answer["result"][0]["uri"], format!("file://DIR/{name}"), "{told:?}");
    assert_eq!(client.end(), 1);
}

/// Runs a script in Neovim without a screen, behind a configuration. None where Neovim isn't installed.
fn in_neovim(folder: &Path, configuration: &str, script: &str) -> Option<(String, String)> {
    let made = Command::new("nvim")
        .args(["--headless", "-u", configuration, "-i", "NONE", "-n", "-c"])
        .arg(format!("luafile {}", own(script).display()))
        .env("SERVER", env!("CARGO_BIN_EXE_cargo-nogsimat"))
        .env("PATH", server_on_path())
        .env("FOLDER", folder.canonicalize().unwrap())
        .env("XDG_STATE_HOME", folder.join("state"))
        .env("XDG_CACHE_HOME", folder.join("cache"))
        .output();
    let Ok(made) = made else {
        eprintln!("nvim isn't installed: not tried");
        return None;
    };
    let errors = String::from_utf8_lossy(&made.stderr).into_owned();
    let told = String::from_utf8_lossy(&made.stdout).replace('\r', "");
    assert!(made.status.success(), "{told}{errors}");
    Some((told, errors))
}

/// An editor at work.
#[test]
fn neovim() {
    let folder = market();
    let Some((told, errors)) = in_neovim(folder.path(), "NONE", "tests/lsp/neovim.lua") else {
        return;
    };
    let path = own("tests/lsp/neovim.txt");
    if std::env::var_os("UPDATE").is_some() {
        std::fs::write(&path, &*told).unwrap();
    }
    assert_eq!(told, std::fs::read_to_string(&path).unwrap_or_default(), "{errors}");
}

/// A file with the lines of the readme for Neovim 0.7, which newer ones still take.
fn configuration(folder: &Path) -> PathBuf {
    let readme = std::fs::read_to_string(own("README.md")).unwrap();
    let (_, behind) = readme.split_once("```lua\n").unwrap();
    let (lines, _) = behind.split_once("```").unwrap();
    let path = folder.join("init.lua");
    std::fs::write(&path, lines).unwrap();
    path
}

#[test]
fn neovim_with_the_configuration_of_the_readme() {
    let folder = market();
    let configuration = configuration(folder.path());
    let made = in_neovim(folder.path(), configuration.to_str().unwrap(), "tests/lsp/configured.lua");
    if let Some((told, errors)) = made {
        assert_eq!(told, "client: nogsimat\ndiagnostics: 1\ngd: price.rs:2\n", "{errors}");
    }
}

/// Names that Neovim's keys for it complete, with the configuration of the readme.
#[test]
fn completion_in_neovim() {
    if !lists_names() {
        return;
    }
    let folder = market();
    let configuration = configuration(folder.path());
    let made = in_neovim(folder.path(), configuration.to_str().unwrap(), "tests/lsp/completes.lua");
    if let Some((told, errors)) = made {
        let wanted = "fn f(price: u8) { Price::: of total; fn f(price: u8) { Price::of\n\
                      fn g(cents: u8) { cen: cents; fn g(cents: u8) { cents\n\
                      use crate::price::: Price tax; use crate::price::Price\n\
                      use crate::model::Ord: Order OrderId; use crate::model::Order\n\
                      fn f() { table::row(crate::model::Item::: Book Gift; fn f() { table::row(crate::model::Item::Book\n";
        assert_eq!(told, wanted, "{errors}");
    }
}

/// Documents that are there, that aren't, and what is none; the first has this name.
fn documents(uri: &str) -> [Value; 12] {
    [
        json!({"uri": uri}),
        json!({"uri": "file://DIR/shop"}),
        json!({"uri": "file://DIR/no/such.rs"}),
        json!({"uri": "file:///dev/zero"}),
        json!({"uri": "file:///dev/stdin"}),
        json!({"uri": "file://DIR/%00.rs"}),
        json!({"uri": format!("file://DIR/{}", "a/".repeat(3000))}),
        json!({"uri": "untitled:one"}),
        json!({"uri": "file://%ff"}),
        json!({"uri": 1}),
        json!(null),
        json!([]),
    ]
}

/// The first place of a text, those behind its end, and what is none.
fn positions() -> [Value; 8] {
    [
        json!({"line": 0, "character": 0}),
        json!({"line": u64::MAX, "character": u64::MAX}),
        json!({"line": 4_294_967_296u64, "character": 1}),
        json!({"line": -1, "character": 0}),
        json!({"line": 1.5, "character": "x"}),
        json!({"line": 1}),
        json!("x"),
        json!(null),
    ]
}

/// Requests and notes whose parameters are none: each request is answered, and what comes behind it as well.
#[test]
fn parameters_without_sense() {
    let folder = market();
    let mut client = Client::start(folder.path(), &[]);
    client.initialize();
    let name = "shop/src/price.rs";
    let text = std::fs::read_to_string(folder.path().join(name)).unwrap();
    client.open(name, &text);
    let uri = format!("file://DIR/{name}");
    let methods = ["definition", "hover", "references", "documentSymbol", "completion"];
    let methods = methods.map(|it| format!("textDocument/{it}"));
    let documents = documents(&uri);
    let positions = positions();
    let mut sent = Vec::new();
    for (method, (document, position)) in methods.iter().flat_map(|it| {
        documents.iter().flat_map(|one| positions.iter().map(move |two| (one, two))).map(move |both| (it, both))
    }) {
        let params = json!({"textDocument": document, "position": position, "context": 1});
        sent.push(json!({"jsonrpc": "2.0", "id": sent.len(), "method": method, "params": params}));
    }
    for params in [json!(null), json!([]), json!("x"), json!([{"textDocument": {"uri": uri}}])] {
        sent.extend(methods.iter().map(|it| json!({"jsonrpc": "2.0", "id": "more", "method": it, "params": params})));
    }
    sent.push(json!({"jsonrpc": "2.0", "id": {"a": [1.5]}, "method": "no/such"}));
    sent.push(json!({"jsonrpc": "2.0", "id": null, "method": "initialize", "params": []}));
    let made = client.exchange(&sent);
    let answers = made
        .iter()
        .filter(|it| it.get("id").is_some() && (it.get("result").is_some() || it["error"]["message"].is_string()));
    assert_eq!(answers.count(), sent.len());
    assert!(made.iter().all(|it| it["method"] != "window/showMessage"), "{made:?}");
    // Edits of what isn't there, outside of the text, or from behind to before.
    let edit = |document: Value, changes: Value| {
        message::notification("textDocument/didChange", json!({"textDocument": document, "contentChanges": changes}))
    };
    let range = |from: Value, to: Value| json!({"start": from, "end": to});
    let (first, far) = (positions[0].clone(), positions[1].clone());
    let document = documents[0].clone();
    let told = client.exchange(&[
        edit(documents[2].clone(), json!([{"text": "x"}])),
        edit(json!({"uri": 1}), json!([{"text": "x"}])),
        edit(document.clone(), json!([{"text": 1}, {"range": 1, "text": [1]}, 7, null])),
        edit(document.clone(), json!({"text": "x"})),
        edit(document.clone(), json!([{"range": range(first.clone(), positions[3].clone()), "text": "x"}])),
        edit(document.clone(), json!([{"range": range(far.clone(), first.clone()), "text": "// end"}])),
        message::notification("textDocument/didOpen", json!({"textDocument": {"uri": uri}})),
        message::notification("textDocument/didClose", json!({"textDocument": documents[2]})),
        message::notification("textDocument/didSave", json!(null)),
        message::notification("workspace/didChangeWatchedFiles", json!({"changes": [1, {"uri": "x"}, {"uri": uri}]})),
        message::notification("$/cancelRequest", json!([])),
        message::notification("$/setTrace", json!(1)),
    ]);
    assert!(told.iter().all(|it| it["method"] != "window/showMessage"), "{told:?}");
    let place = Text::new(text.clone()).place(text.find("Price(u32)").unwrap());
    let made = client.at("textDocument/definition", name, place);
    assert_eq!(made[0]["uri"], "file://DIR/shop/src/price.rs", "{made}");
    assert_eq!(client.end(), 1);
}

/// Contents that are no message are told, and what comes behind them is answered.
#[test]
fn messages_that_are_none() {
    let folder = market();
    let mut client = Client::start(folder.path(), &[]);
    let framed = |it: &[u8]| [format!("Content-Length: {}\r\n\r\n", it.len()).as_bytes(), it].concat();
    let deep = format!("{{\"id\":1,\"method\":\"x\",\"params\":{}{}}}", "[".repeat(9000), "]".repeat(9000));
    for it in ["{,}", "", "\0\0", "{} {}", "{\"a\":\"\\ud800\"}", "{\"id\":1e999}", "\u{feff}{}", &deep] {
        client.write(&framed(it.as_bytes()));
        assert_eq!(client.receive()["error"]["code"], message::PARSE_ERROR, "{:.20}", it);
    }
    client.write(&framed(b"{\"a\":\"\xff\"}"));
    assert_eq!(client.receive()["error"]["code"], message::PARSE_ERROR);
    for it in ["[]", "{}", "1", "null", "\"x\"", "[{\"id\":1,\"method\":\"shutdown\"}]", "{\"id\":1,\"method\":7}"] {
        client.write(&framed(it.as_bytes()));
        assert_eq!(client.receive()["error"]["code"], message::INVALID_REQUEST, "{it}");
    }
    // Of a head the last length counts.
    client.write(b"\r\nX: y\r\n:\r\n\r\ncontent-LENGTH:99\nContent-Length: 2\r\n\r\n[]");
    assert_eq!(client.receive()["error"]["code"], message::INVALID_REQUEST);
    client.initialize();
    client.input = None;
    assert_eq!(client.child.wait().unwrap().code(), Some(1));
}

/// Texts that are deep, long, or no Rust: what is asked in them is answered, and the rest of the package as before.
#[test]
fn texts_without_sense() {
    let pairs = |open: &str, count: usize, close: &str| format!("{}{}", open.repeat(count), close.repeat(count));
    let texts = [
        String::new(),
        "\0".repeat(100),
        "(".repeat(5000),
        ")".repeat(5000),
        pairs("{", 5000, "}"),
        pairs("mod a { ", 300, "}"),
        format!("type A = {};", pairs("Vec<", 1000, ">")),
        format!("fn f() {{ {} }}", "x;".repeat(5000)),
        format!("fn f() {{ {}1 }}", "|x| ".repeat(1000)),
        format!("fn f() {{ {} }}", pairs("{ use a::b; ", 200, "}")),
        format!("use {};", pairs("{a::", 400, "}")),
        format!("use {}b;", "a::".repeat(1000)),
        (0..100).map(|it| format!("use crate::x{it}::{{self as y{it}, *}};\n")).collect(),
        format!("{}struct S;", "#[a]".repeat(1000)),
        format!("#[cfg({}a{})] struct S;", "not(".repeat(400), ")".repeat(400)),
        "\n".repeat(10_000),
        "\r".repeat(10_000),
        "🦀".repeat(5000),
        "\u{feff}\u{feff}use crate::\u{202e}model\u{202c}::Item;\u{2028}\u{85}use a\u{301};".to_owned(),
        "r#\"".repeat(1000),
        "/*".repeat(5000),
        "#!".repeat(5000),
        "'".repeat(5000),
        format!("struct {};", "a".repeat(20_000)),
        "#[path = \"price.rs\"] mod a; include!(\"price.rs\"); include!(\"/dev/zero\"); include!(\".\");".to_owned(),
        "macro_rules! m { ($($x:tt)*) => { $($x)* m!($($x)* $($x)*); } } m!(a);".to_owned(),
    ];
    let folder = market();
    let mut client = Client::start(folder.path(), &[]);
    client.initialize();
    let uri = "file://DIR/shop/src/price.rs";
    let document = json!({"uri": uri});
    for text in texts {
        let shown: String = text.chars().take(20).collect();
        let opened = json!({"uri": uri, "languageId": "rust", "version": 1, "text": text});
        let mut sent = vec![message::notification("textDocument/didOpen", json!({"textDocument": opened}))];
        for (line, character) in [(0, 9), (u32::MAX, u32::MAX)] {
            let at = json!({"line": line, "character": character});
            for it in ["definition", "hover", "references", "documentSymbol", "completion", "codeAction"] {
                let params = json!({"textDocument": document, "position": at, "range": {"start": at, "end": at}});
                let method = format!("textDocument/{it}");
                sent.push(json!({"jsonrpc": "2.0", "id": sent.len(), "method": method, "params": params}));
            }
        }
        let count = sent.len() - 1;
        sent.push(message::notification("textDocument/didClose", json!({"textDocument": document})));
        let made = client.exchange(&sent);
        assert_eq!(made.iter().filter(|it| it.get("result").is_some()).count(), count, "{shown}");
        assert!(made.iter().all(|it| it["method"] != "window/showMessage"), "{shown}");
        assert_eq!(client.published.len(), 1, "{shown}: {:?}", client.published.keys());
    }
    let made = client.at("textDocument/definition", "shop/src/report.rs", (5, 26));
    assert_eq!(made[0]["uri"], uri);
    assert_eq!(client.end(), 1);
}
