//! Blocks as a program is handed them, and what is asked in them. A script stands for a program that takes blocks:
//! `blocks/program.sh`.
#![cfg(unix)]

use std::path::{Path, PathBuf};

use crate::common::{own, package, write_script, Dice};
use cargo_nogsimat::lsp::{self, message};
use cargo_nogsimat::package::Wanted;
use cargo_nogsimat::program;
use cargo_nogsimat::token::Position;
use cargo_nogsimat::unit::place_json;
use cargo_nogsimat::workspace::{key_of, Workspace};
use serde_json::{json, Value};
use tempfile::TempDir;

/// A package of one file, and the scripts beside it.
struct Package {
    folder: TempDir,
    root: PathBuf,
}

impl Package {
    fn new(text: &str) -> Package {
        let folder = package(&[("src/lib.rs", text)]);
        let root = folder.path().canonicalize().unwrap();
        Package { folder, root }
    }

    fn file(&self) -> PathBuf {
        self.root.join("src/lib.rs")
    }

    fn script(&self, text: &str) -> PathBuf {
        let path = self.folder.path().join("program");
        write_script(&path, &format!("#!/bin/sh\nfolder={}\n{text}\n", self.root.display()));
        path
    }

    /// A session with a program that takes blocks.
    fn open(&self) -> Workspace {
        let fake = own("tests/blocks/program.sh");
        self.open_with(&self.script(&format!(". {}", fake.display())))
    }

    fn open_with(&self, program: &Path) -> Workspace {
        crate::common::open_with(&self.root, program)
    }

    /// The commands of these words that were given since the last call.
    fn given(&self, words: &[&str]) -> Vec<Value> {
        let text = std::fs::read_to_string(self.root.join("log")).unwrap();
        std::fs::write(self.root.join("log"), "").unwrap();
        let lines = text.lines().map(|it| serde_json::from_str::<Value>(it).unwrap());
        lines.filter(|it| words.contains(&it["do"].as_str().unwrap())).collect()
    }

    /// Which blocks were set and removed, each by the names of its items.
    fn told(&self) -> Vec<String> {
        let names = |unit: &Value| -> String {
            let nodes = unit["nodes"].as_array().into_iter().flatten();
            let all = nodes.map(|it| it["name"].as_str().or(it["kind"].as_str()).unwrap().to_owned());
            all.collect::<Vec<_>>().join(" ")
        };
        let all = self.given(&["set block", "remove block"]);
        let told = all.iter().map(|it| if it["do"] == "set block" { names(&it["unit"]) } else { "removed".to_owned() });
        let mut told: Vec<String> = told.collect();
        told.sort();
        told
    }
}

fn number_of(space: &Workspace) -> u32 {
    space.crates.all.iter().position(|it| it.is_asked).unwrap() as u32
}

const TEXT: &str = "\
pub struct Outer;
fn f() {
    struct Inner;
    {
        use self::Outer as Alias;
        Alias;
    }
    Inner;
}
mod m {
    fn g() { enum E { A } E::A; }
    fn h() { 1; }
}
";

#[test]
fn nothing_is_handed_in_where_the_program_takes_no_blocks() {
    let package = Package::new(TEXT);
    // The commands that come in are kept.
    let program = program::find(None).unwrap();
    let space =
        package.open_with(&package.script(&crate::common::logged("\"$folder/log\"", &program.to_string_lossy())));
    let krate = number_of(&space);
    let given = package.given(&["set block", "remove block"]);
    let takes_blocks =
        space.block_at(krate, &key_of(&package.file()).unwrap(), Position { line: 3, column: 9 }).is_some();
    if !takes_blocks {
        let asked = json!({"do": "set block", "at": [space.crates.all.len(), {"block": [0, 0]}], "unit": {}});
        assert_eq!(given, [asked]);
    }
}

#[test]
fn each_block_is_handed_in_at_its_place() {
    let package = Package::new(TEXT);
    let space = package.open();
    let krate = number_of(&space);
    let mut given = package.given(&["set block"]);
    // Whether the program takes blocks.
    assert_eq!(given.remove(0)["at"][0], space.crates.all.len());
    let mut shown: Vec<String> = given
        .iter()
        .map(|it| {
            let place = it["at"].as_array().unwrap().iter().map(|it| match it {
                Value::Object(_) => "block".to_owned(),
                it => it.to_string(),
            });
            let nodes = it["unit"]["nodes"].as_array().unwrap();
            let nodes = nodes.iter().map(|it| format!("{} {}", it["kind"].as_str().unwrap(), it["name"]));
            format!("{}: {}", place.collect::<Vec<_>>().join(" "), nodes.collect::<Vec<_>>().join(", "))
        })
        .collect();
    shown.sort();
    let wanted = [
        format!("{krate} \"m\" block: Enum \"E\""),
        format!("{krate} block block: Use null"),
        format!("{krate} block: Struct \"Inner\""),
    ];
    assert_eq!(shown, wanted);
    // A new process is given the same.
    let lines = space.session();
    let session: Vec<Value> = lines.iter().map(|it| serde_json::from_str(it).unwrap()).collect();
    let mut again: Vec<&Value> = session.iter().filter(|it| it["do"] == "set block").collect();
    let mut given: Vec<&Value> = given.iter().collect();
    given.sort_by_key(|it| it.to_string());
    again.sort_by_key(|it| it.to_string());
    assert_eq!(again, given);
    assert_eq!(lines.last().unwrap(), "{\"do\":\"refresh\"}");
}

#[test]
fn edits_hand_in_the_blocks_that_changed() {
    let package = Package::new(TEXT);
    let mut space = package.open();
    package.told();
    let file = package.file();
    let mut update = |text: String| {
        space.update_text(&file, &text).unwrap();
        package.told()
    };
    let none: [&str; 0] = [];
    assert_eq!(update(TEXT.replace("    Inner;\n}", "    let x = Inner; x;\n}")), none, "an expression");
    assert_eq!(update(format!("\n\n{TEXT}")), none, "lines before");
    assert_eq!(update(TEXT.replace("Inner", "Other")), ["Other"], "one name");
    assert_eq!(update(TEXT.replace("struct Inner;", "struct Inner; fn more() {}")), ["Inner more"], "one more item");
    assert_eq!(update(TEXT.replace("fn h() { 1; }", "fn h() { use a::b; }")), ["Inner", "Use"], "one more block");
    assert_eq!(update(TEXT.replace("fn g()", "fn z()")), ["E", "removed", "removed"], "another function's name");
    assert_eq!(update(TEXT.replace("mod m {", "mod n {")), ["E", "removed"], "another module's name");
    assert_eq!(update("fn f() {".to_owned()).len(), 3, "a text that doesn't parse");
    assert_eq!(update(TEXT.to_owned()).len(), 3, "all of it again");
    assert_eq!(update(TEXT.replace("struct Inner", "struct Refused")), ["Refused"], "one that is refused");
    assert_eq!(
        update(format!("{}fn more() {{}}", TEXT.replace("struct Inner", "struct Refused"))),
        none,
        "no other try"
    );
}

/// What a call among the statements of a block expands to is handed in with the block.
#[test]
fn macros_of_blocks() {
    let package = Package::new(
        "macro_rules! outer { ($n:ident) => { let x = 1; pub struct $n; inner!($n); use a::b; } }
         fn f() {
             macro_rules! inner { ($n:ident) => { mod $n { struct Deep; } } }
             outer!(A);
             print!();
             { outer!(B); struct C; }
             unknown!(D);
         }
         fn g() { inner!(E); outer!(F); }
         fn h() { struct G; inner!(H); let y = outer!(I); outer!(J) }",
    );
    let mut space = package.open();
    let mut told = package.told();
    // Without a name that which asks whether the program takes blocks.
    told.remove(0);
    // In `h` there is no `inner`, and the other two calls are expressions.
    assert_eq!(told, ["B B Use C", "G", "inner A A Use"]);
    let text = std::fs::read_to_string(package.file()).unwrap();
    space.update_text(&package.file(), &text.replace("unknown!(D)", "outer!(D)")).unwrap();
    assert_eq!(package.told(), ["inner A A Use D D Use"]);
    // Another definition, and none.
    space.update_text(&package.file(), &text.replace("pub struct $n", "enum Y {} pub struct $n")).unwrap();
    assert_eq!(package.told().len(), 2);
    space.update_text(&package.file(), &text.replace("macro_rules! outer", "macro_rules! other")).unwrap();
    assert_eq!(package.told(), ["C", "inner"]);
}

/// Types, values of variants and what macros are called with hold blocks as bodies do.
#[test]
fn blocks_outside_of_bodies() {
    let text = "\
macro_rules! same { ($($all:tt)*) => { $($all)* } }
macro_rules! make { ($n:ident) => { struct $n; } }
struct S([u8; { const LENGTH: usize = 1; make!(Made); LENGTH }]);
enum E { A = { fn value() -> isize { 1 } value() } }
fn f() { same!({ struct Inner; Inner }); }
same! { fn g() { struct Deep; } }
";
    let package = Package::new(text);
    let mut space = package.open();
    assert_eq!(package.told(), ["", "Deep", "Inner", "LENGTH Made", "value"]);
    let (krate, key) = (number_of(&space), key_of(&package.file()).unwrap());
    let name_at = |space: &Workspace, line, column| {
        let place = space.place_of(krate, &key, Position { line, column });
        (place.len(), space.place_text(krate, &place))
    };
    assert_eq!(name_at(&space, 3, 56), (1, "one::S".to_owned()));
    assert_eq!(name_at(&space, 4, 43), (1, "one::E".to_owned()));
    assert_eq!(name_at(&space, 5, 33), (1, "one::f".to_owned()));
    assert_eq!(name_at(&space, 6, 26), (1, "one::g".to_owned()));
    assert_eq!(name_at(&space, 5, 4), (0, "one".to_owned()));
    space.update_text(&package.file(), &text.replace("Inner", "Other").replace("= 1;", "= 2;")).unwrap();
    assert_eq!(package.told(), ["Other"]);
    // What isn't Rust may become anything.
    space.update_text(&package.file(), &text.replace("same!({", "same!(=> {")).unwrap();
    assert_eq!(package.told(), ["", "Inner"]);
}

/// Of what calls expand to, the blocks in which something stands that the call was given.
#[test]
fn blocks_of_expansions() {
    let text = "\
macro_rules! feature { (#![$m:meta] $($i:item)*) => { $(#[cfg(not($m))] $i)* } }
macro_rules! within { ($n:ident, $v:expr) => { pub mod $n { fn f() { use x::Own; struct Text; { $v } } } } }
macro_rules! own { () => { fn own() { struct NotAsked; } } }
macro_rules! around { ($($all:tt)*) => { feature! { #![none] $($all)* } } }
macro_rules! each { ($e:expr) => { { use y::Each; $e } } }
feature! { #![none] mod m { fn g() { struct Inner; Inner; } } }
within!(deep, { struct Given; Given });
own!();
around! { fn h() { struct Around; Around; } }
fn i() { struct Local; each!(Local); }
include!(\"other\");
";
    let package = Package::new(text);
    std::fs::write(package.root.join("src/other"), "fn j() { struct Elsewhere; }").unwrap();
    let mut space = package.open();
    let wanted = ["", "Around", "Given", "Inner", "Local", "Use", "Use Text"];
    assert_eq!(package.told(), wanted);
    let (krate, key) = (number_of(&space), key_of(&package.file()).unwrap());
    let told = |space: &Workspace, text: &str, word: &str| {
        let before = &text[..text.rfind(word).unwrap()];
        let line = before.matches('\n').count() as u32 + 1;
        let column = before.rsplit('\n').next().unwrap().len() as u32 + 1;
        let place = space.place_of(krate, &key, Position { line, column });
        (space.place_text(krate, &place), place.len())
    };
    let all = |space: &Workspace, text: &str| {
        let words = ["Inner", "Given", "Around", "Local)", "NotAsked", "deep"];
        words.map(|it| told(space, text, it))
    };
    let named = |name: &str, depth: usize| (format!("one{name}"), depth);
    let places =
        [named("::m::g", 2), named("::deep::f", 3), named("::h", 1), named("::i", 2), named("", 0), named("", 0)];
    assert_eq!(all(&space, text), places);
    // The same tokens at other places.
    let moved = format!("\n\n{}", text.replace("; Given", ";\n  Given").replace("each!(", "each!(  "));
    space.update_text(&package.file(), &moved).unwrap();
    assert_eq!(package.told(), [] as [&str; 0]);
    assert_eq!(all(&space, &moved), places);
    // Other rules, and a call that they don't take: then the blocks count that it is given.
    space.update_text(&package.file(), &text.replace("struct Text;", "struct Changed;")).unwrap();
    assert_eq!(package.told(), ["Use Changed"]);
    space.update_text(&package.file(), &text.replace("$v:expr", "$v:ident")).unwrap();
    assert_eq!(package.told(), ["Given", "removed", "removed"]);
    space.update_text(&package.file(), &text.replace("macro_rules! within", "macro_rules! without")).unwrap();
    assert_eq!(package.told(), [] as [&str; 0]);
    space.update_text(&package.file(), text).unwrap();
    assert_eq!(package.told(), ["Given", "Use Text", "removed"]);
}

/// A macro that a path reaches is asked for where a call of a block isn't in textual scope.
#[test]
fn macros_that_paths_reach() {
    let package = Package::new(
        "mod a { macro_rules! make { ($n:ident) => { struct $n; } } pub(crate) use make; }
         fn f() { struct S; a::make!(T); a::other!(U); }",
    );
    let space = package.open();
    assert_eq!(package.told(), ["", "S"]);
    let (krate, key) = (number_of(&space), key_of(&package.file()).unwrap());
    let id = space.built(&key).unwrap().nodes.iter().find(|it| it.kind == "MacroRules").unwrap().id;
    let definition = json!({"crate": krate, "id": [id.0, id.1], "in": [&*key], "kind": "MacroRules"});
    let reply = json!({"ok": {"macros": {"def": definition, "import": null, "vis": "pub"}, "stop": null}});
    let question =
        format!("{{\"do\":\"resolve\",\"at\":[{krate}],\"path\":\"a::make\",\"shadow\":\"module\",\"sub\":\"bang\"}}");
    std::fs::write(package.root.join("answers"), format!("{question}\n{reply}\n")).unwrap();
    // The crate is resolved, so the paths that reach nothing yet are asked again.
    std::fs::write(package.root.join("due"), format!("{{\"ok\":[[{krate}]]}}\n")).unwrap();
    package.open();
    assert_eq!(package.told(), ["", "S", "S T"]);
}

#[test]
fn paths_in_blocks_are_asked_there() {
    let package = Package::new(TEXT);
    let mut space = package.open();
    let (krate, file) = (number_of(&space), package.file());
    let key = key_of(&file).unwrap();
    let at = |line, column| Position { line, column };
    // The block of `f`, the one in it, and the enum's.
    let place = |space: &Workspace, at| place_json(krate, &space.place_of(krate, &key, at));
    let outer = place(&space, at(8, 5));
    let inner = place(&space, at(6, 9));
    assert!(inner.starts_with(outer.trim_end_matches(']')) && inner != outer, "{inner}");
    assert_eq!(place(&space, at(5, 13)), inner);
    assert_eq!(place(&space, at(1, 5)), format!("[{krate}]"));
    assert_eq!(place(&space, at(12, 14)), format!("[{krate},\"m\"]"));
    let names = space.block_names(&outer).unwrap().1;
    assert_eq!(names, ["f"]);
    assert_eq!(space.place_text(krate, &space.place_of(krate, &key, at(11, 20))), "one::m::g");
    // What the program is asked, and what it answers.
    let node = space.block_at(krate, &key, at(8, 5)).unwrap().1.built.nodes[0].clone();
    let block: Value = serde_json::from_str(&outer).unwrap();
    let root = json!({"crate": krate, "in": [block], "kind": "BlockExpr"});
    let definition = json!({"crate": krate, "id": [node.id.0, node.id.1], "in": [block], "kind": "Struct"});
    let meaning = json!({"def": definition, "import": null, "vis": {"explicit": false, "module": root}});
    let reply = json!({"ok": {"macros": null, "stop": null, "types": meaning, "values": null}});
    let question = format!("{{\"do\":\"resolve\",\"at\":{outer},\"path\":\"Inner\"}}");
    std::fs::write(package.root.join("answers"), format!("{question}\n{reply}\n")).unwrap();
    let answer = space.answer_at(&file, at(8, 6)).unwrap();
    assert_eq!(answer.module, "one::f");
    assert_eq!(answer.notes, [] as [String; 0]);
    let [meaning] = &answer.meanings[..] else { panic!("{answer:?}") };
    assert_eq!((&*meaning.what, &*meaning.path, &*meaning.visibility), ("struct", "one::f::Inner", "in one::f"));
    let place = meaning.place.as_ref().unwrap();
    assert_eq!((place.line, place.column), (3, 12));
    // An import of a block that brought a name.
    let node = space.block_at(krate, &key, at(6, 9)).unwrap().1.built.nodes[0].clone();
    let block: Value = serde_json::from_str(&inner).unwrap();
    let import = json!({"id": [node.id.0, node.id.1], "in": [block], "kind": "import", "place": 0});
    let meaning = json!({"def": {"builtin": "u8"}, "import": import, "vis": "pub"});
    let reply = json!({"ok": {"macros": null, "stop": null, "types": meaning, "values": null}});
    let question = format!("{{\"do\":\"resolve\",\"at\":{inner},\"path\":\"Alias\"}}");
    std::fs::write(package.root.join("answers"), format!("{question}\n{reply}\n")).unwrap();
    let answer = space.answer_at(&file, at(6, 10)).unwrap();
    let (what, place) = answer.meanings[0].brought_by.clone().unwrap();
    assert_eq!((&*what, place.line, place.column), ("import", 5, 13));
    // Where a block is refused, the module around it is asked, and that is told.
    let text = TEXT.replace("Inner", "Refused");
    std::fs::write(&file, &text).unwrap();
    space.update(std::slice::from_ref(&file)).unwrap();
    assert_eq!(place_json(krate, &space.place_of(krate, &key, at(8, 6))), format!("[{krate}]"));
    let answer = space.answer_at(&file, at(8, 6)).unwrap();
    assert_eq!(answer.notes.len(), 1, "{answer:?}");
    assert_eq!(answer.module, "one");
}

/// The language server asks in the block too: definitions, hovers and references of what a body declares.
#[test]
fn an_editor_in_blocks() {
    let package = Package::new(TEXT);
    let space = package.open();
    let (krate, key) = (number_of(&space), key_of(&package.file()).unwrap());
    let inside = Position { line: 8, column: 5 };
    let place = place_json(krate, &space.place_of(krate, &key, inside));
    let id = space.block_at(krate, &key, inside).unwrap().1.built.nodes[0].id;
    let block: Value = serde_json::from_str(&place).unwrap();
    let definition = json!({"crate": krate, "id": [id.0, id.1], "in": [block], "kind": "Struct"});
    let meaning = json!({"def": definition, "import": null, "vis": "pub"});
    let reply = json!({"ok": {"macros": null, "stop": null, "types": meaning, "values": meaning}});
    let question = format!("{{\"do\":\"resolve\",\"at\":{place},\"path\":\"Inner\"");
    let answers = ["}", ",\"shadow\":\"module\"}"].map(|it| format!("{question}{it}\n{reply}\n"));
    std::fs::write(package.root.join("answers"), answers.concat()).unwrap();
    let uri = format!("file://{}", package.file().display());
    let mut sent = Vec::new();
    let folder = format!("file://{}", package.root.display());
    let ask = |id: u32, method: &str, line: u32, character: u32| {
        let params = json!({
            "textDocument": {"uri": uri}, "position": {"line": line, "character": character},
            "context": {"includeDeclaration": true}, "rootUri": folder, "capabilities": {},
        });
        json!({"jsonrpc": "2.0", "id": id, "method": method, "params": params})
    };
    for it in [
        ask(0, "initialize", 0, 0),
        message::notification("initialized", json!({})),
        ask(1, "textDocument/definition", 7, 6),
        ask(2, "textDocument/hover", 7, 6),
        ask(3, "textDocument/references", 7, 6),
        ask(4, "textDocument/references", 2, 12),
        ask(5, "textDocument/hover", 2, 12),
        ask(6, "textDocument/definition", 2, 12),
        message::notification("exit", Value::Null),
    ] {
        message::write(&mut sent, &it).unwrap();
    }
    let settings = lsp::Settings {
        wanted: Wanted { path: ".".into(), no_std: true, ..Wanted::default() },
        program: Some(package.root.join("program")),
        expansions: None,
    };
    let mut received = Vec::new();
    lsp::serve(settings, std::io::Cursor::new(sent), &mut received).unwrap();
    let mut input = &received[..];
    let mut results = std::collections::HashMap::new();
    while let message::Read::Message(it) = message::read(&mut input) {
        results.extend(it["id"].as_u64().map(|id| (id, it["result"].clone())));
    }
    let range = |line: u32, start: u32, end: u32| json!({"uri": uri, "range": {"start": {"line": line, "character": start}, "end": {"line": line, "character": end}}});
    let (declared, used) = (range(2, 11, 16), range(7, 4, 9));
    assert_eq!(results[&1], json!([declared]));
    assert_eq!(results[&6], json!([declared]));
    assert_eq!(results[&3], json!([declared, used]));
    assert_eq!(results[&4], results[&3]);
    for id in [2, 5] {
        let text = results[&id]["contents"]["value"].as_str().unwrap();
        assert_eq!(text, "struct `one::f::Inner`\n\nvisible: pub\n\nas: type, value\n\n```rust\nstruct Inner\n```");
    }
}

/// What is written at random; `#` stands for a digit, but before `[`.
const LINES: [&str; 24] = [
    "fn f() { struct S#; }",
    "fn f#() { use a::b#; { fn h() { enum E { A# } } } { const C: u8 = #; } }",
    "macro_rules! mm { ($n:ident) => { struct $n; let x = 1; use a::x#; } }",
    "macro_rules! mm { ($n:ident) => { $n + # } }",
    "fn g#() { macro_rules! l { () => { mod q { trait T# {} } } } l!(); mm!(T#); mm! { U } let z = mm!(V); }",
    "mod m# { fn f() { type T = u8; mm!(W); } }",
    "impl X { fn f() { static S#: u8 = 1; mm!(W#); } }",
    "trait T { fn f() { extern crate a#; } const C: u8 = { union U# { a: u8 } 1 }; }",
    "#[cfg(none)] fn d() { struct S#; } #[cfg(not(none))] fn d() { struct R#; }",
    "mm!(Q#);",
    "struct P#;",
    "// # é",
    "fn f() { let x = #; unknown!(x); }",
    "fn g() { m!{ struct S; } mm!(M#); mod deep { mm!(N#); } }",
    "struct L#([u8; { struct L; mm!(L#); # }]);",
    "enum K { A = { use a::b#; # }, B([u8; { { fn h() {} } 1 }]) }",
    "fn f() { m!({ struct I#; mm!(I); 1 }); { m!(#, { use a::b#; 1 }) } m!(=> { struct J; }) }",
    "m! { fn k() { struct H#; } } extern { static X: [u8; { const H: u8 = #; 1 }]; }",
    "macro_rules! given { ($($t:tt)*) => { mod given# { fn t() { use a::b; { $($t)* } } fn u() { mm!(U); } } } }",
    "macro_rules! given { ($($t:tt)*) => { $($t)* fn twice#() { enum T {} $($t)* } } }",
    "given! { struct G#; }",
    "mod n { given! { use a::b; fn o() { given! { struct O#; } mm!(O); } } }",
    "fn f() { given!(struct V#); given! { x; { struct W#; } } }",
    "given!(=> #);",
];

/// What a session hands in is the same after edits as what one does that begins with the edited text.
#[test]
fn random_edits_beside_a_fresh_session() {
    let package = Package::new("");
    let mut space = package.open();
    let mut dice = Dice(38);
    let mut lines: Vec<String> = Vec::new();
    let mut most = 0;
    for number in 0..160 {
        let line = LINES[dice.below(LINES.len())].replace("#[", "\0[").replace('#', &dice.below(9).to_string());
        let line = line.replace('\0', "#");
        let at = dice.below(lines.len() + 1);
        match dice.below(4) {
            0 if at < lines.len() => drop(lines.remove(at)),
            1 if at < lines.len() => lines[at] = line,
            _ => lines.insert(at, line),
        }
        if lines.len() > 12 {
            lines.remove(0);
        }
        let text = lines.join("\n");
        space.update_text(&package.file(), &text).unwrap();
        if number % 8 != 0 {
            continue;
        }
        let other = Package::new(&text);
        let fresh = other.open();
        let set = |space: &Workspace, root: &Path| -> Vec<String> {
            let root = root.to_str().unwrap().trim_start_matches('/').to_owned();
            let lines = space.session().into_iter().filter(|it| it.starts_with("{\"do\":\"set "));
            lines
                .map(|it| it.replace(&root, "DIR"))
                .filter(|it| it.contains("DIR") || it.contains("set block"))
                .collect()
        };
        let (made, wanted) = (set(&space, &package.root), set(&fresh, &other.root));
        assert_eq!(made, wanted, "after edit {number}:\n{text}");
        most = most.max(wanted.len());
        // Each block is found where it stands, and after edits at the same places as afresh.
        let (krate, key) = (number_of(&fresh), key_of(&other.file()).unwrap());
        let places = |space: &Workspace, key: &str| -> Vec<String> {
            let all = space.blocks_of(krate, key);
            all.iter().map(|it| format!("{:?} {:?} {:?}", it.0, it.1.block.span, it.1.block.given)).collect()
        };
        assert_eq!(places(&space, &key_of(&package.file()).unwrap()), places(&fresh, &key), "{text}");
        for (_, it) in fresh.blocks_of(krate, &key) {
            let at = it.block.given.first().unwrap_or(&it.block.span).start;
            let found = fresh.block_at(krate, &key, at).unwrap().1;
            assert!(found.block.contains(at) && found.steps.len() >= it.steps.len(), "{text}");
        }
    }
    assert!(most > 12, "{most} units at most");
}
