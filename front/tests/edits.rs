//! A session that takes edits tells what one tells that begins with the edited files.

use std::path::PathBuf;

use crate::common::{open, package};
use cargo_nogsimat::package::{Crates, Wanted};
use cargo_nogsimat::program;
use cargo_nogsimat::question::{Context, Question};
use cargo_nogsimat::unit::steps_of;
use cargo_nogsimat::workspace::Workspace;
use tempfile::TempDir;

/// All that a session tells of the package.
fn told(space: &mut Workspace) -> Vec<String> {
    let mut all: Vec<String> = space.report().unwrap().diagnostics.iter().map(|it| format!("{it:?}")).collect();
    let krate = space.crates.all.iter().position(|it| it.is_asked).unwrap() as u32;
    for (module, path) in
        [("", "A"), ("", "B"), ("m", "S"), ("m", "made"), ("m", "super::a::T"), ("a", "T"), ("a", "crate::m::C")]
    {
        let module: Vec<String> = module.split("::").filter(|it| !it.is_empty()).map(str::to_owned).collect();
        let (place, path, context) = (steps_of(&module), path.to_owned(), Context::Plain);
        all.push(match space.answer(Question { krate, place, whole: path.clone(), path, context }) {
            Ok(it) => it.text(),
            Err(it) => it.to_string(),
        });
    }
    all
}

/// After an edit the program is asked of the crates alone that it resolved again, once of each.
#[cfg(unix)]
#[test]
fn what_is_asked_after_an_edit() {
    let folder = TempDir::new().unwrap();
    let root = folder.path().canonicalize().unwrap();
    let write = |name: &str, text: &str| {
        let path = root.join(name);
        std::fs::create_dir_all(path.parent().unwrap()).unwrap();
        std::fs::write(&path, text).unwrap();
        path
    };
    write("Cargo.toml", "[workspace]\nmembers = [\"below\", \"above\"]\n");
    let manifest = |name: &str, more: &str| {
        format!("[package]\nname = \"{name}\"\nversion = \"0.1.0\"\nedition = \"2021\"\n[dependencies]\n{more}")
    };
    write("below/Cargo.toml", &manifest("below", ""));
    write("above/Cargo.toml", &manifest("above", "below = { path = \"../below\" }\n"));
    write(
        "below/src/lib.rs",
        "pub mod m { pub enum E { A } }\npub mod n { pub use std::nothing::*; }\npub use m::{E, Nope};\npub use n::Unjudged;\npub use std::x::y;\n",
    );
    let text = "pub use below::m::*;\nuse std::collections::Nothing;\npub use E::{A, B};\nuse below::Neither;\n";
    let edited = write("above/src/lib.rs", text);
    let script = root.join("program");
    let begin = program::find(None).unwrap();
    crate::common::write_script(
        &script,
        &format!(
            "#!/bin/sh\n{}\n",
            crate::common::logged(&root.join("log").to_string_lossy(), &begin.to_string_lossy())
        ),
    );
    let mut space = crate::common::open_with(&root, &script);
    let before = space.report().unwrap().diagnostics;
    std::fs::write(root.join("log"), "").unwrap();
    space.update_text(&edited, &format!("{text}pub fn added() {{}}\n")).unwrap();
    let after = space.report().unwrap();
    let messages: Vec<&str> = after.diagnostics.iter().map(|it| &*it.message).collect();
    assert_eq!(
        messages,
        ["unresolved import `E::B`", "unresolved import `below::Neither`", "unresolved import `m::Nope`"]
    );
    assert_eq!(after.diagnostics, before);
    assert_eq!(after.unjudged, 4);
    let log = std::fs::read_to_string(root.join("log")).unwrap();
    let krate = space.crates.all.iter().position(|it| it.name == "above").unwrap();
    let given = |word: &str| log.lines().filter(|it| it.starts_with(&format!("{{\"do\":\"{word}\""))).count();
    assert_eq!([given("set file"), given("refresh"), given("diagnostics")], [1, 1, 1], "{log}");
    let mut asked: Vec<&str> = log.lines().filter_map(|it| it.strip_prefix("{\"do\":\"resolve\",\"at\":")).collect();
    asked.sort_unstable();
    // How far the two imports that the program doesn't resolve are reached, whether the name that isn't is private there,
    // where the glob leads, and what an enum may lack.
    let below = space.crates.all.iter().position(|it| it.name == "below").unwrap();
    let mut wanted: Vec<String> =
        ["E::A", "E::B", "below", "below::m", "std"].map(|it| format!("[{krate}],\"path\":\"{it}\"}}")).into();
    wanted.push(format!("[{below}],\"path\":\"self::Neither\"}}"));
    wanted.sort_unstable();
    assert_eq!(asked, wanted);
}

/// A package with a program that keeps its commands in a file, and those that it is given by `check`.
#[cfg(unix)]
fn given_by_check(folder: &std::path::Path) -> Vec<serde_json::Value> {
    let (script, log) = (folder.join("program"), folder.join("log"));
    let begin = program::find(None).unwrap();
    let text = crate::common::logged(&log.to_string_lossy(), &begin.to_string_lossy());
    crate::common::write_script(&script, &format!("#!/bin/sh\n{text}\n"));
    let mut command = std::process::Command::new(env!("CARGO_BIN_EXE_cargo-nogsimat"));
    command.args(["nogsimat", "check", "--no-std", "--program"]).arg(&script).current_dir(folder);
    let made = command.output().unwrap();
    assert!(made.status.success(), "{}", String::from_utf8_lossy(&made.stdout));
    std::fs::read_to_string(&log).unwrap().lines().map(|it| serde_json::from_str(it).unwrap()).collect()
}

/// A macro that is exported behind where a path calls it is there in the first round.
#[cfg(unix)]
#[test]
fn macros_that_are_exported_further_down() {
    let folder = package(&[
        ("src/lib.rs", "mod a;\nmod b;\nmod c { #[macro_export] macro_rules! two { () => { pub struct U; } } }\n"),
        ("src/a.rs", "crate::one! { S }\ncrate::two!();\npub use self::{S as T, U as V};\n"),
        ("src/b.rs", "#[macro_export]\nmacro_rules! one { ($n:ident) => { pub struct $n; } }\n"),
    ]);
    let given = given_by_check(folder.path());
    let refreshes = given.iter().filter(|it| it["do"] == "refresh").count();
    assert_eq!(refreshes, 2, "the standard library's crates, and all");
    assert_eq!(given.iter().filter(|it| it["do"] == "set expansion").count(), 2);
}

/// `check` hands in no impls, no items of traits and no blocks, and tells the same.
#[cfg(unix)]
#[test]
fn what_check_hands_in() {
    let text = "pub trait T { fn f(); type A; }\npub struct S;\nimpl T for S { fn f() { use self::h; fn h() {} h() } type A = u8; }\n\
                macro_rules! m { () => { impl S { pub fn g() {} } pub use T as U; } }\nm!();\n";
    let folder = package(&[("src/lib.rs", text)]);
    let given = given_by_check(folder.path());
    let kinds = |it: &serde_json::Value| -> Vec<String> {
        let nodes = it["unit"]["nodes"].as_array().into_iter().flatten();
        nodes.map(|it| format!("{} {}", it["kind"].as_str().unwrap(), it["items"])).collect()
    };
    let is_own = |it: &&serde_json::Value| {
        it["file"].as_str().is_some_and(|it| it.ends_with("src/lib.rs") && !it.contains("stub"))
            || it["do"] == "set expansion"
    };
    let own: Vec<Vec<String>> = given.iter().filter(is_own).map(kinds).collect();
    assert_eq!(own, [&["Use null"][..], &["Trait []", "Struct null", "MacroRules null", "MacroCall null"]]);
    assert!(!given.iter().any(|it| it["do"] == "set block" && it["unit"]["nodes"].is_array()));
    let missing = text.replace("T as U", "{T as U, g}");
    for text in [text, &missing, &format!("{text}#[derive(Clone)] #[none] impl S {{}}\n")] {
        std::fs::write(folder.path().join("src/lib.rs"), text).unwrap();
        let report = |is_brief: bool| {
            let wanted = Wanted { path: folder.path().to_owned(), no_std: true, ..Wanted::default() };
            let crates = Crates::read(&wanted).unwrap();
            let program = program::find(None).unwrap();
            let made = match is_brief {
                true => Workspace::open_brief(crates, &program, None, |_, _, _| {}),
                false => Workspace::open(crates, &program, None, |_, _, _| {}),
            };
            let mut space = made.unwrap();
            (format!("{:?}", space.report().unwrap()), format!("{:?}", space.counts()))
        };
        assert_eq!(report(true), report(false));
    }
}

/// Modules that lead back to a file around them, and no longer.
#[test]
fn circular_modules_come_and_go() {
    let first = ["mod a;\npub use a::b::S;\n", "#[path = \"b.rs\"] pub mod b;\n", "pub struct S;\n"];
    let folder = package(&[("src/lib.rs", first[0]), ("src/a.rs", first[1]), ("src/b.rs", first[2])]);
    let root = folder.path().canonicalize().unwrap();
    let mut space = open(&root);
    let messages = |space: &mut Workspace| -> Vec<String> {
        space.report().unwrap().diagnostics.into_iter().map(|it| it.message).collect()
    };
    assert_eq!(messages(&mut space), [""; 0]);
    for (name, text, has_errors) in [
        ("b", "pub struct S;\n#[path = \"a.rs\"] mod a;\n", true),
        ("a", "pub mod b { pub struct S; }\n", false),
        ("a", first[1], true),
        ("b", first[2], false),
        ("a", "#[path = \"a.rs\"] pub mod b;\n", true),
        ("a", first[1], false),
    ] {
        let path = root.join(format!("src/{name}.rs"));
        std::fs::write(&path, text).unwrap();
        space.update(&[path]).unwrap();
        let told = messages(&mut space);
        assert_eq!(told, messages(&mut open(&root)), "{text}");
        assert_eq!(told.iter().any(|it| it.starts_with("circular modules: ")), has_errors, "{text}: {told:?}");
        assert_eq!(told.is_empty(), !has_errors, "{text}: {told:?}");
    }
}

/// What files say one after another; none where a file goes.
const EDITS: [(&str, Option<&str>); 19] = [
        ("src/m.rs", Some("pub struct S;\nmake! { C D }\n")),
        ("src/m.rs", Some("pub struct S;\nmake! { C E }\npub fn made() { let x = 1; }\n")),
        ("src/m.rs", Some("pub struct S;\nmake! { C E }\npub fn made() { let x = 2; }\n")),
        ("src/lib.rs", Some("macro_rules! make { ($($n:ident)*) => { $(pub enum $n { V })* } }\nmod m;\nmod a;\nmake! { A }\npub use a::T;\n")),
        ("src/a.rs", Some("pub mod deep { pub struct T; }\npub use deep::*;\n")),
        ("src/a.rs", Some("pub mod deep { pub struct T; \npub use deep::*;\n")),
        ("src/a.rs", Some("pub enum T { V }\npub use T::{V, W};\npub use T as other;\n")),
        ("src/m.rs", Some("pub struct S;\nmake! { C E }\npub use crate::a::other::{V, Missing};\npub use crate::A::V as B;\n")),
        ("src/a.rs", None),
        ("src/a/mod.rs", Some("make! { T U }\nmod inner;\n")),
        ("src/a/inner.rs", Some("use super::Nope;\n")),
        ("src/a/inner.rs", Some("use super::U;\n")),
        ("src/lib.rs", Some("mod m;\nmod a;\nmacro_rules! make { ($($n:ident)*) => { $(pub struct $n;)* } }\nmake! { A }\npub use a::T;\n")),
        ("src/lib.rs", Some("macro_rules! make { ($($n:ident)*) => { $(pub struct $n;)* make2! { B } } }\nmacro_rules! make2 { ($n:ident) => { pub struct $n; } }\nmod m;\nmod a;\nmake! { A }\npub use a::T;\n")),
        ("src/lib.rs", Some("macro_rules! more { () => { macro_rules! make { ($($n:ident)*) => { $(pub struct $n;)* } } } }\nmore!();\nmod m;\nmod a;\nmake! { A }\npub use a::T;\n")),
        ("src/m.rs", Some("pub struct S;\nmake! { C }\nmore!();\nmake! { made }\n")),
        // Another macro is defined by a call that stays as it is.
        (
            "src/lib.rs",
            Some("macro_rules! more { () => { macro_rules! make { ($($n:ident)*) => { $(pub enum $n { V })* } } } }\nmore!();\nmod m;\nmod a;\nmake! { A }\npub use a::T;\n"),
        ),
        ("src/lib.rs", Some("\n\n#[macro_use] mod macros;\nmod m;\nmod a;\nmake! { A }\npub use a::T;\n")),
        ("src/macros.rs", Some("macro_rules! make { ($($n:ident)*) => { $(pub struct $n;)* } }\nmacro_rules! more { () => {} }\n")),
];

#[test]
fn edits_lead_where_a_fresh_session_begins() {
    let folder = TempDir::new().unwrap();
    let root = folder.path().canonicalize().unwrap();
    let write = |name: &str, text: &str| -> PathBuf {
        let path = root.join(name);
        std::fs::create_dir_all(path.parent().unwrap()).unwrap();
        std::fs::write(&path, text).unwrap();
        path
    };
    write("Cargo.toml", "[package]\nname = \"one\"\nversion = \"0.1.0\"\nedition = \"2021\"\n[workspace]\n");
    write(
        "src/lib.rs",
        "macro_rules! make { ($($n:ident)*) => { $(pub struct $n;)* } }\nmod m;\nmod a;\nmake! { A }\npub use a::T;\n",
    );
    write("src/m.rs", "pub struct S;\nmake! { C }\n");
    write("src/a.rs", "pub struct T;\n");
    let mut space = open(&root);
    let before = space.counts().expansions;
    for (number, (name, text)) in EDITS.into_iter().enumerate() {
        let path = match text {
            Some(text) => write(name, text),
            None => {
                let path = root.join(name);
                std::fs::remove_file(&path).unwrap();
                path
            }
        };
        space.update(&[path]).unwrap();
        assert_eq!(told(&mut space), told(&mut open(&root)), "after edit {number}, of {name}");
    }
    // A file that is included.
    let included = write("src/more.txt", "pub struct A;\n");
    let root_file = write("src/lib.rs", "include!(\"more.txt\");\nmod m;\n");
    space.update(&[root_file]).unwrap();
    assert!(told(&mut space).iter().any(|it| it.contains("struct one::A")), "{:?}", told(&mut space));
    write("src/more.txt", "pub fn other() {}\npub enum A {}\n");
    space.update(&[included]).unwrap();
    assert!(told(&mut space).iter().any(|it| it.contains("enum one::A")), "{:?}", told(&mut space));
    // What calls expand to no longer isn't kept.
    let path = root.join("src/m.rs");
    for it in 0..20 {
        space.update_text(&path, &format!("make! {{ C{it} }}\n")).unwrap();
    }
    let after = space.counts().expansions;
    assert!(after <= before + 2, "{before} expansions, then {after}");
}
