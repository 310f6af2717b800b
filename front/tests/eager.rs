//! Macros that expand the calls in what they are given: `include!` of a name that other macros write.

use std::path::Path;
use std::process::Command;

use crate::common::{open, package};
use cargo_nogsimat::question::{Context, Question};
use cargo_nogsimat::unit::steps_of;
use cargo_nogsimat::workspace::Workspace;

/// What `S` is in a module, as `struct one::S`, and what is told, each with its line and column.
fn told(space: &mut Workspace, module: &[&str]) -> (String, Vec<String>, usize) {
    let krate = space.crates.all.iter().position(|it| it.is_asked).unwrap() as u32;
    let place = steps_of(&module.iter().map(|it| (*it).to_owned()).collect::<Vec<_>>());
    let (path, context) = ("S".to_owned(), Context::Plain);
    let answer = space.answer(Question { krate, place, whole: path.clone(), path, context }).unwrap();
    let found = answer.meanings.first().map_or(String::new(), |it| format!("{} {}", it.what, it.path));
    let report = space.report().unwrap();
    let line =
        |it: &cargo_nogsimat::report::Diagnostic| format!("{}:{}: {}", it.place.line, it.place.column, it.message);
    (found, report.diagnostics.iter().map(line).collect(), report.unjudged)
}

/// The name of a file by macros.
#[test]
fn included_files() {
    const S: &str = "struct one::S";
    for (text, found, errors, unjudged) in [
        ("include!(\"a.in\");", S, &[][..], 0),
        ("include!(\"a.in\",);", S, &[], 0),
        ("include!(concat!(\"a\", \".\", \"in\"));", S, &[], 0),
        ("include! { concat!(\"a\", '.', stringify!(in)) }", S, &[], 0),
        ("include!(concat!(1u8, -2, true, concat!(\".\"), r#\"in\"#,),);", "enum one::S", &[], 0),
        ("include!(concat!(env!(\"CARGO_MANIFEST_DIR\"), \"/src/a.in\"));", S, &[], 0),
        ("include!(concat!(env!(concat!(\"CARGO_PKG\", \"_NAME\")), \".in\"));", "function one::S", &[], 0),
        ("include!(core::concat!(\"a\", \".in\"));", S, &[], 0),
        // Macros of the package, in textual scope, by a path, exported, and those that their rules call.
        ("macro_rules! name { () => { \"a.in\" } } include!(name!());", S, &[], 0),
        (
            "macro_rules! name { ($($x:expr),*) => { concat!($($x,)* \"in\") } } include!(name!(\"a\", \".\"));",
            S,
            &[],
            0,
        ),
        (
            "macro_rules! name { ($x:ident) => { concat!(stringify!($x), end!()) } }
          macro_rules! end { () => { \".in\" } } include!(name!(a));",
            S,
            &[],
            0,
        ),
        ("#[macro_use] mod m { macro_rules! name { () => { \"a.in\" } } } include!(name!());", S, &[], 0),
        ("include!(m::name!()); mod m { macro_rules! name { () => { \"a.in\" } } pub(crate) use name; }", S, &[], 0),
        (
            "use n::*; include!(name!()); mod m { macro_rules! name { () => { \"a.in\" } } pub(crate) use name; }
          mod n { pub(crate) use super::m::name; }",
            S,
            &[],
            0,
        ),
        (
            "include!(crate::name!()); #[macro_export] macro_rules! name { () => { $crate::end!() } }
          #[macro_export] macro_rules! end { () => { \"a.in\" } }",
            S,
            &[],
            0,
        ),
        ("macro_rules! it { ($($x:tt)*) => { include!($($x)*); } } it!(concat!(\"a\", \".in\"));", S, &[], 0),
        // A call means the macro before it.
        (
            "macro_rules! name { () => { \"a.in\" } } include!(name!()); macro_rules! name { () => { \"one.in\" } }",
            S,
            &[],
            0,
        ),
        (
            "macro_rules! name { () => { \"a.in\" } } mod m { include!(name!()); pub use S as T; } pub use m::S;
          macro_rules! name { () => { \"one.in\" } } mod n { include!(name!()); }",
            "struct one::m::S",
            &[],
            0,
        ),
        // What isn't known isn't judged.
        ("include!(concat!(env!(\"OUT_DIR\"), \"/a.in\")); use S as T;", "", &[], 1),
        ("include!(concat!(\"a.in\", line!())); use S as T;", "", &[], 1),
        ("include!(concat!(\"a.in\" \"b\")); use S as T;", "", &[], 1),
        // What reaches no macro.
        ("\ninclude!(nope!());", "", &["2:10: cannot find macro `nope` in this scope"], 0),
        ("include!(concat!(\"a\", m::nope!())); mod m {}", "", &["1:23: cannot find macro `m::nope` in this scope"], 0),
        (
            "macro_rules! name { () => { nope!() } } include!(name!());",
            "",
            &["1:41: cannot find macro `nope` in this scope"],
            0,
        ),
        ("inclde!(concat!(\"a\"));", "", &["1:1: cannot find macro `inclde` in this scope"], 0),
        (
            "macro_rules! name { (x) => { \"a.in\" } } include!(name!(y));",
            "",
            &["1:41: no rule of the macro takes `y`"],
            0,
        ),
        (
            "macro_rules! name { () => { concat!(name!()) } }\ninclude!(name!());",
            "",
            &["2:1: the calls in what `include!` is given don't end, or are more than 1000"],
            0,
        ),
        // `stringify!` expands nothing.
        ("include!(stringify!(nope!())); use S as T;", "", &[], 1),
    ] {
        let folder = package(&[
            ("src/lib.rs", text),
            ("src/a.in", "pub struct S;"),
            ("src/1-2true.in", "pub enum S {}"),
            ("src/one.in", "pub fn S() {}"),
        ]);
        let made = told(&mut open(folder.path()), &[]);
        let errors: Vec<String> = errors.iter().map(|it| (*it).to_owned()).collect();
        assert_eq!(made, (found.to_owned(), errors, unjudged), "{text}");
    }
}

/// A file's name counts from the folder of the file in which the call is written.
#[test]
fn files_of_other_folders() {
    for call in ["include!(\"s.in\");", "include!(concat!(\"s\", \".in\"));", "it!();", "around!();"] {
        let folder = package(&[
            (
                "src/lib.rs",
                "macro_rules! it { () => { include!(\"s.in\"); } } macro_rules! around { () => { it!(); } }
                 mod a; mod b; mod c;",
            ),
            ("src/a/mod.rs", call),
            ("src/a/s.in", "pub struct S;"),
            ("src/b/mod.rs", call),
            ("src/b/s.in", "pub enum S {}"),
            ("src/c.rs", call),
            ("src/s.in", "pub trait S {}"),
        ]);
        let mut space = open(folder.path());
        let found = ["a", "b", "c"].map(|it| told(&mut space, &[it]).0);
        assert_eq!(found, ["struct one::a::S", "enum one::b::S", "trait one::c::S"], "{call}");
        // One that isn't there is told where it is missed.
        for (name, at) in [("a/s.in", "src/a/mod.rs"), ("b/s.in", "src/b/mod.rs"), ("s.in", "src/c.rs")] {
            let path = folder.path().canonicalize().unwrap().join("src").join(name);
            let text = std::fs::read_to_string(&path).unwrap();
            std::fs::remove_file(&path).unwrap();
            let report = open(folder.path()).report().unwrap();
            let told: Vec<_> =
                report.diagnostics.iter().map(|it| (&*it.kind, &*it.place.file, it.place.line)).collect();
            assert!(matches!(told[..], [("macro error", file, 1)] if file.ends_with(at)), "{call} {name}: {told:?}");
            assert!(report.diagnostics[0].message.contains(name), "{call}: {report:?}");
            std::fs::write(&path, text).unwrap();
        }
    }
}

/// After edits a session tells what one tells that begins with the edited files.
#[test]
fn edits() {
    let text = "mod m; include!(m::name!(a)); use S as T;";
    let module = "macro_rules! name { ($x:ident) => { concat!(stringify!($x), \".in\") } } pub(crate) use name;";
    let folder =
        package(&[("src/lib.rs", text), ("src/m.rs", module), ("src/a.in", "pub struct S;"), ("src/b.in", "")]);
    let root = folder.path().canonicalize().unwrap();
    let mut space = open(&root);
    assert_eq!(told(&mut space, &[]), ("struct one::S".to_owned(), vec![], 0));
    for (name, text) in [
        ("src/m.rs", module.replace("stringify!($x)", "\"b\"")),
        ("src/b.in", "pub enum S {}".to_owned()),
        ("src/m.rs", module.replace("name", "other")),
        ("src/m.rs", module.replace("stringify", "other")),
        ("src/m.rs", format!("{} macro_rules! other {{ (a) => {{ \"a\" }} }}", module.replace("stringify", "other"))),
        ("src/a.in", "pub enum S {} pub struct T2;".to_owned()),
        ("src/lib.rs", text.replace("name!(a)", "name!(b)").replace("mod m;", "mod m; fn f() {}")),
        ("src/lib.rs", text.replace("m::name!(a)", "\"b.in\"")),
        ("src/lib.rs", text.replace("include!", "#[cfg(any())] include!")),
        ("src/m.rs", module.to_owned()),
        ("src/lib.rs", text.to_owned()),
        ("src/lib.rs", text.replace("name!(a)", "name!(c)")),
        ("src/c.in", "pub fn S() {}".to_owned()),
    ] {
        let path = root.join(name);
        std::fs::write(&path, &text).unwrap();
        space.update(&[path]).unwrap();
        assert_eq!(told(&mut space, &[]), told(&mut open(&root), &[]), "{name}: {text}");
    }
    assert_eq!(told(&mut space, &[]).0, "function one::S");
}

/// What build scripts set and wrote, as Cargo says it of a build.
#[test]
fn what_build_scripts_wrote() {
    let folder = package(&[
        (
            "src/lib.rs",
            "include!(concat!(env!(\"OUT_DIR\"), \"/made.rs\"));
             include!(env!(\"OTHER\"));
             #[cfg(set)] pub use Made as A;
             #[cfg(not(set))] pub use nope::A;
             pub use {A as B, Other as C};",
        ),
        (
            "build.rs",
            "fn main() {
                 let folder = std::env::var(\"OUT_DIR\").unwrap();
                 std::fs::write(format!(\"{folder}/made.rs\"), \"pub struct Made;\").unwrap();
                 std::fs::write(format!(\"{folder}/other.rs\"), \"pub struct Other;\").unwrap();
                 println!(\"cargo:rustc-env=OTHER={folder}/other.rs\");
                 println!(\"cargo:rustc-cfg=set\");
             }",
        ),
    ]);
    let run = |command: &mut Command| {
        let ran = command.current_dir(folder.path()).env("NO_COLOR", "1").output().unwrap();
        let all = format!("{}{}", String::from_utf8_lossy(&ran.stdout), String::from_utf8_lossy(&ran.stderr));
        (ran.status.code(), all, ran.stdout)
    };
    let check = |words: &[&str]| {
        let mut command = Command::new(env!("CARGO_BIN_EXE_cargo-nogsimat"));
        run(command.args(["check", "--no-std"]).args(words))
    };
    // What isn't read isn't judged.
    let (status, all, _) = check(&[]);
    assert_eq!(status, Some(0), "{all}");
    assert!(all.contains("not judged: 3 paths") && all.contains("(one): --built names"), "{all}");
    let (status, all, messages) = run(Command::new("cargo").args(["check", "--offline", "--message-format", "json"]));
    assert_eq!(status, Some(0), "{all}");
    let built = folder.path().join("built.json");
    std::fs::write(&built, messages).unwrap();
    let (status, all, _) = check(&["--built", "built.json"]);
    assert_eq!(status, Some(0), "{all}");
    assert!(all.starts_with("all names resolved in one "), "{all}");
    // A file that has none of it.
    for (text, wanted) in [(Some("x\n{}\n"), "has no messages of Cargo"), (None, "can't be read")] {
        match text {
            Some(it) => std::fs::write(&built, it).unwrap(),
            None => std::fs::remove_file(&built).unwrap(),
        }
        let (status, all, _) = check(&["--built", "built.json"]);
        assert_eq!(status, Some(2), "{all}");
        assert!(all.contains(wanted) && all.contains("built.json"), "{all}");
    }
}

/// Where a position in an included file isn't asked for, the name that the call brings leads to the call.
#[test]
fn where_it_is_brought() {
    let folder = package(&[
        ("src/lib.rs", "include!(concat!(\"a\", \".in\"));\npub use S as T;"),
        ("src/a.in", "pub struct S;"),
    ]);
    let mut space = open(folder.path());
    let answer = space.answer_at(&folder.path().join("src/lib.rs"), at(2, 9)).unwrap();
    let place = answer.meanings[0].place.as_ref().unwrap();
    assert_eq!((Path::new(&place.file).file_name().unwrap().to_str().unwrap(), place.line), ("lib.rs", 1));
}

fn at(line: u32, column: u32) -> cargo_nogsimat::token::Position {
    cargo_nogsimat::token::Position { line, column }
}
