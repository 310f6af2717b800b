//! What `check` handed in is kept, and handed in again after edits of items, or not even that where nothing names them: it
//! tells what a check from nothing tells.
#![cfg(unix)]

use std::path::{Path, PathBuf};
use std::process::Command;

use cargo_nogsimat::package::{Crates, Wanted};
use cargo_nogsimat::program;
use cargo_nogsimat::workspace::Workspace;
use serde_json::Value;
use tempfile::TempDir;

use crate::common::{market, package, write_script, Dice};

/// A package, with a script in place of the program that keeps what the program is given.
struct Checked {
    folder: TempDir,
    /// The package's folder within.
    within: PathBuf,
}

impl Checked {
    fn new(folder: TempDir, within: &str) -> Checked {
        let path = folder.path();
        std::fs::create_dir_all(path.join("target")).unwrap();
        std::fs::write(path.join("target/CACHEDIR.TAG"), "").unwrap();
        let real = program::find(None).unwrap();
        let text = format!("#!/bin/sh\ntee -a $0.log | {}\n", real.display());
        write_script(&path.join("program"), &text);
        assert!(Command::new("touch").args(["-d", "2020-01-01"]).arg(path.join("program")).status().unwrap().success());
        let within = path.join(within);
        Checked { folder, within }
    }

    fn wanted(&self) -> Wanted {
        Wanted { path: self.within.clone(), no_std: true, ..Wanted::default() }
    }

    /// What `check` tells, but for the time, and how often the program resolved.
    fn check(&self) -> (Vec<Value>, usize) {
        let log = self.folder.path().join("program.log");
        std::fs::write(&log, "").unwrap();
        let made = Command::new(env!("CARGO_BIN_EXE_cargo-nogsimat"))
            .args(["nogsimat", "check", "--no-std", "--json", "--program"])
            .arg(self.folder.path().join("program"))
            .arg(&self.within)
            .env_remove("CARGO_TARGET_DIR")
            .current_dir(self.folder.path())
            .output()
            .unwrap();
        let lines = String::from_utf8_lossy(&made.stdout).into_owned();
        let mut told: Vec<Value> = lines.lines().map(|it| serde_json::from_str(it).unwrap()).collect();
        told.last_mut().unwrap()["milliseconds"] = Value::Null;
        let given = std::fs::read_to_string(&log).unwrap();
        (told, given.lines().filter(|it| *it == "{\"do\":\"refresh\"}").count())
    }

    /// How many errors, nodes, paths that aren't judged, and uses of macros that aren't run a check from nothing tells of.
    fn checked_anew(&self) -> [usize; 4] {
        let crates = Crates::read(&self.wanted()).unwrap();
        let mut space = Workspace::open_brief(crates, &program::find(None).unwrap(), None, |_, _, _| {}).unwrap();
        let report = space.report().unwrap();
        [report.diagnostics.len(), space.counts().nodes, report.unjudged, report.not_run.values().sum()]
    }

    /// How often the program resolved: not at all where nothing names what an edit changes, once where what was handed in
    /// was handed in again, more often in a check from nothing. What is told is right.
    fn resolved(&self, why: &str) -> usize {
        let (told, resolved) = self.check();
        let last = told.last().unwrap();
        let number = |it: &Value| it.as_u64().unwrap() as usize;
        let uses = last["not_run"].as_array().unwrap().iter().map(|it| number(&it["uses"])).sum();
        let made = [number(&last["errors"]), number(&last["nodes"]), number(&last["unjudged"]), uses];
        assert_eq!(made, self.checked_anew(), "{why}");
        assert_eq!(told.len() - 1, made[0], "{why}");
        // The same again starts nothing.
        assert_eq!(self.check(), (told, 0), "{why}");
        resolved
    }

    fn write(&self, name: &str, text: &str) {
        std::fs::write(self.within.join(name), text).unwrap();
    }
}

const ROOT: &str = "mod a;\nmod b;\npub use a::f;\nmacro_rules! m { () => { pub struct M; } }\nm!();\n\
    #[macro_export] macro_rules! one { () => { pub struct One; } }\n#[macro_export] macro_rules! two { () => { pub struct Two; } }\n\
    b::chosen! {}\nuse crate::a::Later as _;\n";
const A: &str = "pub fn f() {}\npub struct Later;\npub mod k { pub struct Deep; }\n";
const B: &str = "pub use crate::one as chosen;\npub use crate::a::k::*;\n";

/// Each edit of what is behind the texts above, and how often the program resolves behind it, 2 standing for more often
/// than once too.
const EDITS: [(&str, &str, &str, usize); 32] = [
    // Items that nothing names.
    ("src/a.rs", "", "pub fn more() {}\n", 0),
    ("src/a.rs", "pub fn f() {}", "pub fn f() { more(); } const N: usize = 1;", 0),
    ("src/a.rs", "pub struct Later;", "pub struct Later; enum Side { Left, Right(u8) } pub trait Trait { fn f(); }", 0),
    ("src/a.rs", "pub struct Deep;", "pub struct Other(pub u8); pub(crate) type Alias = u8;", 0),
    ("src/b.rs", "pub use", "fn before() {}\npub use", 0),
    // Nor another of their name.
    ("src/a.rs", "", "pub struct M;\n", 0),
    ("src/b.rs", "", "pub struct Deep;\n", 0),
    // Others.
    ("src/a.rs", "", "use crate::M; pub use self::k::Deep as Here; pub struct S(u8, pub u16);\n", 1),
    ("src/a.rs", "pub fn f() {}", "pub const f: u8 = 1;", 1),
    ("src/a.rs", "pub fn f() {}\npub struct Later;", "pub struct Later;\npub fn f() {}", 1),
    ("src/a.rs", "", "pub enum E { A } use self::E::A;\n", 1),
    ("src/a.rs", "", "pub struct chosen;\n", 1),
    ("src/a.rs", "", "pub enum E { Later }\n", 1),
    ("src/a.rs", "", "#[cfg(all())] fn conditional() {}\n", 1),
    ("src/a.rs", "", "#[derive(Clone)] pub struct T; #[inline] fn g() {}\n", 0),
    ("src/lib.rs", "use crate::a::Later as _;", "pub struct Later; use crate::b::Deep as D;", 1),
    // An error.
    ("src/a.rs", "", "use crate::nothing;\n", 2),
    ("src/a.rs", "", "pub enum E { A } use self::E::B;\n", 2),
    ("src/a.rs", "pub fn f() {}", "fn none() {}", 2),
    ("src/a.rs", "", "fn {\n", 2),
    ("src/a.rs", "", "use u8::nothing;\n", 2),
    ("src/a.rs", "", "pub struct k2; mod x { use super::k2::y; }\n", 2),
    // Where all names are resolved a glob changes none of what is told.
    ("src/b.rs", "", "use crate::*;\n", 1),
    ("src/b.rs", "pub use crate::a::k::*;", "", 1),
    // What a walk looks at: modules, macros, calls, blocks, attributes that may be macros.
    ("src/a.rs", "", "pub mod l {}\n", 2),
    ("src/a.rs", "", "macro_rules! n { () => {} }\n", 2),
    ("src/a.rs", "", "m!();\n", 2),
    ("src/a.rs", "pub fn f() {}", "pub fn f() { use crate::M; }", 2),
    ("src/a.rs", "", "use std::fmt as Debug;\n", 2),
    // Another macro is reached.
    ("src/b.rs", "crate::one", "crate::two", 2),
    ("src/b.rs", "pub use crate::one as chosen;", "pub use crate::a::chosen;", 2),
    // Nothing is any more what an import names.
    ("src/a.rs", "pub struct Later;", "", 2),
];

#[test]
fn what_was_handed_in_is_kept() {
    let texts = [("src/lib.rs", ROOT), ("src/a.rs", A), ("src/b.rs", B)];
    let package = Checked::new(package(&texts), "");
    for (name, from, to, resolved) in EDITS {
        for (name, text) in texts {
            package.write(name, text);
        }
        assert!(package.check().0.len() == 1, "{:?}", package.check());
        let text = texts.iter().find(|it| it.0 == name).unwrap().1;
        let edited = if from.is_empty() { format!("{text}{to}") } else { text.replace(from, to) };
        assert_ne!(edited, text);
        package.write(name, &edited);
        assert_eq!(package.resolved(to).min(2), resolved, "{name}: {to}");
    }
}

/// What a crate names of the one on which it stands.
#[test]
fn items_that_a_crate_above_names() {
    let (both, main) = ("pub struct S;\npub struct T;\n", "use one::S;\nfn main() {}\n");
    let package = Checked::new(package(&[("src/lib.rs", both), ("src/main.rs", main)]), "");
    assert_eq!(package.resolved("both").min(2), 2);
    for (text, resolved) in [("pub struct S;\n", 0), ("pub struct T;\n", 2), (both, 0), ("struct S;\nstruct U;\n", 1)] {
        package.write("src/lib.rs", text);
        assert_eq!(package.resolved(text).min(2), resolved, "{text}");
    }
}

/// Where a name isn't judged that isn't found, a glob may change that.
#[test]
fn globs_where_something_is_not_judged() {
    let texts = [("src/lib.rs", "mod a;\nuse std::none::Such;\n"), ("src/a.rs", "pub struct S;\n")];
    let package = Checked::new(package(&texts), "");
    assert_eq!(package.check().0[0]["unjudged"], 1);
    for (text, resolved) in [("pub struct S;\nuse crate::a::S as T;\n", 1), ("pub struct S;\nuse crate::*;\n", 2)] {
        package.write("src/a.rs", text);
        assert_eq!(package.resolved(text).min(2), resolved, "{text}");
    }
}

/// What nothing names is left out of what is handed in again, until an edit names it.
#[test]
fn items_that_are_left_out() {
    let folder = market();
    let below = folder.path().join("codec/src/lib.rs");
    let more = "pub fn spare() {}\npub use self::spare as other;\npub mod inner { pub enum Deep { Variant } }\npub use inner::*;\n";
    std::fs::write(&below, format!("{}{more}", read(&below))).unwrap();
    let package = Checked::new(folder, "shop");
    let report = read(&package.within.join("src/report.rs"));
    package.write("src/report.rs", &report.replace(", Rebate", ""));
    let price = read(&package.within.join("src/price.rs"));
    package.check();
    for (more, resolved, is_given) in [
        ("use crate::model::Order;", 1, false),
        ("use codec::spare;", 1, true),
        ("use codec::other;", 1, true),
        ("use codec::inner::Deep::Variant;", 1, true),
        ("use codec::Deep;", 1, true),
        ("use crate::price::tax as Deep;", 1, true),
        ("pub fn spare() {} enum Deep { other }", 0, false),
        ("use codec::Variant;", 2, true),
        ("use codec::sparer;", 2, true),
    ] {
        package.write("src/price.rs", &format!("{price}{more}\n"));
        package.check();
        let given = read(&package.folder.path().join("program.log"));
        assert_eq!(given.contains("\"spare\""), is_given, "{more}");
        package.write("src/price.rs", &price);
        package.check();
        package.write("src/price.rs", &format!("{price}// Again.\n{more}\n"));
        assert_eq!(package.resolved(more).min(2), resolved, "{more}");
    }
}

/// What is written into files of the example at random.
const LINES: [&str; 14] = [
    "pub fn more() {}",
    "pub struct More(u8);",
    "use crate::price::Price as Cost;",
    "use crate::model::*;",
    "use crate::none;",
    "#[derive(codec::Codec)] struct Coded;",
    "#[codec::traced] fn traced() {}",
    "macro_rules! local { () => { struct Local; } }",
    "mod inner { pub struct Inner; }",
    "use self::inner::Inner;",
    "fn f() { use crate::model::Order; }",
    "pub use std::collections::HashMap as Map;",
    "pub enum Kind { One, Two }",
    "use self::Kind::Two;",
];

/// The example, of which one package is asked for, so that it stands on the others.
#[test]
fn random_items() {
    let package = Checked::new(market(), "shop");
    let report = std::fs::read_to_string(package.within.join("src/report.rs")).unwrap();
    package.write("src/report.rs", &report.replace(", Rebate", ""));
    let (mut dice, mut again) = (Dice(7), 0);
    let names = ["src/lib.rs", "src/model.rs", "src/price.rs", "src/report.rs", "src/report/table.rs"];
    let texts: Vec<(&str, String)> = names.map(|it| (it, read(&package.within.join(it)))).into_iter().collect();
    for round in 0..24 {
        let count = 1 + dice.below(2);
        let added: Vec<(usize, usize)> =
            (0..count).map(|_| (dice.below(texts.len()), dice.below(LINES.len()))).collect();
        for (at, (name, text)) in texts.iter().enumerate() {
            let more: String = added.iter().filter(|it| it.0 == at).map(|it| format!("{}\n", LINES[it.1])).collect();
            package.write(name, &format!("{text}{more}"));
        }
        again += usize::from(package.resolved(&format!("round {round}: {added:?}")) < 2);
    }
    // Some edits leave alone what a walk looks at, others don't.
    assert!((1..24).contains(&again), "{again}");
}

fn read(path: &Path) -> String {
    std::fs::read_to_string(path).unwrap()
}
