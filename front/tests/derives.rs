//! Derives of builtin macros, which are left out of what the program is handed where their names can mean nothing else.

use std::path::{Path, PathBuf};

use crate::common::{open, package};
use cargo_nogsimat::workspace::Workspace;
use serde_json::Value;
use tempfile::TempDir;

/// A package of these files, and a session over it.
struct Package {
    _folder: TempDir,
    root: PathBuf,
    space: Workspace,
}

impl Package {
    fn open(files: &[(&str, &str)]) -> Package {
        let folder = package(files);
        let root = folder.path().canonicalize().unwrap();
        let space = open(&root);
        Package { _folder: folder, root, space }
    }

    fn of_text(text: &str) -> Package {
        Package::open(&[("src/lib.rs", text)])
    }

    fn edit(&mut self, name: &str, text: &str) {
        let path = self.root.join(name);
        std::fs::write(&path, text).unwrap();
        self.space.update(&[path]).unwrap();
    }

    /// The derives that are handed in of the package, those of an item in brackets.
    fn handed_in(&self) -> String {
        fn add(nodes: &Value, made: &mut Vec<String>) {
            for node in nodes.as_array().into_iter().flatten() {
                for it in node["attrs"].as_array().into_iter().flatten().filter(|it| it["path"] == "derive") {
                    let paths = it["paths"].as_array().unwrap().iter().map(|it| it.as_str().unwrap());
                    made.push(format!("[{}]", paths.collect::<Vec<_>>().join(" ")));
                    let is_empty = it["paths"].as_array().unwrap().is_empty();
                    assert!(is_empty || node.get("input").is_some(), "{node}");
                }
                add(&node["nodes"], made);
            }
        }
        let mut made = Vec::new();
        for line in self.commands() {
            let line: Value = serde_json::from_str(&line).unwrap();
            let is_own = line["file"].as_str().is_some_and(|it| it.contains("DIR"))
                || line["do"] == "set expansion" && line["key"]["caller"] == self.space.crates.all.len() - 1;
            if is_own {
                add(&line["unit"]["nodes"], &mut made);
            }
        }
        made.join(" ")
    }

    /// The commands that bring a new process to where this one is.
    fn commands(&self) -> Vec<String> {
        let root = self.root.to_str().unwrap().trim_start_matches('/');
        self.space.session().into_iter().map(|it| it.replace(root, "DIR")).collect()
    }

    /// The errors: their lines, columns and messages.
    fn told(&mut self) -> Vec<String> {
        let report = self.space.report().unwrap();
        report.diagnostics.iter().map(|it| format!("{}:{} {}", it.place.line, it.place.column, it.message)).collect()
    }
}

const ITEMS: &str = "\
#[derive(Clone, Debug, Default)] struct A;
#[derive(Hash, Eq)] struct B;
mod m { #[derive(PartialEq, PartialOrd, Ord, Copy)] pub enum E {} use std::fmt::Debug; use std::clone::*; }
macro_rules! make { ($n:ident) => { #[derive(Clone, Default, Eq)] struct $n; } }
make!(C);
";

#[test]
fn what_is_left_out() {
    let check = |more: &str, wanted: &str| {
        let package = Package::of_text(&format!("{ITEMS}{more}"));
        assert_eq!(package.handed_in(), wanted, "{more}");
    };
    check("", "[Default] [Default]");
    check("fn f() { use m::E as Clone; macro_rules! Eq { () => {} } } struct Clone;", "[Default] [Default]");
    check("use m::E as Clone;", "[Clone Default] [Clone Default]");
    check("mod n { macro_rules! Eq { () => {} } }", "[Default] [Eq] [Default Eq]");
    check(
        "make!(Other); macro_rules! hide { () => { macro Ord() {} } } hide!{}",
        "[Default] [Ord] [Default] [Default]",
    );
    check(
        "#[derive(std::clone::Clone, ::std::fmt::Debug, Copy)] struct X;",
        "[Default] [std::clone::Clone ::std::fmt::Debug] [Default]",
    );
    check("#[cfg_attr(all(), derive(Eq, Default))] struct X;", "[Default] [Default]");
    check("#[derive(Eq)] #[missing] struct X; #[derive(Eq)] fn f() {}", "[Default] [] [] [Default]");
    // Without a prelude of the standard library.
    let package = Package::of_text(&format!("#![no_core]\n{ITEMS}"));
    assert_eq!(
        package.handed_in(),
        "[Clone Debug Default] [Hash Eq] [PartialEq PartialOrd Ord Copy] [Clone Default Eq]"
    );
}

#[test]
fn what_is_told() {
    let told = |text: &str| Package::of_text(text).told();
    assert_eq!(told(ITEMS), [] as [&str; 0]);
    assert_eq!(
        told("#[derive(Clone, Missing, Debug, Lost)] struct A;\n#[derive(Eq)] fn f() {}\n#[derive(Eq = 1)] enum E {}"),
        [
            "1:17 cannot find derive macro `Missing` in this scope",
            "1:33 cannot find derive macro `Lost` in this scope",
            "2:18 `derive` may only be applied to `struct`s, `enum`s and `union`s",
            "3:24 malformed `derive` attribute",
        ]
    );
    // A macro that is no derive hides none.
    let hidden = "pub mod a { pub macro Clone() {} }\nmod b { use crate::a::Clone; #[derive(Clone, Eq)] struct S; }";
    assert_eq!(told(hidden), [] as [&str; 0]);
    let without = "#![no_core]\n#[derive(Clone)] struct S;";
    assert_eq!(told(without), ["2:10 cannot find derive macro `Clone` in this scope"]);
    // Attributes behind are counted with it.
    assert_eq!(
        told("#[derive(Clone)]\n#[missing]\n#[derive(Eq, Lost)]\nstruct S;"),
        ["2:3 cannot find attribute `missing` in this scope", "3:14 cannot find derive macro `Lost` in this scope"]
    );
}

/// What is handed in after edits, and what is told, is what a new session hands in and tells.
#[test]
fn edits_that_hide_names_and_no_longer_do() {
    let other = "#[derive(Clone, Debug)] pub struct O;\n#[derive(Hash)]\n#[derive(Lost)] struct P;";
    let root = |more: &str| format!("mod other;\n{ITEMS}{more}\n");
    let open = |root: &str, other: &str| Package::open(&[("src/lib.rs", root), ("src/other.rs", other)]);
    let mut package = open(&root(""), other);
    for (in_root, in_other) in [
        ("use m::E as Clone;", ""),
        ("use m::E as Clone;", "macro Debug() {}"),
        ("", "macro Debug() {}"),
        ("", ""),
        ("macro_rules! hide { () => { use crate::m::E as Hash; } } hide!{}", ""),
        ("macro_rules! hide { () => { use crate::m::E as Eq; } } hide!{}", ""),
        ("", "macro_rules! hide { () => { pub macro Lost() {} } } hide!{}"),
        ("#[derive(Nothing, Copy)] struct N;", ""),
        ("use other::O as Eq; #[derive(Eq, Nothing)] struct N;", ""),
        ("", ""),
    ] {
        let (root, other) = (root(in_root), format!("{other}\n{in_other}\n"));
        package.edit("src/lib.rs", &root);
        package.edit("src/other.rs", &other);
        let mut fresh = open(&root, &other);
        assert_eq!(package.commands(), fresh.commands(), "{in_root} {in_other}");
        assert_eq!(package.told(), fresh.told(), "{in_root} {in_other}");
    }
}

/// Macros that procedural macros' crates export, in a package that depends on one.
#[test]
fn derives_of_other_crates() {
    let folder = TempDir::new().unwrap();
    let root = folder.path().canonicalize().unwrap();
    let write = |name: &str, text: &str| {
        let path = root.join(name);
        std::fs::create_dir_all(path.parent().unwrap()).unwrap();
        std::fs::write(path, text).unwrap();
    };
    write("Cargo.toml", "[workspace]\nmembers = [\"a\", \"b\"]\n");
    write(
        "a/Cargo.toml",
        "[package]\nname = \"a\"\nversion = \"0.1.0\"\nedition = \"2021\"\n[lib]\nproc-macro = true\n",
    );
    write("a/src/lib.rs", "#[proc_macro_derive(Debug)]\npub fn own(x: T) -> T {}\n");
    write(
        "b/Cargo.toml",
        "[package]\nname = \"b\"\nversion = \"0.1.0\"\nedition = \"2021\"\n[dependencies]\na = { path = \"../a\" }\n",
    );
    write("b/src/lib.rs", "use a::*;\n#[derive(Clone, Debug)] struct S;\n");
    let mut space = open(&root.join("b"));
    let report = space.report().unwrap();
    assert!(report.diagnostics.is_empty(), "{:?}", report.diagnostics);
    let not_run: Vec<_> = report.not_run.into_iter().collect();
    assert_eq!(not_run, [(("derive", "Debug".to_owned()), 1)]);
    let lines = space.session();
    let is_own = |it: &&String| it.contains(&*Path::new("b/src/lib.rs").display().to_string());
    let line = lines.iter().filter(|it| it.contains("set file")).find(is_own).unwrap();
    assert!(line.contains("\"paths\":[\"Debug\"]"), "{line}");
}
