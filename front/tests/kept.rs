//! What Cargo and rustc answered is kept beside what Cargo builds, as long as nothing changes on which it stands.
#![cfg(unix)]

use std::path::Path;
use std::process::Command;

use tempfile::TempDir;

use crate::common::{package, write_script};

/// When a file counts as written: long ago, or so late that what stands on it isn't kept.
const LONG_AGO: &str = "2020-01-01";
const JUST_NOW: &str = "2037-01-01";

fn set_time(path: &Path, time: &str) {
    assert!(Command::new("touch").args(["-d", time]).arg(path).status().unwrap().success());
}

/// Scripts that note what is asked of Cargo and of rustc, and the command itself. What Cargo itself asks of rustc isn't noted.
fn write_tools(folder: &Path) {
    let own = folder.join("cargo-nogsimat");
    assert!(Command::new("cp").arg(env!("CARGO_BIN_EXE_cargo-nogsimat")).arg(&own).status().unwrap().success());
    set_time(&own, LONG_AGO);
    let cargo = std::env::var("CARGO").unwrap_or("cargo".to_owned());
    for (name, real) in [("cargo", &*cargo), ("rustc", "rustc")] {
        let note = format!("case $1 in metadata|--print) echo {name} >> {}/log ;; esac", folder.display());
        write_script(&folder.join(name), &format!("#!/bin/sh\n{note}\nexec {real} \"$@\"\n"));
        set_time(&folder.join(name), JUST_NOW);
    }
}

/// What `check` prints, and what it started.
fn check(folder: &Path, words: &[&str]) -> (String, String) {
    let log = folder.join("tools/log");
    std::fs::write(&log, "").unwrap();
    let made = Command::new(folder.join("tools/cargo-nogsimat"))
        .args(["nogsimat", "check", "--no-std", "--json"])
        .args(words)
        .current_dir(folder)
        .env_remove("CARGO_TARGET_DIR")
        .env("CARGO", folder.join("tools/cargo"))
        .env("RUSTC", folder.join("tools/rustc"))
        .output()
        .unwrap();
    let told = String::from_utf8_lossy(&made.stdout).lines().filter(|it| it.contains("\"message\"")).collect();
    let mut started: Vec<String> = std::fs::read_to_string(&log).unwrap().lines().map(str::to_owned).collect();
    started.sort();
    started.dedup();
    (told, started.join(" "))
}

/// As if all that Cargo reads had been written long ago.
fn settle(folder: &Path) {
    for name in ["Cargo.toml", "Cargo.lock", "tools/cargo", "tools/rustc"] {
        set_time(&folder.join(name), LONG_AGO);
    }
}

#[test]
fn answers_of_tools_are_kept() {
    let package = package(&[("src/lib.rs", "use self::nothing;\n"), ("tools/log", "")]);
    let folder = package.path();
    write_tools(&folder.join("tools"));
    let (told, started) = check(folder, &[]);
    assert!(told.contains("nothing"), "{told}");
    assert_eq!(started, "cargo rustc");
    let again = |words: &[&str], wanted: &str| {
        let (made, started) = check(folder, words);
        assert_eq!((&*made, &*started), (&*told, wanted));
    };
    // Nothing was built there.
    settle(folder);
    again(&[], "cargo rustc");
    std::fs::create_dir(folder.join("target")).unwrap();
    std::fs::write(folder.join("target/CACHEDIR.TAG"), "").unwrap();
    again(&[], "cargo rustc");
    again(&[], "");
    // A text is none of Cargo's, nor is what an editor keeps beside it.
    std::fs::write(folder.join("src/lib.rs"), "use self::nothing;\n").unwrap();
    std::fs::write(folder.join("src/.lib.rs.swp"), "").unwrap();
    again(&[], "");
    // Other options; a new target; another manifest, which is settled later; another tool.
    again(&["--all-features"], "cargo");
    again(&["--all-features"], "");
    std::fs::create_dir(folder.join("src/bin")).unwrap();
    std::fs::write(folder.join("src/bin/more.rs"), "fn main() {}\n").unwrap();
    again(&[], "cargo");
    again(&[], "");
    let manifest = std::fs::read_to_string(folder.join("Cargo.toml")).unwrap();
    std::fs::write(folder.join("Cargo.toml"), manifest + "[features]\nmore = []\n").unwrap();
    set_time(&folder.join("Cargo.toml"), JUST_NOW);
    again(&[], "cargo");
    again(&[], "cargo");
    settle(folder);
    again(&[], "cargo");
    again(&[], "");
    write_tools(&folder.join("tools"));
    again(&[], "cargo rustc");
    // They are again what they were.
    settle(folder);
    again(&[], "");
    // What is kept is damaged.
    for it in std::fs::read_dir(folder.join("target/nogsimat")).unwrap() {
        std::fs::write(it.unwrap().path(), "{").unwrap();
    }
    again(&[], "cargo rustc");
    again(&[], "");
}

const ROOT: &str = "mod a;\npub use a::f;\nmacro_rules! m { () => { pub struct M; } }\nm!();\nfn g() { 1; }\n";

fn edited(from: &str, to: &str) -> String {
    ROOT.replace(from, to)
}

/// A package in which Cargo has built something, with a script in place of the program that notes that it was started.
struct Told {
    package: TempDir,
}

impl Told {
    fn new() -> Told {
        let package = package(&[
            ("src/lib.rs", ROOT),
            ("src/a.rs", "pub fn f() {}\n"),
            ("src/more.inc", "pub struct More;\n"),
            ("tools/log", ""),
            ("target/CACHEDIR.TAG", ""),
        ]);
        write_tools(&package.path().join("tools"));
        let told = Told { package };
        told.write_program("");
        // The first two answers of Cargo aren't settled.
        told.run(&[]);
        settle(told.package.path());
        told.touch("tools/program");
        told.touch("src/more.inc");
        told
    }

    fn write_program(&self, behind: &str) {
        let note = format!("echo program >> {}", self.package.path().join("tools/log").display());
        let real = crate::common::client::program();
        let text = format!("#!/bin/sh\n{note}\nexec {}{behind}\n", real.display());
        write_script(&self.package.path().join("tools/program"), &text);
    }

    fn touch(&self, name: &str) {
        set_time(&self.package.path().join(name), LONG_AGO);
    }

    fn write(&self, name: &str, text: &str) {
        std::fs::write(self.package.path().join(name), text).unwrap();
    }

    /// What is told, and whether the program was started.
    fn run(&self, words: &[&str]) -> (String, bool) {
        let program = self.package.path().join("tools/program");
        let words = [&["--program", program.to_str().unwrap()], words].concat();
        let (told, started) = check(self.package.path(), &words);
        (told, started.contains("program"))
    }

    /// Whether the program was started.
    fn starts(&self) -> bool {
        self.run(&[]).1
    }

    /// Writes texts one after another. Each has the program started or not, and nothing is told; the same again starts
    /// nothing.
    fn steps(&self, steps: &[(&str, &str, bool)]) {
        for (name, text, starts) in steps {
            if !text.is_empty() {
                self.write(name, text);
            }
            assert_eq!(self.run(&[]), (String::new(), *starts), "{name}: {text}");
            assert_eq!(self.run(&[]), (String::new(), false), "{name}: {text}");
        }
    }
}

/// What `check` told is told again while the items of all files are the same.
#[test]
fn what_was_told_is_kept() {
    let package = Told::new();
    package.steps(&[
        ("", "", true),
        ("src/lib.rs", ROOT, false),
        // A body, a comment, a line; a signature, which is none of what is handed in.
        ("src/lib.rs", &edited("1;", "let x = [1, 2]; f(x.len());"), false),
        ("src/lib.rs", &edited("mod a;", "// A module.\n\n/// It.\nmod a;"), false),
        ("src/a.rs", "pub fn f() { let x = 1; }\n", false),
        // An item more that nothing names, nor another of its name.
        ("src/a.rs", "pub fn f() {}\npub fn more() {}\n", false),
        ("src/a.rs", "pub fn f() {}\npub fn g() {}\n", false),
        // Items: one more of a name that is looked up, another macro, what one is called with, an item in a body, what has
        // another condition.
        ("src/a.rs", "pub fn f() {}\npub fn m() {}\n", true),
        ("src/lib.rs", &edited("struct M", "struct N"), true),
        ("src/lib.rs", &edited("m!()", "m! {}"), true),
        ("src/lib.rs", &edited("1;", "use a::f as h; h();"), true),
        ("src/lib.rs", &edited("1;", "use  a::f  as h; h(); h();"), false),
        ("src/lib.rs", &edited("pub use", "#[cfg(all())] pub use"), true),
        ("src/lib.rs", &edited("m!();", "include!(\"more.inc\");"), true),
    ]);
    // What is included; it is settled later.
    package.write("src/more.inc", "pub struct Other;\n");
    set_time(&package.package.path().join("src/more.inc"), JUST_NOW);
    assert!(package.starts());
    assert!(package.starts());
    package.touch("src/more.inc");
    assert!(package.starts());
    assert!(!package.starts());
}

/// Where something is told the texts count, and all of what is looked for.
#[test]
fn what_was_told_of_texts_is_kept() {
    let package = Told::new();
    let write = |name: &str, text: &str| package.write(name, text);
    write("src/lib.rs", &edited("a::f", "a::none"));
    let (told, starts) = package.run(&[]);
    assert!(told.contains("none") && told.contains("\"line\":2,") && starts, "{told}");
    assert_eq!(package.run(&[]), (told.clone(), false));
    write("src/lib.rs", &edited("a::f", "a::none"));
    assert_eq!(package.run(&[]), (told.clone(), false));
    write("src/lib.rs", &format!("\n{}", edited("a::f", "a::none")));
    let (told, starts) = package.run(&[]);
    assert!(told.contains("\"line\":3,") && starts, "{told}");
    // A file that comes, and one that is gone.
    write("src/lib.rs", &edited("mod a;", "mod a; mod b;"));
    assert!(package.run(&[]).0.contains("`b`"));
    assert!(!package.starts());
    write("src/b.rs", "");
    assert_eq!(package.run(&[]), (String::new(), true));
    let folder = package.package.path();
    std::fs::remove_file(folder.join("src/a.rs")).unwrap();
    std::fs::create_dir(folder.join("src/a")).unwrap();
    assert!(package.run(&[]).0.contains("`a`"));
    write("src/a/mod.rs", "pub fn f() {}\n");
    assert_eq!(package.run(&[]), (String::new(), true));
    write("src/a.rs", "pub fn f() {}\n");
    assert!(package.starts());
    // What doesn't parse.
    write("src/b.rs", "fn {");
    assert!(package.run(&[]).0.contains("\"syntax\""));
    // All is again as it was when nothing was told.
    write("src/b.rs", "");
    assert_eq!(package.run(&[]), (String::new(), false));
    // Other options; another program, which is settled later.
    assert!(package.run(&["--cfg", "x"]).1);
    assert!(!package.starts());
    package.write_program(" ");
    set_time(&folder.join("tools/program"), JUST_NOW);
    assert!(package.starts());
    assert!(package.starts());
    package.touch("tools/program");
    assert!(package.starts());
    assert!(!package.starts());
    for it in std::fs::read_dir(folder.join("target/nogsimat")).unwrap() {
        std::fs::write(it.unwrap().path(), "{").unwrap();
    }
    assert!(package.starts());
    assert!(!package.starts());
}
