//! Each command as one would call it, its output compared to the files in `expected/`. With the variable `UPDATE` set
//! these files are written anew.

use std::io::{BufRead, BufReader, Lines};
use std::path::{Path, PathBuf};
use std::process::{Child, ChildStdout, Command, Output, Stdio};

#[cfg(unix)]
use crate::common::write_script;
use crate::common::{copy, market, own, package};
use tempfile::TempDir;

const REGISTRY: &str = "/usr/share/cargo/registry";

fn command(folder: &Path, words: &[&str]) -> Command {
    let mut command = Command::new(env!("CARGO_BIN_EXE_cargo-nogsimat"));
    command.arg("nogsimat").args(words).current_dir(folder).env("NO_COLOR", "1");
    command
}

fn run(folder: &Path, words: &[&str]) -> Output {
    command(folder, words).output().unwrap()
}

fn text(of: &[u8]) -> String {
    String::from_utf8_lossy(of).into_owned()
}

/// Times and the folder are another each time.
fn steady(output: &Output, folder: &Path) -> String {
    let folder = folder.canonicalize().unwrap();
    let folder = folder.to_str().unwrap();
    let mut made = format!("status {}\n", output.status.code().unwrap());
    let all = text(&output.stdout) + &text(&output.stderr);
    for line in all.lines() {
        let line = line.replace(folder, "DIR").replace(folder.trim_start_matches('/'), "DIR");
        let line = line.replace(", since the toolchain has no rust-src", "");
        let mut words: Vec<String> = line.split(' ').map(str::to_owned).collect();
        for at in 1..words.len() {
            if ["s", "ms", "s;", "ms;", "ms)", "s)", "ms);", "s);"].contains(&&*words[at]) {
                let rest = words[at].trim_start_matches(['m', 's']).to_owned();
                let before = &words[at - 1];
                let front = if before.starts_with('(') { "(" } else { "" };
                if before.trim_start_matches('(').parse::<f64>().is_ok() {
                    words[at - 1] = format!("{front}TIME{rest}");
                    words[at].clear();
                }
            }
        }
        words.retain(|it| !it.is_empty() || line.is_empty());
        let line =
            if line.contains("TIME") || words.iter().any(|it| it.contains("TIME")) { words.join(" ") } else { line };
        let line = match line.split_once("\"milliseconds\":") {
            Some((before, after)) => format!("{before}\"milliseconds\":0{}", &after[after.find(',').unwrap()..]),
            None => line,
        };
        made.push_str(line.trim_end());
        made.push('\n');
    }
    made
}

fn compare(name: &str, made: &str) {
    let path = own("tests/expected").join(name).with_extension("txt");
    if std::env::var_os("UPDATE").is_some() {
        std::fs::write(&path, made).unwrap();
    }
    let wanted = std::fs::read_to_string(&path).unwrap_or_default();
    assert_eq!(made, wanted, "{name}: what is told differs from {}", path.display());
}

fn compare_run(name: &str, folder: &Path, words: &[&str]) {
    compare(name, &steady(&run(folder, words), folder));
}

#[test]
fn check_tells_what_is_not_resolved() {
    let folder = market();
    compare_run("check", folder.path(), &["check", "--no-std"]);
    compare_run("check-json", folder.path(), &["check", "--no-std", "--json"]);
    compare_run("check-test", folder.path(), &["check", "shop", "--no-std", "--test", "--no-default-features"]);
    compare_run("check-package", folder.path(), &["check", "--no-std", "-p", "codec", "--features", "codec/numbers"]);
    let of = |path: &str| steady(&run(folder.path(), &["check", path, "--no-std"]), folder.path());
    assert_eq!(of("shop/src/report.rs"), of("shop"));
}

#[test]
fn where_tells_what_a_path_names() {
    let folder = market();
    let places = [
        ("import", "shop/src/lib.rs:25:18"),
        ("import-prefix", "shop/src/lib.rs:25:10"),
        ("derive", "shop/src/model.rs:7:18"),
        ("attribute", "shop/src/report.rs:11:12"),
        ("field-type", "shop/src/model.rs:11:14"),
        ("macro", "shop/src/model.rs:5:2"),
        ("in-body", "shop/src/report.rs:15:22"),
        ("local-variable", "shop/src/report.rs:16:68"),
        ("method", "shop/src/report.rs:16:75"),
        ("inline-module", "shop/src/lib.rs:28:24"),
        ("left-out", "shop/src/lib.rs:38:20"),
        ("glob-in-list", "shop/src/main.rs:1:12"),
        ("nothing", "shop/src/report.rs:6:35"),
        ("path-in-body", "shop/src/report.rs:16:35"),
    ];
    for (name, place) in places {
        compare_run(&format!("where-{name}"), folder.path(), &["where", place, "--no-std"]);
    }
    compare_run("where-json", folder.path(), &["where", "shop/src/lib.rs:25:18", "--no-std", "--json"]);
}

#[test]
fn resolve_tells_what_a_path_names() {
    let folder = market();
    for (name, words) in [
        ("variant", &["resolve", "Goods::Gift", "--at", "crate"][..]),
        ("module", &["resolve", "Price", "--at", "shop::all"]),
        ("macro", &["resolve", "codecs!", "--at", "codec::prelude"]),
        ("builtin", &["resolve", "u8"]),
        ("associated", &["resolve", "Order::new", "--at", "shop"]),
        ("stops", &["resolve", "Order::nothing", "--at", "shop"]),
        ("dependency", &["resolve", "codec::Codec", "--json"]),
        ("nothing", &["resolve", "no::such"]),
        ("into-stub", &["resolve", "std::collections::HashMap"]),
        ("no-module", &["resolve", "a", "--at", "crate::no"]),
        ("no-crate", &["resolve", "a", "--at", "nowhere::no"]),
        ("no-path", &["resolve", "a b"]),
    ] {
        compare_run(&format!("resolve-{name}"), folder.path(), &[words, &["--no-std", "-p", "shop"]].concat());
    }
}

/// What the program answers to the lines of a session, one reply a line.
fn replies_to(session: &str) -> Vec<serde_json::Value> {
    let program = cargo_nogsimat::program::find(None).unwrap();
    let mut child =
        Command::new(program).stdin(Stdio::piped()).stdout(Stdio::piped()).spawn().expect("the program starts");
    let mut input = child.stdin.take().unwrap();
    let lines = session.to_owned();
    // It answers while it is written to.
    let writes = std::thread::spawn(move || std::io::Write::write_all(&mut input, lines.as_bytes()).unwrap());
    let replies = text(&child.wait_with_output().unwrap().stdout);
    writes.join().unwrap();
    assert_eq!(replies.lines().count(), session.lines().count());
    replies.lines().map(|it| serde_json::from_str(it).unwrap()).collect()
}

#[test]
fn session_prints_what_the_program_is_given() {
    let folder = market();
    let session = run(folder.path(), &["session", "--no-std", "-p", "codec"]);
    assert!(session.status.success());
    let shown = steady(&session, folder.path());
    let files: Vec<&str> = shown.lines().filter(|it| it.starts_with("{\"do\":\"set file\",\"file\":\"DIR/")).collect();
    compare("session", &(files.join("\n") + "\n"));
    let replies = replies_to(&text(&session.stdout));
    assert!(replies.iter().all(|it| it.get("ok").is_some()), "{replies:?}");
}

/// Saves a text in place of a file at once, as many editors do: nobody sees it half written.
fn save(path: &Path, text: &str) {
    let new = path.with_extension("new");
    std::fs::write(&new, text).unwrap();
    std::fs::rename(&new, path).unwrap();
}

/// A `watch` that has begun. It ends with this.
struct Watching {
    child: Child,
    lines: Lines<BufReader<ChildStdout>>,
}

impl Watching {
    fn start(folder: &Path, words: &[&str]) -> Watching {
        let mut child = command(folder, words).stdout(Stdio::piped()).stderr(Stdio::piped()).spawn().unwrap();
        let mut told = BufReader::new(child.stderr.take().unwrap()).lines();
        let lines = BufReader::new(child.stdout.take().unwrap()).lines();
        assert!(told.next().unwrap().unwrap().starts_with("watching "));
        Watching { child, lines }
    }

    /// What is told up to a line that holds a text.
    fn until(&mut self, end: &str) -> String {
        let mut all = Vec::new();
        loop {
            all.push(self.lines.next().unwrap().unwrap());
            if all[all.len() - 1].contains(end) {
                return all.join("\n");
            }
        }
    }
}

impl Drop for Watching {
    fn drop(&mut self) {
        let _ = self.child.kill();
        let _ = self.child.wait();
    }
}

#[test]
fn watch_tells_what_a_save_changes() {
    let folder = market();
    let mut watching = Watching::start(folder.path(), &["watch", "--no-std"]);
    let mut until = |end: &str| watching.until(end);
    assert!(until("1 error in").contains("unresolved import `crate::price::Rebate`"));
    let price = folder.path().join("shop/src/price.rs");
    let before = std::fs::read_to_string(&price).unwrap();
    save(&price, &format!("{before}\npub struct Rebate;\n"));
    let made = until("; 0 errors");
    assert!(made.contains("gone: shop/src/report.rs:6:32: unresolved import `crate::price::Rebate`"), "{made}");
    assert!(made.contains("known at once ("), "{made}");
    assert!(until("; 0 errors").starts_with("resolved again: shop, shop (bin shop) ("));
    // It goes, and comes again when the file that names it has lines more.
    save(&price, &before);
    assert!(until("; 1 error").contains(" --> shop/src/report.rs:6:32"));
    let report = folder.path().join("shop/src/report.rs");
    save(&report, &format!("\nfn alone() {{}}\n{}", std::fs::read_to_string(&report).unwrap()));
    let made = until("; 1 error");
    assert!(made.contains("known at once") && made.contains(" --> shop/src/report.rs:8:32"), "{made}");
    assert!(until("; 1 error").starts_with("resolved again: shop, shop (bin shop) ("));
    save(&price, &format!("{before}\npub struct Rebate;\n"));
    assert!(until("; 0 errors").contains("gone: shop/src/report.rs:8:32"));
    assert!(until("; 0 errors").starts_with("resolved again: "));
    // A body alone.
    save(&price, &format!("{}\npub struct Rebate;\n", before.replace("price.0 / 5", "price.0 / 4")));
    assert!(until("; 0 errors").contains("nothing to resolve again"));
    // A file that isn't there any more, and that is there again.
    std::fs::remove_file(&price).unwrap();
    assert!(until("resolved again").contains("file not found for module `price`"));
    save(&price, &format!("{before}\npub struct Rebate;\n"));
    until("; 0 errors");
    // A file with a bracket too many.
    save(&price, &format!("{before}}}\n"));
    assert!(until("resolved again").contains("this isn't Rust's syntax"));
    // A file that is emptied and written: what it has in between may be told as well.
    std::fs::write(&price, format!("{before}\npub struct Rebate;\n")).unwrap();
    assert!(until("; 0 errors").contains("this isn't Rust's syntax"));
}

#[test]
fn the_first_command_of_the_readme() {
    let made = run(&own("examples/market"), &["check", "--no-std"]);
    assert_eq!(made.status.code(), Some(1));
    assert!(text(&made.stdout).contains("1 error in"));
}

#[test]
fn expansions_from_elsewhere() {
    let folder = market();
    std::fs::write(
        folder.path().join("entries.jsonl"),
        concat!(
            r#"{"macro":"Codec","call":"derive","input":"pub enum Item { Book, #[codec(skip)] Gift, }","#,
            r#""expansion":"pub struct Rebate;"}"#,
            "\n"
        ),
    )
    .unwrap();
    std::fs::write(folder.path().join("shop/src/report.rs"), "use crate::model::{Rebate, Other};").unwrap();
    std::fs::create_dir_all(folder.path().join("shop/src/report")).unwrap();
    compare_run("expansions", folder.path(), &["check", "--no-std", "--expansions", "entries.jsonl"]);
    std::fs::write(folder.path().join("entries.jsonl"), "{\"macro\":\"Codec\"}\n").unwrap();
    compare_run("expansions-bad", folder.path(), &["check", "--no-std", "--expansions", "entries.jsonl"]);
}

/// What comes in has a message that says what to do, and the status 2; nothing panics.
#[test]
fn bad_input() {
    let empty = TempDir::new().unwrap();
    compare_run("bad-no-manifest", empty.path(), &["check"]);
    compare_run("bad-no-folder", empty.path(), &["check", "no/such"]);
    let folder = package(&[("src/lib.rs", "pub struct S;")]);
    compare_run("bad-place", folder.path(), &["where", "src/lib.rs"]);
    compare_run("bad-no-file", folder.path(), &["where", "src/no.rs:1:1"]);
    compare_run("bad-no-path", folder.path(), &["where", "src/lib.rs:1:13", "--no-std"]);
    compare_run("bad-program", folder.path(), &["check", "--program", "no/such"]);
    compare_run("bad-std", folder.path(), &["check", "--std-sources", "."]);
    compare_run("bad-package", folder.path(), &["check", "-p", "two"]);
    compare_run("bad-cfg", folder.path(), &["check", "--cfg", "a b"]);
    std::fs::write(folder.path().join("src/bytes.rs"), b"\xff").unwrap();
    std::fs::write(folder.path().join("src/lib.rs"), "mod bytes;").unwrap();
    compare_run("bad-bytes", folder.path(), &["where", "src/bytes.rs:1:1", "--no-std"]);
    compare_run("bad-folder", folder.path(), &["where", "src:1:1", "--no-std"]);
    for place in
        ["src/lib.rs:0:1", "src/lib.rs:4294967295:4294967295", "src/lib.rs:4294967296:1", "src/lib.rs:-1:1", ":"]
    {
        let made = run(folder.path(), &["where", place, "--no-std"]);
        assert_eq!(made.status.code(), Some(2), "{place}");
        assert!(text(&made.stderr).starts_with("error: "), "{place}: {}", text(&made.stderr));
    }
    let long = "a::".repeat(20_000);
    let paths = ["", "::", "a::", ":::a", "a b", "$crate::a", "r#a", "🦀", "a!!", "<u8 as T>::x", &long]
        .map(|it| (it, "crate"));
    let modules = ["", "::", "crate::", "$0", &long].map(|it| ("a", it));
    for (path, at) in paths.into_iter().chain(modules) {
        let made = run(folder.path(), &["resolve", path, "--at", at, "--no-std"]);
        assert!(matches!(made.status.code(), Some(1 | 2)), "{path} at {at}: {}", text(&made.stderr));
    }
    // A workspace whose member isn't there, and one without members.
    std::fs::write(folder.path().join("Cargo.toml"), "[workspace]\nmembers = [\"no\"]\n").unwrap();
    let made = run(folder.path(), &["check"]);
    assert_eq!(made.status.code(), Some(2));
    assert!(text(&made.stderr).starts_with("error: Cargo can't resolve"), "{}", text(&made.stderr));
    std::fs::write(folder.path().join("Cargo.toml"), "[workspace]\nmembers = []\n").unwrap();
    let made = run(folder.path(), &["check"]);
    assert_eq!(made.status.code(), Some(2));
    assert!(text(&made.stderr).contains("has no members"), "{}", text(&made.stderr));
    let folder = package(&[("src/lib.rs", "")]);
    std::fs::write(folder.path().join("Cargo.toml"), "[package\n").unwrap();
    let made = run(folder.path(), &["check"]);
    assert_eq!(made.status.code(), Some(2));
    assert!(text(&made.stderr).starts_with("error: Cargo can't resolve"), "{}", text(&made.stderr));
    let folder = package(&[("src/lib.rs", ""), ("src/other.rs", "")]);
    let manifest = folder.path().join("Cargo.toml");
    std::fs::write(&manifest, std::fs::read_to_string(&manifest).unwrap() + "[dependencies]\nno_such_crate = \"1\"\n")
        .unwrap();
    let made = run(folder.path(), &["check"]);
    assert_eq!(made.status.code(), Some(2));
    assert!(text(&made.stderr).contains("--online lets Cargo fetch what isn't there"), "{}", text(&made.stderr));
}

/// Nothing is run that a package brings: no build script, and nothing that its configuration has in rustc's place.
#[cfg(unix)]
#[test]
fn what_a_package_brings_is_not_run() {
    for key in ["rustc", "rustc-wrapper", "rustc-workspace-wrapper"] {
        let folder = package(&[
            ("src/lib.rs", ""),
            ("build.rs", "fn main() { std::fs::write(\"ran\", \"\").unwrap(); }"),
            (".cargo/config.toml", &format!("[build]\n{key} = \"./script\"\n")),
        ]);
        write_script(&folder.path().join("script"), "#!/bin/sh\ntouch ran\nexit 1\n");
        let made = run(folder.path(), &["check", "--no-std"]);
        assert_eq!(made.status.code(), Some(0), "{key}: {}", text(&made.stderr));
        assert!(!folder.path().join("ran").exists(), "{key}");
    }
}

/// Files and macros that can't be read are told, and the rest goes on.
#[test]
fn bad_files() {
    let folder = package(&[
        (
            "src/lib.rs",
            "mod brackets; mod bytes; mod items; mod many; mod deep; mod twice; mod macros; pub use self::many::f1;",
        ),
        ("src/brackets.rs", "pub fn f() { (] }"),
        ("src/items.rs", "pub struct S;\nlet x = 1;"),
        ("src/twice.rs", "mod twice { mod twice; }"),
    ]);
    std::fs::write(folder.path().join("src/bytes.rs"), b"pub struct S;\n// \xff\n").unwrap();
    let name = "n".repeat(900);
    let many: String = (0..20_000).map(|it| format!("pub fn f{it}() {{}} fn {name}{it}() {{}}\n")).collect();
    std::fs::write(folder.path().join("src/many.rs"), many).unwrap();
    std::fs::write(folder.path().join("src/deep.rs"), format!("fn f() {{ {}{} }}", "(".repeat(9000), ")".repeat(9000)))
        .unwrap();
    let macros = "macro_rules! forever { ($($x:tt)*) => { forever!($($x)* x); } } forever!();
        macro_rules! twice { () => { twice!(); twice!(); } } twice!();
        macro_rules! more { ($($x:tt)*) => { more!($($x)* $($x)*); } } more!(x);
        macro_rules! bad { ($x:nothing) => {} } bad!(1); none!();";
    std::fs::write(folder.path().join("src/macros.rs"), macros).unwrap();
    compare_run("bad-files", folder.path(), &["check", "--no-std"]);
}

/// Without a path it is the package of the folder, or of the nearest above, as with Cargo.
#[test]
fn the_nearest_package() {
    let folder = market();
    for (below, words) in [("shop/src/report", &["check"][..]), ("shop/src", &["check", "."]), ("shop", &["check"])] {
        let made = run(&folder.path().join(below), &[words, &["--no-std"]].concat());
        assert_eq!(made.status.code(), Some(1), "{below}: {}", text(&made.stderr));
        assert!(text(&made.stdout).contains("1 error in shop"), "{below}: {}", text(&made.stdout));
    }
    let made = run(&folder.path().join("shop/src"), &["resolve", "Price", "--at", "shop::all", "--no-std"]);
    assert!(text(&made.stdout).contains("struct shop::price::Price"), "{}", text(&made.stdout));
}

/// What is there but not visible or by another name, and where the file of a module is looked for.
#[test]
fn private_names_and_missing_files() {
    let folder = package(&[
        (
            "src/lib.rs",
            "mod a;\nmod none;\n#[path = \"../x/y.rs\"]\nmod other;\nuse a::f;\nuse a::b::S;\n\
             pub use a::{g, T, U, V as W, m, c::*, nothing};\nuse self::a::d::{self, X};\n\
             use a::{Prise, tets::X as _, unsene};\nuse serde::Serialize;\n",
        ),
        (
            "src/a.rs",
            "mod none;\nmod c {}\nmod b {\n    pub struct S;\n}\nfn f() {}\nfn g() {}\nuse self::b::S as T;\n\
             pub(super) struct U;\nenum V {}\nmacro_rules! m { () => {} }\nmod d {\n    pub(in crate::a) struct X;\n}\n\
             pub struct Price;\npub mod test {}\nfn unseen() {}\n",
        ),
    ]);
    compare_run("private", folder.path(), &["check", "--no-std"]);
}

/// Modules that lead back to a file around them, or that are too many: one knows files by what links lead to.
#[cfg(unix)]
#[test]
fn circular_modules() {
    let folder =
        package(&[("src/lib.rs", "#[path = \"lib.rs\"] mod a;\n#[path = \"lib.rs\"] mod b;\npub use a::S;\n")]);
    compare_run("circular", folder.path(), &["check", "--no-std"]);
    let folder = package(&[("src/lib.rs", "mod x;\nmod y;\n"), ("src/mod.rs", "mod x;\nmod y;\n")]);
    for name in ["x", "y"] {
        std::os::unix::fs::symlink(".", folder.path().join("src").join(name)).unwrap();
    }
    compare_run("circular-links", folder.path(), &["check", "--no-std"]);
    let folder = package(&[("src/f31.rs", "pub struct S;")]);
    for number in 0..31 {
        let next = format!("f{}.rs", number + 1);
        let name = if number == 0 { "lib.rs".to_owned() } else { format!("f{number}.rs") };
        let text = format!("#[path = \"{next}\"] mod a;\n#[path = \"{next}\"] mod b;\n");
        std::fs::write(folder.path().join("src").join(name), text).unwrap();
    }
    let made = run(folder.path(), &["check", "--no-std"]);
    assert_eq!(made.status.code(), Some(2));
    assert!(
        text(&made.stdout).contains("more than 64 modules have their items in this file"),
        "{}",
        text(&made.stdout)
    );
}

/// What is no file, or too large for one, isn't read.
#[cfg(unix)]
#[test]
fn files_that_are_none() {
    let root =
        "#[path = \"/dev/zero\"] mod zero;\nmod folder;\nmod large;\ninclude!(\"/dev/zero\");\ninclude!(\"pipe\");\n\
                include!(\"bytes\");\ninclude!(\"none\");\n";
    let folder = package(&[("src/lib.rs", root), ("src/folder.rs/x", "")]);
    let source = folder.path().join("src");
    assert!(Command::new("mkfifo").arg(source.join("pipe")).status().unwrap().success());
    std::fs::write(source.join("bytes"), b"\xff").unwrap();
    std::fs::File::create(source.join("large.rs")).unwrap().set_len(3 << 30).unwrap();
    compare_run("no-files", folder.path(), &["check", "--no-std"]);
}

/// Syntax that goes deep without a bracket, and expansions that go deeper at each step.
#[test]
fn deep_syntax() {
    let (many, items) = (10_000, 300);
    let macros = format!(
        "macro_rules! expression {{ ($x:expr) => {{ const A: bool = $x; }} }} expression!({}true);
         macro_rules! statement {{ ($x:stmt) => {{}} }} statement!({});
         macro_rules! pattern {{ ($x:pat) => {{}} }} pattern!({}x);
         macro_rules! kind {{ ($x:ty) => {{ type B = $x; }} }} kind!({}u8);
         macro_rules! arrows {{ ($x:ty) => {{ type C = $x; }} }} arrows!({}u8);
         fn f() {{ vec![{}{{ use a::b; b }}]; }}",
        "!".repeat(many),
        "return ".repeat(many),
        "& ".repeat(many),
        "& ".repeat(many),
        "fn() -> ".repeat(many),
        "!".repeat(many),
    );
    let wrap = "#![recursion_limit = \"4096\"]\nmod macros; mod items;
        macro_rules! wrap {
            ($e:expr; x $($x:tt)*) => { wrap!((((((((((($e)))))))))); $($x)*); };
            ($e:expr;) => { const C: u8 = $e; };
        }\n";
    let wrap = format!("{wrap}wrap!(1; {});\n", "x ".repeat(200));
    let items = format!("{}use x::y;{}", "mod a { ".repeat(items), "}".repeat(items));
    let folder = package(&[("src/lib.rs", &wrap), ("src/macros.rs", &macros), ("src/items.rs", &items)]);
    let made = run(folder.path(), &["check", "--no-std", "--json"]);
    assert_eq!(made.status.code(), Some(2), "{}", text(&made.stderr));
    let told = text(&made.stdout);
    for message in [
        "no rule of the macro takes `! ! ",
        "no rule of the macro takes `return ",
        "no rule of the macro takes `& ",
        "no rule of the macro takes `fn () -> ",
        "more than 1000 brackets stand in one another",
        "its items stand deeper in one another than the program takes them",
    ] {
        assert!(told.contains(message), "{message}: {}", &told[..told.len().min(4000)]);
    }
}

/// Attributes of procedural macros that a condition brings are as others are.
#[test]
fn attributes_under_conditions() {
    let folder = market();
    let path = folder.path().join("shop/src/model.rs");
    let more = "#[cfg_attr(all(), derive(Codec), codec(tag = \"c\"))] pub struct Conditional;
        #[cfg_attr(all(), cfg_attr(all(), codec::traced))] pub fn conditional() {}
        #[cfg_attr(any(), derive(Nothing), nothing)] pub struct Other;
        pub use self::{Conditional as A, conditional as b, Other as C};";
    std::fs::write(&path, std::fs::read_to_string(&path).unwrap() + more).unwrap();
    let made = run(folder.path(), &["check", "shop", "--no-std"]);
    let told = text(&made.stdout);
    // The error on purpose.
    assert_eq!(told.matches("error").count(), 2, "{told}");
    assert!(
        told.contains("`Rebate`") && told.contains("`traced` (2 uses)") && told.contains("`Codec` (3 uses)"),
        "{told}"
    );
}

/// What isn't judged since it may be in a file that a build script writes.
#[test]
fn names_that_a_build_script_may_bring() {
    let folder = package(&[
        ("build.rs", "fn main() {}\n"),
        ("src/lib.rs", "mod made { include!(concat!(env!(\"OUT_DIR\"), \"/made.rs\")); }\npub use made::One;\n"),
    ]);
    let made = run(folder.path(), &["check", "--no-std"]);
    let told = text(&made.stdout);
    let because = "; what procedural macros or build scripts bring in one\n";
    assert!(made.status.success(), "{told}");
    assert!(told.contains("note: not judged: 1 path into what isn't read: a stub") && told.contains(because), "{told}");
    assert!(told.contains("note: build scripts aren't run (one): "), "{told}");
}

/// What isn't a fault for the program, but is one of rustc's: a name that an item before it doesn't hold.
#[test]
fn imports_of_what_an_item_lacks() {
    let folder = package(&[(
        "src/lib.rs",
        "pub enum E { A }\npub struct S;\npub use E::{A, B as C};\npub use self::S::nope;\npub use crate::E::{self as F, *};\n",
    )]);
    compare_run("past-items", folder.path(), &["check", "--no-std"]);
    // The lines in which rustc has an error.
    let folder = package(&[(
        "src/lib.rs",
        "pub enum E { A }
         pub mod deep {
             macro_rules! make { ($n:ident) => { pub enum $n { V } } }
             make!(made);
             pub use super::E as renamed;
             pub type T = u8;
             pub trait Tr {}
         }
         pub use deep::made::{V,
             W};
         pub use deep::renamed::{A as D,
             F};
         pub use deep::{T::x,
             Tr::y};
         pub use u8::MAXIMUM;
         pub use deep::Unmade::Z;",
    )]);
    let made = run(folder.path(), &["check", "--no-std", "--json"]);
    let told = text(&made.stdout);
    let told = told.lines().map(|it| serde_json::from_str::<serde_json::Value>(it).unwrap());
    let lines: Vec<u64> = told.filter_map(|it| it["place"]["line"].as_u64()).collect();
    assert_eq!(lines, [10, 12, 13, 14, 15, 16]);
}

/// A glob that isn't resolved is told, and so is what it might have brought: as many errors as rustc has places of them.
#[test]
fn globs_that_are_not_resolved() {
    for (text, count) in [
        ("use crate::x::*;", 1),
        ("use crate::x::{self as y, *};", 2),
        ("use crate::x::a; use crate::y::*;", 2),
        ("mod m { pub use crate::none::*; } use m::a;", 2),
        ("mod m { pub use crate::none::*; pub use b::c; } use m::a; use crate::m::d::e;", 4),
        ("pub mod m { pub use super::n::*; } pub mod n { pub use super::m::gone::*; pub use crate::q; } use m::a;", 3),
        ("use self::a::*; use self::b::*; use c::d;", 3),
        ("mod m { pub use nothing::*; } pub use m::*; use crate::g::h; use zz;", 3),
        // What follows from another error isn't told.
        ("mod m { pub use crate::none::S; } use m::S as T; use m::S::*;", 1),
    ] {
        let folder = package(&[("src/lib.rs", text)]);
        let made = run(folder.path(), &["check", "--no-std"]);
        assert_eq!(crate::commands::text(&made.stdout).matches("error[E0432]").count(), count, "{text}");
    }
}

/// Macros mean what they mean in rustc's order: also those that expansions define, and of two of one name the one before
/// the call.
#[test]
fn macros_in_textual_scope() {
    let folder = package(&[
        (
            "src/lib.rs",
            "macro_rules! t { () => { macro_rules! d { ($n:ident) => { pub struct $n; } } } }
             t!{}
             mod m { d!{A} }
             #[macro_use] mod x { t2!{} }
             macro_rules! t2 { () => { macro_rules! e { ($n:ident) => { pub struct $n; } } } }
             #[macro_use] mod y { t2!{} }
             mod z;
             macro_rules! two { () => { pub struct First; } }
             two!{}
             macro_rules! two { () => { pub struct Second; } }
             two!{}
             pub use self::{m::A, z::{B, inner::C}, First, Second};",
        ),
        ("src/z.rs", "e!{B}\nmacro_rules! nested { ($($x:item)*) => { $($x)* } }\nnested! { pub mod inner; }\n"),
        ("src/z/inner.rs", "t2!{} e!{C}"),
    ]);
    let made = run(folder.path(), &["check", "--no-std"]);
    let told = text(&made.stdout);
    // rustc tells of the first `t2!{}` alone, which stands before its macro.
    assert_eq!(told.matches("error").count(), 2, "{told}");
    assert!(told.contains("cannot find macro `t2` in this scope") && told.contains("src/lib.rs:4:35"), "{told}");
    for (path, line) in [("crate::m::A", 3), ("crate::z::inner::C", 1), ("First", 9), ("Second", 11)] {
        let made = run(folder.path(), &["resolve", path, "--no-std"]);
        assert!(text(&made.stdout).contains(&format!(".rs:{line}:")), "{path}: {}", text(&made.stdout));
    }
}

/// A program that dies in the middle of a session.
#[cfg(unix)]
#[test]
fn a_program_that_stops() {
    let folder = package(&[("src/lib.rs", "mod a;"), ("src/a.rs", "pub struct S;")]);
    let program = folder.path().join("program");
    for (name, script) in [
        ("at-once", "#!/bin/sh\nexit 3\n"),
        ("after-three", "#!/bin/sh\nfor i in 1 2 3; do read -r line; echo '{\"ok\":null}'; done\nexit 1\n"),
    ] {
        write_script(&program, script);
        let made = run(folder.path(), &["check", "--no-std", "--program", "./program"]);
        assert_eq!(made.status.code(), Some(2), "{name}");
        let told = text(&made.stderr);
        assert!(told.starts_with("error: the program ./program stopped after"), "{name}: {told}");
        assert!(told.contains("cargo nogsimat session > FILE"), "{name}: {told}");
    }
    // Replies that are none.
    for (name, reply) in [("no-json", "hello"), ("no-object", "[1]"), ("no-reply", "{}")] {
        write_script(&program, &format!("#!/bin/sh\nread -r line; echo '{reply}'\ncat > /dev/null\n"));
        let made = run(folder.path(), &["check", "--no-std", "--program", "./program"]);
        assert_eq!(made.status.code(), Some(2), "{name}");
        let told = text(&made.stderr);
        assert!(
            told.contains(&format!("isn't Nogsimat's, or is at fault: its reply 1 is `{reply}`")),
            "{name}: {told}"
        );
    }
    // A reply without an end.
    write_script(&program, "#!/bin/sh\nread -r line; printf '{\"ok\":'; yes 1 | tr -d '\\n'\n");
    let made = run(folder.path(), &["check", "--no-std", "--program", "./program"]);
    assert_eq!(made.status.code(), Some(2));
    assert!(text(&made.stderr).contains("is at fault: its reply 1 is `{\"ok\":1111"), "{}", text(&made.stderr));
    // One that reads no further: what is left for it is more than a pipe holds.
    let many: String = (0..5000).map(|it| format!("pub fn function_of_this_number{it}() {{}}\n")).collect();
    std::fs::write(folder.path().join("src/a.rs"), many).unwrap();
    let answers = "*refresh*) echo '{\"ok\":[]}' ;; *) echo '{\"ok\":null}' ;;";
    let halts = "*src/lib.rs*'\"unit\"'*) echo '{}'; exec sleep 100000 ;;";
    write_script(&program, &format!("#!/bin/sh\nwhile read -r line; do case $line in {halts} {answers} esac; done\n"));
    let made = run(folder.path(), &["check", "--no-std", "--program", "./program"]);
    assert_eq!(made.status.code(), Some(2));
    assert!(text(&made.stderr).contains("is at fault: its reply"), "{}", text(&made.stderr));
    std::fs::remove_file(&program).unwrap();
    std::fs::write(&program, "no program").unwrap();
    let made = run(folder.path(), &["check", "--no-std", "--program", "./program"]);
    assert_eq!(made.status.code(), Some(2));
    assert!(text(&made.stderr).contains("doesn't start"), "{}", text(&made.stderr));
}

/// Three crates of Debian whose macros define macros in textual scope.
const REAL: [&str; 3] = ["libc", "petgraph", "os_str_bytes"];

/// The folder of a crate in Debian's registry.
fn registered(name: &str) -> Option<PathBuf> {
    let is_it = |it: &PathBuf| {
        let folder = it.file_name().and_then(|it| it.to_str()).unwrap_or_default();
        folder
            .strip_prefix(name)
            .is_some_and(|it| it.starts_with('-') && it[1..].starts_with(|it: char| it.is_ascii_digit()))
    };
    std::fs::read_dir(REGISTRY).ok()?.filter_map(|it| Some(it.ok()?.path())).find(is_it)
}

/// A package that depends on the real crates. None where one of them isn't there.
fn package_of_real() -> Option<TempDir> {
    if !REAL.iter().all(|it| registered(it).is_some()) {
        eprintln!("the crates {} aren't all in {REGISTRY}: not tried", REAL.join(", "));
        return None;
    }
    let folder = package(&[("src/lib.rs", "")]);
    let manifest = folder.path().join("Cargo.toml");
    let dependencies: String = REAL.iter().map(|it| format!("{it} = \"*\"\n")).collect();
    let before = std::fs::read_to_string(&manifest).unwrap();
    std::fs::write(&manifest, format!("{before}[dependencies]\n{dependencies}")).unwrap();
    Some(folder)
}

#[test]
fn check_and_resolve_in_real_crates() {
    let Some(folder) = package_of_real() else {
        return;
    };
    let config = own("debian.toml");
    let more = ["--config", config.to_str().unwrap(), "--no-std"];
    for name in REAL {
        compare_run(&format!("real-{name}"), folder.path(), &[&["check", "-p", name][..], &more].concat());
    }
    for (name, path) in [
        ("libc", "libc::FD_SET"),
        ("libc-type", "libc::pthread_mutex_t"),
        ("petgraph", "petgraph::prelude::DiGraph"),
        ("petgraph-trait", "petgraph::visit::IntoNeighbors"),
        ("os_str_bytes", "os_str_bytes::OsStrBytes"),
    ] {
        compare_run(&format!("real-resolve-{name}"), folder.path(), &[&["resolve", path][..], &more].concat());
    }
}

/// In what a macro call is given, in a type, in an import, in a body with items of its own, and in another body.
#[test]
fn where_in_real_crates() {
    let Some(folder) = package_of_real() else {
        return;
    };
    let config = own("debian.toml");
    for (name, krate, place) in [
        ("libc-call", "libc", "src/unix/linux_like/mod.rs:1502:42"),
        ("libc-type", "libc", "src/unix/linux_like/mod.rs:208:24"),
        ("petgraph-import", "petgraph", "src/algo/mod.rs:24:19"),
        ("petgraph-block", "petgraph", "src/algo/mod.rs:202:10"),
        ("os_str_bytes-body", "os_str_bytes", "src/lib.rs:314:14"),
    ] {
        let place = format!("{}/{place}", registered(krate).unwrap().display());
        let words =
            ["where", &place, "--manifest-path", "Cargo.toml", "--no-std", "--config", config.to_str().unwrap()];
        compare_run(&format!("real-where-{name}"), folder.path(), &words);
    }
}

/// How many commands of each kind the session of a real crate has, and what the program says of its crate at the end.
#[test]
fn sessions_of_real_crates() {
    let Some(folder) = package_of_real() else {
        return;
    };
    let config = own("debian.toml");
    for name in REAL {
        let words = ["session", "-p", name, "--no-std", "--config", config.to_str().unwrap()];
        let made = run(folder.path(), &words);
        assert!(made.status.success(), "{}", text(&made.stderr));
        let lines: Vec<serde_json::Value> =
            text(&made.stdout).lines().map(|it| serde_json::from_str(it).unwrap()).collect();
        let mut counts = std::collections::BTreeMap::new();
        for it in &lines {
            *counts.entry(it["do"].as_str().unwrap()).or_insert(0) += 1;
        }
        let krate = lines[0]["crates"].as_array().unwrap().len() - 1;
        let session = format!("{}{{\"do\":\"diagnostics\",\"crate\":{krate}}}\n", text(&made.stdout));
        let replies = replies_to(&session);
        assert!(replies.iter().all(|it| it.get("ok").is_some()), "{name}");
        let mut told = std::collections::BTreeMap::new();
        for it in replies.last().unwrap()["ok"].as_array().unwrap() {
            *told.entry(it["kind"].as_str().unwrap()).or_insert(0) += 1;
        }
        let rows = |all: &std::collections::BTreeMap<&str, i32>| -> String {
            all.iter().map(|(name, count)| format!("{name}: {count}\n")).collect()
        };
        compare(&format!("real-session-{name}"), &format!("{}\nthe program tells\n{}", rows(&counts), rows(&told)));
    }
}

/// An import that isn't there comes into a copy of each crate, and goes.
#[test]
fn watch_in_real_crates() {
    if !REAL.iter().all(|it| registered(it).is_some()) {
        eprintln!("the crates {} aren't all in {REGISTRY}: not tried", REAL.join(", "));
        return;
    }
    let config = own("debian.toml");
    for name in REAL {
        let folder = TempDir::new().unwrap();
        copy(&registered(name).unwrap(), &folder.path().join(name));
        let manifest = format!(
            "[package]\nname = \"one\"\nversion = \"0.1.0\"\n[workspace]\nexclude = [\"{name}\"]\n[dependencies]\n{name} = {{ path = \"{name}\" }}\n"
        );
        std::fs::write(folder.path().join("Cargo.toml"), manifest).unwrap();
        std::fs::create_dir(folder.path().join("src")).unwrap();
        std::fs::write(folder.path().join("src/lib.rs"), "").unwrap();
        let words = ["watch", "-p", name, "--no-std", "--config", config.to_str().unwrap()];
        let mut watching = Watching::start(folder.path(), &words);
        watching.until(&format!("all names resolved in {name} ("));
        let root = folder.path().join(name).join("src/lib.rs");
        let before = std::fs::read_to_string(&root).unwrap();
        save(&root, &format!("{before}\nuse crate::no_such_module::Nothing;\n"));
        let line = before.lines().count() + 2;
        let made = watching.until("; 1 error");
        assert!(made.contains("unresolved import `crate::no_such_module::Nothing`"), "{made}");
        assert!(made.contains(&format!("{name}/src/lib.rs:{line}:5")), "{made}");
        assert!(made.contains(&format!("resolved again: {name} (")), "{made}");
        save(&root, &before);
        let made = watching.until("; 0 errors");
        assert!(made.contains(&format!("gone: {name}/src/lib.rs:{line}:5")), "{made}");
    }
}
