//! What the tests share.

pub mod client;

use std::path::{Path, PathBuf};
#[cfg(unix)]
use std::process::Command;

use cargo_nogsimat::package::{Crates, Wanted};
use cargo_nogsimat::program;
use cargo_nogsimat::workspace::Workspace;
use tempfile::TempDir;

/// A file or a folder of this package.
pub fn own(path: &str) -> PathBuf {
    Path::new(env!("CARGO_MANIFEST_DIR")).join(path)
}

/// A folder with all that is in it, but for what Cargo writes there, perhaps just now.
pub fn copy(from: &Path, to: &Path) {
    std::fs::create_dir_all(to).unwrap();
    for it in std::fs::read_dir(from).unwrap() {
        let it = it.unwrap();
        let target = to.join(it.file_name());
        if it.file_name() == "target" || it.file_name().to_string_lossy().starts_with("Cargo.lock") {
            continue;
        }
        if it.file_type().unwrap().is_dir() {
            copy(&it.path(), &target);
        } else {
            std::fs::copy(it.path(), target).unwrap();
        }
    }
}

/// The example in a folder of its own.
pub fn market() -> TempDir {
    let folder = TempDir::new().unwrap();
    copy(&own("examples/market"), folder.path());
    folder
}

/// A package with these files.
pub fn package(files: &[(&str, &str)]) -> TempDir {
    let folder = TempDir::new().unwrap();
    let manifest = ("Cargo.toml", "[package]\nname = \"one\"\nversion = \"0.1.0\"\nedition = \"2021\"\n[workspace]\n");
    for (name, text) in std::iter::once(&manifest).chain(files) {
        let path = folder.path().join(name);
        std::fs::create_dir_all(path.parent().unwrap()).unwrap();
        std::fs::write(path, text).unwrap();
    }
    folder
}

/// A session over the package in a folder, with a stub for the standard library.
pub fn open(folder: &Path) -> Workspace {
    open_with(folder, &program::find(None).unwrap())
}

/// The same for reports alone.
pub fn open_brief(folder: &Path) -> Workspace {
    let wanted = Wanted { path: folder.to_owned(), no_std: true, ..Wanted::default() };
    Workspace::open_brief(Crates::read(&wanted).unwrap(), &program::find(None).unwrap(), None, |_, _, _| {}).unwrap()
}

/// As [`open`], with another program.
pub fn open_with(folder: &Path, program: &Path) -> Workspace {
    let wanted = Wanted { path: folder.to_owned(), no_std: true, ..Wanted::default() };
    Workspace::open(Crates::read(&wanted).unwrap(), program, None, |_, _, _| {}).unwrap()
}

/// A script that can be called. Another process writes it: a file that is open for writing can't be called, and a child
/// that another test starts meanwhile has for a moment all that is open here.
#[cfg(unix)]
pub fn write_script(path: &Path, text: &str) {
    let write = "printf %s \"$2\" > \"$1\" && chmod 755 \"$1\"";
    let made = Command::new("sh").args(["-c", write, "sh"]).arg(path).arg(text).status().unwrap();
    assert!(made.success());
}

/// What a script calls a program by that keeps each line in a file before the program has it.
pub fn logged(log: &str, program: &str) -> String {
    format!("while IFS= read -r line; do printf '%s\\n' \"$line\" >> {log}; printf '%s\\n' \"$line\"; done | {program}")
}

/// Where commands are looked for, the server's folder first, so that `cargo nogsimat` is this one.
pub fn server_on_path() -> std::ffi::OsString {
    let server = Path::new(env!("CARGO_BIN_EXE_cargo-nogsimat"));
    let path = std::env::var_os("PATH").unwrap_or_default();
    std::env::join_paths(server.parent().map(Path::to_owned).into_iter().chain(std::env::split_paths(&path))).unwrap()
}

/// Numbers that look random, the same each time.
pub struct Dice(pub u64);

impl Dice {
    pub fn below(&mut self, most: usize) -> usize {
        self.0 = self.0.wrapping_mul(6_364_136_223_846_793_005).wrapping_add(1_442_695_040_888_963_407);
        (self.0 >> 33) as usize % most.max(1)
    }
}
