//! Measures edits: a package of so many nodes, in which the body of a function is edited in a file of 2,000 lines, and in
//! which an item is added there; or a file of a package that is there. Each time of the clock runs from the new text to the
//! diagnostics of the package. On a machine that has other work the processor's time tells more: that of the front end and
//! of the program, on Linux.

mod server;

use std::path::{Path, PathBuf};
use std::time::Instant;

use anyhow::Result;
use cargo_nogsimat::package::{Crates, Wanted};
use cargo_nogsimat::program;
use cargo_nogsimat::workspace::Workspace;
use clap::Parser;

/// Measures edits in a package that is made for it
#[derive(Parser)]
struct Cli {
    /// The folder in which the package is made
    folder: PathBuf,
    #[arg(long, default_value_t = 50_000)]
    nodes: usize,
    #[arg(long, default_value_t = 50)]
    edits: usize,
    #[arg(long)]
    std_sources: Option<PathBuf>,
    /// Measures the language server beside this executable: from an edit to the answer of a request right behind it, or to
    /// the diagnostics that are published
    #[arg(long)]
    server: bool,
    /// A file that is edited in the language server: the folder has a package, which is taken as it is
    #[arg(long)]
    file: Option<PathBuf>,
    /// An import that is added to that file and taken away again
    #[arg(long, default_value = "use std::fmt::Debug;")]
    import: String,
    /// Options of the language server
    #[arg(last = true)]
    options: Vec<String>,
}

const TABLE: &str =
    "| Edit | median, ms | 95 of 100 | most | processor, ms: front end | program |\n|---|---|---|---|---|---|";

/// A file of 2,000 lines: functions of ten lines, structs, imports and an impl each.
fn file(number: usize, edited: usize, added: usize) -> String {
    let mut text = String::from("use super::*;\nuse std::fmt::Debug;\n\n");
    for it in 0..125 {
        let value = if it == 60 { edited } else { 0 };
        text.push_str(&format!(
            "#[derive(Clone, Debug)]\npub struct Item{it}In{number} {{\n    pub first: u32,\n    second: Vec<String>,\n}}\n\n\
             impl Item{it}In{number} {{\n    pub fn get(&self, at: usize) -> Option<&String> {{\n        let found = self.second.get(at + {value});\n        \
             if found.is_none() {{\n            return None;\n        }}\n        found\n    }}\n}}\n\n",
        ));
    }
    for it in 0..added {
        text.push_str(&format!("pub fn added_{it}() {{}}\n"));
    }
    text
}

fn told(what: &str, mut times: Vec<f64>, of_processor: [f64; 2]) {
    times.sort_by(f64::total_cmp);
    let at = |part: f64| times[((times.len() - 1) as f64 * part) as usize];
    let [own, program] = of_processor.map(|it| it / times.len() as f64);
    println!("| {what} | {:.1} | {:.1} | {:.1} | {own:.1} | {program:.1} |", at(0.5), at(0.95), at(1.0));
}

/// The milliseconds of processor that a process has had, user and system, as far as Linux tells them: to the hundredth of
/// a second. 0 elsewhere.
fn processor_of(process: u32) -> f64 {
    let text = std::fs::read_to_string(format!("/proc/{process}/stat")).unwrap_or_default();
    // The name of the process stands in brackets.
    let fields = text.rsplit(')').next().unwrap_or_default().split_whitespace();
    fields.skip(11).take(2).filter_map(|it| it.parse::<f64>().ok()).map(|it| it * 10.0).sum()
}

fn main() -> Result<()> {
    let cli = Cli::parse();
    if let Some(it) = &cli.file {
        return server::measure_file(&cli, &it.canonicalize()?);
    }
    let source = cli.folder.join("src");
    std::fs::create_dir_all(&source)?;
    std::fs::write(
        cli.folder.join("Cargo.toml"),
        "[package]\nname = \"large\"\nversion = \"0.1.0\"\nedition = \"2021\"\n[workspace]\n",
    )?;
    let files = (cli.nodes / 377).max(1);
    let mut root = String::new();
    for it in 0..files {
        root.push_str(&format!("pub mod m{it};\npub use m{it}::Item0In{it};\n"));
        std::fs::write(source.join(format!("m{it}.rs")), file(it, 0, 0))?;
    }
    std::fs::write(source.join("lib.rs"), root)?;
    let path = source.join("m3.rs").canonicalize()?;
    match cli.server {
        true => server::measure(&cli, &path),
        false => measure(&cli, files, &path),
    }
}

fn measure(cli: &Cli, files: usize, path: &Path) -> Result<()> {
    let wanted = Wanted {
        path: cli.folder.clone(),
        std_sources: cli.std_sources.clone(),
        no_std: cli.std_sources.is_none(),
        ..Wanted::default()
    };
    let crates = Crates::read(&wanted)?;
    let start = Instant::now();
    let mut space = Workspace::open(crates, &program::find(None)?, None, |_, _, _| {})?;
    let report = space.report()?;
    let own: usize = {
        let number = space.crates.all.iter().position(|it| it.is_asked).unwrap_or(0) as u32;
        space.files(number).iter().filter_map(|(key, _)| space.built(key)).map(|it| it.nodes.len()).sum()
    };
    println!(
        "{own} nodes in {files} files; opened in {:.2} s; {} errors",
        start.elapsed().as_secs_f64(),
        report.diagnostics.len()
    );
    println!("{TABLE}");
    let mut measure = |what: &str, text: &dyn Fn(usize) -> String| -> Result<()> {
        let mut times = Vec::new();
        let processes = [std::process::id(), space.program_id()];
        let before = processes.map(processor_of);
        for it in 0..cli.edits {
            let text = text(it);
            let start = Instant::now();
            space.update_text(path, &text)?;
            space.report()?;
            times.push(start.elapsed().as_secs_f64() * 1000.0);
        }
        let after = processes.map(processor_of);
        told(what, times, [after[0] - before[0], after[1] - before[1]]);
        Ok(())
    };
    measure("the body of a function", &|it| file(3, it + 1, 0))?;
    measure("an item is added", &|it| file(3, 0, it + 1))
}
