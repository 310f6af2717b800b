//! Compares answers with rustc's on a real crate: each leaf of a `use` and each path of a type, a bound, a pattern or an
//! expression that rustc resolved is asked of the program, in the module in which it stands.
//!
//! rustc's answers are those of `rustc -Zunpretty=hir-tree`, so a nightly toolchain is needed, or a stable one with
//! `RUSTC_BOOTSTRAP=1`. Unlike everything else here this compiles the crate, and runs build scripts and procedural macros.

mod associated;
mod tree;

use std::collections::{BTreeMap, HashMap};
use std::path::{Path, PathBuf};
use std::process::{Command, ExitCode};
use std::time::Instant;

use anyhow::{bail, Context as _, Result};
use cargo_nogsimat::package::{Crates, Wanted};
use cargo_nogsimat::program;
use cargo_nogsimat::question::{Context, Question};
use cargo_nogsimat::site::path_at;
use cargo_nogsimat::token::Position;
use cargo_nogsimat::workspace::{key_of, Key, Workspace};
use clap::Parser;
use serde_json::Value;
use tree::{read_tree, Resolved};

/// Compares the resolver's answers with rustc's on a crate
#[derive(Parser)]
struct Cli {
    /// The folder of a package that depends on the crate
    path: PathBuf,
    /// The crate's package
    #[arg(short = 'p', long)]
    package: String,
    /// Cargo, with a rustc of its version
    #[arg(long, default_value = "cargo")]
    cargo: PathBuf,
    #[arg(long, value_name = "FOLDER")]
    std_sources: Option<PathBuf>,
    #[arg(long)]
    no_std: bool,
    #[arg(long, value_name = "KEY=VALUE|FILE")]
    config: Vec<String>,
    #[arg(long, value_name = "FILE", env = program::VARIABLE)]
    program: Option<PathBuf>,
    /// Compares items of the crate's impls and traits that stand behind a type, by rustc's analysis (`-Zsave-analysis`, to
    /// 1.68)
    #[arg(long)]
    associated: bool,
    /// Prints so many disagreements of each kind
    #[arg(long, default_value_t = 20)]
    show: usize,
}

/// What rustc says, and how long it took. What Cargo says of the build is written to a file.
fn ask_rustc(cli: &Cli, target: &Path, built: &Path) -> Result<(String, f64)> {
    let run = |more: &[&str], last: &[&str]| {
        let mut command = Command::new(&cli.cargo);
        for it in &cli.config {
            command.args(["--config", it]);
        }
        command.arg("rustc").args(["--offline", "--profile", "check", "--lib", "-p", &cli.package]).args(more);
        command.arg("--").args(last).current_dir(&cli.path);
        command.env("CARGO_TARGET_DIR", target).env("RUSTC_BOOTSTRAP", "1");
        let ran = command.output().with_context(|| format!("{} doesn't start", cli.cargo.display()))?;
        if !ran.status.success() {
            bail!("{}", String::from_utf8_lossy(&ran.stderr));
        }
        Ok(String::from_utf8_lossy(&ran.stdout).into_owned())
    };
    std::fs::write(built, run(&["--message-format", "json"], &[])?)?;
    let start = Instant::now();
    let tree = run(&[], &["-Zunpretty=hir-tree"])?;
    Ok((tree, start.elapsed().as_secs_f64()))
}

/// The path that begins at a position of a text, where it stands on one line and without arguments.
fn written_at(text: &str, at: Position) -> Option<String> {
    let line = text.lines().nth(at.line as usize - 1)?;
    let is_of_path = |it: &char| it.is_alphanumeric() || *it == '_' || *it == ':';
    let path: String = line.chars().skip(at.column as usize - 1).take_while(is_of_path).collect();
    Some(path.trim_end_matches(':').to_owned())
}

/// The namespaces in which a definition of this kind is.
fn namespaces(kind: &str, is_import: bool) -> &'static [&'static str] {
    match kind {
        _ if is_import => &["types", "values", "macros"],
        "Fn" | "Const" | "Static" | "Ctor" => &["values"],
        "Macro" => &["macros"],
        _ => &["types"],
    }
}

/// A path that is asked, and what rustc says of it.
struct Asked {
    resolved: Resolved,
    key: Key,
    question: Question,
}

/// How many answers are rustc's, and which aren't.
#[derive(Default)]
struct Comparison {
    agree: usize,
    imports: usize,
    agreed_imports: usize,
    /// By cause, with the source lines.
    differ: BTreeMap<&'static str, Vec<String>>,
}

const IN_BODIES: &str = "in a body that has items of its own";

/// What can be asked of what rustc resolved; and how often something can't, by cause.
fn questions_of(
    cli: &Cli,
    space: &Workspace,
    number: u32,
    resolved: Vec<Resolved>,
) -> Result<(Vec<Asked>, BTreeMap<&'static str, usize>)> {
    let mut asked = Vec::new();
    let mut texts: HashMap<PathBuf, String> = HashMap::new();
    let mut left_out: BTreeMap<&str, usize> = BTreeMap::new();
    for it in resolved {
        let first = it.names.first().map_or("", |it| it);
        let is_short = it.is_associated() && it.names.len() < 2;
        if matches!(it.kind.as_str(), "TyParam" | "ConstParam" | "LifetimeParam") || first == "Self" || is_short {
            continue;
        }
        if it.wanted.contains("::{") {
            *left_out.entry("a definition within a body").or_default() += 1;
            continue;
        }
        let key = key_of(&cli.path.join(&it.file))?;
        if space.module_of(number, &key).is_none() {
            *left_out.entry("in a file that is no module's").or_default() += 1;
            continue;
        }
        let names: Vec<&str> = it.names.iter().map(|it| it.trim_start_matches("r#")).collect();
        let path = match names[0] {
            "{{root}}" => format!("::{}", names[1..].join("::")),
            _ => names.join("::"),
        };
        if path.contains('$') || path.contains('{') {
            continue;
        }
        let text =
            texts.entry(it.file.clone()).or_insert_with(|| std::fs::read_to_string(&it.file).unwrap_or_default());
        let question = Question {
            krate: number,
            place: space.place_of(number, &key, it.at),
            whole: written_at(text, it.at).filter(|it| it.starts_with(&path)).unwrap_or(path.clone()),
            path,
            context: if it.is_import { Context::Import } else { Context::Plain },
        };
        asked.push(Asked { resolved: it, key, question });
    }
    Ok((asked, left_out))
}

/// The paths of what the program names, in the namespaces in which rustc's definition is.
fn found_by(space: &mut Workspace, it: &Asked, reply: &Value) -> Vec<String> {
    if it.resolved.is_associated() {
        let answer = space.answer(it.question.clone()).ok().filter(|it| it.stopped_at.is_none());
        return answer.map_or(Vec::new(), |it| it.meanings.into_iter().map(|it| it.path).collect());
    }
    if !reply["ok"]["stop"].is_null() {
        return Vec::new();
    }
    let namespaces = namespaces(&it.resolved.kind, it.resolved.is_import).iter();
    let found = namespaces.map(|namespace| &reply["ok"][*namespace]["def"]).filter(|it| !it.is_null());
    found.map(|it| space.described(it).1).collect()
}

fn compare(space: &mut Workspace, number: u32, asked: &[Asked]) -> Result<Comparison> {
    let questions: Vec<Question> = asked.iter().map(|it| it.question.clone()).collect();
    let mut replies = Vec::new();
    for part in questions.chunks(1000) {
        replies.extend(space.ask_paths(part)?);
    }
    let mut made = Comparison::default();
    for (asked, reply) in asked.iter().zip(replies) {
        let found = found_by(space, asked, &reply);
        let it = &asked.resolved;
        let is_same = |found: &String| match &*it.kind {
            "PrimTy" => !found.contains("::") && it.names.last() == Some(found),
            // rustc counts a `macro_rules` to the module in which it is written.
            "Macro" => found.rsplit("::").next() == it.wanted.rsplit("::").next(),
            _ => *found == it.wanted,
        };
        made.imports += usize::from(it.is_import);
        if found.iter().any(is_same) {
            made.agree += 1;
            made.agreed_imports += usize::from(it.is_import);
            continue;
        }
        let text = std::fs::read_to_string(&it.file).unwrap_or_default();
        let items = &space.parsed(&asked.key).context("its files are read")?.unit.items;
        let block = path_at(&text, items, it.at, &|it| space.expansion_of(number, it)).and_then(|it| it.0.block);
        let known = space.blocks_of(number, &asked.key);
        let in_block = block.is_some_and(|block| known.iter().all(|it| it.1.block.span.start != block));
        let cause = match (in_block, found.is_empty()) {
            (true, _) => IN_BODIES,
            (false, true) => "nothing found",
            (false, false) => "something else found",
        };
        let source = text.lines().nth(it.at.line as usize - 1).unwrap_or_default().trim();
        made.differ.entry(cause).or_default().push(format!(
            "{}:{}:{}: `{}` ({}{}): rustc {}, found {found:?}: {source}",
            it.file.display(),
            it.at.line,
            it.at.column,
            asked.question.path,
            if it.is_import { "import of " } else { "" },
            it.kind,
            it.wanted,
        ));
    }
    Ok(made)
}

/// The crates of the package, with what build scripts set and wrote.
fn crates_of(cli: &Cli, built: PathBuf) -> Result<Crates> {
    Crates::read(&Wanted {
        path: cli.path.clone(),
        packages: vec![cli.package.clone()],
        no_std: cli.no_std,
        std_sources: cli.std_sources.clone(),
        config: cli.config.clone(),
        built: Some(built),
        ..Wanted::default()
    })
}

fn main() -> Result<ExitCode> {
    let mut cli = Cli::parse();
    // Cargo is called in the package's folder.
    for it in &mut cli.config {
        if let Ok(path) = Path::new(it).canonicalize() {
            *it = path.display().to_string();
        }
    }
    // The packages are read by the same Cargo.
    std::env::set_var("CARGO", &cli.cargo);
    let target = cli.path.join("target/compare");
    std::fs::create_dir_all(&target)?;
    let target = target.canonicalize()?;
    let built = target.join("messages.json");
    let (tree, seconds_of_rustc) = ask_rustc(&cli, &target, &built)?;
    let start = Instant::now();
    let crates = crates_of(&cli, built)?;
    let number = crates.all.iter().position(|it| it.is_asked && !it.title.contains(' ')).context("it has a library")?;
    let number = number as u32;
    let name = crates.all[number as usize].name.clone();
    let mut space = Workspace::open(crates, &program::find(cli.program.as_deref())?, None, |_, _, _| {})?;
    let seconds = start.elapsed().as_secs_f64();
    if cli.associated {
        return associated::compare(&cli, &target, &mut space, number);
    }
    let report = space.report()?;
    let nodes: usize =
        space.files(number).iter().filter_map(|(key, _)| space.built(key)).map(|it| it.nodes.len()).sum();
    let (asked, left_out) = questions_of(&cli, &space, number, read_tree(&tree))?;
    let made = compare(&mut space, number, &asked)?;
    let in_blocks = made.differ.get(IN_BODIES).map_or(0, Vec::len);
    let judged = asked.len() - in_blocks;
    let Comparison { agree, imports, agreed_imports, .. } = made;
    println!(
        "| {name} | {nodes} | {judged} | {agree} | {:.3} % | {imports} | {agreed_imports} | {in_blocks} | {} | {seconds:.2} | {seconds_of_rustc:.2} |",
        100.0 * agree as f64 / judged.max(1) as f64,
        report.diagnostics.len(),
    );
    for it in &report.diagnostics {
        println!("  told, though rustc compiles it: {}:{}: {}", it.place.file, it.place.line, it.message);
    }
    let associated = asked.iter().filter(|it| it.resolved.is_associated()).count();
    println!("  of these to items of traits: {associated}");
    for (cause, all) in &made.differ {
        println!("  {cause}: {}", all.len());
        for it in all.iter().take(cli.show) {
            println!("    {it}");
        }
    }
    for (what, count) in &left_out {
        println!("  not asked, {what}: {count}");
    }
    Ok(ExitCode::SUCCESS)
}
