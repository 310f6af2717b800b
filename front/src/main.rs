use std::collections::BTreeSet;
use std::io::{IsTerminal, Write};
use std::path::{Path, PathBuf};
use std::process::ExitCode;
use std::time::{Duration, Instant};

use anyhow::{bail, Context as _, Result};
use cargo_nogsimat::kept::told::{Part, Told, ToldKeeper};
use cargo_nogsimat::package::{Crates, Krate, Wanted};
use cargo_nogsimat::program::{self, VARIABLE};
use cargo_nogsimat::question::{Context, Question};
use cargo_nogsimat::report::{Answer, Diagnostic, Report, Texts};
use cargo_nogsimat::token::{on_a_thread, Position};
use cargo_nogsimat::unit::Step;
use cargo_nogsimat::workspace::Workspace;
use clap::{Args, Parser, Subcommand};
use indicatif::{ProgressBar, ProgressStyle};
use notify::{RecursiveMode, Watcher};

/// Resolves the names of a Cargo package
#[derive(Parser)]
#[command(name = "cargo-nogsimat", bin_name = "cargo nogsimat", version, about)]
struct Cli {
    #[command(subcommand)]
    command: Command,
}

#[derive(Subcommand)]
enum Command {
    /// Tells what isn't resolved in a package: imports, modules, extern crates, macro calls
    Check {
        /// The package's folder, its Cargo.toml, or one of its files
        #[arg(default_value = ".")]
        path: PathBuf,
        #[command(flatten)]
        options: Options,
    },
    /// Tells what the path at a place names
    Where {
        /// FILE:LINE:COLUMN, both from 1
        place: String,
        #[command(flatten)]
        options: Options,
    },
    /// Tells what a path names
    Resolve {
        /// As `a::b` or `crate::a`
        path: String,
        /// The module in which it is looked up, as `crate::a` or `name_of_a_crate::a`
        #[arg(long, value_name = "MODULE", default_value = "crate")]
        at: String,
        #[command(flatten)]
        options: Options,
    },
    /// Checks, and again after each save
    Watch {
        /// The package's folder, its Cargo.toml, or one of its files
        #[arg(default_value = ".")]
        path: PathBuf,
        #[command(flatten)]
        options: Options,
    },
    /// Serves an editor: a language server over standard input and output
    Lsp {
        #[command(flatten)]
        options: Options,
    },
    /// Prints the session: the commands that the resolver's program is given, one a line
    Session {
        /// The package's folder, its Cargo.toml, or one of its files
        #[arg(default_value = ".")]
        path: PathBuf,
        #[command(flatten)]
        options: Options,
    },
}

#[derive(Args, Clone)]
struct Options {
    /// The package's Cargo.toml, where no PATH names it
    #[arg(long, value_name = "FILE")]
    manifest_path: Option<PathBuf>,
    /// The resolver's program
    #[arg(long, value_name = "FILE", env = VARIABLE)]
    program: Option<PathBuf>,
    /// Prints JSON, one object a line
    #[arg(long)]
    json: bool,
    /// A package in place of that at PATH, by name; one that it depends on will do too
    #[arg(long, short = 'p', value_name = "NAME")]
    package: Vec<String>,
    /// Features of the package, separated by commas or spaces
    #[arg(long, short = 'F', value_name = "FEATURES")]
    features: Vec<String>,
    /// Every feature of the package
    #[arg(long)]
    all_features: bool,
    /// Not the package's default features
    #[arg(long)]
    no_default_features: bool,
    /// With `cfg(test)`, and with tests, examples and their dependencies
    #[arg(long)]
    test: bool,
    /// Doesn't read the standard library: a stub with its preludes stands for it
    #[arg(long)]
    no_std: bool,
    /// The folder `library` of the standard library's sources [default: that of the toolchain's rust-src]
    #[arg(long, value_name = "FOLDER")]
    std_sources: Option<PathBuf>,
    /// A condition that is set for the package besides, as `rustc --cfg` takes it
    #[arg(long, value_name = "SPEC")]
    cfg: Vec<String>,
    /// What Cargo said of a build, by `cargo check --message-format json > FILE`: what build scripts set and wrote is taken
    /// from there
    #[arg(long, value_name = "FILE")]
    built: Option<PathBuf>,
    /// Cargo fetches nothing (the default)
    #[arg(long)]
    offline: bool,
    /// Lets Cargo fetch what isn't there
    #[arg(long, conflicts_with = "offline")]
    online: bool,
    /// What calls of procedural macros expand to: JSON lines with `macro`, `call`, `input` and `expansion`
    #[arg(long, value_name = "FILE")]
    expansions: Option<PathBuf>,
    /// Configuration for Cargo, as `cargo --config` takes it
    #[arg(long, value_name = "KEY=VALUE|FILE")]
    config: Vec<String>,
}

impl Options {
    fn wanted(&self, path: &Path) -> Wanted {
        let features = self.features.iter().flat_map(|it| it.split([',', ' '])).filter(|it| !it.is_empty());
        Wanted {
            path: self.manifest_path.clone().unwrap_or_else(|| nearest_package(path)),
            packages: self.package.clone(),
            features: features.map(str::to_owned).collect(),
            all_features: self.all_features,
            no_default_features: self.no_default_features,
            test: self.test,
            online: self.online,
            no_std: self.no_std,
            std_sources: self.std_sources.clone(),
            cfg: self.cfg.clone(),
            built: self.built.clone(),
            config: self.config.clone(),
        }
    }

    fn open(&self, path: &Path) -> Result<Workspace> {
        let program = program::find(self.program.as_deref())?;
        let bar = self.bar()?;
        let crates = Crates::read(&self.wanted(path))?;
        let space = Workspace::open(crates, &program, self.expansions.as_deref(), shown_by(&bar));
        bar.finish_and_clear();
        space
    }

    /// The same for reports alone.
    fn open_brief(&self, path: &Path) -> Result<Workspace> {
        let program = program::find(self.program.as_deref())?;
        let bar = self.bar()?;
        let crates = Crates::read(&self.wanted(path))?;
        self.open_crates(crates, &program, &bar)
    }

    /// What shows how reading goes, on a terminal.
    fn bar(&self) -> Result<ProgressBar> {
        let bar = match std::io::stderr().is_terminal() && !self.json {
            true => ProgressBar::new(1),
            false => ProgressBar::hidden(),
        };
        let style =
            ProgressStyle::with_template("{msg:>11} [{bar:25}] {pos}/{len}").context("the bar has a template")?;
        bar.set_style(style.progress_chars("=> "));
        bar.set_message("metadata");
        Ok(bar)
    }

    fn open_crates(&self, crates: Crates, program: &Path, bar: &ProgressBar) -> Result<Workspace> {
        let space = Workspace::open_brief(crates, program, self.expansions.as_deref(), shown_by(bar));
        bar.finish_and_clear();
        space
    }
}

/// The folder that is given. In place of the current one, where that has no `Cargo.toml`, and of a file in Rust it is the
/// nearest above that does.
fn nearest_package(path: &Path) -> PathBuf {
    let is_source = path.extension().is_some_and(|it| it == "rs") && path.is_file();
    if let Some(it) = is_source.then(|| package_of(path).ok()).flatten() {
        return it;
    }
    let here = std::env::current_dir().ok().filter(|_| path == Path::new("."));
    let found = here.as_deref().and_then(|it| it.ancestors().find(|it| it.join("Cargo.toml").is_file()));
    found.filter(|it| Some(*it) != here.as_deref()).unwrap_or(path).to_owned()
}

/// Shows how reading goes.
fn shown_by(bar: &ProgressBar) -> impl Fn(&str, usize, usize) + Send + 'static {
    let shown = bar.clone();
    move |what, done, of| {
        shown.set_message(what.to_owned());
        shown.set_length(of as u64);
        shown.set_position(done as u64);
    }
}

fn print(text: &str) -> Result<()> {
    match std::io::stdout().lock().write_all(text.as_bytes()) {
        // Who reads no further, as `head`, has what it wants.
        Err(error) if error.kind() == std::io::ErrorKind::BrokenPipe => std::process::exit(0),
        it => it.context("standard output can't be written"),
    }
}

fn print_json(value: &impl serde::Serialize) -> Result<()> {
    print(&format!("{}\n", serde_json::to_string(value)?))
}

fn plural(count: usize, what: &str) -> String {
    format!("{count} {what}{}", if count == 1 { "" } else { "s" })
}

/// How one may read a time.
fn time(it: Duration) -> String {
    match it.as_secs_f64() {
        it if it < 0.1 => format!("{:.1} ms", it * 1000.0),
        it => format!("{it:.2} s"),
    }
}

/// The packages whose build scripts may bring what isn't found: those that are asked for, and those of which something
/// isn't judged.
fn build_scripts<'a>(space: &'a Workspace, report: &Report) -> Vec<&'a str> {
    let is_open = |number: usize| space.open_modules(number as u32).next().is_some();
    let may_bring = |(number, it): &(usize, &Krate)| {
        it.is_asked && !report.diagnostics.is_empty() || report.unjudged > 0 && is_open(*number)
    };
    let all = space.crates.all.iter().enumerate().filter(|it| it.1.has_build_script && may_bring(it));
    let mut titles: Vec<&str> = all.map(|it| &*it.1.title).collect();
    titles.dedup();
    titles
}

/// What isn't read for what it is, but for files that have errors.
fn unread(space: &Workspace) -> Option<String> {
    let has_stub = space.crates.all.iter().any(|it| it.is_stub);
    let is_open = |number: &usize| space.open_modules(*number as u32).next().is_some();
    let open = (space.crates.of_std..space.crates.all.len()).filter(is_open);
    let mut titles: Vec<&str> = open.map(|it| &*space.crates.all[it].title).collect();
    titles.dedup();
    let brought = format!("what procedural macros or build scripts bring in {}", titles.join(", "));
    let all = [has_stub.then(|| space.crates.std.to_string()), (!titles.is_empty()).then_some(brought)];
    let all: Vec<String> = all.into_iter().flatten().collect();
    (!all.is_empty()).then(|| all.join("; "))
}

/// What is told besides diagnostics.
fn summary(space: &Workspace, report: &Report) -> Vec<Part> {
    let counts = space.counts();
    let own: Vec<&str> = space.crates.all.iter().filter(|it| it.is_asked).map(|it| &*it.title).take(3).collect();
    let more = space.crates.all.iter().filter(|it| it.is_asked).count() - own.len();
    let own = format!("{}{}", own.join(", "), if more > 0 { format!(" and {more} more") } else { String::new() });
    let mut text = String::new();
    for ((kind, name), count) in &report.not_run {
        let what = match *kind {
            "derive" => "is a derive of a procedural macro, which isn't run: its impls bring no names",
            "attribute" => "is an attribute of a procedural macro, which isn't run: its items stay as they are",
            _ => "is a procedural macro, which isn't run: what it brings isn't known",
        };
        text.push_str(&format!("note: `{name}` ({}) {what}\n", plural(*count, "use")));
    }
    for it in &report.elsewhere {
        text.push_str(&format!("note: not read: {it}\n"));
    }
    if report.unjudged > 0 {
        let count = plural(report.unjudged, "path");
        let unread = unread(space).map_or(String::new(), |it| format!(": {it}"));
        text.push_str(&format!("note: not judged: {count} into what isn't read{unread}\n"));
    }
    let scripts = build_scripts(space, report);
    if !scripts.is_empty() {
        let names = scripts.join(", ");
        text.push_str(&format!(
            "note: build scripts aren't run ({names}): --built names what Cargo said of them, --cfg sets conditions\n"
        ));
    }
    match report.diagnostics.len() {
        0 => text.push_str(&format!("all names resolved in {own} (")),
        it => text.push_str(&format!("{} in {own} (", plural(it, "error"))),
    }
    let (crates, files) = (plural(counts.crates, "crate"), plural(counts.files, "file"));
    text.push_str(&format!("{crates}, {files}, "));
    let behind = format!("; {})\n", space.crates.std);
    vec![Part::Text(text), Part::Nodes, Part::Text(", ".to_owned()), Part::Time, Part::Text(behind)]
}

/// Whether text has colors.
fn is_colored() -> bool {
    std::io::stdout().is_terminal() && std::env::var_os("NO_COLOR").is_none()
}

/// The same as JSON.
fn summary_json(space: &Workspace, report: &Report) -> Vec<Part> {
    let not_run: Vec<_> = report
        .not_run
        .iter()
        .map(|((kind, name), count)| serde_json::json!({"kind": kind, "macro": name, "uses": count}))
        .collect();
    let counts = space.counts();
    let about = serde_json::json!({
        "errors": report.diagnostics.len(),
        "unjudged": report.unjudged,
        "not_run": not_run,
        "crates": counts.crates,
        "files": counts.files,
        "nodes": null,
        "milliseconds": null,
        "std": space.crates.std,
    });
    let about = format!("{about}\n");
    let mut parts = Vec::new();
    let mut rest = &about[..];
    let open = [("\"nodes\":null", Part::Nodes), ("\"milliseconds\":null", Part::Time)];
    while let Some((at, it)) = open.iter().filter_map(|it| Some((rest.find(it.0)?, it))).min_by_key(|it| it.0) {
        let (before, behind) = rest.split_at(at + it.0.len());
        parts.extend([Part::Text(before.trim_end_matches("null").to_owned()), it.1.clone()]);
        rest = behind;
    }
    parts.push(Part::Text(rest.to_owned()));
    parts
}

/// What is told of a package.
fn told(space: &Workspace, report: &Report, json: bool) -> Result<Told> {
    let status = match (report.diagnostics.is_empty(), report.is_partial()) {
        (true, _) => 0,
        (false, false) => 1,
        (false, true) => 2,
    };
    let has_places = !report.diagnostics.is_empty() || !report.elsewhere.is_empty();
    let mut texts = Texts::default();
    let mut before = String::new();
    for it in &report.diagnostics {
        let text = if json { serde_json::to_string(it)? } else { texts.show(it, is_colored()) };
        before.push_str(&format!("{text}\n"));
    }
    let mut parts = vec![Part::Text(before)];
    parts.extend(if json { summary_json(space, report) } else { summary(space, report) });
    Ok(Told { parts, nodes: space.counts().nodes, status, has_places })
}

fn tell(told: &Told, taken: Duration, json: bool) -> Result<()> {
    let part = |it: &Part| match (it, json) {
        (Part::Text(it), _) => it.clone(),
        (Part::Nodes, true) => told.nodes.to_string(),
        (Part::Nodes, false) => plural(told.nodes, "node"),
        (Part::Time, true) => taken.as_millis().to_string(),
        (Part::Time, false) => time(taken),
    };
    print(&told.parts.iter().map(part).collect::<String>())
}

fn check(path: &Path, options: &Options) -> Result<ExitCode> {
    let start = Instant::now();
    let program = program::find(options.program.as_deref())?;
    let (bar, wanted) = (options.bar()?, options.wanted(path));
    let crates = Crates::read(&wanted)?;
    let form = ["check".to_owned(), options.json.to_string(), is_colored().to_string()];
    let files = std::iter::once(program.clone()).chain(options.expansions.clone()).collect();
    let keeper = ToldKeeper::of(&wanted, &crates, form.to_vec(), files);
    if let Some(it) = keeper.find(&crates, &program) {
        bar.finish_and_clear();
        tell(&it, start.elapsed(), options.json)?;
        return Ok(ExitCode::from(it.status));
    }
    let mut space = options.open_crates(crates, &program, &bar)?;
    space.note_questions();
    let report = space.report()?;
    let told = told(&space, &report, options.json)?;
    tell(&told, start.elapsed(), options.json)?;
    keeper.keep(&mut space, &told);
    space.abandon();
    Ok(ExitCode::from(told.status))
}

fn say(answer: &Answer, json: bool) -> Result<ExitCode> {
    match json {
        true => print_json(answer)?,
        false => print(&answer.text())?,
    }
    Ok(if answer.meanings.is_empty() { ExitCode::from(1) } else { ExitCode::SUCCESS })
}

/// The nearest folder at or above a file that has a `Cargo.toml`.
fn package_of(file: &Path) -> Result<PathBuf> {
    let file = file.canonicalize().with_context(|| format!("{} isn't there", file.display()))?;
    let found = file.ancestors().skip(1).find(|it| it.join("Cargo.toml").is_file());
    found.map(Path::to_owned).with_context(|| format!("no folder above {} has a Cargo.toml", file.display()))
}

fn where_(place: &str, options: &Options) -> Result<ExitCode> {
    let mut parts = place.rsplitn(3, ':');
    let (column, line, file) = (parts.next(), parts.next(), parts.next());
    let number = |it: Option<&str>| it.and_then(|it| it.parse::<u32>().ok()).filter(|it| *it > 0);
    let (Some(line), Some(column), Some(file)) = (number(line), number(column), file) else {
        bail!("`{place}` is no place; give FILE:LINE:COLUMN, as src/lib.rs:3:9");
    };
    let file = Path::new(file);
    let mut space = options.open(&package_of(file)?)?;
    let answer = space.answer_at(file, Position { line, column });
    space.abandon();
    say(&answer?, options.json)
}

fn resolve(path: &str, at: &str, options: &Options) -> Result<ExitCode> {
    let mut space = options.open(Path::new("."))?;
    let mut names = at.split("::").map(str::to_owned);
    let first = names.next().unwrap_or_default();
    let found = match &*first {
        "crate" => space.crates.all.iter().position(|it| it.is_asked),
        it => space.crates.all.iter().position(|krate| krate.name == it.replace('-', "_")),
    };
    let Some(krate) = found else {
        bail!("there is no crate `{first}` here; give a module as `crate::a` or `name_of_a_crate::a`");
    };
    let module: Vec<Step> = names.map(Step::Module).collect();
    let context = if path.ends_with('!') { Context::Call } else { Context::Plain };
    let path = path.trim_end_matches('!').to_owned();
    let question = Question { krate: krate as u32, place: module, whole: path.clone(), path, context };
    let answer = space.answer(question);
    space.abandon();
    say(&answer?, options.json)
}

fn watch(path: &Path, options: &Options) -> Result<ExitCode> {
    let start = Instant::now();
    let mut space = options.open_brief(path)?;
    let mut report = space.report()?;
    tell(&told(&space, &report, options.json)?, start.elapsed(), options.json)?;
    let (send, events) = std::sync::mpsc::channel();
    let mut watcher = notify::recommended_watcher(send).context("files can't be watched")?;
    let folder = space.crates.folder.clone();
    watcher
        .watch(&folder, RecursiveMode::Recursive)
        .with_context(|| format!("{} can't be watched", folder.display()))?;
    eprintln!("watching {}", folder.display());
    while let Ok(event) = events.recv() {
        let mut paths = BTreeSet::new();
        let mut next = Some(event);
        while let Some(event) = next {
            if let Ok(it) = event {
                paths.extend(it.paths);
            }
            next = events.recv_timeout(Duration::from_millis(30)).ok();
        }
        let target = folder.join("target");
        paths.retain(|it| !it.starts_with(&target));
        let names_manifest = |it: &PathBuf| it.file_name().is_some_and(|it| it == "Cargo.toml" || it == "Cargo.lock");
        let start = Instant::now();
        let resolved = if paths.iter().any(names_manifest) {
            match options.open_brief(path) {
                Ok(it) => space = it,
                Err(error) => {
                    eprintln!("error: {error:#}");
                    continue;
                }
            }
            (0..space.crates.all.len() as u32).collect()
        } else {
            let sources: Vec<PathBuf> = paths.into_iter().filter(|it| space.reads(it)).collect();
            if sources.is_empty() {
                continue;
            }
            // An editor may be about to write what it has emptied.
            if sources.iter().any(|it| it.metadata().is_ok_and(|it| it.len() == 0)) {
                std::thread::sleep(Duration::from_millis(50));
            }
            if let [it] = &sources[..] {
                if let Some(next) = space.report_of_file(it)? {
                    tell_changes(&report, &next, None, start.elapsed(), options.json)?;
                    report = next;
                }
            }
            space.update(&sources)?
        };
        let next = space.report()?;
        let taken = start.elapsed();
        let names: Vec<&str> = resolved.iter().map(|it| &*space.crates.all[*it as usize].title).collect();
        tell_changes(&report, &next, Some(&names), taken, options.json)?;
        report = next;
    }
    Ok(ExitCode::SUCCESS)
}

/// Tells what came and went. Without the names of crates it is known before any is resolved again.
fn tell_changes(before: &Report, now: &Report, names: Option<&[&str]>, taken: Duration, json: bool) -> Result<()> {
    let came: Vec<&Diagnostic> = now.diagnostics.iter().filter(|it| !before.diagnostics.contains(it)).collect();
    let went: Vec<&Diagnostic> = before.diagnostics.iter().filter(|it| !now.diagnostics.contains(it)).collect();
    if json {
        return print_json(&serde_json::json!({
            "resolved": names.unwrap_or_default(), "microseconds": taken.as_micros() as u64, "errors": now.diagnostics.len(), "new": came,
            "gone": went,
        }));
    }
    let mut texts = Texts::default();
    for it in came {
        print(&format!("{}\n", texts.show(it, false)))?;
    }
    for it in went {
        print(&format!("gone: {}:{}:{}: {}\n", it.place.file, it.place.line, it.place.column, it.message))?;
    }
    let what = match names {
        None => "known at once".to_owned(),
        Some([]) => "nothing to resolve again".to_owned(),
        Some(names) => format!("resolved again: {}", names.join(", ")),
    };
    print(&format!("{what} ({}); {}\n", time(taken), plural(now.diagnostics.len(), "error")))
}

fn session(path: &Path, options: &Options) -> Result<ExitCode> {
    let space = options.open(path)?;
    for line in space.session() {
        print(&format!("{line}\n"))?;
    }
    space.abandon();
    Ok(ExitCode::SUCCESS)
}

fn lsp(options: &Options) -> Result<ExitCode> {
    let settings = cargo_nogsimat::lsp::Settings {
        wanted: options.wanted(Path::new(".")),
        program: options.program.clone(),
        expansions: options.expansions.clone(),
    };
    let was_shut_down = cargo_nogsimat::lsp::serve(settings, std::io::stdin(), std::io::stdout())?;
    Ok(if was_shut_down { ExitCode::SUCCESS } else { ExitCode::from(1) })
}

fn main() -> ExitCode {
    on_a_thread(run)
}

fn run() -> ExitCode {
    // `cargo nogsimat` gives its own name as the first argument.
    let mut words: Vec<_> = std::env::args_os().collect();
    if words.get(1).is_some_and(|it| it == "nogsimat") {
        words.remove(1);
    }
    let ran = match &Cli::parse_from(words).command {
        Command::Check { path, options } => check(path, options),
        Command::Where { place, options } => where_(place, options),
        Command::Resolve { path, at, options } => resolve(path, at, options),
        Command::Watch { path, options } => watch(path, options),
        Command::Session { path, options } => session(path, options),
        Command::Lsp { options } => lsp(options),
    };
    ran.unwrap_or_else(|error| {
        eprintln!("error: {error:#}");
        ExitCode::from(2)
    })
}
