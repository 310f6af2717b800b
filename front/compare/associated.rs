//! Items of a crate's own impls and traits behind a type, as in `Type::new`: rustc tells in its analysis where each is
//! declared.

use std::collections::HashMap;
use std::path::Path;
use std::process::{Command, ExitCode};

use anyhow::{bail, Context as _, Result};
use cargo_nogsimat::question::{Context, Question};
use cargo_nogsimat::site::{sites, Site};
use cargo_nogsimat::token::{on_a_thread, tokens_of, Position};
use cargo_nogsimat::workspace::{key_of, path_of_key, Workspace};
use serde_json::Value;

use crate::Cli;

/// A file below the package's folder, a line and a column.
type At = (String, u32, u32);

fn at_of(span: &Value) -> Option<At> {
    let number = |name: &str| Some(span[name].as_u64()? as u32);
    Some((span["file_name"].as_str()?.to_owned(), number("line_start")?, number("column_start")?))
}

/// What rustc says of the crate.
fn analysis(cli: &Cli, target: &Path) -> Result<Value> {
    let file = target.join("analysis.json");
    let settings = serde_json::json!({
        "output_file": file, "full_docs": false, "pub_only": false, "reachable_only": false, "distro_crate": false,
        "signatures": false, "borrow_data": false,
    });
    let mut command = Command::new(&cli.cargo);
    for it in &cli.config {
        command.args(["--config", it]);
    }
    command.args(["rustc", "--offline", "--profile", "check", "--lib", "-p", &cli.package, "--", "-Zsave-analysis"]);
    command.current_dir(&cli.path).env("CARGO_TARGET_DIR", target).env("RUSTC_BOOTSTRAP", "1");
    let ran = command.env("RUST_SAVE_ANALYSIS_CONFIG", settings.to_string()).output();
    let ran = ran.with_context(|| format!("{} doesn't start", cli.cargo.display()))?;
    if !ran.status.success() {
        bail!("{}", String::from_utf8_lossy(&ran.stderr));
    }
    let text = std::fs::read(&file).with_context(|| format!("{} can't be read", file.display()))?;
    Ok(serde_json::from_slice(&text)?)
}

/// Where the items of impls and traits are declared that rustc found, by where they are named.
fn declared(analysis: &Value) -> HashMap<At, At> {
    let list = |name: &str| analysis[name].as_array().cloned().unwrap_or_default();
    let number = |id: &Value| Some((id["krate"].as_u64()?, id["index"].as_u64()?));
    let is_associated =
        |it: &Value| it["kind"] == "Method" || it["qualname"].as_str().is_some_and(|it| it.starts_with('<'));
    let definitions = list("defs").into_iter().filter(is_associated);
    let places: HashMap<(u64, u64), At> =
        definitions.filter_map(|it| Some((number(&it["id"])?, at_of(&it["span"])?))).collect();
    let named = |it: Value| Some((at_of(&it["span"])?, places.get(&number(&it["ref_id"])?)?.clone()));
    list("refs").into_iter().filter_map(named).collect()
}

/// The paths of the crate's files that go on behind a name, by where their last names stand.
fn paths_of(cli: &Cli, space: &Workspace, number: u32) -> Result<Vec<(At, Site, String)>> {
    let folder = cli.path.canonicalize()?;
    let mut made = Vec::new();
    for (key, _) in space.files(number) {
        let path = path_of_key(key);
        let text = std::fs::read_to_string(&path)?;
        let blocks: Vec<_> = space.blocks_of(number, key).iter().map(|it| it.1.block.span).collect();
        let found = on_a_thread(|| tokens_of(&text).map(|it| sites(&it, &blocks, &|_, _| true)).unwrap_or_default());
        let name = path.strip_prefix(&folder).unwrap_or(&path).display().to_string();
        let is_wanted = |it: &Site| it.path.contains("::") && !it.goes_on && it.context == Context::Plain;
        for it in found.into_iter().filter(is_wanted) {
            made.push(((name.clone(), it.span.start.line, it.span.start.column), it, path.display().to_string()));
        }
    }
    Ok(made)
}

pub fn compare(cli: &Cli, target: &Path, space: &mut Workspace, number: u32) -> Result<ExitCode> {
    let declared = declared(&analysis(cli, target)?);
    let (mut asked, mut agree, mut among_several) = (0, 0, 0);
    let mut differ = Vec::new();
    for (at, site, file) in paths_of(cli, space, number)? {
        let Some(wanted) = declared.get(&at) else {
            continue;
        };
        asked += 1;
        let key = key_of(Path::new(&file))?;
        let place = space.place_of(number, &key, Position { line: at.1, column: at.2 });
        let (path, whole) = (site.path.clone(), site.whole.clone());
        let answer = space.answer(Question { krate: number, place, path, whole, context: site.context });
        let meanings = answer.ok().filter(|it| it.stopped_at.is_none()).map_or(Vec::new(), |it| it.meanings);
        let is_it = |it: &cargo_nogsimat::report::Meaning| {
            let place = it.place.as_ref();
            place.is_some_and(|it| it.file.ends_with(&wanted.0) && (it.line, it.column) == (wanted.1, wanted.2))
        };
        match meanings.iter().any(is_it) {
            true if meanings.len() == 1 => agree += 1,
            true => among_several += 1,
            false => {
                let found: Vec<String> = meanings.iter().map(|it| it.path.clone()).collect();
                differ.push(format!("{}:{}:{}: `{}`: rustc {wanted:?}, found {found:?}", at.0, at.1, at.2, site.path));
            }
        }
    }
    let name = &space.crates.all[number as usize].name;
    println!("| {name} | {asked} | {agree} | {among_several} | {} |", differ.len());
    for it in differ.iter().take(cli.show) {
        println!("    {it}");
    }
    Ok(ExitCode::SUCCESS)
}
