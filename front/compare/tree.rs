//! The paths of a tree that rustc printed by `-Zunpretty=hir-tree`, with what it resolved each to.

use std::collections::HashSet;
use std::path::PathBuf;

use cargo_nogsimat::token::Position;

/// A path that rustc resolved.
#[derive(Clone, Debug, PartialEq, Eq, Hash)]
pub struct Resolved {
    pub file: PathBuf,
    pub at: Position,
    pub names: Vec<String>,
    /// rustc's kind of definition, as `Struct` or `Ctor`.
    pub kind: String,
    /// As `core::option::Option`.
    pub wanted: String,
    pub is_import: bool,
}

impl Resolved {
    /// Whether it is an item of a trait.
    pub fn is_associated(&self) -> bool {
        self.kind.starts_with("Assoc")
    }
}

/// `crate[hash]::a::{extern#0}::b` as `crate::a::b`.
fn plain(definition: &str) -> Option<String> {
    let path = definition.split(" ~ ").nth(1)?;
    let path = path.trim_end_matches([')', ',']);
    let mut names = Vec::new();
    for (at, name) in path.split("::").enumerate() {
        let name = if at == 0 { name.split('[').next()? } else { name };
        if name.starts_with("{extern#") || name.starts_with("{constructor#") {
            continue;
        }
        // What sets two definitions of one name apart.
        let name = name.split('#').next().filter(|it| *it != "r").unwrap_or(name.trim_start_matches("r#"));
        names.push(name.to_owned());
    }
    Some(names.join("::"))
}

/// The file, the line and the column of a span as rustc prints it, FILE:LINE:COLUMN: LINE:COLUMN (#0); none of a macro's.
fn start_of(span: &str) -> Option<(&str, u32, u32)> {
    let mut parts = span.strip_suffix("(#0)")?.rsplitn(5, ':').skip(2);
    let (column, line) = (parts.next()?.trim().parse().ok()?, parts.next()?.trim().parse().ok()?);
    Some((parts.next()?, line, column))
}

/// The names of the segments that begin in a line, and the line in which these end.
fn names_from(text: &str, lines: &[&str], start: usize) -> (Vec<String>, usize) {
    let mut names = Vec::new();
    let depth = depth_of(text, lines, start);
    for (number, it) in lines.iter().enumerate().skip(start + 1) {
        if depth_of(text, lines, number) == depth && *it == "]," {
            return (names, number);
        }
        if depth_of(text, lines, number) == depth + 8 {
            if let Some(name) = it.strip_prefix("ident: ") {
                let name = name.trim_end_matches(',');
                names.push(name.rsplit_once('#').map_or(name, |it| it.0).to_owned());
            }
        }
    }
    (names, start)
}

/// The paths of a tree that rustc printed.
pub fn read_tree(text: &str) -> Vec<Resolved> {
    let lines: Vec<&str> = text.lines().map(str::trim).collect();
    let mut made = Vec::new();
    let mut seen = HashSet::new();
    for (at, line) in lines.iter().enumerate() {
        let is_path = line.ends_with("Path {") || line.ends_with("UsePath {");
        let Some(span) = lines.get(at + 1).and_then(|it| it.strip_prefix("span: ")) else {
            continue;
        };
        let Some((file, line_number, column)) = start_of(span.trim_end_matches(',')).filter(|_| is_path) else {
            continue;
        };
        let is_import = at > 0 && lines[at - 1].ends_with("Use(");
        let Some(end) = (at + 2..lines.len()).find(|it| lines[*it] == "segments: [") else {
            continue;
        };
        let results = &lines[at + 2..end];
        let (names, close) = names_from(text, &lines, end);
        // A `use` of a glob or of a name; the stem of a list says nothing.
        let kind_of_use = lines.get(close + 2).copied().unwrap_or_default();
        if is_import && kind_of_use.starts_with("ListStem") {
            continue;
        }
        for (number, it) in results.iter().enumerate() {
            if it.starts_with("res: PrimTy(") || it.starts_with("PrimTy(") {
                push(&mut made, &mut seen, file, line_number, column, &names, "PrimTy", "", is_import);
            }
            if !it.ends_with("Def(") {
                continue;
            }
            let kind = results.get(number + 1).copied().unwrap_or_default();
            let kind = kind.trim_end_matches([',', '(', '{', ' ']);
            let definition = results[number..].iter().find(|it| it.starts_with("DefId("));
            if let Some(wanted) = definition.and_then(|it| plain(it)) {
                push(&mut made, &mut seen, file, line_number, column, &names, kind, &wanted, is_import);
            }
        }
    }
    made
}

#[allow(clippy::too_many_arguments)]
fn push(
    made: &mut Vec<Resolved>,
    seen: &mut HashSet<Resolved>,
    file: &str,
    line: u32,
    column: u32,
    names: &[String],
    kind: &str,
    wanted: &str,
    is_import: bool,
) {
    let it = Resolved {
        file: file.into(),
        at: Position { line, column },
        names: names.to_vec(),
        kind: kind.to_owned(),
        wanted: wanted.to_owned(),
        is_import,
    };
    if seen.insert(it.clone()) {
        made.push(it);
    }
}

/// How far a trimmed line of the text is indented.
fn depth_of(text: &str, lines: &[&str], at: usize) -> usize {
    let trimmed = lines[at].as_ptr() as usize;
    let start = text.as_ptr() as usize;
    let before = &text.as_bytes()[..trimmed - start];
    before.iter().rev().take_while(|it| **it == b' ').count()
}
