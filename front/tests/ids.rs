//! Ids that stay: an edit of one item changes the id of no other.

use std::path::Path;
use std::sync::Arc;

use crate::common::Dice;
use cargo_nogsimat::cfg::Options;
use cargo_nogsimat::syntax::Item;
use cargo_nogsimat::token::{Position, Span};
use cargo_nogsimat::unit::{build, build_blocks, place_json, Built, BuiltBlock, Known};
use cargo_nogsimat::workspace::parse_text;

fn built(text: &str) -> (Vec<Item>, Built, Vec<BuiltBlock>) {
    let key: Arc<str> = "file.rs".into();
    let parsed = parse_text(Path::new("file.rs"), &key, text);
    assert!(parsed.error.is_none(), "{:?}", parsed.error);
    let options = Options::default();
    let built = build(&parsed.unit, &options, &|_| None);
    (
        parsed.unit.items.clone(),
        built,
        build_blocks(&parsed.unit, &options, Known { replaced: &|_| None, expanded: &|_| None }),
    )
}

/// The kinds and ids of the nodes outside of a part of the text.
fn others(built: &Built, part: Span) -> Vec<(&'static str, (u16, u16))> {
    let inside = |it: Span| part.start <= it.start && it.end <= part.end;
    built.nodes.iter().filter(|it| !inside(it.whole)).map(|it| (it.kind, it.id)).collect()
}

/// The places of the blocks outside of a part of the text, and what the program is told of them.
fn other_blocks(blocks: &[BuiltBlock], part: Span) -> Vec<(String, &str)> {
    let inside = |it: Span| part.start <= it.start && it.end <= part.end;
    let outside = blocks.iter().filter(|it| !inside(it.block.span));
    outside.map(|it| (place_json(0, &it.steps), &*it.built.json)).collect()
}

fn offset(text: &str, at: Position) -> usize {
    let line: usize = text.split_inclusive('\n').take(at.line as usize - 1).map(str::len).sum();
    line + text[line..].chars().take(at.column as usize - 1).map(char::len_utf8).sum::<usize>()
}

fn behind(start: Position, text: &str) -> Position {
    let lines = text.matches('\n').count() as u32;
    let last = text.rsplit('\n').next().unwrap_or("").chars().count() as u32;
    Position { line: start.line + lines, column: if lines == 0 { start.column + last } else { last + 1 } }
}

#[test]
fn an_edit_of_one_item_leaves_the_ids_of_the_others() {
    let own = Path::new(env!("CARGO_MANIFEST_DIR"));
    let mut files = vec![own.join("src/workspace.rs"), own.join("src/syntax.rs"), own.join("src/unit.rs")];
    for it in [
        "syn-1.0.107/src/item.rs",
        "libc-0.2.139/src/unix/mod.rs",
        "petgraph-0.6.2/src/graph_impl/mod.rs",
        // With many bodies that have items.
        "serde-1.0.152/src/de/impls.rs",
        "clap-4.0.32/src/parser/matches/arg_matches.rs",
    ] {
        files.push(Path::new("/usr/share/cargo/registry").join(it));
    }
    files.retain(|it| it.is_file());
    let texts: Vec<String> = files.iter().map(|it| std::fs::read_to_string(it).unwrap()).collect();
    let unedited: Vec<_> = texts.iter().map(|it| built(it)).collect();
    let mut dice = Dice(7);
    let mut blocks = 0;
    for number in 0..100 {
        let (path, text) = (&files[number % files.len()], &texts[number % files.len()]);
        let (items, before, blocks_before) = &unedited[number % files.len()];
        let item = &items[dice.below(items.len())];
        let (start, end) = (offset(text, item.span.start), offset(text, item.span.end));
        let old = &text[start..end];
        let (new, part) = match dice.below(4) {
            // A new item before it.
            0 => (format!("fn added_{number}() {{}}\n{old}"), None),
            // Another item in its place.
            1 => (format!("struct Replaced{number};"), Some(item.span)),
            // Another name.
            2 if item.name.is_some() => {
                let name = item.name_text();
                (old.replacen(name, &format!("renamed_{number}"), 1), Some(item.span))
            }
            // Nothing in its place, with what stands before it on a module that is new.
            _ => (format!("mod removed_{number} {{}}"), Some(item.span)),
        };
        let edited = format!("{}{new}{}", &text[..start], &text[end..]);
        let (_, after, blocks_after) = built(&edited);
        let nowhere = Span { start: item.span.start, end: item.span.start };
        let new_end = match part {
            Some(_) => behind(item.span.start, &new),
            None => behind(item.span.start, &new[..new.find('\n').unwrap()]),
        };
        let (part, new_part) = (part.unwrap_or(nowhere), Span { start: item.span.start, end: new_end });
        assert_eq!(others(before, part), others(&after, new_part), "edit {number} of {}", path.display());
        let (wanted, found) = (other_blocks(blocks_before, part), other_blocks(&blocks_after, new_part));
        assert_eq!(wanted, found, "edit {number} of {}", path.display());
        blocks += wanted.len();
    }
    assert!(blocks > 100 || files.len() < 8, "{blocks} blocks");
}

#[test]
fn many_nodes_of_one_name_have_ids() {
    let text = "impl A for B {} ".repeat(9000);
    let (_, built, _) = built(&text);
    let mut ids: Vec<_> = built.nodes.iter().map(|it| it.id).collect();
    ids.sort_unstable();
    ids.dedup();
    assert_eq!(ids.len(), 9000);
    assert!(ids.iter().all(|it| it.1 < 2048));
}
