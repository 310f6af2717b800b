//! Damaged text: nothing panics, whatever a file holds.

use std::path::Path;
use std::sync::Arc;

use crate::common::{own, Dice};
use cargo_nogsimat::cfg::Options;
use cargo_nogsimat::macros::Rules;
use cargo_nogsimat::site::path_at;
use cargo_nogsimat::syntax::{unit_of, ItemKind};
use cargo_nogsimat::token::{Hash, Position};
use cargo_nogsimat::unit::build;
use cargo_nogsimat::workspace::parse_text;

/// The text with some pieces taken out, doubled, or replaced.
fn damaged(text: &str, dice: &mut Dice) -> String {
    const PIECES: [&str; 16] =
        ["{", "}", "(", ")", "<", ">", "::", "#", "$", "'", "\"", "macro_rules!", "é", "r#", "$(", "/*"];
    let mut all: Vec<char> = text.chars().collect();
    for _ in 0..1 + dice.below(4) {
        let at = dice.below(all.len());
        let end = (at + dice.below(12)).min(all.len());
        match dice.below(3) {
            0 => drop(all.drain(at..end)),
            1 => {
                let piece: Vec<char> = all[at..end].to_vec();
                all.splice(at..at, piece);
            }
            _ => drop(all.splice(at..end, PIECES[dice.below(PIECES.len())].chars())),
        }
    }
    all.into_iter().collect()
}

#[test]
fn damaged_files_are_read_or_refused() {
    let names = ["src/unit.rs", "src/macros/tests.rs", "stub/core/src/lib.rs", "examples/market/shop/src/lib.rs"];
    let texts = names.map(|it| std::fs::read_to_string(own(it)).unwrap());
    let key: Arc<str> = "file.rs".into();
    let mut dice = Dice(11);
    let mut read = 0;
    for number in 0..300 {
        let text = damaged(&texts[number % texts.len()], &mut dice);
        let parsed = parse_text(Path::new("file.rs"), &key, &text);
        read += usize::from(parsed.error.is_none());
        let built = build(&parsed.unit, &Options::default(), &|_| None);
        let unit: serde_json::Value = serde_json::from_str(&built.json).unwrap();
        assert!(unit["nodes"].is_array());
        for _ in 0..5 {
            let line = 1 + dice.below(text.lines().count()) as u32;
            path_at(&text, &parsed.unit.items, Position { line, column: 1 + dice.below(80) as u32 }, &|_| None);
        }
    }
    assert!((50..300).contains(&read), "{read} files are read");
}

#[test]
fn damaged_macros_are_expanded_or_refused() {
    let text = "macro_rules! m {
        ($($(#[$a:meta])* $v:vis fn $n:ident($($x:ident: $t:ty),* $(,)?) $(-> $r:ty)? $b:block)*) => {
            $($(#[$a])* $v fn $n($($x: $t),*) $(-> $r)? $b)*
        };
        (@ $($k:literal => $e:expr),+ ; $p:pat | $($rest:tt)*) => { $(const K: u8 = $k + $e;)+ m!($($rest)*); };
    }
    m!(#[a] pub fn f(x: Vec<Vec<u8>>, y: &'a dyn Fn(u8) -> u8) -> Option<u8> { Some(1) } fn g() {});
    m!(@ 1 => a + b, 2 => f(|x, y| x) ; Some(_) | pub fn h() {});";
    let key: Arc<str> = "file.rs".into();
    let mut dice = Dice(5);
    let mut expanded = 0;
    for _ in 0..2000 {
        let parsed = parse_text(Path::new("file.rs"), &key, &damaged(text, &mut dice));
        let rules: Vec<Rules> = parsed
            .unit
            .items
            .iter()
            .filter_map(|it| match &it.kind {
                ItemKind::Macro(it) => Rules::read(it).ok(),
                _ => None,
            })
            .collect();
        for it in &parsed.unit.items {
            if let ItemKind::Call(call) = &it.kind {
                for made in rules.iter().filter_map(|it| it.expand(&call.input, 0).ok()) {
                    expanded += usize::from(unit_of(&made, Hash::default()).is_ok());
                }
            }
        }
    }
    assert!(expanded > 100, "{expanded} calls are expanded");
}
