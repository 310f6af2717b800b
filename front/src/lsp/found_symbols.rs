//! The symbols of all files that are checked, by what is typed of their names.

use std::collections::BTreeSet;
use std::io::Write;

use serde_json::{json, Value};

use super::symbols::{symbols_of, Symbol, FIELD, OBJECT};
use super::Server;
use crate::workspace::Key;

/// The best of them alone are told.
const MOST_SYMBOLS: usize = 256;

/// A symbol that fits: how well, its length, its name and the name around it.
struct Fitting {
    rank: (u32, usize),
    name: String,
    around: String,
    kind: u32,
    range: Value,
    file: Key,
}

impl<W: Write> Server<W> {
    /// The symbols whose names have what is asked for as letters in this order; those first whose names begin with it.
    pub(super) fn found_symbols(&mut self, params: &Value) -> Value {
        let wanted = params["query"].as_str().unwrap_or_default().to_lowercase();
        let Some(space) = self.space.as_ref() else {
            return json!([]);
        };
        let asked = (0..space.crates.all.len() as u32).filter(|it| space.crates.all[*it as usize].is_asked);
        let files: BTreeSet<Key> = asked.flat_map(|it| space.files(it)).map(|it| it.0.clone()).collect();
        let mut found = Vec::new();
        for key in files {
            let Some(parsed) = self.space.as_ref().and_then(|it| it.parsed(&key)).cloned() else {
                continue;
            };
            let text = self.unit_text(&key);
            let symbols = symbols_of(&parsed.unit.items, &text);
            let mut fitting = Vec::new();
            fit(&symbols, "", &wanted, &mut fitting);
            for (rank, symbol, around) in fitting {
                found.push(Fitting {
                    rank: (rank, symbol.name.len()),
                    name: symbol.name.clone(),
                    around: around.to_owned(),
                    kind: symbol.kind,
                    range: self.range(&key, symbol.name_span),
                    file: key.clone(),
                });
            }
        }
        found.sort_by(|one, other| (one.rank, &one.name).cmp(&(other.rank, &other.name)));
        found.truncate(MOST_SYMBOLS);
        let mut made = Vec::new();
        for it in found {
            let location = json!({"uri": self.uri(&it.file), "range": it.range});
            let mut symbol = json!({"name": it.name, "kind": it.kind, "location": location});
            if !it.around.is_empty() {
                symbol["containerName"] = it.around.into();
            }
            made.push(symbol);
        }
        made.into()
    }
}

/// The symbols that fit, with the names around them; fields and impls are none.
fn fit<'a>(symbols: &'a [Symbol], around: &'a str, wanted: &str, made: &mut Vec<(u32, &'a Symbol, &'a str)>) {
    for it in symbols {
        let rank = rank_of(&it.name.to_lowercase(), wanted).filter(|_| it.kind != FIELD && it.kind != OBJECT);
        made.extend(rank.map(|rank| (rank, it, around)));
        fit(&it.children, &it.name, wanted, made);
    }
}

/// How well a name fits, the best first. Both are in lower case.
fn rank_of(name: &str, wanted: &str) -> Option<u32> {
    if name.starts_with(wanted) {
        return Some(u32::from(name != wanted));
    }
    if name.contains(wanted) {
        return Some(2);
    }
    let mut letters = name.chars();
    wanted.chars().all(|it| letters.any(|other| other == it)).then_some(3)
}

#[cfg(test)]
mod tests {
    use super::*;

    #[test]
    fn ranks() {
        let ranks = ["order", "order_id", "new_order", "over_dear", "red_order"].map(|it| rank_of(it, "order"));
        assert_eq!(ranks, [Some(0), Some(1), Some(2), Some(3), Some(2)]);
        assert_eq!(["ored", "price", ""].map(|it| rank_of(it, "order")), [None, None, None]);
        assert_eq!(rank_of("a", ""), Some(1));
    }
}
