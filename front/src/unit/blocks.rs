//! The blocks of a file as the program takes them: each is a unit of its own, at a place.

use std::collections::HashMap;
use std::fmt::Write as _;
use std::sync::Arc;

use serde_json::Value;

use super::{build_at, is_builtin, is_enabled, numbered, quoted, Built, Id, Replaced, Without};
use crate::cfg::Options;
use crate::syntax::{Block, Call, Item, ItemKind, Unit};
use crate::token::{Hash, Span};

/// A step of a place: to a module in a module or a block, or to a block that these hold.
#[derive(Clone, PartialEq, Eq, Hash, Debug)]
pub enum Step {
    Module(String),
    Block(Id),
}

/// The steps to a module.
pub fn steps_of(module: &[String]) -> Vec<Step> {
    module.iter().cloned().map(Step::Module).collect()
}

/// A place as the program reads it.
pub fn place_json(krate: u32, steps: &[Step]) -> String {
    let mut text = format!("[{krate}");
    for it in steps {
        let _ = match it {
            Step::Module(name) => write!(text, ",{}", quoted(name)),
            Step::Block((hash, index)) => write!(text, ",{{\"block\":[{hash},{index}]}}"),
        };
    }
    text.push(']');
    text
}

/// The steps of a place as the program writes it.
pub(crate) fn steps_from(place: &Value) -> Vec<Step> {
    let number = |it: &Value| it.as_u64().unwrap_or_default() as u16;
    let steps = place.as_array().into_iter().flatten().skip(1);
    steps
        .map(|it| match it.as_str() {
            Some(name) => Step::Module(name.to_owned()),
            None => Step::Block((number(&it["block"][0]), number(&it["block"][1]))),
        })
        .collect()
}

/// A block as it is handed in.
#[derive(Debug)]
pub struct BuiltBlock {
    /// What was read.
    pub block: Arc<Block>,
    /// From the module whose items the file has.
    pub steps: Vec<Step>,
    /// The names that lead there: of modules, and of the items in which it stands.
    pub names: Vec<String>,
    /// Its unit.
    pub built: Arc<Built>,
    /// The macro calls among its statements, which may expand to more items once they are known.
    calls: Vec<Hash>,
}

impl BuiltBlock {
    /// Whether the program is told the same of both.
    pub fn is_same(&self, other: &BuiltBlock) -> bool {
        self.steps == other.steps && self.calls == other.calls && self.built.json == other.built.json
    }
}

/// What is known of calls.
#[derive(Clone, Copy)]
pub struct Known<'a> {
    /// What stands in place of calls in blocks.
    pub replaced: Replaced<'a>,
    /// What rules expand a call to, where that is known: blocks are those of it, else those that the call is given.
    pub expanded: Replaced<'a>,
}

/// Blocks in more blocks than this aren't handed in, as the program's limit is.
const MOST_NESTED: usize = 16;

/// The blocks of a file and of what its calls expand to, the outer ones before those in them. Of an expansion those
/// in which something stands that its call was given. Attributes that may be macros are left out, so that items stay as
/// they are; a macro call among the statements is what `replaced` has for it, else nothing.
pub fn build_blocks(unit: &Unit, options: &Options, known: Known) -> Vec<BuiltBlock> {
    let mut lowering = Lowering {
        options,
        known,
        call: None,
        made: Vec::new(),
        steps: Vec::new(),
        names: Vec::new(),
        depth: 0,
        seen: HashMap::new(),
    };
    if is_enabled(&unit.attributes, options) {
        lowering.items(&unit.items, Hash::default());
    }
    lowering.made
}

struct Lowering<'a> {
    options: &'a Options,
    known: Known<'a>,
    /// The call in the file whose expansion is gone through.
    call: Option<Span>,
    made: Vec<BuiltBlock>,
    steps: Vec<Step>,
    names: Vec<String>,
    depth: usize,
    /// How many blocks of a hash each place has.
    seen: HashMap<(Vec<Step>, u16), u16>,
}

impl Lowering<'_> {
    fn items(&mut self, items: &[Item], around: Hash) {
        for item in items.iter().filter(|it| is_enabled(&it.attributes, self.options)) {
            let inner = item.inner();
            if let ItemKind::Call(call) = &item.kind {
                self.call(call, &item.blocks, around.with("MacroCall").with(&call.path.text));
                continue;
            }
            if item.blocks.is_empty() && inner.is_empty() {
                continue;
            }
            let (known_by, name) = match &item.kind {
                ItemKind::Trait(_) => (around.with("Trait").with(item.name_text()), Some(item.name_text())),
                ItemKind::Impl { .. } => (around.with("Impl").with(&item.text.text()), None),
                ItemKind::ExternBlock(_) => (around, None),
                _ => {
                    let name = item.name.as_ref().map_or("_", |it| &it.text);
                    (around.with(name), Some(name))
                }
            };
            self.names.extend(name.map(str::to_owned));
            self.blocks(&item.blocks, known_by);
            if let ItemKind::Module(_) = item.kind {
                self.steps.push(Step::Module(item.name_text().to_owned()));
                self.items(inner, Hash::default());
                self.steps.pop();
            } else {
                self.items(inner, known_by);
            }
            if name.is_some() {
                self.names.pop();
            }
        }
    }

    /// Those of what a call expands to, or those that it is given.
    fn call(&mut self, call: &Call, given: &[Arc<Block>], around: Hash) {
        let Some(unit) = (self.known.expanded)(call) else {
            return self.blocks(given, around);
        };
        let before = self.call;
        self.call = before.or(Some(call.path.span));
        self.items(&unit.items, around);
        self.blocks(&unit.blocks, around);
        self.call = before;
    }

    fn blocks(&mut self, blocks: &[Arc<Block>], around: Hash) {
        if self.depth == MOST_NESTED {
            return;
        }
        for block in blocks.iter().filter(|it| it.is_given()) {
            let id = self.id(around.with("block"));
            self.steps.push(Step::Block(id));
            self.depth += 1;
            let items = bare(&block.items, self.options);
            let mut calls = Vec::new();
            calls_of(&items, &mut calls);
            let unit = Unit { items, ..Unit::default() };
            let replaced = |call: &Call| {
                let items = (self.known.replaced)(call).map_or(Vec::new(), |it| bare(&it.items, self.options));
                Some(Arc::new(Unit { items, ..Unit::default() }))
            };
            let built = Arc::new(build_at(&unit, self.options, &replaced, Without::default(), self.call));
            let (steps, names) = (self.steps.clone(), self.names.clone());
            self.made.push(BuiltBlock { block: block.clone(), steps, names, built, calls });
            self.items(&block.items, Hash::default());
            self.blocks(&block.blocks, Hash::default());
            self.depth -= 1;
            self.steps.pop();
        }
    }

    /// The id of the next block at the place: a hash of the names around it, and how many such come before.
    fn id(&mut self, mut hash: Hash) -> Id {
        loop {
            let count = self.seen.entry((self.steps.clone(), hash.short())).or_default();
            if *count < 2048 {
                *count += 1;
                return (hash.short(), *count - 1);
            }
            hash = hash.with("more");
        }
    }
}

/// The items without attributes that may be macros.
fn bare(items: &[Item], options: &Options) -> Vec<Item> {
    let is_kept = |path: &str| path != "derive" && is_builtin(path);
    let mut made = items.to_vec();
    for item in &mut made {
        let attributes = numbered(&item.attributes, options).into_iter().map(|it| it.1);
        item.attributes = attributes.filter(|it| is_kept(&it.path.text)).collect();
        item.input = None;
        match &mut item.kind {
            ItemKind::Module(Some(inner))
            | ItemKind::ExternBlock(inner)
            | ItemKind::Trait(inner)
            | ItemKind::Impl { items: inner, .. } => *inner = bare(inner, options),
            _ => {}
        }
    }
    made
}

fn calls_of(items: &[Item], made: &mut Vec<Hash>) {
    for item in items {
        match &item.kind {
            ItemKind::Call(it) => made.push(it.identity),
            ItemKind::Module(Some(inner)) | ItemKind::ExternBlock(inner) => calls_of(inner, made),
            _ => {}
        }
    }
}

#[cfg(test)]
mod tests {
    use super::*;
    use crate::syntax::unit_of;
    use crate::token::{on_a_thread, tokens_of};
    use crate::unit::use_text;

    fn shown(items: &[Item]) -> String {
        let all = items.iter().map(|it| match &it.kind {
            ItemKind::Use(tree) => format!("use {}", use_text(tree)),
            ItemKind::Call(call) => format!("{}!", call.path.text),
            _ => it.name_text().to_owned(),
        });
        all.collect::<Vec<_>>().join(" ")
    }

    fn read(text: &str) -> Unit {
        on_a_thread(|| unit_of(&tokens_of(text).unwrap(), Hash::default())).unwrap()
    }

    fn built(text: &str) -> Vec<BuiltBlock> {
        let mut options = Options::default();
        options.set("unix");
        build_blocks(&read(text), &options, Known { replaced: &|_| None, expanded: &|_| None })
    }

    /// Each block by the names that lead to it, how many blocks it is in, and its items.
    fn check(text: &str, wanted: &[&str]) {
        let made = built(text);
        let shown: Vec<String> = made
            .iter()
            .map(|it| {
                let depth = it.steps.iter().filter(|it| matches!(it, Step::Block(_))).count();
                format!("{} {depth}: {}", it.names.join("::"), shown(&it.block.items))
            })
            .collect();
        assert_eq!(shown, wanted, "{text}");
        let mut places: Vec<String> = made.iter().map(|it| place_json(0, &it.steps)).collect();
        places.sort();
        places.dedup();
        assert_eq!(places.len(), made.len(), "each block has a place of its own: {places:?}");
    }

    #[test]
    fn which_blocks_there_are() {
        check("fn f() { let x = 1; x } struct S;", &[]);
        check("fn f() { use a::b; struct S; } fn g() { fn h() {} }", &["f 1: use a::b S", "g 1: h"]);
        check("mod m { mod n { fn f() { struct S; } } }", &["m::n::f 1: S"]);
        check("impl A { fn f() { struct S; } } impl B { fn f() { struct S; } }", &["f 1: S", "f 1: S"]);
        check("fn f() { struct A; { struct B; fn g() { struct C; } } }", &["f 1: A", "f 2: B g", "f::g 3: C"]);
        check("fn f() { mod m { fn g() { struct A; } } }", &["f 1: m", "f::m::g 2: A"]);
        check("fn f() { { struct A; } { struct B; } }", &["f 1: A", "f 1: B"]);
        check("#[cfg(windows)] fn f() { struct A; } #[cfg(unix)] fn f() { struct B; }", &["f 1: B"]);
        check("#![cfg(windows)] fn f() { struct A; }", &[]);
        check("const _: () = { struct A; }; const _: () = { struct A; };", &["_ 1: A", "_ 1: A"]);
        check("struct S { a: [u8; { struct A; 1 }] } enum E { V = { struct B; 1 } }", &["S 1: A", "E 1: B"]);
        check("trait T<const N: u8 = { struct A; 1 }> { type X = [u8; { struct B; 1 }]; }", &["T 1: A", "T::X 1: B"]);
        check("mod m { impl P<{ struct A; 1 }> { fn f() { struct B; } } }", &["m 1: A", "m::f 1: B"]);
        check("extern \"C\" { fn f(x: &[u8; { struct A; 1 }]); }", &["f 1: A"]);
        check("m! { fn f() { struct A; } } fn g() { struct B; m!({ struct C; }); }", &[" 1: A", "g 1: B m!", "g 2: C"]);
        check("#[cfg(windows)] struct S([u8; { struct A; 1 }]); #[cfg(windows)] m!({ struct B; });", &[]);
    }

    #[test]
    fn blocks_in_more_blocks_than_the_program_takes() {
        let mut text = String::new();
        for number in 0..20 {
            text = format!("struct S{number}; {{ {text} }}");
        }
        let made = built(&format!("fn f() {{ {text} }} fn g() {{ struct S; }}"));
        assert_eq!(made.len(), MOST_NESTED + 1);
        assert_eq!(made[15].steps.len(), 16);
        assert_eq!(shown(&made[16].block.items), "S");
    }

    #[test]
    fn what_the_program_is_told() {
        let made =
            built("fn f() { #[derive(A)] #[a::b(c)] pub struct S(u8); use x::{y as z}; #[cfg(unix)] fn g() {} }");
        assert_eq!(made.len(), 1);
        let json: serde_json::Value = serde_json::from_str(&made[0].built.json).unwrap();
        let nodes = json["nodes"].as_array().unwrap();
        let kinds: Vec<&str> = nodes.iter().map(|it| it["kind"].as_str().unwrap()).collect();
        assert_eq!(kinds, ["Struct", "Use", "Fn"]);
        assert!(nodes[0].get("attrs").is_none());
        assert_eq!(nodes[0]["vis"], "pub");
        assert!(nodes[0].get("input").is_none());
        assert_eq!(nodes[2]["attrs"][0]["cfg"], "unix");
        let place: serde_json::Value = serde_json::from_str(&place_json(3, &made[0].steps)).unwrap();
        let Step::Block((hash, index)) = made[0].steps[0] else { panic!() };
        assert_eq!(place, serde_json::json!([3, {"block": [hash, index]}]));
        let steps = [Step::Module("a\"b".to_owned()), Step::Block((9, 0)), Step::Module("m".to_owned())];
        assert_eq!(place_json(0, &steps), "[0,\"a\\\"b\",{\"block\":[9,0]},\"m\"]");
    }

    #[test]
    fn calls_are_what_they_expand_to() {
        let unit = read("fn f() { use a::b; m!(S); n!(); mod i { m!(T); } }");
        let items = read("#[x] struct S; k!{}");
        let replaced = |call: &Call| (call.path.text == "m").then(|| Arc::new(items.clone()));
        let known = Known { replaced: &replaced, expanded: &|_| None };
        let made = build_blocks(&unit, &Options::default(), known);
        let json: serde_json::Value = serde_json::from_str(&made[0].built.json).unwrap();
        let nodes = json["nodes"].as_array().unwrap();
        let kinds: Vec<&str> = nodes.iter().map(|it| it["kind"].as_str().unwrap()).collect();
        assert_eq!(kinds, ["Use", "Struct", "Module"]);
        assert_eq!(nodes[2]["nodes"][0]["kind"], "Struct");
        assert_eq!(made[0].calls.len(), 3);
        assert!(!built("fn f() { use a::b; m!(S); }")[0].is_same(&built("fn f() { use a::b; m!(T); }")[0]));
    }

    /// The steps of the block that has an item of this name, and the id of the item.
    fn place_of(made: &[BuiltBlock], name: &str) -> (Vec<Step>, Id) {
        let found = made.iter().find_map(|it| Some((it, it.built.nodes.iter().find(|it| &*it.name == name)?)));
        let (block, node) = found.unwrap_or_else(|| panic!("no {name}"));
        (block.steps.clone(), node.id)
    }

    #[test]
    fn ids_stay() {
        let before = built(
            "fn f() { struct A; { struct B; } } impl X { fn f() { struct C; } } mod m { fn f() { struct D; } } \
             fn g() { { struct E; } { struct F; } } struct S([u8; { struct G; 1 }]); m!({ struct H; });",
        );
        for after in [
            // What is written elsewhere, before and behind, with and without items.
            "fn z() { struct Z; } fn f() { struct A; { struct B; } } impl X { fn z() { use z::z; } fn f() { struct C; } } \
             mod m { struct Z; fn f() { struct D; } } fn g() { { struct E; } { struct F; } } fn y() { struct Y; } \
             struct Z([u8; { struct Z; 1 }]); struct S([u8; { struct G; 1 }]); z!({ struct Z; }); m!({ struct H; });",
            // In the blocks themselves.
            "fn f(x: u8) { let y = x; struct A; use z::z; { y; struct B; fn z() { struct Z; } } } \
             impl X { #[inline] pub fn f() { struct Z; struct C; } } \
             mod m { fn f() { 1; struct D; { struct Z; } } } fn g() { { struct E; } { struct Z; struct F; } } \
             struct S(u8, [u8; { struct Z; struct G; 2 }]); m!(x, { struct Z; struct H; });",
            // In another order.
            "m!({ struct H; }); struct S([u8; { struct G; 1 }]); fn g() { { struct E; } { struct F; } } mod m { fn f() { struct D; } } impl X { fn f() { struct C; } } \
             fn f() { { struct B; } struct A; }",
        ] {
            let after = built(after);
            for name in ["A", "B", "C", "D", "E", "F", "G", "H"] {
                assert_eq!(place_of(&before, name), place_of(&after, name), "{name}");
            }
        }
    }
}
