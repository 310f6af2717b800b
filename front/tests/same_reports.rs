//! Edits of which it is known before the program has them what is told: the same, or the same but for imports.

use std::path::Path;

use cargo_nogsimat::report::Report;
use cargo_nogsimat::workspace::{key_of, parse_text, KnownBy, Workspace};

use crate::common::{market, open, open_brief, package, Dice};

/// What is told, but for lines and columns.
fn told(report: &Report) -> Vec<String> {
    let text = |it: &cargo_nogsimat::report::Diagnostic| {
        format!("{}: {}: {}: {}: {:?}", it.place.file, it.kind, it.message, it.label, it.notes)
    };
    let mut all: Vec<String> = report.diagnostics.iter().map(text).collect();
    all.sort();
    all
}

/// By what it is known what is told with a text. Then the program has it, and tells that if it is known, as does another
/// session that is asked again.
fn known([space, other]: &mut [Workspace; 2], path: &Path, text: &str, why: &str) -> Option<KnownBy> {
    let key = key_of(path).unwrap();
    let before = told(&space.report().unwrap());
    let parsed = parse_text(path, &key, text);
    let made = space.knows_report(&key, &parsed, true).unwrap();
    let ahead = told(&space.report_ahead(&key).unwrap());
    assert_eq!(told(&space.report().unwrap()), before, "{why}");
    space.update_text(path, text).unwrap();
    other.update_text(path, text).unwrap();
    let now = told(&space.report().unwrap());
    assert_eq!(now, told(&other.report().unwrap()), "{why}");
    if made.is_some() {
        assert_eq!(now, ahead, "{why}");
        assert!(now == before || made == BY_IMPORTS, "{why}");
    }
    made
}

const ROOT: &str = "mod a;\nmod b;\npub mod c;\nmod d;\nmod e;\nmod g;\npub use a::f;\n\
    macro_rules! m { () => { pub struct M; pub use crate::a::Later as FromM; } }\nm!();\n\
    use crate::nothing;\nuse std::none::Such;\n";
const A: &str = "pub fn f() {}\npub struct Later;\npub mod k { pub struct Deep; pub enum Way { Up, Down } }\n";
const B: &str = "pub use crate::a::k::*;\nuse crate::c::Shared;\nuse self::Way::Up as Upward;\n\
    #[derive(Clone)] struct T;\n#[unknown] fn g() {}\n";
const C: &str = "pub struct Shared;\npub fn helper() {}\npub(in crate::c) mod within {}\n";
const D: &str = "use super::*;\nuse self::c::helper as other;\nuse super::super::above;\n\
    mod twice { pub fn first() {} }\nmod twice { pub fn second() {} }\nmod once { pub fn third() {} }\n";

const E: &str = "use crate::c::Coming;\npub use crate::a::Missing as Found;\nuse super::e::Found as Again;\n\
    mod inner { pub use super::*; }\nuse inner::Found as Within;\nuse crate::c::{Twofold, Twofold as Other};\n";

const G: &str =
    "called!();\ncrate::c::called_there!();\ncrate::c::Holding::held!();\nNearby::held!();\nstd::held!();\n\
    #[crate::c::marked] fn of_attribute() {}\n#[derive(crate::c::Derived)] struct OfDerive;\n\
    use crate::c::Kind::One;\npub use crate::c::Kind::{Two, Three as Third};\nuse super::g::Third as Again;\n\
    use self::Own::Four;\nuse Lonely::Five;\n";

const BY_NAMES: Option<KnownBy> = Some(KnownBy::Names);
const BY_LOOK_UPS: Option<KnownBy> = Some(KnownBy::LookUps);
const UNJUDGED: Option<KnownBy> = Some(KnownBy::Unjudged);
const BY_IMPORTS: Option<KnownBy> = Some(KnownBy::Imports);

/// Each edit of what is behind the texts above: the file, what stands there, what comes in its place (behind the text
/// where nothing stands there), and by what it is known what is told.
const EDITS: [(&str, &str, &str, Option<KnownBy>); 85] = [
    // Names that stand nowhere else.
    ("c", "", "fn alone() {}\n", BY_NAMES),
    ("c", "pub fn helper() {}", "pub fn helper() {} pub struct Alone;", BY_NAMES),
    // Imports whose names are looked up in other modules alone.
    ("c", "", "use crate::a::Later;\n", BY_LOOK_UPS),
    ("c", "", "pub(crate) use crate::a::{f, k::Deep as Shallow};\n", BY_LOOK_UPS),
    ("c", "", "use crate::a::k::{self, Way::{Up, Down as _}};\n", BY_LOOK_UPS),
    ("c", "", "use crate::a::Later as nothing;\n", BY_LOOK_UPS),
    ("c", "", "use crate::a::Later as unknown;\n", BY_LOOK_UPS),
    ("c", "", "use crate::a::Later as helper;\n", None),
    ("c", "", "mod inner { pub fn one() {} }\nuse crate::a::f;\n", None),
    ("a", "pub struct Deep;", "use crate::c::Shared; pub struct Deep;", BY_LOOK_UPS),
    ("b", "", "use self::Shared as Again;\n", BY_LOOK_UPS),
    ("b", "use crate::c::Shared;", "use crate::c::{helper, Shared};", BY_LOOK_UPS),
    ("b", "use crate::c::Shared;", "pub use crate::c::Shared;", BY_LOOK_UPS),
    ("b", "use crate::c::Shared;", "", BY_LOOK_UPS),
    ("b", "", "use std::clone::Clone;\n", BY_LOOK_UPS),
    ("lib", "", "use a::Later;\n", BY_LOOK_UPS),
    ("lib", "", "use crate::a::f as helper;\n", BY_LOOK_UPS),
    ("lib", "", "use std::collections::HashMap;\n", UNJUDGED),
    ("lib", "use std::none::Such;", "", UNJUDGED),
    ("lib", "use std::none::Such;", "use std::none::Other;", UNJUDGED),
    // Items whose names are.
    ("a", "", "pub struct Shared;\n", BY_LOOK_UPS),
    ("a", "pub struct Deep;", "pub struct Deep; pub struct Shared;", BY_LOOK_UPS),
    ("c", "", "pub enum Way { Up }\nconst f: u8 = 1;\n", BY_LOOK_UPS),
    ("b", "struct T;", "struct T; struct helper;", BY_LOOK_UPS),
    // What isn't reached, what something looks up, and what more than a name hangs on.
    ("c", "", "use crate::a::none;\n", None),
    ("c", "", "use crate::a::k::Way::Left;\n", None),
    ("c", "", "use crate::a::Later::none;\n", None),
    ("c", "", "use crate::m;\n", None),
    ("c", "", "use f;\n", None),
    ("c", "", "use nothing as _;\n", None),
    ("c", "", "use crate::a::k::*;\n", None),
    ("c", "", "#[cfg(all())] use crate::a::f;\n", None),
    ("c", "", "use crate::a::{f::{self}};\n", None),
    // Items that imports alone look up, by their names and those that they give them, also through globs.
    ("c", "pub struct Shared;", "", BY_IMPORTS),
    ("c", "pub fn helper() {}", "", BY_IMPORTS),
    ("c", "", "pub struct Coming;\n", BY_IMPORTS),
    ("c", "", "pub(crate) fn Coming() {}\n", BY_IMPORTS),
    ("c", "", "pub(super) enum Coming { A }\n", BY_IMPORTS),
    ("c", "", "pub struct Twofold(u8);\n", BY_IMPORTS),
    ("c", "pub struct Shared;", "pub struct Coming;", BY_IMPORTS),
    ("a", "", "pub struct Missing;\n", BY_IMPORTS),
    ("a", "", "pub(crate) struct Missing;\n", BY_IMPORTS),
    ("a", "pub fn f() {}", "", BY_IMPORTS),
    // Not seen there, beside another, by what a call expands to, or not by imports alone.
    ("c", "", "struct Coming;\n", None),
    ("c", "", "pub(self) enum Coming { A }\n", None),
    ("c", "", "pub struct Coming; fn Coming() {}\n", None),
    ("c", "pub struct Shared;", "pub(crate) struct Shared;", None),
    ("a", "pub struct Later;", "", None),
    ("lib", "", "fn nothing() {}\n", None),
    ("lib", "", "fn inner() {}\n", BY_LOOK_UPS),
    ("e", "", "fn Found() {}\n", None),
    ("c", "", "use crate::a::f as within;\n", BY_LOOK_UPS),
    ("a", "", "use crate::a::f as c;\n", None),
    ("lib", "", "use crate::a::Later as nothing;\n", None),
    ("lib", "use crate::nothing;", "", None),
    ("lib", "", "use crate::c::helper as a;\n", None),
    ("lib", "", "use crate::c::Shared as c;\n", None),
    ("lib", "", "use crate::c::Shared as above;\n", BY_LOOK_UPS),
    ("a", "pub enum Way { Up, Down }", "pub enum Way { Down }", None),
    ("a", "pub struct Deep;", "pub struct Deep; pub struct Shared; pub struct c;", None),
    ("d", "pub fn first() {}", "pub fn first() {} use crate::a::f as g;", None),
    ("d", "pub fn second() {}", "pub fn second() {} use crate::a::f as g;", None),
    ("d", "pub fn third() {}", "pub fn third() {} use crate::a::f as g;", BY_LOOK_UPS),
    ("b", "", "use crate::a::f as unknown;\n", None),
    ("b", "", "use crate::a::Later as Clone;\n", None),
    // Items that are no macros, where macros are looked up.
    ("g", "", "fn called() {}\n", BY_LOOK_UPS),
    ("g", "", "struct called;\n", BY_LOOK_UPS),
    ("lib", "", "fn m() {}\n", BY_LOOK_UPS),
    ("c", "", "pub fn called_there() {}\n", BY_LOOK_UPS),
    ("c", "", "pub struct marked;\n", BY_LOOK_UPS),
    ("c", "", "pub trait Derived {}\n", BY_LOOK_UPS),
    ("c", "", "pub struct Holding;\n", BY_IMPORTS),
    ("c", "", "pub fn Holding() {}\n", BY_IMPORTS),
    ("g", "", "enum Nearby { held }\n", BY_IMPORTS),
    ("g", "", "trait Nearby {}\n", BY_IMPORTS),
    ("g", "", "struct std;\n", None),
    ("g", "", "use crate::a::f as called;\n", None),
    // Enums whose variants imports alone look up.
    ("c", "", "pub enum Kind { One, Two(u8), Three }\n", BY_IMPORTS),
    ("c", "", "pub(crate) enum Kind { Three {}, Two, One, Four }\n", BY_IMPORTS),
    ("g", "", "enum Own { Four }\n", BY_IMPORTS),
    ("g", "", "enum Lonely { Five }\n", BY_IMPORTS),
    ("c", "", "pub enum Kind { One, Two }\n", None),
    ("c", "", "enum Kind { One, Two, Three }\n", None),
    ("c", "", "pub struct Kind;\n", None),
    ("g", "", "enum Own { Four }\nfn Four() {}\n", None),
];

#[test]
fn edits_that_change_nothing_of_what_is_told() {
    let texts = [("lib", ROOT), ("a", A), ("b", B), ("c", C), ("d", D), ("e", E), ("g", G)];
    let files: Vec<(String, &str)> = texts.iter().map(|(name, text)| (format!("src/{name}.rs"), *text)).collect();
    let files: Vec<(&str, &str)> = files.iter().map(|(name, text)| (&**name, *text)).collect();
    let folder = package(&files);
    let mut spaces = [open(folder.path()), open(folder.path())];
    let mut differ = Vec::new();
    for (name, from, to, wanted) in EDITS {
        let text = texts.iter().find(|it| it.0 == name).unwrap().1;
        let edited = if from.is_empty() { format!("{text}{to}") } else { text.replace(from, to) };
        assert_ne!(edited, text, "{to}");
        let path = folder.path().join(format!("src/{name}.rs")).canonicalize().unwrap();
        let why = format!("{name}: {from} {to}");
        let made = known(&mut spaces, &path, &edited, &why);
        if made != wanted {
            differ.push(format!("{why}: {made:?}, not {wanted:?}"));
        }
        let back = known(&mut spaces, &path, text, &format!("back from {why}"));
        assert!(back.is_none() || wanted.is_some(), "back from {why}");
    }
    assert!(differ.is_empty(), "{}", differ.join("\n"));
}

/// In edition 2015 paths of imports begin at the root.
#[test]
fn edits_in_the_old_edition() {
    let manifest = "[package]\nname = \"one\"\nversion = \"0.1.0\"\nedition = \"2015\"\n[workspace]\n";
    let (root, a) =
        ("mod a;\nmod b {}\n", "use Own::Four;\nuse b::Kind::One;\nuse ::a::Other::Two;\nOther::held!();\n");
    let folder = package(&[("Cargo.toml", manifest), ("src/lib.rs", root), ("src/a.rs", a)]);
    let mut spaces = [open(folder.path()), open(folder.path())];
    for (name, from, to, wanted) in [
        ("a", "", "enum Own { Four }\n", None),
        ("lib", "", "enum Own { Four }\n", None),
        ("a", "", "enum Other { Two }\n", BY_IMPORTS),
        ("a", "", "enum Other { Three }\n", None),
        ("lib", "mod b {}", "mod b { pub enum Kind { One } }", BY_IMPORTS),
        ("lib", "mod b {}", "mod b { enum Kind { One } }", None),
    ] {
        let text = if name == "a" { a } else { root };
        let edited = if from.is_empty() { format!("{text}{to}") } else { text.replace(from, to) };
        let path = folder.path().join(format!("src/{name}.rs")).canonicalize().unwrap();
        let why = format!("{name}: {from} {to}");
        assert_eq!(known(&mut spaces, &path, &edited, &why), wanted, "{why}");
        known(&mut spaces, &path, text, &format!("back from {why}"));
    }
}

const FILES: [&str; 6] = [
    "shop/src/lib.rs",
    "shop/src/model.rs",
    "shop/src/price.rs",
    "shop/src/report.rs",
    "shop/src/report/table.rs",
    "codec/src/lib.rs",
];

/// What is written into files of the example at random.
const LINES: [&str; 33] = [
    "pub fn more() {}",
    "pub struct More(u8);",
    "pub struct Order;",
    "pub enum Price { Free }",
    "pub fn tax() {}",
    "use crate::price::Price;",
    "pub use crate::price::{tax, Price as Cost};",
    "use crate::model::Order as Price;",
    "use crate::model::{self, Order};",
    "pub use crate::report::table as model;",
    "use crate::none;",
    "use crate::more;",
    "use super::more as most;",
    "use super::{Order as Ordered, model::Order as _};",
    "use self::Price::Free;",
    "use crate::model::*;",
    "pub use super::*;",
    "pub use std::collections::HashMap as Map;",
    "use std::fmt::Debug;",
    "pub use codec::Codec as Coded;",
    "use codec::traced;",
    "mod inner { pub use super::more; pub use crate::model::Order; }",
    "use self::inner::Order as Inner;",
    "use shop::model::Order;",
    "fn f() { use crate::model::Order; }",
    "pub(crate) use codec as price;",
    "more!();",
    "crate::price::more!();",
    "More::most!();",
    "#[super::More] fn attributed() {}",
    "#[derive(More, crate::price::Order)] struct Derived;",
    "pub use crate::price::Price::Free as Gift;",
    "use Price::Free as Given;",
];

#[test]
fn random_edits_of_the_example() {
    let folder = market();
    let mut spaces = [open(folder.path()), open(folder.path())];
    let mut dice = Dice(45);
    let paths: Vec<_> = FILES.iter().map(|it| folder.path().join(it).canonicalize().unwrap()).collect();
    let texts: Vec<String> = paths.iter().map(|it| std::fs::read_to_string(it).unwrap()).collect();
    let mut lines: Vec<Vec<&str>> = vec![Vec::new(); FILES.len()];
    let mut by_look_ups = 0;
    for round in 0..600 {
        let at = dice.below(FILES.len());
        let is_removed = !lines[at].is_empty() && dice.below(3) == 0;
        if is_removed {
            let line = dice.below(lines[at].len());
            lines[at].remove(line);
        } else {
            lines[at].push(LINES[dice.below(LINES.len())]);
        }
        if lines[at].len() > 6 {
            lines[at].clear();
        }
        let text = format!("{}{}\n", texts[at], lines[at].join("\n"));
        let why = format!("round {round}: {}: {:?}", FILES[at], lines);
        let made = known(&mut spaces, &paths[at], &text, &why);
        by_look_ups += usize::from(made == BY_LOOK_UPS || made == UNJUDGED);
    }
    assert!(by_look_ups > 60, "{by_look_ups}");
}

const MODULES: [&str; 4] = ["a", "b", "c", "d"];
const NAMES: [&str; 7] = ["One", "Two", "Three", "Four", "Five", "Six", "Seven"];

/// A line that comes into a file with others: an item that isn't there, or an import of another module's.
fn random_line(others: &[String], number: usize, dice: &mut Dice) -> String {
    let mut one_of = |all: &[&'static str]| all[dice.below(all.len())];
    let visibility = one_of(&["pub ", "pub ", "pub ", "pub(crate) ", "pub(super) ", ""]);
    let (module, name) = (one_of(&MODULES), one_of(&NAMES));
    let is_item = |it: &String| !it.contains("::") && it.contains(name);
    let kinds = ["struct", "tuple", "enum", "fn", "struct", "enum", "import", "named", "variant", "call", "attribute"];
    match one_of(&kinds) {
        "variant" => format!("{visibility}use super::{module}::{name}::A as Variant{number};"),
        "call" if number % 2 == 0 => format!("super::{module}::{name}!();"),
        "call" => format!("super::{module}::{name}::called!();"),
        "attribute" => format!("#[super::{module}::{name}] struct Attributed{number};"),
        "import" => format!("{visibility}use super::{module}::{name} as As{number};"),
        "named" => format!("{visibility}use crate::{module}::{name};"),
        _ if others.iter().any(is_item) => format!("{visibility}fn alone_{number}() {{}}"),
        "struct" => format!("{visibility}struct {name};"),
        "tuple" => format!("{visibility}struct {name}(u8);"),
        "enum" => format!("{visibility}enum {name} {{ A }}"),
        _ => format!("{visibility}fn {name}() {{}}"),
    }
}

/// The module and the name that an import or the path of a macro looks up, if it is one of a name.
fn imported(line: &str) -> Option<(usize, String)> {
    let (module, rest) = line.split_once("::")?.1.split_once("::")?;
    let name = rest.split([' ', ';', ':', '!', ']']).next().filter(|it| *it != "*")?;
    Some((MODULES.iter().position(|it| *it == module)?, name.to_owned()))
}

#[test]
fn random_edits_of_items_and_imports() {
    let mut dice = Dice(46);
    let (mut by_imports, mut of_files) = (0, 0);
    for session in 0..6 {
        let mut files: Vec<Vec<String>> = vec![Vec::new(); MODULES.len()];
        for (at, lines) in files.iter_mut().enumerate() {
            if session % 4 > at {
                lines.push(format!("pub use super::{}::*;", MODULES[dice.below(MODULES.len())]));
            }
            (0..8).for_each(|number| lines.push(random_line(lines, number, &mut dice)));
        }
        let text = |lines: &[String]| lines.iter().map(|it| format!("{it}\n")).collect::<String>();
        let folder = package(&[("src/lib.rs", "mod a;\npub mod b;\nmod c;\nmod d;\n")]);
        let path = |at: usize| folder.path().join(format!("src/{}.rs", MODULES[at]));
        (0..MODULES.len()).for_each(|at| std::fs::write(path(at), text(&files[at])).unwrap());
        let mut spaces = [open(folder.path()), open(folder.path())];
        let mut watched = open_brief(folder.path());
        watched.report().unwrap();
        for round in 0..40 {
            let imported: Vec<(usize, String)> = files.iter().flatten().filter_map(|it| imported(it)).collect();
            let mut at = dice.below(MODULES.len());
            if imported.is_empty() || dice.below(5) == 0 {
                let line = random_line(&files[at], 10 + round, &mut dice);
                files[at].push(line);
            } else {
                // An item that an import names comes, or goes where it is.
                let (of, name) = &imported[dice.below(imported.len())];
                at = *of;
                let is_item = |it: &String| !it.contains("::") && it.contains(&**name);
                match files[at].iter().position(is_item) {
                    Some(line) => drop(files[at].remove(line)),
                    None => {
                        let visibility = ["", "", "(crate)"][dice.below(3)];
                        let items = [format!("struct {name};"), format!("enum {name} {{ A }}")];
                        let item = &items[dice.below(2)];
                        files[at].push(format!("pub{visibility} {item}"));
                    }
                }
            }
            let (path, text) = (path(at).canonicalize().unwrap(), text(&files[at]));
            let why = format!("session {session}, round {round}, {}: {files:#?}", MODULES[at]);
            by_imports += usize::from(known(&mut spaces, &path, &text, &why) == BY_IMPORTS);
            std::fs::write(&path, &text).unwrap();
            let ahead = watched.report_of_file(&path).unwrap();
            watched.update(&[path]).unwrap();
            let now = watched.report().unwrap();
            if let Some(ahead) = &ahead {
                assert_eq!(ahead.diagnostics, now.diagnostics, "watched: {why}");
            }
            of_files += usize::from(ahead.is_some());
        }
    }
    assert!(by_imports > 30 && of_files > 8, "{by_imports} {of_files}");
}

/// What calls are given is looked up too, as the name of a file that another macro writes.
#[test]
fn paths_of_calls_in_what_others_are_given() {
    let root = "mod a;\ninclude!(concat!(\"one\", name!()));\n";
    let a = "macro_rules! m { () => { \".in\" } }\npub(crate) use m as end;\n";
    let folder = package(&[("src/lib.rs", root), ("src/a.rs", a), ("src/one.in", "pub struct S;\n")]);
    let mut spaces = [open(folder.path()), open(folder.path())];
    let path = folder.path().join("src/lib.rs").canonicalize().unwrap();
    for (more, wanted) in [
        ("use a::end;\n", BY_LOOK_UPS),
        ("use a::end as name;\n", None),
        ("use a::end as concat;\n", None),
        ("use a::end as name; use S as T;\n", None),
        ("fn other() {}\n", BY_NAMES),
    ] {
        assert_eq!(known(&mut spaces, &path, &format!("{root}{more}"), more), wanted, "{more}");
        spaces.iter_mut().for_each(|it| drop(it.update_text(&path, root).unwrap()));
    }
}
