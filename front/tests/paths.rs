//! What paths name at places of files: those that begin as a builtin type is called, and those in macro calls.

use std::path::PathBuf;

use crate::common::{open, package};
use cargo_nogsimat::token::Position;
use cargo_nogsimat::workspace::Workspace;
use tempfile::TempDir;

/// A session over a package of one file, in which words that are asked stand in `«»`.
struct Asked {
    _folder: TempDir,
    file: PathBuf,
    space: Workspace,
    marks: Vec<Position>,
}

/// The text without the marks, and where the words begin that they stand around.
fn unmarked(text: &str) -> (String, Vec<Position>) {
    let (mut plain, mut marks) = (String::new(), Vec::new());
    for (at, part) in text.split('«').enumerate() {
        if at > 0 {
            let line = plain.matches('\n').count() as u32 + 1;
            let column = plain.rsplit('\n').next().unwrap_or_default().chars().count() as u32 + 1;
            marks.push(Position { line, column });
        }
        plain.push_str(&part.replace('»', ""));
    }
    (plain, marks)
}

impl Asked {
    fn open(text: &str) -> Asked {
        let (plain, marks) = unmarked(text);
        let folder = package(&[("src/lib.rs", &plain)]);
        let root = folder.path().canonicalize().unwrap();
        let (file, space) = (root.join("src/lib.rs"), open(&root));
        Asked { _folder: folder, file, space, marks }
    }

    /// The text takes the place of the file's.
    fn edit(&mut self, text: &str) {
        let (plain, marks) = unmarked(text);
        std::fs::write(&self.file, plain).unwrap();
        self.space.update(std::slice::from_ref(&self.file)).unwrap();
        self.marks = marks;
    }

    /// What the words name: the kinds and paths of definitions, the module asked, and where the path stops.
    fn answers(&mut self) -> Vec<String> {
        let (file, space) = (&self.file, &mut self.space);
        let told = |at: &Position| {
            let answer = space.answer_at(file, *at).unwrap();
            let mut all: Vec<String> = answer.meanings.iter().map(|it| format!("{} {}", it.what, it.path)).collect();
            all.dedup();
            let stop = answer.stopped_at.map_or(String::new(), |it| format!(" up to {it}"));
            assert_eq!(answer.notes, [] as [String; 0], "{}", answer.path);
            let all = if all.is_empty() { "nothing".to_owned() } else { all.join(", ") };
            format!("{}: {all}{stop}", answer.module)
        };
        self.marks.iter().map(told).collect()
    }
}

const MODULES: &str = "\
pub mod m { pub mod u32 { pub const MAX: u8 = 1; pub mod inner { pub struct S; } } }
";

/// As rustc has it: a module hides the builtin type where the path goes on to something in it.
#[test]
fn builtin_types_and_modules_of_their_names() {
    let paths =
        "«u32»::«MAX»; «u32»::«from_str_radix»(); u32::inner::«S»; u32::«inner»::S; «u32»::inner::T; u32::inner::«T»;";
    let in_module = format!("{MODULES}mod n {{ use super::m::u32; fn g(x: «u32») {{ {paths} }} }}");
    let in_block = format!("{MODULES}mod n {{ fn g() {{ use super::m::u32; let x: «u32»; {paths} }} }}");
    let wanted = [
        "builtin type u32",
        "module one::m::u32",
        "constant one::m::u32::MAX",
        "builtin type u32",
        "builtin type u32 up to from_str_radix",
        "struct one::m::u32::inner::S",
        "module one::m::u32::inner",
        "builtin type u32",
        "builtin type u32 up to inner",
    ];
    let told = |module: &str| wanted.map(|it| format!("{module}: {it}"));
    assert_eq!(Asked::open(&in_module).answers(), told("one::n"));
    assert_eq!(Asked::open(&in_block).answers(), told("one::n::g"));
}

#[test]
fn builtin_types_alone() {
    let mut asked = Asked::open(&format!(
        "{MODULES}fn f(x: «u32») {{ «u32»::«MAX»; m::«u32»::MAX; }} fn g() {{ struct u8; «u8»; use m::«u32»; }}\n\
         mod e {{ enum u64 {{ A }} fn f() {{ «u64»::«A»; u64::«B» }} fn g() {{ struct S; «u64»::«A» }} }}"
    ));
    assert_eq!(
        asked.answers(),
        [
            "one: builtin type u32",
            "one: builtin type u32",
            "one: builtin type u32 up to MAX",
            "one: module one::m::u32",
            "one::g: struct one::g::u8",
            "one::g: module one::m::u32",
            "one::e: enum one::e::u64",
            "one::e: variant one::e::u64::A",
            "one::e: enum one::e::u64 up to B",
            "one::e::g: enum one::e::u64",
            "one::e::g: variant one::e::u64::A",
        ]
    );
}

const MACROS: &str = "\
macro_rules! feature { (#![$m:meta] $($i:item)*) => { $(#[cfg(not($m))] $i)* } }
macro_rules! within { ($n:ident, $v:expr) => { pub mod $n { pub struct Own; fn f() { struct Text; { $v } } } } }
macro_rules! around { ($($all:tt)*) => { feature! { #![none] $($all)* } } }
macro_rules! each { ($e:expr) => { { use crate::Each; $e } }; ({} $($e:expr),*) => { $(struct $e;)* } }
macro_rules! either { ({ $($i:item)* } $($rest:tt)*) => { $($i)* } }
pub struct Each;
";

/// Paths in macro calls are asked where the expansion has them.
#[test]
fn paths_in_macro_calls() {
    let calls = "\
feature! { #![none] mod m { pub struct In; fn g() { struct Inner; «Inner»; «In»; } use self::{«In» as Other}; } }
within!(deep, { struct Given; «Given»; «Text»; «Own»; «Each» });
around! { fn h() { struct Twice; «Twice»; } use m::{self as n, «In»}; }
fn i() { struct Local; each!(«Local»); «Each»; each!({ struct Deep; «Deep» }); }
fn j() { either! { { type Either = u8; } or => { x } } «Either»; }
fn k() { use m::In as Other; struct Third; vec![«Other»]; each!(«Third»::«x»); }
fn l() -> u8 { feature! { #![none] const ALONE: u8 = 1; fn beside() {} } «beside»(); «ALONE» }
fn n() { drop(0); either!({ use m::In as Given; } else); «Given»; «Each» }
";
    let wanted = [
        "one::m::g: struct one::m::g::Inner",
        "one::m::g: struct one::m::In",
        "one::m: struct one::m::In",
        "one::deep::f: struct one::deep::f::Given",
        "one::deep::f: struct one::deep::f::Text",
        "one::deep::f: struct one::deep::Own",
        "one::deep::f: nothing",
        "one::h: struct one::h::Twice",
        "one: struct one::m::In",
        "one::i: struct one::i::Local",
        "one::i: struct one::Each",
        "one::i: struct one::i::Deep",
        "one::j: type alias one::j::Either",
        "one::k: struct one::m::In",
        "one::k: struct one::k::Third",
        "one::k: struct one::k::Third up to x",
        "one::l: function one::l::beside",
        "one::l: constant one::l::ALONE",
        "one::n: struct one::m::In",
        "one::n: struct one::Each",
    ];
    let text = format!("{MACROS}{calls}");
    let mut asked = Asked::open(&text);
    assert_eq!(asked.answers(), wanted);
    // Elsewhere in the file, with the same tokens, and further apart.
    for (number, (from, to)) in
        [("pub struct Each;", "pub struct Each;\n\n\n"), ("; «", ";   «"), ("{ struct", "{\n\nstruct")]
            .into_iter()
            .enumerate()
    {
        asked.edit(&text.replace(from, to));
        assert_eq!(asked.answers(), wanted, "edit {number}");
    }
    // What a macro brings changes.
    asked.edit(&text.replace("struct Text; { $v }", "struct Other; { $v }"));
    let mut changed = wanted.map(str::to_owned);
    changed[4] = "one::deep::f: nothing".to_owned();
    assert_eq!(asked.answers(), changed);
    asked.edit(&text);
    assert_eq!(asked.answers(), wanted);
}

const MEMBERS: &str = "\
macro_rules! make { ($n:ident) => { pub fn $n() {} more! { $n } } }
macro_rules! more { ($n:ident) => { const MORE: u8 = 1; } }
macro_rules! flags { ($n:ident) => { pub struct $n; impl $n { pub const ALL: u8 = 1; } } }
pub mod shapes {
    pub struct Circle;
    pub struct Boxed<T>(T);
    pub enum Kind { Round }
    pub type Alias = Circle;
    pub type Kinds<T> = Other<T>;
    pub use self::Kind as Other;
    pub trait Area { const UNIT: u8; type Number; fn area(&self); fn twice(&self) {} make! { brought } }
    impl Circle { pub const SIDES: u8 = 0; pub fn new() -> Circle { Circle } make! { made } }
    #[cfg(none)] impl Circle { fn gone() {} }
    impl Circle { #[cfg(none)] fn gone() {} pub(super) fn seen() {} }
    impl Area for Circle { const UNIT: u8 = 1; type Number = u8; fn area(&self) {} }
    impl Area for &Kind { const UNIT: u8 = 1; type Number = u8; fn area(&self) {} }
    impl Other { fn first() {} }
    pub trait Named { fn named(&self); }
    impl Named for Alias { fn named(&self) {} }
    impl<T> Boxed<T> where T: Area { pub fn of(it: T) {} }
    flags! { Flags }
}
use shapes::*;
";

/// Items of traits and impls, behind a path that names a trait or a type.
#[test]
fn items_behind_types_and_traits() {
    let calls = "\
fn f() { Circle::«new»; shapes::Circle::«SIDES»; Alias::«new»; Circle::«made»; Circle::«MORE»; Circle::«seen»; }
fn g() { Area::«area»; Area::«twice»; Area::«brought»; Area::«MORE»; Circle::«area»; Circle::«twice»; Circle::«brought»; }
fn h() { Kind::«first»; Other::«Round»; Kinds::<u8>::«Round»; Kinds::«first»; Boxed::<u8>::«of»; Flags::«ALL»; }
fn i() { <Circle as Area>::«area»; <Circle>::«new»; <Boxed<u8>>::«of»; return <Circle as shapes::Area>::«UNIT»; }
fn j() { struct Local; type L = Local; impl Local { fn inner() {} } Local::«inner»; L::«inner»; }
fn k() { Circle::«gone»; Kind::«area»; Area::«gone»; Kind::Round::«first»; Circle::new::«x»; u8::«MAX»; Kind::«Round»; }
fn m() { Circle::«named»; Alias::«named»; }
fn l() -> <Circle as Area>::«Number» { let x: Circle::«Number» = 1; x }
";
    let mut asked = Asked::open(&format!("{MEMBERS}{calls}"));
    let wanted = [
        "one: associated function one::shapes::Circle::new",
        "one: associated constant one::shapes::Circle::SIDES",
        "one: associated function one::shapes::Circle::new",
        "one: associated function one::shapes::Circle::made",
        "one: associated constant one::shapes::Circle::MORE",
        "one: associated function one::shapes::Circle::seen",
        "one: associated function one::shapes::Area::area",
        "one: associated function one::shapes::Area::twice",
        "one: associated function one::shapes::Area::brought",
        "one: associated constant one::shapes::Area::MORE",
        "one: associated function one::shapes::Circle::area",
        "one: associated function one::shapes::Area::twice",
        "one: associated function one::shapes::Area::brought",
        "one: associated function one::shapes::Kind::first",
        "one: variant one::shapes::Kind::Round",
        "one: variant one::shapes::Kind::Round",
        "one: associated function one::shapes::Kind::first",
        "one: associated function one::shapes::Boxed::of",
        "one: associated constant one::shapes::Flags::ALL",
        "one: associated function one::shapes::Area::area",
        "one: associated function one::shapes::Circle::new",
        "one: associated function one::shapes::Boxed::of",
        "one: associated constant one::shapes::Area::UNIT",
        "one::j: associated function one::j::Local::inner",
        "one::j: associated function one::j::Local::inner",
        "one: struct one::shapes::Circle up to gone",
        "one: enum one::shapes::Kind up to area",
        "one: trait one::shapes::Area up to gone",
        "one: nothing",
        "one: struct one::shapes::Circle up to new",
        "one: builtin type u8 up to MAX",
        "one: variant one::shapes::Kind::Round",
        "one: associated function one::shapes::Circle::named",
        "one: associated function one::shapes::Circle::named",
        "one: associated type one::shapes::Area::Number",
        "one: associated type one::shapes::Circle::Number",
    ];
    assert_eq!(asked.answers(), wanted);
    // What a macro brings into an impl changes.
    let text = format!("{MEMBERS}{calls}").replace("pub fn $n() {} more!", "pub const $n: u8 = 1; more!");
    asked.edit(&text);
    let mut changed = wanted.map(str::to_owned);
    for it in [3, 8, 12] {
        changed[it] = changed[it].replace("function", "constant");
    }
    assert_eq!(asked.answers(), changed);
}

/// A derive counts as an impl of the trait that its path names.
#[test]
fn items_of_traits_that_are_derived() {
    let items = "\
mod m { pub trait Shape { const SIDES: u8; fn shape() {} } pub use self::Shape as Form; }
use m::Shape;
#[derive(Shape)] struct Square;
#[derive(Clone)] #[cfg_attr(all(), derive(Missing, m::Form))] enum Circle { Shape }
#[cfg_attr(any(), derive(Shape))] struct Line;
impl Square { fn shape() {} }
fn f() { Square::«shape»; Square::«SIDES»; Circle::«shape»; Circle::«SIDES»; Line::«shape»; }
fn g() { use m::Shape as Own; #[derive(Own)] struct Inner; Inner::«shape» }
";
    let wanted = [
        "one: associated function one::Square::shape",
        "one: associated constant one::m::Shape::SIDES",
        "one: associated function one::m::Shape::shape",
        "one: associated constant one::m::Shape::SIDES",
        "one: struct one::Line up to shape",
        // Items of bodies are kept without such attributes.
        "one::g: struct one::g::Inner up to shape",
    ];
    assert_eq!(Asked::open(items).answers(), wanted);
}

/// Where such an item stands, in which impl, and who sees it.
#[test]
fn how_items_behind_types_are_told() {
    let calls = "fn f() { Circle::«seen»; Circle::«area»; Area::«UNIT»; Circle::«made»; }";
    let mut asked = Asked::open(&format!("{MEMBERS}{calls}"));
    let (file, marks) = (asked.file.clone(), asked.marks.clone());
    let mut told = |at: &Position| {
        let answer = asked.space.answer_at(&file, *at).unwrap();
        let it = &answer.meanings[0];
        let within = it.within.as_ref().map(|it| format!("{} at line {}", it.0, it.1.line));
        (it.place.as_ref().unwrap().line, within, it.visibility.clone())
    };
    let within = |it: &str| Some(it.to_owned());
    let made: Vec<_> = marks.iter().map(&mut told).collect();
    assert_eq!(
        made,
        [
            (14, within("impl at line 14"), "in super".to_owned()),
            (15, within("impl of one::shapes::Area at line 15"), "pub".to_owned()),
            (11, None, "pub".to_owned()),
            (12, within("impl at line 12"), "pub".to_owned()),
        ]
    );
}
