//! Names that the language server offers behind types, traits, `Self` and generic parameters, and those of bodies.

use crate::common::client::{program, Client};
use crate::common::package;
use cargo_nogsimat::program::Program;
use serde_json::{json, Value};
use tempfile::TempDir;

const NAME: &str = "src/lib.rs";

const ITEMS: &str = "\
macro_rules! make { ($n:ident) => { pub fn $n() {} } }
pub mod shapes {
    pub struct Circle;
    pub struct Boxed<T>(T);
    #[derive(crate::traits::Base)] pub struct Line;
    pub enum Kind { Round, Flat }
    pub type Alias = Circle;
    pub type Kinds = Other;
    pub use self::Kind as Other;
    impl Circle {
        pub const SIDES: u8 = 0;
        pub fn new() {}
        fn own() {}
        pub(super) fn above() {}
        #[cfg(none)] pub fn gone() {}
        make! { made }
    }
    impl Other { pub fn first() {} }
    impl<T> Boxed<T> { pub fn of(it: T) {} }
    mod inner { impl super::Circle { pub(super) fn inner() {} } }
    fn within() {}
}
pub mod traits {
    use crate::shapes::*;
    pub trait Base { fn base(); }
    pub trait Area: Base { const UNIT: u8; type Number; fn area(&self); fn twice(&self) {} make! { brought } }
    pub trait Unnamed { fn unnamed(); }
    pub trait Hidden { fn hidden(); }
    impl Area for Circle { const UNIT: u8 = 1; type Number = u8; fn area(&self) {} }
    impl Unnamed for Alias { fn unnamed() {} }
    impl Hidden for Circle { fn hidden() {} }
    impl Area for &Kind { const UNIT: u8 = 1; type Number = u8; fn area(&self) {} }
}
use crate::{shapes::*, traits::{Area, Base, Unnamed as _}};
";

/// An editor with a package of one file.
struct Typed {
    _folder: TempDir,
    client: Client,
}

impl Typed {
    fn open() -> Typed {
        let folder = package(&[(NAME, ITEMS)]);
        let mut client = Client::start(folder.path(), &[]);
        client.initialize();
        client.open(NAME, ITEMS);
        Typed { _folder: folder, client }
    }

    /// What is offered at the `|` of a text behind the items.
    fn offered(&mut self, text: &str) -> Vec<Value> {
        let before = format!("{ITEMS}{}", text.split('|').next().unwrap());
        let document = json!({"uri": format!("file://DIR/{NAME}"), "version": 2});
        let changes = json!([{"text": format!("{ITEMS}{}", text.replacen('|', "", 1))}]);
        self.client.notify("textDocument/didChange", json!({"textDocument": document, "contentChanges": changes}));
        let line = before.matches('\n').count() as u32;
        let character = before.rsplit('\n').next().unwrap().chars().count() as u32;
        let made = self.client.at("textDocument/completion", NAME, (line, character));
        made.as_array().unwrap().clone()
    }

    /// The names that are offered, in their order.
    fn names(&mut self, text: &str) -> String {
        let names = self.offered(text);
        let names: Vec<&str> = names.iter().map(|it| it["label"].as_str().unwrap()).collect();
        names.join(" ")
    }
}

fn lists_names() -> bool {
    let mut program = Program::start(&program()).unwrap();
    program.ask("{\"do\":\"crates\",\"crates\":[]}".to_owned()).unwrap();
    program.ask("{\"do\":\"names\",\"at\":[0]}".to_owned()).unwrap()["error"] == "unknown place"
}

#[test]
fn names_behind_types_and_traits() {
    if !lists_names() {
        return;
    }
    let mut typed = Typed::open();
    let circle = "SIDES new above made UNIT area twice brought unnamed";
    for (text, wanted) in [
        ("fn f() { Circle::| }", circle),
        ("fn f() { shapes::Circle::ne| }", circle),
        ("fn f() { Alias::|; }", circle),
        ("fn f() { <Circle>::| }", circle),
        ("fn f() { g(Circle::|", circle),
        ("mod m { fn f() { super::Circle::| } }", "SIDES new above made"),
        ("mod m { use super::traits::Hidden; fn f() { crate::shapes::Circle::| } }", "SIDES new above made hidden"),
        ("fn f() { use traits::Hidden; Circle::| }", &format!("{circle} hidden")),
        ("fn f() { Kind::| }", "Round Flat first"),
        ("fn f() { Kinds::| }", "Round Flat first"),
        ("fn f() { Boxed::<u8>::| }", "of"),
        ("fn f() { Line::| }", "base"),
        ("mod m { fn f() { super::Line::| } }", ""),
        ("fn f() { Area::| }", "UNIT Number area twice brought"),
        ("fn f() { <Circle as Area>::| }", "UNIT Number area twice brought"),
        ("fn f(it: <Circle as Area>::|) {}", "UNIT Number area twice brought"),
        ("fn f() { <Circle as Area>::|::x }", "Number"),
        // Behind these stands nothing, or nothing that is known.
        ("use shapes::Circle::|;", ""),
        ("use shapes::Kind::|;", "Round Flat"),
        ("use shapes::Kinds::|;", ""),
        ("fn f() { Circle::|!() }", ""),
        ("fn f() { Kind::Round::| }", ""),
        ("fn f() { Circle::new::| }", ""),
        ("fn f() { u8::| }", ""),
        ("fn f() { None::| }", ""),
    ] {
        assert_eq!(typed.names(text), wanted, "{text}");
    }
    let made = typed.offered("fn f() { Circle::n| }");
    let range = &made[1]["textEdit"]["range"];
    let wanted = json!({
        "label": "new", "kind": 3, "detail": "associated function one::shapes::Circle::new",
        "textEdit": {"newText": "new", "range": range},
    });
    assert_eq!(made[1], wanted);
    assert_eq!(range["end"]["character"], 18);
    assert_eq!(
        (&made[0]["kind"], &made[0]["detail"]),
        (&json!(21), &json!("associated constant one::shapes::Circle::SIDES"))
    );
}

#[test]
fn names_behind_self_and_parameters() {
    if !lists_names() {
        return;
    }
    let mut typed = Typed::open();
    for (text, wanted) in [
        ("impl Circle { fn more() { Self::| } }", "SIDES new above made more UNIT Number area twice brought unnamed"),
        ("impl Base for Kind { fn base() { Self::| } }", "Round Flat first base"),
        ("mod m { impl crate::traits::Hidden for crate::Kind { fn hidden() { Self::| } } }", "Round Flat first hidden"),
        ("impl Base for &Kind { fn base() { Self::| } }", "base"),
        ("trait More: Area { type Own; fn more(it: Self::|); }", "Own more UNIT Number area twice brought"),
        ("enum E { A, B = { use shapes::*; Self::| } }", "A B"),
        ("fn f() { struct S; impl S { fn g() { Self::| } } }", "g"),
        ("mod m { struct Circle; impl Circle { fn other() { fn f() { struct S; } Self::| } } }", "other"),
        ("fn f<T: Area + Base>() { T::| }", "UNIT Number area twice brought base"),
        ("fn f<T>(it: T) -> T::| where T: Area {}", "UNIT Number area twice brought"),
        ("impl<T: Base> Boxed<T> { fn g() { T::| } }", "base"),
        ("fn f<T: Base>() { fn g() { T::| } }", ""),
        ("fn f<T: Base>() { T::base::| }", ""),
        ("impl Circle { fn f() { Self::| ", "SIDES new above made UNIT Number area twice brought unnamed"),
        ("impl Missing { fn f() { Self::| } }", ""),
        ("fn f() { Self::| }", ""),
    ] {
        assert_eq!(typed.names(text), wanted, "{text}");
    }
}

#[test]
fn names_of_bodies() {
    if !lists_names() {
        return;
    }
    let mut typed = Typed::open();
    for (text, wanted) in [
        ("fn f<T>(count: u8) { let (a, b) = c; | }", "a b count T "),
        ("impl Circle { fn f(&self, it: u8) { if let Some(x) = it { x + | } } }", "it x Self "),
        ("fn f(it: u8) { g(|a| h(), |it, other| other + i|", ""),
        ("fn f(it: u8) { fn g(own: u8) { | } }", "own g "),
        ("fn f(it: u8) { println!(\"{}\", |", "it "),
        ("fn f(it: u8) { |::x }", "Alias"),
        ("fn f(it: u8) { |!() }", "shapes traits core std "),
    ] {
        let made = typed.names(text);
        assert!(made.starts_with(wanted), "{text}: {made}");
    }
    let made = typed.offered("fn f<T>(count: u8) { cou| }");
    assert_eq!((&made[0]["kind"], &made[0]["detail"]), (&json!(6), &json!("local variable")));
    assert_eq!((&made[1]["kind"], &made[1]["detail"]), (&json!(25), &json!("generic parameter")));
    // A name is offered once, as the innermost that it is.
    let made = typed.names("fn f(shapes: u8) { | }");
    assert_eq!(made.split(' ').filter(|it| *it == "shapes").count(), 1, "{made}");
}
