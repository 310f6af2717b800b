//! Tables from the Rust Reference's chapter "Macros by example".

use crate::syntax::{unit_of, ItemKind};
use crate::token::{opened, text_of, tokens_of, Delimiter, Hash, Kind, Token};

use super::Rules;

/// The tokens as text, with the fragments opened. `$crate` is that of crate 7.
fn flat(tokens: &[Token]) -> String {
    let one = |it: &Token| match &it.kind {
        Kind::Group(delimiter, inner) => {
            let (open, close) = match delimiter {
                Delimiter::Parenthesis => ("(", ")"),
                Delimiter::Bracket => ("[", "]"),
                _ => ("{", "}"),
            };
            format!("{open}{}{close}", flat(inner))
        }
        _ => text_of(std::slice::from_ref(it)).trim().to_owned(),
    };
    opened(tokens).iter().map(one).collect::<Vec<_>>().join(" ")
}

/// What a call expands to.
fn expanded(rules: &str, call: &str) -> Result<String, String> {
    let text = format!("macro_rules! m {{ {rules} }}");
    let unit = unit_of(&tokens_of(&text).unwrap(), Hash::default()).unwrap();
    let ItemKind::Macro(definition) = &unit.items[0].kind else {
        panic!("{rules} is no macro");
    };
    let made = Rules::read(definition)?.expand(&tokens_of(call).unwrap(), 7)?;
    Ok(flat(&made))
}

/// Each row: the rules, the call, and what it expands to; none where no rule takes the call.
fn rows(all: &[(&str, &str, Option<&str>)]) {
    for (rules, call, wanted) in all {
        let made = expanded(rules, call);
        let wanted = wanted.map(|it| flat(&tokens_of(it).unwrap()));
        assert_eq!(made.as_ref().ok(), wanted.as_ref(), "{rules} with {call}: {made:?}");
    }
}

/// Each fragment with what it takes and what it doesn't.
const FRAGMENTS: &[(&str, &[&str], &[&str])] = &[
    ("block", &["{}", "{ a; b }"], &["a", "()", "unsafe {}", "{} {}"]),
    (
        "expr",
        &[
            "1",
            "-1",
            "a",
            "a + b",
            "f(x)",
            "a.b",
            "a::<b, c>::d()",
            "|a, b| a + b",
            "if a { b } else { c }",
            "match a { _ => b }",
            "{ a }",
            "&mut a[1]",
            "a as u8",
            "(1, 2)",
            "S { a: 1 }",
            "x?",
            "loop {}",
            "a..b",
            "vec![1]",
            "return 1",
            "unsafe { a }",
            "\"text\"",
            "a = b",
            "!a",
        ],
        &["", "let a = 1", "a b", "a,", "_ =>", "struct S;", ";"],
    ),
    ("ident", &["a", "r#a", "fn", "self", "Self", "r#fn"], &["_", "1", "a b", "'a", "a::b", ""]),
    (
        "item",
        &[
            "struct S;",
            "pub fn f() {}",
            "#[a] mod m;",
            "use a::{b, c};",
            "impl A for B {}",
            "const A: u8 = { 1 };",
            "static A: u8 = 1;",
            "enum E { A }",
            "trait T {}",
            "type A = B;",
            "extern crate a;",
            "m! {}",
            "m!();",
            "struct S<T>(T) where T: A;",
            "macro_rules! m { () => {} }",
            "union U { a: u8 }",
            "unsafe impl A for B {}",
            "pub(in a) struct S { a: u8 }",
            "fn f() where A: B<{ 1 }> {}",
        ],
        &["", "a", "struct S; struct T;", "let a = 1;"],
    ),
    ("lifetime", &["'a", "'static", "'_"], &["a", "1", "'a 'b"]),
    (
        "literal",
        &["1", "-1", "-1.5", "\"a\"", "'a'", "b'a'", "true", "false", "1u8", "b\"a\""],
        &["a", "- 1 1", "!1", "- -1"],
    ),
    ("meta", &["a", "a = 1", "a(b, c)", "a::b[c]", "a { b }", "a = concat!(1)"], &["", "1", "#[a]", "a b"]),
    (
        "pat",
        &[
            "_",
            "a",
            "1",
            "A | B",
            "| A | B",
            "A(_, b)",
            "A { a, .. }",
            "&a",
            "ref mut a",
            "1..=2",
            "a @ 1",
            "(a, b)",
            "[a, ..]",
        ],
        &["", "a if b", "fn"],
    ),
    ("pat_param", &["_", "a", "A(_)", "1..=2"], &["A | B", "", "a =>"]),
    (
        "path",
        &[
            "a",
            "a::b",
            "::a",
            "crate::a",
            "self::a",
            "super::a",
            "Vec<u8>",
            "a::<b>::c",
            "<A as B>::C",
            "Fn(A) -> B",
            "A<'a, B<C>>",
        ],
        &["", "1", "&a", "a b", "(a)", "a::"],
    ),
    (
        "stmt",
        &["let a = 1", "let a: u8", "a", "f()", "struct S;", "a += 1", "if a {} else {}", "let A | B = c"],
        &["", "a; b", "let"],
    ),
    ("tt", &["a", "+", "=>", "(a b)", "[a]", "{}", "'a", "1", "..=", "fn"], &["", "a b", "a::b"]),
    (
        "ty",
        &[
            "u8",
            "&u8",
            "&'a mut u8",
            "*const u8",
            "[u8; 4]",
            "[u8]",
            "(a, b)",
            "()",
            "!",
            "_",
            "dyn A + B",
            "impl A + 'a",
            "fn(u8) -> u8",
            "unsafe extern \"C\" fn(u8)",
            "for<'a> fn(&'a u8)",
            "A<B<C>>",
            "<A as B>::C",
            "a!()",
            "Box<dyn Fn(A) -> B + Send>",
            "a::b::C<'a, D, 1>",
            "Vec<[u8; { 1 }]>",
            "dyn for<'a> A<'a>",
            "&&u8",
            "A<{ 1 }>",
        ],
        &["", "1", "a b", "u8,", "*u8", "struct"],
    ),
    ("vis", &["", "pub", "pub(crate)", "pub(super)", "pub(self)", "pub(in a::b)", "crate"], &["a", "pub a", "pub(a)"]),
];

#[test]
fn each_fragment_takes_what_the_reference_says() {
    let takes = |fragment: &str| format!("($x:{fragment}) => {{ [$x] }}");
    for (fragment, good, bad) in FRAGMENTS {
        let rules = takes(fragment);
        for it in *good {
            let wanted = format!("[{}]", flat(&tokens_of(it).unwrap()));
            assert_eq!(expanded(&rules, it).as_ref(), Ok(&wanted), "{fragment} takes {it}");
        }
        for it in *bad {
            assert!(expanded(&rules, it).is_err(), "{fragment} takes {it}: {:?}", expanded(&rules, it));
        }
    }
}

#[test]
fn repetitions() {
    rows(&[
        ("($($x:ident)*) => { $([$x])* }", "", Some("")),
        ("($($x:ident)*) => { $([$x])* }", "a b c", Some("[a] [b] [c]")),
        ("($($x:ident),*) => { $($x);* }", "a, b, c", Some("a; b; c")),
        ("($($x:ident),*) => { $($x);* }", "a, b,", None),
        ("($($x:ident),* $(,)?) => { $($x);* }", "a, b,", Some("a; b")),
        ("($($x:ident),+) => { $($x)=* }", "", None),
        ("($($x:ident),+) => { $($x)=* }", "a, b", Some("a = b")),
        // An operator of repetitions is no separator.
        ("($($x:ident)* + $y:ident) => { $($x)+ * $y }", "a b + c", Some("a b * c")),
        ("($($x:ident)+* $y:ident) => { [$y] }", "a b * c", Some("[c]")),
        ("($(a)? b) => { [] }", "b", Some("[]")),
        ("($(a)? b) => { [] }", "a a b", None),
        ("($($x:ident = $y:expr),*) => { $($y, $x)* }", "a = 1 + 2, b = f(3, 4)", Some("1 + 2, a f(3, 4), b")),
        ("($($x:ident: [$($y:ident)*]),*) => { $($($x.$y;)*)* }", "a: [b c], d: [], e: [f]", Some("a.b; a.c; e.f;")),
        ("($a:ident $($x:ident)*) => { $([$a $x])* }", "a b c", Some("[a b] [a c]")),
        ("($($a:ident)*; $($b:ident)*) => { $($a = $b,)* }", "a b; c d", Some("a = c, b = d,")),
        ("($($a:ident)*; $($b:ident)*) => { $($a = $b,)* }", "a b; c", None),
        ("($($x:ident $y:expr)*) => { $([$x $y])* }", "a \"8\" b 1 c f(d)", Some("[a \"8\"] [b 1] [c f(d)]")),
        ("($(a b)* a c) => { [] }", "a b a b a c", Some("[]")),
        ("($(a)* a b) => { [] }", "a a b", Some("[]")),
        ("($($($x:ident)+);*) => { $($([$x])*,)* }", "a b; c", Some("[a] [b], [c],")),
        ("($($x:tt)*) => { { $($x)* } }", "fn f() -> u8 { a => b }", Some("{ fn f() -> u8 { a => b } }")),
        ("($($k:literal => $v:expr),* $(,)?) => { $($k $v)* }", "1 => a, -2 => b + c,", Some("1 a -2 b + c")),
    ]);
}

#[test]
fn rules_are_tried_in_order() {
    let rules = "(a) => { 1 }; ($x:ident) => { 2 $x }; ($($x:tt)*) => { 3 };";
    rows(&[(rules, "a", Some("1")), (rules, "b", Some("2 b")), (rules, "a b", Some("3")), (rules, "", Some("3"))]);
    rows(&[("() => {};", "a", None), ("[a] => [1]; {b} => (2)", "b", Some("2"))]);
}

#[test]
fn fragments_stay_together() {
    // The Reference: a fragment but `ident`, `tt` and `lifetime` is no sequence of tokens to a second macro.
    let forwarded = |fragment: &str, second: &str, call: &str| {
        let text = format!("macro_rules! m {{ ($x:{fragment}) => {{ n!($x) }} }} macro_rules! n {{ {second} }}");
        let unit = unit_of(&tokens_of(&text).unwrap(), Hash::default()).unwrap();
        let rules = |at: usize| match &unit.items[at].kind {
            ItemKind::Macro(it) => Rules::read(it).unwrap(),
            _ => panic!("no macro"),
        };
        let first = rules(0).expand(&tokens_of(call).unwrap(), 0).unwrap();
        let call = unit_of(&first, Hash::default()).unwrap();
        match &call.items[0].kind {
            ItemKind::Call(it) => rules(1).expand(&it.input, 0).map(|it| flat(&it)),
            _ => panic!("no call"),
        }
    };
    assert!(forwarded("expr", "(3) => { 1 }", "3 + 4").is_err());
    assert!(forwarded("ty", "(u8) => { 1 }", "u8").is_err());
    assert_eq!(forwarded("tt", "(3) => { 1 }", "3"), Ok("1".to_owned()));
    assert_eq!(forwarded("ident", "(a) => { 1 }", "a"), Ok("1".to_owned()));
    assert_eq!(forwarded("lifetime", "('a) => { 1 }", "'a"), Ok("1".to_owned()));
    assert_eq!(forwarded("expr", "($x:expr) => { [$x] }", "3 + 4"), Ok("[3 + 4]".to_owned()));
    assert_eq!(forwarded("ty", "($x:tt) => { [$x] }", "Vec<u8>"), Ok("[Vec < u8 >]".to_owned()));
    assert_eq!(forwarded("ty", "($x:ty) => { [$x] }", "Vec<u8>"), Ok("[Vec < u8 >]".to_owned()));
    assert_eq!(forwarded("vis", "($x:vis) => { [$x] }", "pub(crate)"), Ok("[pub (crate)]".to_owned()));
    assert_eq!(forwarded("vis", "($x:vis) => { [$x] }", ""), Ok("[]".to_owned()));
    assert_eq!(forwarded("path", "($x:path) => { [$x] }", "a::b"), Ok("[a :: b]".to_owned()));
    assert_eq!(forwarded("item", "($x:item) => { [$x] }", "struct S;"), Ok("[struct S ;]".to_owned()));
    assert_eq!(forwarded("literal", "($x:literal) => { [$x] }", "1"), Ok("[1]".to_owned()));
    assert_eq!(forwarded("meta", "($x:meta) => { [$x] }", "a(b)"), Ok("[a (b)]".to_owned()));
    assert_eq!(forwarded("block", "($x:block) => { [$x] }", "{ 1 }"), Ok("[{1}]".to_owned()));
}

#[test]
fn dollar_crate_and_macros_that_expansions_define() {
    assert_eq!(expanded("() => { $crate::a }", "").unwrap(), "$crate7 :: a");
    let made = expanded("($n:ident) => { macro_rules! $n { ($x:expr) => { $crate::f($x) } } }", "inner").unwrap();
    assert_eq!(made, "macro_rules ! inner {($ x : expr) => {$crate7 :: f ($ x)}}");
    let made = expanded("($($n:ident)*) => { $(macro_rules! $n { ($$($$x:tt)*) => {} })* }", "a").unwrap();
    assert_eq!(made, "macro_rules ! a {($ ($ x : tt) *) => {}}");
}

#[test]
fn two_closing_brackets_are_cut() {
    rows(&[
        ("(A<$x:ty>) => { [$x] }", "A<B<C>>", Some("[B<C>]")),
        ("(A<B<$x:ty>>) => { [$x] }", "A<B<C<D>>>", Some("[C<D>]")),
        ("($x:expr) => { $x; }", "a >> b", Some("a >> b;")),
        ("($x:tt) => { 1 }; ($($x:tt)*) => { 2 }", ">>", Some("1")),
        ("(a >> b) => { 1 }", "a >> b", Some("1")),
    ]);
}

#[test]
fn local_inner_macros() {
    let text = "#[macro_export(local_inner_macros)] macro_rules! m { () => { a!{} b::c!{} macro_rules! d {} } }";
    let unit = unit_of(&tokens_of(text).unwrap(), Hash::default()).unwrap();
    let ItemKind::Macro(definition) = &unit.items[0].kind else {
        panic!("no macro");
    };
    let made = Rules::read(definition).unwrap().expand(&[], 7).unwrap();
    assert_eq!(flat(&made), "$crate7 :: a ! {} b :: c ! {} macro_rules ! d {}");
}

#[test]
fn counts_of_repetitions() {
    rows(&[
        ("($($x:ident)*) => { ${count(x)} }", "a b c", Some("3")),
        ("($($x:ident)*) => { $(${index()} ${ignore(x)})* }", "a b c", Some("0 1 2")),
    ]);
}

#[test]
fn what_ends_nowhere_is_told() {
    // A million tokens from a few.
    let many = "a ".repeat(1200);
    let rules = format!("($($x:ident)*) => {{ $($x {})* }}", "b ".repeat(1000));
    let error = expanded(&rules, &many).unwrap_err();
    assert!(error.contains("1000000 tokens"), "{error}");
    assert!(expanded("($x:nothing) => {}", "").unwrap_err().contains("fragment"));
    assert!(expanded("() => {} ()", "").unwrap_err().contains("end in the middle"));
}
