//! Derives of builtin macros that the program needn't see.
//!
//! Such a derive stands for an impl: it brings no name, no expansion and no helper. Its path is handed in nonetheless,
//! since a path that names no macro is told. A name is left out where it can mean nothing but the builtin macro: the
//! crate's prelude has that, no other macro of the session is declared by the name, and no import gives the name to
//! something. What is bound to a name in the namespace of macros is a macro that is declared by it, or what an import
//! with `as` gives it to; other imports, globs and `macro_use` hand on names as they are.
//!
//! Rounds of expansions in which derives alone are found count among those after which a crate stops. A crate in which so
//! many macros may be found that it could come to that keeps its derives.

use serde::{Deserialize, Serialize};

use super::attributes::{builtin_name, conditional, expander_of, is_builtin, paths_of};
use crate::syntax::{Attribute, Item, ItemKind, UseTree};
use crate::token::{Kind, Token};

/// Those of the builtin derives that bring no helper attributes.
pub const NAMES: [&str; 8] = ["Clone", "Copy", "Debug", "Eq", "Hash", "Ord", "PartialEq", "PartialOrd"];

/// Some of these names.
#[derive(Clone, Copy, PartialEq, Eq, Hash, Default, Debug, Serialize, Deserialize)]
pub struct Derives(u8);

impl Derives {
    /// The name, if it is one of them.
    pub fn of(name: &str) -> Derives {
        Derives(NAMES.iter().position(|it| *it == name).map_or(0, |it| 1 << it))
    }

    /// Whether it is none of them.
    pub fn is_none(self) -> bool {
        self.0 == 0
    }

    /// Whether a path is one of these names.
    pub fn hold(self, path: &str) -> bool {
        self.0 & Derives::of(path).0 != 0
    }

    /// With the others.
    pub fn or(self, others: Derives) -> Derives {
        Derives(self.0 | others.0)
    }

    /// Those that are also among the others.
    pub fn and(self, others: Derives) -> Derives {
        Derives(self.0 & others.0)
    }

    /// Without the others.
    pub fn without(self, others: Derives) -> Derives {
        Derives(self.0 & !others.0)
    }
}

/// What items outside of bodies have to do with it.
#[derive(Clone, Copy, PartialEq, Eq, Default, Debug)]
pub struct Given {
    /// The names that they may give to something else than the builtin macro.
    pub names: Derives,
    /// How many attributes and paths of derives they have that may be other macros.
    pub lookups: usize,
}

impl Given {
    /// Of these items.
    pub fn by(items: &[Item]) -> Given {
        items.iter().map(given_by_item).fold(Given::default(), Given::and)
    }

    /// Of both.
    pub fn and(self, other: Given) -> Given {
        Given { names: self.names.or(other.names), lookups: self.lookups + other.lookups }
    }
}

fn given_by_item(item: &Item) -> Given {
    let lookups = item.attributes.iter().map(lookups).sum();
    let own = |names: Derives| Given { names, lookups };
    match &item.kind {
        ItemKind::Macro(_) => {
            let is_builtin = builtin_name(item).is_some_and(|(name, helpers)| {
                name == item.name_text() && helpers.is_empty() && expander_of(&name) == "builtin_derive"
            });
            own(if is_builtin { Derives::default() } else { Derives::of(item.name_text()) })
        }
        // One that may export a macro, by its own name or by one that is written in an attribute.
        ItemKind::Function => {
            let exports = |it: &&Attribute| it.path.text.starts_with("proc_macro") || it.path.text == "cfg_attr";
            let all = item.attributes.iter().filter(exports);
            let names = all.map(|it| Derives::of(item.name_text()).or(words(&it.input)));
            own(names.fold(Derives::default(), Derives::or))
        }
        ItemKind::Use(tree) => own(given_by_tree(tree)),
        ItemKind::Module(Some(inner)) | ItemKind::ExternBlock(inner) => own(Derives::default()).and(Given::by(inner)),
        _ => own(Derives::default()),
    }
}

fn given_by_tree(tree: &UseTree) -> Derives {
    match tree {
        UseTree::Single { alias, .. } => alias.as_ref().map_or(Derives::default(), |it| Derives::of(&it.text)),
        UseTree::Glob { .. } => Derives::default(),
        UseTree::List { trees, .. } => trees.iter().map(given_by_tree).fold(Derives::default(), Derives::or),
    }
}

/// The names among the words.
fn words(tokens: &[Token]) -> Derives {
    let of = |it: &Token| match &it.kind {
        Kind::Ident(word) => Derives::of(word),
        Kind::Group(_, inner) => words(inner),
        _ => Derives::default(),
    };
    tokens.iter().map(of).fold(Derives::default(), Derives::or)
}

fn lookups(attribute: &Attribute) -> usize {
    match &*attribute.path.text {
        "derive" => {
            let paths = paths_of(attribute).unwrap_or_default();
            paths.iter().filter(|it| Derives::of(&it.text) == Derives::default()).count()
        }
        "cfg_attr" => conditional(attribute).map_or(0, |it| it.1.iter().map(lookups).sum()),
        path => usize::from(!is_builtin(path)),
    }
}

/// Whether something is looked up for an attribute, where these derives are left out.
pub(super) fn is_looked_up(attribute: &Attribute, left_out: Derives) -> bool {
    match &*attribute.path.text {
        "derive" => paths_of(attribute).map_or(true, |it| it.iter().any(|it| !left_out.hold(&it.text))),
        "cfg_attr" => conditional(attribute).is_some_and(|it| it.1.iter().any(|it| is_looked_up(it, left_out))),
        path => !is_builtin(path),
    }
}

#[cfg(test)]
mod tests {
    use super::*;
    use crate::syntax::unit_of;
    use crate::token::{on_a_thread, tokens_of, Hash};

    #[test]
    fn names_that_items_give() {
        let given = |text: &str| {
            let unit = on_a_thread(|| unit_of(&tokens_of(text).unwrap(), Hash::default())).unwrap();
            let names = Given::by(&unit.items).names;
            NAMES.into_iter().filter(|it| names.hold(it)).collect::<Vec<_>>().join(" ")
        };
        for (text, wanted) in [
            ("use std::fmt::{self, Debug}; use a::*; struct Clone; fn Copy() {} mod Eq {} use b as _;", ""),
            ("use a::{b::{c as Debug}, d as Hash}; mod m { use e as Ord; }", "Debug Hash Ord"),
            ("macro Clone() {} macro_rules! Copy { () => {} } mod m { macro Eq() {} }", "Clone Copy Eq"),
            ("#[rustc_builtin_macro] macro Clone($item:item) {} #[rustc_builtin_macro(Eq)] macro Copy() {}", "Copy"),
            ("#[rustc_builtin_macro(Eq, attributes(eq))] macro Eq() {} #[rustc_builtin_macro] macro line() {}", "Eq"),
            ("#[proc_macro_derive(Debug, attributes(Hash))] pub fn Eq(x: T) {} #[inline] fn Ord() {}", "Debug Eq Hash"),
            ("#[cfg_attr(a, proc_macro_derive(PartialEq))] pub fn f(x: T) {} fn g() { use a as Debug; }", "PartialEq"),
            ("#[proc_macro] fn PartialOrd() {}", "PartialOrd"),
        ] {
            assert_eq!(given(text), wanted, "{text}");
        }
    }

    #[test]
    fn how_many_other_macros_may_be_looked_up() {
        for (text, wanted) in [
            ("#[derive(Clone, Debug)] #[inline] struct S; #[cfg(a)] fn f() {}", 0),
            ("#[derive(Clone, a::Debug, Default)] #[b::c] struct S; #[d] mod m { #[e(f)] fn g() {} }", 5),
            ("#[cfg_attr(a, b, derive(Eq, C), inline)] fn f() {} impl S { #[g] fn h() {} }", 2),
        ] {
            let unit = on_a_thread(|| unit_of(&tokens_of(text).unwrap(), Hash::default())).unwrap();
            assert_eq!(Given::by(&unit.items).lookups, wanted, "{text}");
        }
    }
}
