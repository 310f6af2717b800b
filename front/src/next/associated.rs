//! The names behind types and traits, and behind what `Self` or a generic parameter stands for.

use std::collections::HashSet;
use std::sync::Arc;

use anyhow::Result;
use serde_json::{json, Value};

use super::{Asked, Found, Next};
use crate::question::{question, Context, Question, BUILTIN_TYPES};
use crate::report::MOST_ALIASES;
use crate::syntax::Visibility;
use crate::unit::Step;
use crate::workspace::{Associated, Seen, Workspace};

/// The module around a place, which is a block or a module.
fn module_around(place: &[Step]) -> &[Step] {
    let end = place.iter().rposition(|it| matches!(it, Step::Module(_))).map_or(0, |it| it + 1);
    &place[..end]
}

/// Who sees what has this visibility in a place.
fn seen_by(krate: u32, place: &[Step], visibility: &Visibility) -> Seen {
    let mut module = module_around(place).to_vec();
    match visibility {
        Visibility::Public => return Seen::Everywhere,
        Visibility::Crate => return Seen::InCrate(krate),
        Visibility::Private | Visibility::Own => {}
        Visibility::In(path) => {
            let names = path.text.split("::").filter(|it| !it.is_empty());
            for (at, name) in names.enumerate() {
                match name {
                    "self" => {}
                    "super" => {
                        module.pop();
                        module.truncate(module_around(&module).len());
                    }
                    name => {
                        if at == 0 {
                            module.clear();
                        }
                        if name != "crate" {
                            module.push(Step::Module(name.to_owned()));
                        }
                    }
                }
            }
        }
    }
    Seen::Below((krate, module))
}

impl Workspace {
    /// The names behind a path that names a type, a trait or a module.
    pub(super) fn behind_definition(
        &mut self,
        asked: &Asked,
        path: &Question,
        definition: &Value,
        aliases: usize,
        found: &mut Found,
    ) -> Result<()> {
        let builtin = BUILTIN_TYPES.iter().find(|it| **it == path.path);
        if let Some(it) = self.place_of_module(definition) {
            self.of_module(asked, &it, found)?;
            // A builtin type of its name stands behind the module.
            return match builtin.filter(|_| asked.context == Context::Plain) {
                Some(it) => self.of_type(asked, &json!({"builtin": it}), found),
                None => Ok(()),
            };
        }
        let krate = definition["crate"].as_u64().unwrap_or_default() as u32;
        if definition["kind"] == "Enum" {
            for (name, variant) in self.variants_of(krate, definition).unwrap_or_default() {
                self.add(asked, &name, &variant, found);
            }
        }
        if asked.context != Context::Plain {
            return Ok(());
        }
        match definition["kind"].as_str() {
            Some("Trait") => self.of_trait(asked, path, definition, true, found),
            Some("TypeAlias") if aliases < MOST_ALIASES => {
                let Some((place, target)) = self.alias(krate, definition) else {
                    return Ok(());
                };
                let path = question(krate, &place, &target);
                match self.type_of(&path)? {
                    Some(it) => self.behind_definition(asked, &path, &it, aliases + 1, found),
                    None => Ok(()),
                }
            }
            Some("Struct" | "Enum" | "Union") => self.of_type(asked, definition, found),
            None if definition["builtin"].is_string() => self.of_type(asked, definition, found),
            _ => Ok(()),
        }
    }

    /// The names behind `Self` or a generic parameter.
    pub(super) fn behind_holder(&mut self, asked: &Asked, found: &mut Found) -> Result<()> {
        let Some((holder, place)) = &asked.holder else {
            return Ok(());
        };
        for it in holder.of_type.iter().chain(&holder.of_traits) {
            let path = question(asked.krate, place, it);
            if let Some(it) = self.type_of(&path)? {
                self.behind_definition(asked, &path, &it, 0, found)?;
            }
        }
        Ok(())
    }

    /// The type or the trait that a path names.
    fn type_of(&mut self, path: &Question) -> Result<Option<Value>> {
        Ok(self.types_of(std::slice::from_ref(path))?.pop().flatten())
    }

    /// The items of a trait that a path names. Behind a type its associated types say nothing.
    fn of_trait(
        &mut self,
        asked: &Asked,
        path: &Question,
        definition: &Value,
        has_types: bool,
        found: &mut Found,
    ) -> Result<()> {
        let krate = definition["crate"].as_u64().unwrap_or_default() as u32;
        let (_, holder, _) = self.titled(definition);
        for it in self.items_of_trait(path, krate)? {
            if has_types || it.kind != "TypeAlias" {
                add_item(asked, &holder, &it, found);
            }
        }
        Ok(())
    }

    /// The items of a type: those of its impls of no trait that the place sees, then those of the traits in scope.
    fn of_type(&mut self, asked: &Asked, definition: &Value, found: &mut Found) -> Result<()> {
        let (_, holder, _) = self.titled(definition);
        let (own, all) = self.crates_with_impls(definition);
        for it in self.impls_of(&own, definition, false, None)? {
            for item in self.items_of_impl(&it, None)? {
                if seen_by(it.krate, &it.place, &item.visibility).at(asked.krate, &asked.place) {
                    add_item(asked, &holder, &item, found);
                }
            }
        }
        let impls = self.impls_of(&all, definition, true, Some(""))?;
        let paths = self.traits_of_impls(&impls, definition);
        let in_scope = self.types_in_scope(asked)?;
        let mut known = HashSet::new();
        for (path, of_trait) in paths.iter().zip(self.types_of(&paths)?) {
            let Some(of_trait) = of_trait.filter(|it| it["kind"] == "Trait") else {
                continue;
            };
            let text = of_trait.to_string();
            if in_scope.contains(&*text) && known.insert(text) {
                self.of_trait(asked, path, &of_trait, asked.holder.is_some(), found)?;
            }
        }
        Ok(())
    }

    /// The types and traits that are in scope, also those without a name.
    fn types_in_scope(&mut self, asked: &Asked) -> Result<HashSet<Arc<str>>> {
        let mut places = self.places_of_prelude(asked.krate);
        // Their crates' roots aren't in scope.
        places.retain(|it| !it.1.is_empty());
        let end = asked.place.len();
        let around = module_around(&asked.place).len()..=end;
        places.extend(around.map(|it| (asked.krate, asked.place[..it].to_vec())));
        let mut made = HashSet::new();
        for scope in self.scopes(&places)? {
            let named = scope.names.iter().filter_map(|it| it.1[0].as_ref());
            made.extend(named.chain(&scope.unnamed).map(|it| it.definition.clone()));
        }
        Ok(made)
    }
}

/// Adds an item of a trait or a type, if it may stand there.
fn add_item(asked: &Asked, holder: &str, it: &Associated, found: &mut Found) {
    let leads_on = it.kind == "TypeAlias";
    if (leads_on || !asked.goes_on) && found.seen.insert((it.name.to_string(), false)) {
        found.made.push(Next {
            name: it.name.to_string(),
            what: it.words().1.to_owned(),
            path: format!("{holder}::{}", it.name),
            is_called: false,
        });
    }
}

#[cfg(test)]
mod tests {
    use super::*;
    use crate::syntax::Path;
    use crate::token::Span;

    #[test]
    fn who_sees_items_of_impls() {
        let step = |it: &&str| match it.strip_prefix('#') {
            Some(it) => Step::Block((it.parse().unwrap(), 0)),
            None => Step::Module((*it).to_owned()),
        };
        let steps = |it: &[&str]| it.iter().map(step).collect::<Vec<Step>>();
        let within = |text: &str| Visibility::In(Box::new(Path { text: text.to_owned(), span: Span::default() }));
        let below = |it: &[&str]| Seen::Below((1, steps(it)));
        for (place, visibility, wanted) in [
            (&["a", "b"][..], Visibility::Public, Seen::Everywhere),
            (&["a", "b"], Visibility::Crate, Seen::InCrate(1)),
            (&["a", "b"], Visibility::Private, below(&["a", "b"])),
            (&["a", "b"], Visibility::Own, below(&["a", "b"])),
            (&["a", "b"], within("super"), below(&["a"])),
            (&["a", "b"], within("self::super::super"), below(&[])),
            (&["a", "b"], within("crate::c"), below(&["c"])),
            (&["a", "b"], within("crate"), below(&[])),
            (&["a", "b"], within("c::d"), below(&["c", "d"])),
            (&["a"], within("super::super"), below(&[])),
            // In a body the module counts that is around it.
            (&["a", "#1", "#2"], Visibility::Private, below(&["a"])),
            (&["a", "#1"], within("super"), below(&[])),
            (&["a", "#1", "b"], within("super"), below(&["a"])),
        ] {
            assert_eq!(seen_by(1, &steps(place), &visibility), wanted, "{place:?} {visibility:?}");
        }
    }
}
