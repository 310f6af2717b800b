//! Items behind a trait or a type: what `Trait::method` and `Type::CONST` name.
//!
//! Types aren't inferred: behind a type stand the items of its impls that are written for it by a path, those of no trait
//! before those of traits, and last what such a trait itself has, or one that is derived.

use std::collections::{HashMap, HashSet};

use anyhow::Result;
use serde_json::Value;

use super::answers::Meaning;
use super::{place_at, Place};
use crate::question::{question, Question};
use crate::syntax::Visibility;
use crate::unit::{steps_of, Detail, Step};
use crate::workspace::{Associated, Impl, Workspace};

/// So many aliases lead from one to the next.
pub(crate) const MOST_ALIASES: usize = 16;

/// A trait, or an impl of a type, in which an item is.
struct Holder {
    /// The trait or the type, as paths of its items begin.
    path: String,
    /// An impl, see [`Meaning`].
    within: Option<(String, Place)>,
    /// Who sees the items of a trait.
    visibility: Option<String>,
}

impl Workspace {
    /// What a name may be that stands behind a path which names a trait or a type. `holder` is what the program says of
    /// that path.
    pub(super) fn behind(
        &mut self,
        asked: &Question,
        holder: &Value,
        name: &str,
        aliases: usize,
    ) -> Result<Vec<Meaning>> {
        let definition = &holder["def"];
        let krate = definition["crate"].as_u64().unwrap_or_default() as u32;
        match definition["kind"].as_str() {
            Some("Trait") => {
                let prefix = asked.path.rsplit_once("::").map_or("", |it| it.0);
                self.behind_trait(&question(asked.krate, &asked.place, prefix), holder, name)
            }
            Some("TypeAlias") if aliases < MOST_ALIASES => {
                let Some((place, target)) = self.alias(krate, definition) else {
                    return Ok(Vec::new());
                };
                let asked = question(krate, &place, &format!("{target}::{name}"));
                match self.meanings_of(&asked, aliases + 1)? {
                    Ok((meanings, None)) => Ok(meanings),
                    _ => Ok(Vec::new()),
                }
            }
            Some("Struct" | "Enum" | "Union") => self.behind_type(definition, name),
            None if definition["builtin"].is_string() => self.behind_type(definition, name),
            _ => Ok(Vec::new()),
        }
    }

    /// Where an alias is declared, and the path of what it stands for.
    pub(crate) fn alias(&self, krate: u32, definition: &Value) -> Option<(Vec<Step>, String)> {
        let (place, located) = self.place_and_node(krate, definition)?;
        let Detail::Alias(path) = &located.node.detail else {
            return None;
        };
        Some((place, path.text.clone()))
    }

    /// The item of a trait that a path names.
    fn behind_trait(&mut self, path: &Question, holder: &Value, name: &str) -> Result<Vec<Meaning>> {
        let krate = holder["def"]["crate"].as_u64().unwrap_or_default() as u32;
        let mut found = self.items_of_trait(path, krate)?;
        found.retain(|it| *it.name == *name);
        let (path, visibility) = (self.described(&holder["def"]).1, self.declared_visibility(&holder["def"]));
        let holder = Holder { path, within: None, visibility: Some(visibility) };
        Ok(found.iter().map(|it| self.associated_meaning(krate, &[], it, &holder, name)).collect())
    }

    fn behind_type(&mut self, definition: &Value, name: &str) -> Result<Vec<Meaning>> {
        let (own, all) = self.crates_with_impls(definition);
        let path = self.described(definition).1;
        let mut impls = self.impls_of(&own, definition, false, Some(name))?;
        impls.retain(Impl::may_have_items);
        let mut made = self.items_in(&impls, &path, name)?;
        if !made.is_empty() {
            return Ok(made);
        }
        let impls = self.impls_of(&all, definition, true, Some(name))?;
        made = self.items_in(&impls, &path, name)?;
        if !made.is_empty() {
            return Ok(made);
        }
        // What the traits have that the impls leave to them, or that derives stand for.
        let paths = self.traits_of_impls(&impls, definition);
        let replies = self.ask_paths(&paths)?;
        for (path, reply) in paths.iter().zip(replies) {
            if reply["ok"]["types"]["def"]["kind"] == "Trait" && reply["ok"]["stop"].is_null() {
                for it in self.behind_trait(path, &reply["ok"]["types"], name)? {
                    if made.iter().all(|known| known.place != it.place) {
                        made.push(it);
                    }
                }
            }
        }
        Ok(made)
    }

    /// The crates that may have impls of a type, those first in which impls of no trait may be: these alone, and all.
    pub(crate) fn crates_with_impls(&self, definition: &Value) -> (Vec<u32>, Vec<u32>) {
        let of_std = 0..self.crates.of_std as u32;
        // A builtin type has impls of its own in the standard library.
        let own: Vec<u32> = definition["crate"].as_u64().map_or(of_std.collect(), |it| vec![it as u32]);
        let mut all: Vec<u32> = (0..self.crates.all.len() as u32).collect();
        all.sort_by_key(|it| (!own.contains(it), *it));
        (own, all)
    }

    /// The impls of a type in these crates, those of traits or the others, with their items of a name, or with all.
    pub(crate) fn impls_of(
        &mut self,
        crates: &[u32],
        definition: &Value,
        is_of_trait: bool,
        name: Option<&str>,
    ) -> Result<Vec<Impl>> {
        let path = self.titled(definition).1;
        let mut impls = self.impls(crates, path.rsplit("::").next().unwrap_or_default(), is_of_trait, name);
        let mut numbers: HashMap<(u32, Vec<Step>, String), usize> = HashMap::new();
        let mut questions = Vec::new();
        let mut whose = Vec::new();
        for it in &impls {
            let path = it.head.self_type.as_ref().map_or("", |it| &it.text);
            let key = (it.krate, it.place.clone(), path.to_owned());
            whose.push(*numbers.entry(key).or_insert_with(|| {
                questions.push(question(it.krate, &it.place, path));
                questions.len() - 1
            }));
        }
        let mut is_its = Vec::new();
        for it in self.types_of(&questions)? {
            is_its.push(self.behind_aliases(it)?.is_some_and(|it| it == *definition));
        }
        let mut whose = whose.into_iter();
        impls.retain(|_| whose.next().is_some_and(|it| is_its[it]));
        Ok(impls)
    }

    /// The types and traits that these paths name.
    pub(crate) fn types_of(&mut self, paths: &[Question]) -> Result<Vec<Option<Value>>> {
        let named = |mut it: Value| {
            let is_whole = it["ok"]["stop"].is_null();
            Some(it["ok"]["types"]["def"].take()).filter(|it| is_whole && !it.is_null())
        };
        Ok(self.ask_paths(paths)?.into_iter().map(named).collect())
    }

    /// What a type alias stands for in the end; another definition itself.
    fn behind_aliases(&mut self, mut definition: Option<Value>) -> Result<Option<Value>> {
        for _ in 0..MOST_ALIASES {
            let Some(it) = definition.as_ref().filter(|it| it["kind"] == "TypeAlias") else {
                break;
            };
            let krate = it["crate"].as_u64().unwrap_or_default() as u32;
            let Some((place, target)) = self.alias(krate, it) else {
                return Ok(None);
            };
            definition = self.types_of(&[question(krate, &place, &target)])?.pop().flatten();
        }
        Ok(definition)
    }

    /// The paths of the traits of which these impls of a type are, then those of its derives, each once.
    pub(crate) fn traits_of_impls(&self, impls: &[Impl], definition: &Value) -> Vec<Question> {
        let written = |it: &Impl| Some(question(it.krate, &it.place, &it.head.of_trait.as_ref()?.text));
        let derived = definition["crate"].as_u64().map_or(Vec::new(), |it| self.derives_of(it as u32, definition));
        let mut known = HashSet::new();
        let mut paths: Vec<Question> = impls.iter().filter_map(written).chain(derived).collect();
        paths.retain(|it| known.insert((it.krate, it.place.clone(), it.path.clone())));
        paths
    }

    /// The items of a name in these impls of a type.
    fn items_in(&mut self, impls: &[Impl], type_path: &str, name: &str) -> Result<Vec<Meaning>> {
        let mut made: Vec<Meaning> = Vec::new();
        for it in impls {
            let items = self.items_of_impl(it, Some(name))?;
            if items.is_empty() {
                continue;
            }
            let holder = self.holder_of(it, type_path)?;
            for item in &items {
                let meaning = self.associated_meaning(it.krate, &it.place, item, &holder, name);
                if made.iter().all(|known| known.place != meaning.place || known.within != meaning.within) {
                    made.push(meaning);
                }
            }
        }
        Ok(made)
    }

    /// An impl as it is told.
    fn holder_of(&mut self, it: &Impl, type_path: &str) -> Result<Holder> {
        let (mut within, mut visibility) = ("impl".to_owned(), None);
        if it.head.is_of_trait {
            let path = it.head.of_trait.as_ref().map_or("?", |it| &it.text);
            let asked = question(it.krate, &it.place, path);
            let reply = self.ask_paths(std::slice::from_ref(&asked))?.pop().unwrap_or_default();
            let found = Some(&reply["ok"]["types"]["def"]).filter(|it| !it.is_null());
            within = format!("impl of {}", found.map_or(path.to_owned(), |it| self.described(it).1));
            visibility = Some(found.map_or("as its trait".to_owned(), |it| self.declared_visibility(it)));
        }
        Ok(Holder { path: type_path.to_owned(), within: Some((within, place_at(&it.file, it.span))), visibility })
    }

    /// Who sees a definition as it is declared, in words.
    fn declared_visibility(&self, definition: &Value) -> String {
        let krate = definition["crate"].as_u64().unwrap_or_default() as u32;
        match self.locate(krate, definition) {
            Some(it) => self.visibility_text(krate, &steps_of(&it.module), &it.node.visibility),
            None => "pub".to_owned(),
        }
    }

    /// A visibility that is written in a place, in words.
    fn visibility_text(&self, krate: u32, place: &[Step], visibility: &Visibility) -> String {
        match visibility {
            Visibility::Public => "pub".to_owned(),
            Visibility::Crate => format!("in the crate {}", self.crates.all[krate as usize].name),
            Visibility::Private | Visibility::Own => format!("in {}", self.place_text(krate, place)),
            Visibility::In(path) => format!("in {}", path.text),
        }
    }

    fn associated_meaning(&self, krate: u32, place: &[Step], it: &Associated, holder: &Holder, name: &str) -> Meaning {
        let (namespace, what) = it.words();
        let own = || self.visibility_text(krate, place, &it.visibility);
        let visibility = holder.visibility.clone().unwrap_or_else(own);
        Meaning {
            namespace,
            what: what.to_owned(),
            path: format!("{}::{name}", holder.path),
            place: Some(place_at(&it.file, it.span)),
            within: holder.within.clone(),
            brought_by: None,
            visibility,
        }
    }
}

impl Impl {
    /// Whether it has items of the name that is looked for, or may have.
    fn may_have_items(&self) -> bool {
        !self.items.is_empty() || self.has_calls
    }
}
