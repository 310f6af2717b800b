//! Paths as the program is asked for them, and what it is asked besides where a path begins with the name of a builtin
//! type.

use anyhow::Result;
use serde_json::{json, Value};

use crate::unit::{place_json, quoted, Step};
use crate::workspace::Workspace;

/// How a path is looked up.
#[derive(Clone, Copy, PartialEq, Eq, Debug)]
pub enum Context {
    Plain,
    /// Called with `!`.
    Call,
    /// An attribute or a derive.
    Attribute,
    Import,
}

pub(crate) const BUILTIN_TYPES: [&str; 17] = [
    "bool", "char", "f32", "f64", "i128", "i16", "i32", "i64", "i8", "isize", "str", "u128", "u16", "u32", "u64", "u8",
    "usize",
];

/// The names of a path, with what it begins with.
pub(crate) fn names_of(path: &str) -> Vec<String> {
    let mut names: Vec<String> = path.split("::").map(str::to_owned).collect();
    if names.first().is_some_and(|it| it.is_empty()) && names.len() > 1 {
        names.remove(0);
    }
    names
}

/// A path that is asked.
#[derive(Clone, Debug)]
pub struct Question {
    /// The number of the crate.
    pub krate: u32,
    /// Where it is looked up.
    pub place: Vec<Step>,
    /// Up to the name that is asked.
    pub path: String,
    /// The path to its end, where what is asked is a part of it.
    pub whole: String,
    /// How the path is used.
    pub context: Context,
}

/// A path of a module or a block, as it stands in code.
pub(crate) fn question(krate: u32, place: &[Step], path: &str) -> Question {
    let (place, path) = (place.to_vec(), path.to_owned());
    Question { krate, place, whole: path.clone(), path, context: Context::Plain }
}

impl Question {
    /// The builtin type as which the path begins, where it may mean that.
    fn builtin(&self) -> Option<&str> {
        let first = self.whole.split("::").next().filter(|_| self.context == Context::Plain)?;
        BUILTIN_TYPES.contains(&first).then_some(first)
    }

    /// Whether it is one name alone.
    fn is_single(&self) -> bool {
        !self.whole.contains("::")
    }
}

/// What the program is asked for a path.
fn line(krate: u32, place: &[Step], path: &str, more: &str) -> String {
    let place = place_json(krate, place);
    format!("{{\"do\":\"resolve\",\"at\":{place},\"path\":{}{more}}}", quoted(path))
}

fn is_module(reply: &Value) -> bool {
    let kind = &reply["ok"]["types"]["def"]["kind"];
    ["Module", "CrateRoot", "BlockExpr"].iter().any(|it| kind == it)
}

/// What a path is that begins with a builtin type and stops behind it, if it goes on.
fn builtin_reply(name: &str, goes_on: bool) -> Value {
    let stop = if goes_on { json!(1) } else { Value::Null };
    let types = json!({"def": {"builtin": name}, "import": null, "vis": "pub"});
    json!({"ok": {"macros": null, "stop": stop, "types": types, "values": null}})
}

/// What a path names that begins with a module, if that is something. In a block the program adds what the path means
/// around it, as which the builtin type counts there.
fn in_module(mut reply: Value) -> Option<Value> {
    let answer = &mut reply["ok"];
    if !answer["types"]["def"]["builtin"].is_null() {
        answer["types"] = Value::Null;
    }
    if answer["stop"] == 1 {
        answer["stop"] = Value::Null;
    }
    let is_found = !answer["types"].is_null() || !answer["values"].is_null();
    is_found.then_some(reply)
}

impl Workspace {
    /// The command that asks what a path names as it stands in a context.
    pub fn question_in(&self, krate: u32, place: &[Step], path: &str, context: Context) -> String {
        let is_old = self.crates.all[krate as usize].edition == "2015" && context == Context::Import;
        let names = names_of(path);
        let is_plain = !matches!(names[0].as_str(), "crate" | "self" | "super") && !path.starts_with("::");
        let before = if is_old && is_plain { "::" } else { "" };
        let more = match context {
            Context::Call => ",\"shadow\":\"module\",\"sub\":\"bang\"",
            Context::Attribute => ",\"shadow\":\"module\",\"sub\":\"attr\"",
            Context::Import => ",\"shadow\":\"module\"",
            Context::Plain => "",
        };
        line(krate, place, &format!("{before}{path}"), more)
    }

    /// What the program answers to these, in their order.
    ///
    /// A path that begins as a builtin type is called begins with a module of that name, if one is in scope and the whole
    /// path goes on and names something there; else with the builtin type, as rustc has it: with `use std::u32;` the path
    /// `u32::MAX` is the module's constant, `u32::from_str_radix` the type's function, and `u32` the type.
    pub fn ask_paths(&mut self, questions: &[Question]) -> Result<Vec<Value>> {
        let mut lines = Vec::new();
        for it in questions {
            match it.builtin().filter(|_| !it.is_single()) {
                Some(first) => {
                    lines.push(line(it.krate, &it.place, &it.whole, ""));
                    lines.push(line(it.krate, &it.place, first, ",\"shadow\":\"module\""));
                }
                None => lines.push(self.question_in(it.krate, &it.place, &it.path, it.context)),
            }
        }
        let mut replies = self.ask_all(&lines)?.into_iter();
        let mut made = Vec::new();
        let mut parts = Vec::new();
        for (at, it) in questions.iter().enumerate() {
            let mut reply = replies.next().unwrap_or_default();
            let Some(name) = it.builtin() else {
                made.push(reply);
                continue;
            };
            if it.is_single() {
                if is_module(&reply) {
                    reply["ok"]["types"] = builtin_reply(name, false)["ok"]["types"].take();
                }
                made.push(reply);
                continue;
            }
            let first = replies.next().unwrap_or_default();
            let is_part = it.path != it.whole;
            let leads_on = match is_module(&first) {
                true => in_module(reply),
                false => Some(reply).filter(|_| first["ok"]["types"]["def"]["builtin"].is_null()),
            };
            made.push(match leads_on {
                None => builtin_reply(name, it.path.contains("::")),
                Some(_) if is_part && !it.path.contains("::") => first,
                Some(reply) => {
                    if is_part {
                        parts.push((at, line(it.krate, &it.place, &it.path, ""), is_module(&first)));
                    }
                    reply
                }
            });
        }
        let lines: Vec<String> = parts.iter().map(|it| it.1.clone()).collect();
        for ((at, _, is_in_module), reply) in parts.into_iter().zip(self.ask_all(&lines)?) {
            made[at] = if is_in_module { in_module(reply).unwrap_or_default() } else { reply };
        }
        Ok(made)
    }
}
