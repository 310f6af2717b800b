//! From items to the unit that the program takes, with the ids of its nodes and where each of them stands.

mod attributes;
mod blocks;
mod derives;

use std::borrow::Cow;
use std::collections::hash_map::DefaultHasher;
use std::collections::{HashMap, HashSet};
use std::fmt::Write as _;
use std::hash::{Hash as _, Hasher as _};
use std::sync::{Arc, OnceLock};

use crate::cfg::Options;
use crate::syntax::{
    plain, Attribute, Call, Field, ImplHead, Item, ItemKind, MacroDefinition, Path, Shape, Unit, UseTree, Variant,
    Visibility,
};
use crate::token::{opened, words_of, Delimiter, Hash, Kind, Span, Token};
use attributes::{builtin_name, is_kept, names_json, write_attributes};

pub(crate) use attributes::{expander_of, is_eager};
pub use attributes::{is_builtin, is_enabled, may_be_macro, numbered, paths_of, text_attribute};
pub(crate) use blocks::steps_from;
pub use blocks::{build_blocks, place_json, steps_of, BuiltBlock, Known, Step};
pub use derives::{Derives, Given, NAMES as DERIVES};

/// A hash and an index, see [`build`].
pub type Id = (u16, u16);

/// A leaf or a list of a `use` tree, by its place in it.
#[derive(Clone, Debug)]
pub struct Leaf {
    /// With the prefixes around it.
    pub path: String,
    /// Where its path stands, or the list.
    pub span: Span,
    /// What it binds: a name, `*`, or nothing where it is a list or `_`.
    pub binds: Option<Arc<str>>,
    /// Whether it is `self` in a list.
    pub is_self: bool,
    /// Whether it is a list in which something stands, so that its path is but the beginning of others.
    pub is_list: bool,
}

/// What a node has besides by its kind.
#[derive(Clone, Debug)]
pub enum Detail {
    Use(Vec<Leaf>),
    Call(Arc<Call>),
    /// A `macro` or `macro_rules`.
    Macro(Arc<MacroDefinition>),
    /// A builtin macro, by its name.
    Builtin(String),
    /// A function that exports a derive macro, by that name.
    Derive(String),
    /// An impl, by what it is of.
    Impl(ImplHead),
    /// A type alias, by the path of what it stands for.
    Alias(Path),
    None,
}

/// What is known of a node.
#[derive(Clone, Debug)]
pub struct Node {
    /// As the program names it.
    pub kind: &'static str,
    /// Among the nodes of its kind in the unit.
    pub id: Id,
    /// Empty where it has none.
    pub name: Arc<str>,
    /// The names of the inline modules around it in its unit.
    pub modules: Arc<[Arc<str>]>,
    /// Where its name stands, or its path; the call's place where a call was replaced by what it expands to.
    pub span: Span,
    /// From its first word to its last.
    pub whole: Span,
    /// As it is written.
    pub visibility: Visibility,
    /// What it has besides by its kind.
    pub detail: Detail,
    /// The item, where its attributes may be macros.
    pub item: Option<Arc<Item>>,
    /// Of a variant its enum, of an item of a trait or an impl that, by its place among the nodes.
    pub of: Option<usize>,
    /// Whether a condition leaves it out, or what it is in.
    pub is_left_out: bool,
}

impl Node {
    /// The leaves of an import, none of another node.
    pub fn leaves(&self) -> &[Leaf] {
        match &self.detail {
            Detail::Use(leaves) => leaves,
            _ => &[],
        }
    }

    /// The place in which it is declared, of a unit with this place.
    pub fn place_in(&self, unit: &[Step]) -> Vec<Step> {
        let modules = self.modules.iter().map(|it| Step::Module(it.to_string()));
        unit.iter().cloned().chain(modules).collect()
    }

    /// Whether it is an item of a trait or an impl.
    pub fn is_associated(&self) -> bool {
        self.of.is_some() && self.kind != "Variant"
    }
}

/// A unit as it is handed in, and its nodes.
#[derive(Clone, Default, Debug)]
pub struct Built {
    /// The unit in JSON.
    pub json: String,
    /// In the order in which they are written.
    pub nodes: Vec<Node>,
    by_id: HashMap<(&'static str, Id), usize>,
    /// Which nodes are imports.
    uses: Vec<usize>,
    /// Which nodes are impls.
    impls: Vec<usize>,
    /// Which nodes are macro calls that aren't items of a trait or an impl.
    calls: Vec<usize>,
    /// The names of its types, and those that its imports give to anything.
    type_names: Vec<Arc<str>>,
    /// Those of them that stand for what may have another name.
    aliases: Vec<Arc<str>>,
    /// The hashes of the words in its JSON, where these were asked for.
    words: OnceLock<HashSet<u64>>,
}

impl Built {
    /// Paths in place of a unit.
    pub fn of_paths(paths: &[String]) -> Built {
        Built { json: serde_json::json!(paths).to_string(), ..Built::default() }
    }

    /// Whether it is paths in place of a unit.
    pub fn is_of_paths(&self) -> bool {
        self.json.starts_with('[')
    }

    /// The node of a kind and an id.
    pub fn find(&self, kind: &str, id: Id) -> Option<&Node> {
        let kind = KINDS.iter().find(|it| **it == kind)?;
        self.by_id.get(&(*kind, id)).map(|at| &self.nodes[*at])
    }

    /// Whether a word stands in its JSON. It may be said of one that doesn't.
    pub fn has_word(&self, word: &str) -> bool {
        let hash_of = |word: &str| {
            let mut hasher = DefaultHasher::new();
            word.hash(&mut hasher);
            hasher.finish()
        };
        self.words.get_or_init(|| words_of(&self.json).map(hash_of).collect()).contains(&hash_of(word))
    }

    /// Its imports, each with its leaves.
    pub fn uses(&self) -> impl Iterator<Item = (&Node, &[Leaf])> {
        self.uses.iter().map(|at| {
            let node = &self.nodes[*at];
            (node, node.leaves())
        })
    }

    /// Its impls, each with the items in it.
    pub fn impls(&self) -> impl Iterator<Item = (&Node, impl Iterator<Item = &Node>)> {
        let ends = self.impls.iter().skip(1).copied().chain([self.nodes.len()]);
        self.impls.iter().zip(ends).map(|(at, end)| {
            let is_its = |it: &&Node| it.of == Some(*at);
            (&self.nodes[*at], self.nodes[*at..end].iter().filter(is_its))
        })
    }

    /// Its macro calls, but for those among the items of traits and impls.
    pub fn calls(&self) -> impl Iterator<Item = &Node> {
        self.calls.iter().map(|at| &self.nodes[*at])
    }

    /// The names of its types, and those that its imports give to anything.
    pub fn type_names(&self) -> &[Arc<str>] {
        &self.type_names
    }

    /// The names of its type aliases, and those that its imports give to anything.
    pub fn aliases(&self) -> &[Arc<str>] {
        &self.aliases
    }

    /// Notes what is asked of all nodes time and again.
    fn note(&mut self) {
        let is_type = |it: &&Node| matches!(it.kind, "Struct" | "Union" | "Enum" | "Trait" | "TypeAlias");
        let types = self.nodes.iter().filter(is_type).map(|it| &it.name);
        let is_alias = |leaf: &&Leaf| leaf.binds.as_deref() != leaf.path.rsplit("::").next();
        let leaves = self.nodes.iter().flat_map(Node::leaves).filter(is_alias);
        let given: Vec<Arc<str>> = leaves.filter_map(|it| it.binds.clone()).collect();
        let declared = self.nodes.iter().filter(|it| it.kind == "TypeAlias" && it.of.is_none()).map(|it| &it.name);
        self.aliases = declared.chain(&given).cloned().collect();
        self.type_names = types.cloned().chain(given).collect();
        for (at, it) in self.nodes.iter().enumerate() {
            match it.detail {
                Detail::Use(_) => self.uses.push(at),
                Detail::Impl(_) => self.impls.push(at),
                Detail::Call(_) if it.of.is_none() => self.calls.push(at),
                _ => {}
            }
        }
    }
}

const KINDS: [&str; 17] = [
    "Use",
    "ExternCrate",
    "ExternBlock",
    "Fn",
    "Static",
    "Const",
    "Struct",
    "Union",
    "Enum",
    "Variant",
    "Trait",
    "Impl",
    "TypeAlias",
    "Module",
    "MacroCall",
    "MacroRules",
    "MacroDef",
];

/// A text as JSON.
pub fn quoted(text: &str) -> String {
    serde_json::to_string(text).expect("a text has a JSON form")
}

/// What a unit is handed in without.
#[derive(Clone, Copy, Default)]
pub struct Without {
    /// The derives that are left out.
    pub derives: Derives,
    /// Whether it is impls, but for those with attributes that may be macros, and what is in traits.
    pub associated: bool,
}

/// What stands for a call in place of the call itself.
pub type Replaced<'a> = &'a dyn Fn(&Call) -> Option<Arc<Unit>>;

struct Builder<'a> {
    made: Built,
    seen: HashMap<(&'static str, u16), u32>,
    options: &'a Options,
    replaced: Replaced<'a>,
    left_out: Derives,
    /// Whether the items of traits and impls are none of the unit in JSON, nor are impls.
    is_brief: bool,
    /// The call in whose place the items stand.
    place: Option<Span>,
    /// The call whose expansion they are of. What a macro's text brings is said to stand there.
    call: Option<Span>,
    modules: Vec<Arc<str>>,
    around: Hash,
    /// The trait or the impl whose items are gone through.
    holder: Option<usize>,
    is_left_out: bool,
}

/// The unit of a file or of an expansion. Calls for which `replaced` has items are those items.
pub fn build(unit: &Unit, options: &Options, replaced: Replaced) -> Built {
    build_at(unit, options, replaced, Without::default(), None)
}

/// The same without some of it.
pub fn build_without(unit: &Unit, options: &Options, replaced: Replaced, without: Without) -> Built {
    build_at(unit, options, replaced, without, None)
}

/// The same for what the call at `call` expands to.
fn build_at(unit: &Unit, options: &Options, replaced: Replaced, without: Without, call: Option<Span>) -> Built {
    let Without { derives: left_out, associated: is_brief } = without;
    let mut builder = Builder {
        made: Built::default(),
        seen: HashMap::new(),
        options,
        replaced,
        left_out,
        is_brief,
        place: None,
        call,
        modules: Vec::new(),
        around: Hash::default(),
        holder: None,
        is_left_out: !is_enabled(&unit.attributes, options),
    };
    builder.made.json.push_str("{\"attrs\":");
    write_attributes(&unit.attributes, left_out, &mut builder.made.json);
    builder.made.json.push_str(",\"nodes\":");
    builder.list(&unit.items);
    builder.made.json.push('}');
    builder.made.note();
    builder.made
}

impl Builder<'_> {
    fn id(&mut self, kind: &'static str, name: &str) -> Id {
        let mut hash = self.around.with(kind).with(name);
        loop {
            let count = self.seen.entry((kind, hash.short())).or_default();
            if *count < 2048 {
                *count += 1;
                return (hash.short(), (*count - 1) as u16);
            }
            hash = hash.with("more");
        }
    }

    fn list(&mut self, items: &[Item]) {
        self.made.json.push('[');
        self.nodes(items);
        self.made.json.push(']');
    }

    /// The items of a trait or an impl.
    fn associated(&mut self, items: &[Item], holder: usize) {
        self.holder = Some(holder);
        let at = self.made.json.len();
        self.list(items);
        if self.is_brief {
            self.made.json.truncate(at);
            self.made.json.push_str("[]");
        }
        self.holder = None;
    }

    fn nodes(&mut self, items: &[Item]) {
        let modules: Arc<[Arc<str>]> = self.modules.clone().into();
        for item in items {
            if let ItemKind::Call(call) = &item.kind {
                if let Some(unit) = (self.replaced)(call) {
                    if is_enabled(&item.attributes, self.options) {
                        let (place, around) = (self.place, self.around);
                        self.place = Some(self.place_of(call.path.span));
                        self.around = around.with("call").with(&known_call(call));
                        self.nodes(&unit.items);
                        (self.place, self.around) = (place, around);
                    }
                    continue;
                }
            }
            self.node(item, &modules);
        }
    }

    fn node(&mut self, item: &Item, modules: &Arc<[Arc<str>]>) {
        let (name, (kind, known_by)) = (item.name_text(), kind_of_node(item));
        let id = self.id(kind, &known_by);
        let span = self.place_of(match (&item.name, &item.kind) {
            (Some(it), _) => it.span,
            (None, ItemKind::Call(call)) => call.path.span,
            (None, _) => item.span,
        });
        let start = self.made.json.len();
        if !self.made.json.ends_with('[') {
            self.made.json.push(',');
        }
        let _ = write!(self.made.json, "{{\"kind\":\"{kind}\",\"id\":[{},{}]", id.0, id.1);
        if !matches!(item.kind, ItemKind::Use(_) | ItemKind::ExternBlock(_) | ItemKind::Impl { .. } | ItemKind::Call(_))
            && item.name.is_some()
        {
            let _ = write!(self.made.json, ",\"name\":{}", quoted(name));
        }
        self.visibility(&item.visibility, ",\"vis\":");
        let is_looked_up = self.attributes(item);
        let at = self.made.nodes.len();
        let detail = self.detail(item);
        let was_left_out = self.is_left_out;
        self.is_left_out |= !is_enabled(&item.attributes, self.options);
        self.made.by_id.insert((kind, id), at);
        self.made.nodes.push(Node {
            kind,
            id,
            name: item.name.as_ref().map_or_else(|| "".into(), |it| it.text.clone()),
            modules: modules.clone(),
            span,
            whole: self.place_of(item.span),
            visibility: item.visibility.clone(),
            detail,
            item: item.input.map(|_| Arc::new(item.clone())),
            of: self.holder,
            is_left_out: self.is_left_out,
        });
        match (&item.kind, item.input) {
            (ItemKind::Call(call), _) => {
                let input = call.input_hash.text();
                let _ = write!(self.made.json, ",\"path\":{},\"input\":\"{input}\"", quoted(&call.path.text));
            }
            (_, Some(input)) if is_looked_up => {
                let _ = write!(self.made.json, ",\"input\":\"{}\"", input.text());
            }
            _ => {}
        }
        let around = self.around;
        self.around = around.with(kind).with(&known_by);
        self.rest(item, at, modules);
        (self.around, self.is_left_out) = (around, was_left_out);
        self.made.json.push('}');
        // Of an impl its attributes alone may mean something.
        let mut kept = item.attributes.iter().filter(|it| is_kept(it));
        if self.is_brief && kind == "Impl" && kept.all(|it| it.path.text == "cfg") {
            self.made.json.truncate(start);
        }
    }

    /// What is told of the attributes of an item. Answers whether something is looked up for one of them.
    fn attributes(&mut self, item: &Item) -> bool {
        let is_looked_up = item.attributes.iter().any(|it| derives::is_looked_up(it, self.left_out));
        // Elsewhere `derive` is an error.
        let may_derive = matches!(item.kind, ItemKind::Struct { .. } | ItemKind::Enum(_) | ItemKind::Union { .. });
        let is_told = |it: &&Attribute| is_kept(it) && (is_looked_up || !may_derive || it.path.text != "derive");
        let mut told = item.attributes.iter().filter(is_told).peekable();
        if told.peek().is_some() {
            self.made.json.push_str(",\"attrs\":");
            write_attributes(told, self.left_out, &mut self.made.json);
        }
        is_looked_up
    }

    /// Where something of a span is said to stand.
    fn place_of(&self, span: Span) -> Span {
        let call = self.call.filter(|_| span.is_of_macro());
        self.place.or(call).unwrap_or(span)
    }

    fn detail(&self, item: &Item) -> Detail {
        match &item.kind {
            ItemKind::Use(tree) => {
                let mut leaves = Vec::new();
                leaves_of(tree, "", &|it| self.place_of(it), &mut leaves);
                Detail::Use(leaves)
            }
            ItemKind::Call(call) => Detail::Call(call.clone()),
            ItemKind::Impl { head, .. } => Detail::Impl(head.clone()),
            ItemKind::TypeAlias(target) => target.clone().map_or(Detail::None, Detail::Alias),
            ItemKind::Macro(definition) => match builtin_name(item) {
                Some((name, _)) => Detail::Builtin(name),
                None => Detail::Macro(definition.clone()),
            },
            ItemKind::Function => {
                let attribute = item.attributes.iter().find(|it| it.path.text == "proc_macro_derive");
                match attribute.map(|it| &it.input[..]) {
                    Some([Token { kind: Kind::Group(Delimiter::Parenthesis, inner), .. }, ..]) => {
                        let name = opened(inner).first().and_then(|it| it.word().map(|it| plain(it).to_owned()));
                        name.map_or(Detail::None, Detail::Derive)
                    }
                    _ => Detail::None,
                }
            }
            _ => Detail::None,
        }
    }

    /// What a kind has besides.
    fn rest(&mut self, item: &Item, at: usize, modules: &Arc<[Arc<str>]>) {
        match &item.kind {
            ItemKind::Use(tree) => {
                self.made.json.push_str(",\"tree\":");
                self.tree(tree);
            }
            ItemKind::ExternCrate { alias: Some(it) } => {
                let _ = write!(self.made.json, ",\"as\":{}", quoted(&it.text));
            }
            ItemKind::ExternBlock(items) => {
                self.made.json.push_str(",\"nodes\":");
                self.list(items);
            }
            ItemKind::Struct { shape, fields } => {
                let _ = write!(self.made.json, ",\"shape\":\"{}\"", shape_text(*shape));
                if *shape == Shape::Tuple {
                    self.fields(fields);
                }
            }
            ItemKind::Enum(variants) => {
                self.made.json.push_str(",\"variants\":[");
                variants.iter().for_each(|it| self.variant(it, at, modules));
                self.made.json.push(']');
            }
            ItemKind::Trait(items) => {
                self.made.json.push_str(",\"items\":");
                self.associated(items, at);
            }
            ItemKind::Impl { head, items } => {
                let _ = write!(self.made.json, ",\"trait\":{},\"items\":", head.is_of_trait);
                self.associated(items, at);
            }
            ItemKind::Module(Some(items)) => {
                self.made.json.push_str(",\"nodes\":");
                self.modules.push(item.name_text().into());
                self.list(items);
                self.modules.pop();
            }
            ItemKind::Macro(definition) => match builtin_name(item) {
                Some((name, helpers)) => {
                    let expander = expander_of(&name);
                    let text = quoted(&format!("builtin {name}"));
                    let _ = write!(
                        self.made.json,
                        ",\"text\":{text},\"expander\":\"{expander}\",\"helpers\":{}",
                        names_json(&helpers)
                    );
                }
                None => {
                    let _ = write!(self.made.json, ",\"text\":\"{}\"", definition.hash.text());
                }
            },
            _ => {}
        }
    }

    /// A variant of the enum that has this place among the nodes.
    fn variant(&mut self, variant: &Variant, of_enum: usize, modules: &Arc<[Arc<str>]>) {
        if !self.made.json.ends_with('[') {
            self.made.json.push(',');
        }
        let id = self.id("Variant", &variant.name.text);
        let (hash, index) = id;
        let _ = write!(
            self.made.json,
            "{{\"id\":[{hash},{index}],\"name\":{},\"shape\":\"{}\"",
            quoted(&variant.name.text),
            shape_text(variant.shape)
        );
        if variant.attributes.iter().any(is_kept) {
            self.made.json.push_str(",\"attrs\":");
            write_attributes(&variant.attributes, self.left_out, &mut self.made.json);
        }
        self.made.json.push('}');
        self.made.by_id.insert(("Variant", id), self.made.nodes.len());
        self.made.nodes.push(Node {
            kind: "Variant",
            id,
            name: variant.name.text.clone(),
            modules: modules.clone(),
            span: self.place_of(variant.name.span),
            whole: self.place_of(variant.name.span),
            visibility: Visibility::Private,
            detail: Detail::None,
            item: None,
            of: Some(of_enum),
            is_left_out: self.is_left_out || !is_enabled(&variant.attributes, self.options),
        });
    }

    fn visibility(&mut self, visibility: &Visibility, before: &str) {
        let text = match visibility {
            Visibility::Private if before.is_empty() => "null".to_owned(),
            Visibility::Private => return,
            Visibility::Own => "\"self\"".to_owned(),
            Visibility::Crate => "\"crate\"".to_owned(),
            Visibility::Public => "\"pub\"".to_owned(),
            Visibility::In(path) => format!("{{\"in\":{}}}", quoted(&path.text)),
        };
        self.made.json.push_str(before);
        self.made.json.push_str(&text);
    }

    fn fields(&mut self, fields: &[Field]) {
        self.made.json.push_str(",\"fields\":[");
        for it in fields.iter().filter(|it| is_enabled(&it.attributes, self.options)) {
            if !self.made.json.ends_with('[') {
                self.made.json.push(',');
            }
            self.visibility(&it.visibility, "");
        }
        self.made.json.push(']');
    }

    fn tree(&mut self, tree: &UseTree) {
        match tree {
            UseTree::Single { path, alias } => {
                let _ = write!(self.made.json, "{{\"single\":{}", quoted(&path.text));
                if let Some(it) = alias {
                    let _ = write!(self.made.json, ",\"as\":{}", quoted(&it.text));
                }
                self.made.json.push('}');
            }
            UseTree::Glob { path, .. } => {
                let path = path.as_ref().map_or("null".to_owned(), |it| quoted(&it.text));
                let _ = write!(self.made.json, "{{\"glob\":{path}}}");
            }
            UseTree::List { path, trees, .. } => {
                self.made.json.push_str("{\"list\":[");
                for (at, it) in trees.iter().enumerate() {
                    self.made.json.push_str(if at == 0 { "" } else { "," });
                    self.tree(it);
                }
                self.made.json.push(']');
                if let Some(it) = path {
                    let _ = write!(self.made.json, ",\"path\":{}", quoted(&it.text));
                }
                self.made.json.push('}');
            }
        }
    }
}

/// What the program calls the kind of an item, and what the item is known by among those of its kind.
fn kind_of_node(item: &Item) -> (&'static str, Cow<'_, str>) {
    let name = item.name_text();
    match &item.kind {
        ItemKind::Use(tree) => ("Use", use_text(tree).into()),
        ItemKind::ExternCrate { alias } => {
            let alias = alias.as_ref().map_or("", |it| &it.text);
            ("ExternCrate", format!("{name} {alias}").into())
        }
        ItemKind::ExternBlock(_) => ("ExternBlock", item.text.text().into()),
        ItemKind::Function => ("Fn", name.into()),
        ItemKind::Static => ("Static", name.into()),
        ItemKind::Constant => ("Const", name.into()),
        ItemKind::Struct { .. } => ("Struct", name.into()),
        ItemKind::Union { .. } => ("Union", name.into()),
        ItemKind::Enum(_) => ("Enum", name.into()),
        ItemKind::Trait(_) => ("Trait", name.into()),
        ItemKind::Impl { .. } => ("Impl", item.text.text().into()),
        ItemKind::TypeAlias(_) => ("TypeAlias", name.into()),
        ItemKind::Module(_) => ("Module", name.into()),
        ItemKind::Call(call) => ("MacroCall", known_call(call).into()),
        ItemKind::Macro(it) if it.is_rules => ("MacroRules", name.into()),
        ItemKind::Macro(_) => ("MacroDef", name.into()),
    }
}

/// What a call is known by among those around it.
fn known_call(call: &Call) -> String {
    Hash::default().with(&call.path.text).with(&call.input_hash.text()).text()
}

fn shape_text(shape: Shape) -> &'static str {
    match shape {
        Shape::Record => "record",
        Shape::Tuple => "tuple",
        Shape::Unit => "unit",
    }
}

/// A path of a `use` tree with the prefix of the lists around it.
pub(crate) fn joined(prefix: &str, path: &str) -> String {
    match (prefix, path) {
        ("", it) | (it, "") => it.to_owned(),
        ("::", it) => format!("::{it}"),
        (prefix, "self") => prefix.to_owned(),
        (prefix, it) => format!("{prefix}::{it}"),
    }
}

fn leaves_of(tree: &UseTree, prefix: &str, place_of: &dyn Fn(Span) -> Span, made: &mut Vec<Leaf>) {
    match tree {
        UseTree::Single { path, alias } => {
            let (span, is_self) = (place_of(path.span), path.text == "self" && !prefix.is_empty());
            let path = joined(prefix, &path.text);
            let binds = match alias {
                Some(it) => Some(it.text.clone()).filter(|it| **it != *"_"),
                None => path.rsplit("::").next().map(Into::into),
            };
            made.push(Leaf { path, span, binds, is_self, is_list: false });
        }
        UseTree::Glob { path, span } => {
            let path = joined(prefix, path.as_ref().map_or("", |it| &it.text));
            let (path, binds) = (joined(&path, "*"), Some("*".into()));
            made.push(Leaf { path, span: place_of(*span), binds, is_self: false, is_list: false });
        }
        UseTree::List { path, trees, span } => {
            let path = joined(prefix, path.as_ref().map_or("", |it| &it.text));
            let (span, is_list) = (place_of(*span), !trees.is_empty());
            made.push(Leaf { path: path.clone(), span, binds: None, is_self: false, is_list });
            for it in trees {
                leaves_of(it, &path, place_of, made);
            }
        }
    }
}

/// A `use` tree as one text.
fn use_text(tree: &UseTree) -> String {
    match tree {
        UseTree::Single { path, alias: None } => path.text.clone(),
        UseTree::Single { path, alias: Some(it) } => format!("{} as {}", path.text, it.text),
        UseTree::Glob { path, .. } => format!("{}::*", path.as_ref().map_or("", |it| &it.text)),
        UseTree::List { path, trees, .. } => {
            let list: Vec<_> = trees.iter().map(use_text).collect();
            format!("{}::{{{}}}", path.as_ref().map_or("", |it| &it.text), list.join(","))
        }
    }
}
