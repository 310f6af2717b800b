//! Items, read from tokens one after another.

use std::sync::Arc;

use super::blocks::blocks_of;
use super::paths::{target_of_alias, ImplHead};
use super::{
    angle, plain, span_of, Call, Cursor, Field, Item, ItemKind, MacroDefinition, Name, Path, Shape, UseTree, Variant,
    Where,
};
use crate::token::{opened, pieces_given, Delimiter, Hash, Kind, Span, SyntaxError, Token, Tokens};

pub(super) fn is_qualifier(word: &str) -> bool {
    matches!(word, "fn" | "async" | "unsafe" | "extern" | "safe" | "gen" | "trait" | "auto" | "impl")
}

/// The tokens of an item without a body, a value, or what stands in its braces.
fn head_of<'a>(kind: &ItemKind, tokens: &'a [Token]) -> &'a [Token] {
    let tokens = match tokens {
        [head @ .., last] if last.is(";") || last.group(Delimiter::Brace).is_some() => head,
        _ => tokens,
    };
    let has_value = matches!(kind, ItemKind::Constant | ItemKind::Static);
    let value = tokens.iter().position(|it| has_value && it.is("="));
    &tokens[..value.unwrap_or(tokens.len())]
}

fn fields_of(tokens: &[Token]) -> Vec<Field> {
    let tokens = opened(tokens);
    let mut cursor = Cursor::new(&tokens, Span::default());
    let mut made = Vec::new();
    while !cursor.is_at_end() {
        let mut attributes = cursor.attributes(false);
        if cursor.is_at_end() {
            break;
        }
        attributes.retain(|it| matches!(&*it.path.text, "cfg" | "cfg_attr"));
        let from = cursor.at;
        let visibility = cursor.visibility();
        let has_name = cursor.ahead(1).is_some_and(|it| it.is(":"));
        let name = if has_name { cursor.name().ok() } else { None };
        cursor.pass_to(false, ",");
        let span = span_of(&tokens[from..cursor.at]);
        made.push(Field { attributes, visibility, name, span });
        cursor.next();
    }
    made
}

fn variants_of(tokens: &[Token]) -> Result<Vec<Variant>, SyntaxError> {
    let tokens = opened(tokens);
    let mut cursor = Cursor::new(&tokens, Span::default());
    let mut made = Vec::new();
    while !cursor.is_at_end() {
        let start = tokens[cursor.at].span.start;
        let attributes = cursor.attributes(false);
        if cursor.is_at_end() {
            break;
        }
        // A visibility is read, though rustc refuses it later.
        cursor.visibility();
        let from = cursor.at;
        let name = cursor.name()?;
        let (shape, fields) = match cursor.peek().map(|it| &it.kind) {
            Some(Kind::Group(Delimiter::Brace, inner)) => (Shape::Record, fields_of(inner)),
            Some(Kind::Group(Delimiter::Parenthesis, _)) => (Shape::Tuple, Vec::new()),
            _ => (Shape::Unit, Vec::new()),
        };
        while cursor.peek().is_some_and(|it| !it.is(",")) {
            cursor.at += 1;
        }
        let span = span_of(&tokens[from..cursor.at]);
        made.push(Variant { attributes, name, shape, fields, start, span });
        cursor.next();
    }
    Ok(made)
}

impl Cursor<'_> {
    pub(super) fn item(&mut self, place: Where) -> Result<Option<Item>, SyntaxError> {
        let first = self.at;
        let attributes = self.attributes(false);
        if self.is_at_end() {
            return if self.at == first { Ok(None) } else { self.error("an item") };
        }
        let from = self.at;
        let visibility = self.visibility();
        let mut item = Item {
            attributes,
            visibility,
            name: None,
            kind: ItemKind::Function,
            input: None,
            text: Hash::default(),
            start: self.tokens[first].span.start,
            span: Span::default(),
            head: Span::default(),
            given: Vec::new(),
            blocks: Vec::new(),
        };
        if place == Where::Associated && self.sees_word("default") && !self.ahead(1).is_some_and(|it| it.is("!")) {
            self.at += 1;
        }
        let keyword = self.at;
        if !self.kind_of(&mut item, place)? {
            self.at = keyword;
            return self.error(match place {
                Where::Module => "an item",
                Where::Extern => "an item of an extern block",
                Where::Associated => "an item of a trait or an impl",
            });
        }
        let taken = &self.tokens[from..self.at.max(from + 1).min(self.tokens.len())];
        item.span = span_of(taken);
        item.head = span_of(head_of(&item.kind, taken));
        item.given = pieces_given(&self.tokens[first..self.at]);
        if item.attributes.iter().any(crate::unit::may_be_macro) {
            item.input = Some(Hash::default().with_tokens(taken));
        }
        if item.name.is_none() && !matches!(item.kind, ItemKind::Impl { .. } | ItemKind::ExternBlock(_)) {
            item.text = Hash::default().with_tokens(taken);
        }
        item.blocks = blocks_of(&item.kind, taken);
        Ok(Some(item))
    }

    /// Reads on behind the visibility, up to the end of the item. False where no item begins here.
    fn kind_of(&mut self, item: &mut Item, place: Where) -> Result<bool, SyntaxError> {
        let word = match self.peek() {
            Some(it) => it.word().unwrap_or(""),
            None => return Ok(false),
        };
        let follows = |by: usize| self.ahead(by).and_then(Token::word).unwrap_or("");
        let is_call = self.ahead(1).is_some_and(|it| it.is("!"));
        match word {
            "use" => {
                self.at += 1;
                let tree = self.use_tree()?;
                if !self.takes(";") {
                    return self.error("`;` behind the `use`");
                }
                item.kind = ItemKind::Use(tree);
            }
            "mod" | "unsafe" if word == "mod" || follows(1) == "mod" => {
                self.at += 1 + usize::from(word == "unsafe");
                item.name = Some(self.name()?);
                if self.takes(";") {
                    item.kind = ItemKind::Module(None);
                } else {
                    match self.inside(Where::Module, &mut item.attributes)? {
                        Some(items) => item.kind = ItemKind::Module(Some(items)),
                        None => return self.error("`;` or `{` behind a module's name"),
                    }
                }
            }
            "extern" if follows(1) == "crate" => self.extern_crate(item)?,
            "struct" => self.fields(item, false)?,
            "union" if self.ahead(1).is_some_and(|it| it.word().is_some()) => self.fields(item, true)?,
            "enum" => {
                self.at += 1;
                item.name = Some(self.name()?);
                self.pass_to(true, ";");
                let Some(inner) = self.takes_group(Delimiter::Brace) else {
                    return self.error("the variants of the enum");
                };
                item.kind = ItemKind::Enum(variants_of(inner)?);
            }
            "type" => {
                self.at += 1;
                item.name = Some(self.name()?);
                let from = self.at;
                self.pass_behind_semicolon();
                item.kind = ItemKind::TypeAlias(target_of_alias(&self.tokens[from..self.at]));
            }
            "macro_rules" if is_call && self.ahead(2).is_some_and(|it| it.word().is_some()) => {
                self.macro_rules(item)?
            }
            "macro" if self.ahead(1).is_some_and(|it| it.word().is_some()) => self.macro_definition(item)?,
            _ if is_call && place != Where::Associated && word == "default" => return self.call(item),
            _ => return self.qualified(item),
        }
        Ok(true)
    }

    /// An `extern crate`.
    fn extern_crate(&mut self, item: &mut Item) -> Result<(), SyntaxError> {
        self.at += 2;
        item.name = Some(match self.peek() {
            Some(Token { kind: Kind::Ident(it), span }) => Name { text: plain(it).into(), span: *span },
            _ => return self.error("a crate's name"),
        });
        self.at += 1;
        let alias = self.alias()?;
        item.kind = ItemKind::ExternCrate { alias };
        self.pass_behind_semicolon();
        Ok(())
    }

    /// A `macro_rules!`.
    fn macro_rules(&mut self, item: &mut Item) -> Result<(), SyntaxError> {
        self.at += 2;
        let name = self.name()?;
        let Some(Token { kind: Kind::Group(delimiter, body), .. }) = self.next() else {
            self.at -= 1;
            return self.error("the rules of the macro");
        };
        if *delimiter != Delimiter::Brace {
            self.takes(";");
        }
        let has_local_inner_macros = item
            .attributes
            .iter()
            .filter(|it| it.path.text == "macro_export")
            .filter_map(|it| it.input.first()?.group(Delimiter::Parenthesis))
            .any(|it| it.iter().any(|it| it.is_word("local_inner_macros")));
        let hash = Hash::default().with(if has_local_inner_macros { "inner" } else { "rules" }).with_tokens(body);
        let definition = MacroDefinition {
            name: name.text.clone(),
            is_rules: true,
            body: body.clone(),
            has_local_inner_macros,
            hash,
        };
        item.name = Some(name);
        item.kind = ItemKind::Macro(Arc::new(definition));
        Ok(())
    }

    /// A `macro`.
    fn macro_definition(&mut self, item: &mut Item) -> Result<(), SyntaxError> {
        self.at += 1;
        let name = self.name()?;
        let body: Tokens = match self.next() {
            Some(Token { kind: Kind::Group(Delimiter::Brace, body), .. }) => body.clone(),
            Some(matcher @ Token { kind: Kind::Group(Delimiter::Parenthesis, _), span }) => {
                let Some(body @ Token { kind: Kind::Group(Delimiter::Brace, _), .. }) = self.next() else {
                    return self.error("the body of the macro");
                };
                let arrow = Token { kind: Kind::Punct("=>"), span: *span };
                vec![matcher.clone(), arrow, body.clone()].into()
            }
            _ => return self.error("the rules of the macro"),
        };
        let hash = Hash::default().with("macro").with_tokens(&body);
        let definition =
            MacroDefinition { name: name.text.clone(), is_rules: false, body, has_local_inner_macros: false, hash };
        item.name = Some(name);
        item.kind = ItemKind::Macro(Arc::new(definition));
        Ok(())
    }

    /// A function, a constant, a static, a trait, an impl or an extern block, behind their qualifiers; or a macro call.
    fn qualified(&mut self, item: &mut Item) -> Result<bool, SyntaxError> {
        let from = self.at;
        let mut is_const = false;
        let mut is_extern = false;
        loop {
            let Some(it) = self.peek() else {
                return Ok(false);
            };
            let word = it.word().unwrap_or("");
            let next = self.ahead(1);
            let next_word = next.and_then(Token::word);
            match word {
                "fn" => {
                    self.at += 1;
                    item.name = Some(self.name()?);
                    self.pass_to(true, ";");
                    if self.next().is_none() {
                        return self.error("the body of the function, or `;`");
                    }
                    item.kind = ItemKind::Function;
                    return Ok(true);
                }
                "const" if next_word.is_some_and(|it| !is_qualifier(it)) && !is_const => {
                    return self.value(item, ItemKind::Constant).map(|()| true);
                }
                "static" => return self.value(item, ItemKind::Static).map(|()| true),
                "trait" if next_word.is_some() => return self.trait_definition(item).map(|()| true),
                "impl" => return self.impl_block(item).map(|()| true),
                "const" => is_const = true,
                "extern" => {
                    is_extern = true;
                    if matches!(next, Some(Token { kind: Kind::Literal(_), .. })) {
                        self.at += 1;
                    }
                }
                "async" | "unsafe" | "safe" | "auto" | "default" | "gen" if next_word.is_some() => {}
                "" if is_extern && it.group(Delimiter::Brace).is_some() => {
                    item.text = Hash::default().with_tokens(&self.tokens[from..self.at]);
                    let items = self.inside(Where::Extern, &mut item.attributes)?;
                    item.kind = ItemKind::ExternBlock(items.unwrap_or_default());
                    return Ok(true);
                }
                _ => {
                    if self.at != from {
                        self.at = from;
                    }
                    return self.call(item);
                }
            }
            self.at += 1;
        }
    }

    /// A constant or a static.
    fn value(&mut self, item: &mut Item, kind: ItemKind) -> Result<(), SyntaxError> {
        self.at += 1;
        self.takes_word("mut");
        item.name = if self.takes_word("_") { None } else { Some(self.name()?) };
        item.kind = kind;
        self.pass_behind_semicolon();
        Ok(())
    }

    fn trait_definition(&mut self, item: &mut Item) -> Result<(), SyntaxError> {
        self.at += 1;
        item.name = Some(self.name()?);
        self.pass_to(true, ";");
        let items = self.inside(Where::Associated, &mut item.attributes)?;
        if items.is_none() && !self.takes(";") {
            return self.error("the items of the trait");
        }
        item.kind = ItemKind::Trait(items.unwrap_or_default());
        Ok(())
    }

    fn impl_block(&mut self, item: &mut Item) -> Result<(), SyntaxError> {
        self.at += 1;
        let head = self.at;
        self.pass_to(true, ";");
        let head = &self.tokens[head..self.at];
        item.text = Hash::default().with_tokens(head);
        let Some(items) = self.inside(Where::Associated, &mut item.attributes)? else {
            return self.error("the items of the impl");
        };
        item.kind = ItemKind::Impl { head: ImplHead::of(head), items };
        Ok(())
    }

    fn call(&mut self, item: &mut Item) -> Result<bool, SyntaxError> {
        let Some(path) = self.path() else {
            return Ok(false);
        };
        if !self.takes("!") {
            return Ok(false);
        }
        // A macro that takes a name in front of its group, as `macro_rules` does.
        if self.peek().is_some_and(|it| it.word().is_some()) {
            self.at += 1;
        }
        let Some(Token { kind: Kind::Group(delimiter, input), .. }) = self.next() else {
            self.at -= 1;
            return self.error("what the macro is called with");
        };
        if *delimiter != Delimiter::Brace {
            self.takes(";");
        }
        item.kind = ItemKind::Call(Arc::new(Call::new(path, input, false)));
        Ok(true)
    }

    fn fields(&mut self, item: &mut Item, is_union: bool) -> Result<(), SyntaxError> {
        self.at += 1;
        item.name = Some(self.name()?);
        let mut depth = 0;
        let (shape, fields) = loop {
            let Some(it) = self.peek() else {
                return self.error("the fields, or `;`");
            };
            self.at += 1;
            match &it.kind {
                Kind::Punct(";") if depth <= 0 => break (Shape::Unit, Vec::new()),
                Kind::Group(Delimiter::Brace, inner) if depth <= 0 => break (Shape::Record, fields_of(inner)),
                // Behind the name or its parameters; a parenthesis of a `where` stands in a bound.
                Kind::Group(Delimiter::Parenthesis, inner) if depth <= 0 && !is_union => {
                    let fields = fields_of(inner);
                    self.pass_behind_semicolon();
                    break (Shape::Tuple, fields);
                }
                Kind::Ident(word) if **word == *"where" && depth <= 0 => {
                    self.pass_to(true, ";");
                    match self.next() {
                        Some(it) if it.is(";") => break (Shape::Unit, Vec::new()),
                        Some(Token { kind: Kind::Group(_, inner), .. }) => break (Shape::Record, fields_of(inner)),
                        _ => return self.error("the fields, or `;`"),
                    }
                }
                _ => depth += angle(it),
            }
        };
        item.kind = if is_union { ItemKind::Union { fields } } else { ItemKind::Struct { shape, fields } };
        Ok(())
    }

    fn alias(&mut self) -> Result<Option<Name>, SyntaxError> {
        if !self.takes_word("as") {
            return Ok(None);
        }
        if let Some(Token { kind: Kind::Ident(word), span }) = self.peek() {
            if **word == *"_" {
                self.at += 1;
                return Ok(Some(Name { text: word.clone(), span: *span }));
            }
        }
        self.name().map(Some)
    }

    fn use_tree(&mut self) -> Result<UseTree, SyntaxError> {
        let start = self.peek().map_or(self.end, |it| it.span);
        let mut path = self.path();
        if path.is_none() && self.sees("::") {
            path = Some(Path { text: "::".to_owned(), span: start });
            self.at += 1;
        } else if path.is_some() && !self.takes("::") {
            let alias = self.alias()?;
            return Ok(UseTree::Single { path: path.unwrap_or_default(), alias });
        }
        let Some(it) = self.peek() else {
            return self.error("a path");
        };
        let span = Span { start: start.start, end: it.span.end };
        if it.is("*") {
            self.at += 1;
            return Ok(UseTree::Glob { path, span });
        }
        let Some(inner) = it.group(Delimiter::Brace) else {
            return self.error("a name, `*` or `{`");
        };
        self.at += 1;
        let inner = opened(inner);
        let mut cursor = Cursor::new(&inner, it.span);
        let mut trees = Vec::new();
        while !cursor.is_at_end() {
            trees.push(cursor.use_tree()?);
            if !cursor.is_at_end() && !cursor.takes(",") {
                return cursor.error("`,` in the list");
            }
        }
        Ok(UseTree::List { path, trees, span })
    }
}
