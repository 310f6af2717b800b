//! The symbols of the files of real crates, beside what `syn` reads there.

use std::path::{Path, PathBuf};

use cargo_nogsimat::lsp::symbols::{symbols_of, Symbol};
use cargo_nogsimat::lsp::text::Text;
use cargo_nogsimat::syntax::unit_of;
use cargo_nogsimat::token::{on_a_thread, tokens_of, Hash, Position};

const CRATES: [&str; 3] = ["libc-", "petgraph-", "os_str_bytes-"];

/// A symbol by the protocol's number of its kind, its name and where the name stands, with how deep it is in others.
type Row = (usize, u32, String, u32, u32);

fn rust_files(folder: &Path, made: &mut Vec<PathBuf>) {
    for it in std::fs::read_dir(folder).unwrap() {
        let path = it.unwrap().path();
        if path.is_dir() {
            rust_files(&path, made);
        } else if path.extension().is_some_and(|it| it == "rs") {
            made.push(path);
        }
    }
}

fn row(depth: usize, kind: u32, name: &syn::Ident) -> Row {
    let start = name.span().start();
    let text = name.to_string();
    (depth, kind, text.trim_start_matches("r#").to_owned(), start.line as u32, start.column as u32 + 1)
}

/// What has no name is known by what stands in it alone.
fn unnamed(depth: usize, kind: u32) -> Row {
    (depth, kind, String::new(), 0, 0)
}

fn function(signature: &syn::Signature) -> u32 {
    if signature.receiver().is_some() {
        6
    } else {
        12
    }
}

fn fields(depth: usize, all: &syn::Fields, made: &mut Vec<Row>) {
    let named = all.iter().filter_map(|it| it.ident.as_ref());
    made.extend(named.map(|it| row(depth, 8, it)));
}

fn foreign(depth: usize, item: &syn::ForeignItem, made: &mut Vec<Row>) -> bool {
    made.push(match item {
        syn::ForeignItem::Fn(it) => row(depth, 12, &it.sig.ident),
        syn::ForeignItem::Static(it) => row(depth, 14, &it.ident),
        syn::ForeignItem::Type(it) => row(depth, 26, &it.ident),
        _ => return false,
    });
    true
}

fn of_trait(depth: usize, item: &syn::TraitItem, made: &mut Vec<Row>) -> bool {
    made.extend(match item {
        syn::TraitItem::Const(it) => Some(row(depth, 14, &it.ident)),
        syn::TraitItem::Method(it) => Some(row(depth, function(&it.sig), &it.sig.ident)),
        syn::TraitItem::Type(it) => Some(row(depth, 26, &it.ident)),
        syn::TraitItem::Macro(_) => None,
        _ => return false,
    });
    true
}

fn of_impl(depth: usize, item: &syn::ImplItem, made: &mut Vec<Row>) -> bool {
    made.extend(match item {
        syn::ImplItem::Const(it) => Some(row(depth, 14, &it.ident)),
        syn::ImplItem::Method(it) => Some(row(depth, function(&it.sig), &it.sig.ident)),
        syn::ImplItem::Type(it) => Some(row(depth, 26, &it.ident)),
        syn::ImplItem::Macro(_) => None,
        _ => return false,
    });
    true
}

/// What `syn` reads; false where it reads something that it has no name for.
fn wanted(depth: usize, items: &[syn::Item], made: &mut Vec<Row>) -> bool {
    for item in items {
        match item {
            syn::Item::Const(it) if it.ident == "_" => made.push(unnamed(depth, 14)),
            syn::Item::Const(it) => made.push(row(depth, 14, &it.ident)),
            syn::Item::Static(it) => made.push(row(depth, 14, &it.ident)),
            syn::Item::Fn(it) => made.push(row(depth, function(&it.sig), &it.sig.ident)),
            syn::Item::Type(it) => made.push(row(depth, 26, &it.ident)),
            syn::Item::Macro(it) => made.extend(it.ident.iter().map(|it| row(depth, 12, it))),
            syn::Item::Struct(it) => {
                made.push(row(depth, 23, &it.ident));
                fields(depth + 1, &it.fields, made);
            }
            syn::Item::Union(it) => {
                made.push(row(depth, 23, &it.ident));
                made.extend(it.fields.named.iter().filter_map(|it| Some(row(depth + 1, 8, it.ident.as_ref()?))));
            }
            syn::Item::Enum(it) => {
                made.push(row(depth, 10, &it.ident));
                for it in &it.variants {
                    made.push(row(depth + 1, 22, &it.ident));
                    fields(depth + 2, &it.fields, made);
                }
            }
            syn::Item::Mod(it) => {
                made.push(row(depth, 2, &it.ident));
                if let Some((_, items)) = &it.content {
                    if !wanted(depth + 1, items, made) {
                        return false;
                    }
                }
            }
            syn::Item::ForeignMod(it) => {
                made.push(unnamed(depth, 2));
                if !it.items.iter().all(|it| foreign(depth + 1, it, made)) {
                    return false;
                }
            }
            syn::Item::Trait(it) => {
                made.push(row(depth, 11, &it.ident));
                if !it.items.iter().all(|it| of_trait(depth + 1, it, made)) {
                    return false;
                }
            }
            syn::Item::Impl(it) => {
                made.push(unnamed(depth, 19));
                if !it.items.iter().all(|it| of_impl(depth + 1, it, made)) {
                    return false;
                }
            }
            syn::Item::Use(_) | syn::Item::ExternCrate(_) => {}
            _ => return false,
        }
    }
    true
}

/// The symbols without those of bodies.
fn listed(depth: usize, symbols: &[Symbol], made: &mut Vec<Row>) {
    for it in symbols {
        let Position { line, column } = it.name_span.start;
        let is_unnamed = it.kind == 19 || it.name == "extern" || it.name.contains(' ');
        assert!(it.span.start <= it.name_span.start && it.name_span.end <= it.span.end, "{it:?}");
        made.push(match is_unnamed {
            true => unnamed(depth, it.kind),
            false => (depth, it.kind, it.name.clone(), line, column),
        });
        if !matches!(it.kind, 6 | 12 | 14) {
            listed(depth + 1, &it.children, made);
        }
    }
}

#[test]
fn symbols_of_real_files() {
    let registry = Path::new("/usr/share/cargo/registry");
    let mut files = Vec::new();
    for it in std::fs::read_dir(registry).unwrap().map(|it| it.unwrap()) {
        let name = it.file_name().into_string().unwrap();
        if CRATES.iter().any(|it| name.starts_with(it)) {
            rust_files(&it.path().join("src"), &mut files);
        }
    }
    let (mut compared, mut rows, mut fields) = (0, 0, 0);
    for path in &files {
        let text = std::fs::read_to_string(path).unwrap();
        let made = on_a_thread(|| {
            let mut wanted_rows = Vec::new();
            let is_read = syn::parse_file(&text).is_ok_and(|it| wanted(0, &it.items, &mut wanted_rows));
            let unit = unit_of(&tokens_of(&text).unwrap(), Hash::default()).unwrap();
            let mut listed_rows = Vec::new();
            listed(0, &symbols_of(&unit.items, &Text::new(text.clone())), &mut listed_rows);
            is_read.then_some((listed_rows, wanted_rows))
        });
        let Some((listed, wanted)) = made else {
            continue;
        };
        assert_eq!(listed.len(), wanted.len(), "{}", path.display());
        for (listed, wanted) in listed.iter().zip(&wanted) {
            assert_eq!(listed, wanted, "{}", path.display());
        }
        compared += 1;
        rows += wanted.len();
        fields += wanted.iter().filter(|it| it.1 == 8).count();
    }
    assert!(compared * 10 > files.len() * 9, "{compared} of {} files", files.len());
    assert!(rows > 4000 && fields > 100, "{rows} symbols, {fields} fields");
}
