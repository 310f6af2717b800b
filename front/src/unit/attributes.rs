//! Attributes: which of them hold, and what the program is told of them.

use std::fmt::Write as _;

use super::derives::Derives;
use super::quoted;
use crate::cfg::{string_of, Condition, Options};
use crate::syntax::{attribute_in, comma_separated, path_of, plain, Attribute, Item};
use crate::token::{opened, text_of, Delimiter, Kind, Token};

/// The attributes that the compiler has by itself, stable or not, and that nothing is looked up for, in the order of their
/// bytes. Handed in are those of them alone that change what names mean.
const BUILTIN: [&str; 119] = [
    "allow",
    "allow_internal_unsafe",
    "allow_internal_unstable",
    "arm",
    "automatically_derived",
    "bench",
    "cfg",
    "cfg_attr",
    "cfi_encoding",
    "cmse_nonsecure_entry",
    "cold",
    "collapse_debuginfo",
    "compiler_builtins",
    "const_continue",
    "const_eval_limit",
    "const_trait",
    "coroutine",
    "coverage",
    "crate_name",
    "crate_type",
    "custom_mir",
    "custom_test_frameworks",
    "debugger_visualizer",
    "default_lib_allocator",
    "deny",
    "deprecated",
    "deprecated_safe",
    "derive",
    "do_not_recommend",
    "doc",
    "doc_masked",
    "expect",
    "export_name",
    "feature",
    "ffi_const",
    "ffi_pure",
    "forbid",
    "fundamental",
    "global_allocator",
    "ignore",
    "inline",
    "instruction_set",
    "lang",
    "link",
    "link_args",
    "link_name",
    "link_ordinal",
    "link_section",
    "linkage",
    "loop_match",
    "macro_escape",
    "macro_export",
    "macro_use",
    "main",
    "marker",
    "may_dangle",
    "move_size_limit",
    "must_not_suspend",
    "must_use",
    "naked",
    "needs_allocator",
    "needs_panic_runtime",
    "negative_bounds",
    "no_builtins",
    "no_core",
    "no_coverage",
    "no_debug",
    "no_implicit_prelude",
    "no_init",
    "no_link",
    "no_main",
    "no_mangle",
    "no_sanitize",
    "no_start",
    "no_std",
    "non_exhaustive",
    "non_lifetime_binders",
    "omit_gdb_pretty_printer_section",
    "optimize",
    "panic_handler",
    "panic_runtime",
    "panic_unwind",
    "patchable_function_entry",
    "path",
    "pattern_complexity",
    "plugin",
    "plugin_registrar",
    "pointee",
    "prelude_import",
    "proc_macro",
    "proc_macro_attribute",
    "proc_macro_derive",
    "profiler_runtime",
    "recursion_limit",
    "reexport_test_harness_main",
    "register_attr",
    "register_tool",
    "repr",
    "sanitize",
    "should_panic",
    "splat",
    "stable",
    "start",
    "static_nobundle",
    "target_feature",
    "test",
    "test_runner",
    "thread_local",
    "track_caller",
    "type_const",
    "type_length_limit",
    "unsafe_destructor_blind_to_params",
    "unsafe_no_drop_flag",
    "unstable",
    "unstable_feature_bound",
    "unwind",
    "used",
    "warn",
    "windows_subsystem",
];

const TOOLS: [&str; 5] = ["clippy", "rustfmt", "diagnostic", "miri", "rust_analyzer"];

/// The builtin attributes that are handed in.
const KEPT: [&str; 14] = [
    "cfg",
    "cfg_attr",
    "derive",
    "macro_export",
    "macro_use",
    "no_core",
    "no_implicit_prelude",
    "no_std",
    "path",
    "proc_macro",
    "proc_macro_attribute",
    "proc_macro_derive",
    "recursion_limit",
    "register_tool",
];

/// Whether nothing is looked up for an attribute of this path.
pub fn is_builtin(path: &str) -> bool {
    match path.split_once("::") {
        None => path.starts_with("rustc_") || BUILTIN.binary_search(&path).is_ok(),
        Some((tool, _)) => TOOLS.contains(&tool),
    }
}

pub(super) fn is_kept(attribute: &Attribute) -> bool {
    let path = &*attribute.path.text;
    !is_builtin(path) || KEPT.contains(&path)
}

/// The condition and the attributes of a `cfg_attr`.
pub(super) fn conditional(attribute: &Attribute) -> Option<(Condition, Vec<Attribute>)> {
    let [Token { kind: Kind::Group(Delimiter::Parenthesis, inner), .. }] = &attribute.input[..] else {
        return None;
    };
    let inner = opened(inner);
    let mut parts = comma_separated(&inner).into_iter();
    let condition = parts.next().map_or(Condition::Invalid, Condition::read);
    Some((condition, parts.filter_map(|it| attribute_in(it, attribute.span)).collect()))
}

/// The condition of a `cfg`.
fn condition(attribute: &Attribute) -> Condition {
    match &attribute.input[..] {
        [Token { kind: Kind::Group(Delimiter::Parenthesis, inner), .. }] => Condition::read(inner),
        _ => Condition::Invalid,
    }
}

/// Whether an attribute may be a macro, or is `derive`, or is one of these under a condition.
pub fn may_be_macro(attribute: &Attribute) -> bool {
    match &*attribute.path.text {
        "derive" => true,
        "cfg_attr" => conditional(attribute).is_some_and(|it| it.1.iter().any(may_be_macro)),
        path => !is_builtin(path),
    }
}

/// Whether what has these attributes is there under the options.
pub fn is_enabled(attributes: &[Attribute], options: &Options) -> bool {
    attributes.iter().all(|it| match &*it.path.text {
        "cfg" => condition(it).holds(options),
        "cfg_attr" => match conditional(it) {
            Some((condition, inner)) => !condition.holds(options) || is_enabled(&inner, options),
            None => true,
        },
        _ => true,
    })
}

/// The attributes under the options, with what `cfg_attr` adds, each with its number among those that are handed in.
pub fn numbered(attributes: &[Attribute], options: &Options) -> Vec<(u32, Attribute)> {
    pub(super) fn number(
        attributes: &[Attribute],
        options: Option<&Options>,
        next: &mut u32,
        made: &mut Vec<(u32, Attribute)>,
    ) {
        for it in attributes.iter().filter(|it| is_kept(it)) {
            let own = *next;
            if it.path.text == "cfg_attr" {
                let Some((condition, inner)) = conditional(it).filter(|it| it.1.iter().any(is_kept)) else {
                    continue;
                };
                *next += 1;
                let options = options.filter(|it| condition.holds(it));
                number(&inner, options, next, made);
                continue;
            }
            *next += 1;
            if options.is_some() {
                made.push((own, it.clone()));
            }
        }
    }
    let (mut next, mut made) = (0, Vec::new());
    number(attributes, Some(options), &mut next, &mut made);
    made
}

/// The text of the attribute `name = "text"`, if it is there.
pub fn text_attribute(attributes: &[Attribute], name: &str, options: &Options) -> Option<String> {
    let all = numbered(attributes, options);
    let found = all.iter().find(|(_, it)| it.path.text == name)?;
    match &found.1.input[..] {
        [equals, Token { kind: Kind::Literal(it), .. }] if equals.is("=") => string_of(it),
        _ => None,
    }
}

/// The paths of an attribute `path(a, b::c)`.
pub fn paths_of(attribute: &Attribute) -> Option<Vec<crate::syntax::Path>> {
    match &attribute.input[..] {
        [Token { kind: Kind::Group(Delimiter::Parenthesis, inner), .. }] => {
            comma_separated(&opened(inner)).into_iter().map(path_of).collect()
        }
        _ => None,
    }
}

/// What the program is told of an attribute without these derives, if it is told.
fn write_attribute(attribute: &Attribute, left_out: Derives, json: &mut String) -> bool {
    if !is_kept(attribute) {
        return false;
    }
    let path = &*attribute.path.text;
    let from = json.len();
    let _ = write!(json, "{{\"path\":{}", quoted(path));
    match path {
        "cfg" => {
            let _ = write!(json, ",\"cfg\":{}", condition(attribute).json());
        }
        "cfg_attr" => {
            let Some((condition, inner)) = conditional(attribute).filter(|it| it.1.iter().any(is_kept)) else {
                json.truncate(from);
                return false;
            };
            let _ = write!(json, ",\"cfg\":{},\"attrs\":", condition.json());
            write_attributes(&inner, left_out, json);
        }
        "proc_macro_derive" => {
            if let [Token { kind: Kind::Group(Delimiter::Parenthesis, inner), .. }] = &attribute.input[..] {
                let parts = opened(inner);
                let parts = comma_separated(&parts);
                if let Some(name) = parts.first().and_then(|it| it.first()).and_then(Token::word) {
                    let helpers = parts.get(1).map_or(Vec::new(), |it| names_in_group(it));
                    let _ = write!(json, ",\"derive\":{},\"helpers\":{}", quoted(plain(name)), names_json(&helpers));
                }
            }
        }
        _ => match &attribute.input[..] {
            [] => {}
            [equals, Token { kind: Kind::Literal(it), .. }] if equals.is("=") => match string_of(it) {
                Some(it) => {
                    let _ = write!(json, ",\"literal\":{}", quoted(&it));
                }
                None => {
                    let _ = write!(json, ",\"tokens\":{}", quoted(it));
                }
            },
            input => match paths_of(attribute) {
                Some(paths) => {
                    json.push_str(",\"paths\":[");
                    let is_told = |it: &&crate::syntax::Path| path != "derive" || !left_out.hold(&it.text);
                    for (at, it) in paths.iter().filter(is_told).enumerate() {
                        json.push_str(if at == 0 { "" } else { "," });
                        json.push_str(&quoted(&it.text));
                    }
                    json.push(']');
                }
                None => {
                    let _ = write!(json, ",\"tokens\":{}", quoted(&text_of(input)));
                }
            },
        },
    }
    json.push('}');
    true
}

/// The names in `attributes(a, b)`.
fn names_in_group(tokens: &[Token]) -> Vec<String> {
    match tokens {
        [word, Token { kind: Kind::Group(Delimiter::Parenthesis, inner), .. }] if word.is_word("attributes") => {
            inner.iter().filter_map(|it| it.word().map(|it| plain(it).to_owned())).collect()
        }
        _ => Vec::new(),
    }
}

pub(super) fn names_json(names: &[String]) -> String {
    serde_json::to_string(names).expect("texts have a JSON form")
}

pub(super) fn write_attributes<'a>(
    attributes: impl IntoIterator<Item = &'a Attribute>,
    left_out: Derives,
    json: &mut String,
) {
    json.push('[');
    for it in attributes {
        let from = json.len();
        if !json.ends_with('[') {
            json.push(',');
        }
        if !write_attribute(it, left_out, json) {
            json.truncate(from);
        }
    }
    json.push(']');
}

/// The kind of a builtin macro by the name that `rustc_builtin_macro` gives it, or its own.
pub(crate) fn expander_of(name: &str) -> &'static str {
    match name {
        "Clone"
        | "Copy"
        | "Debug"
        | "Default"
        | "Eq"
        | "Hash"
        | "Ord"
        | "PartialEq"
        | "PartialOrd"
        | "RustcDecodable"
        | "RustcEncodable"
        | "ConstParamTy"
        | "UnsizedConstParamTy"
        | "CoercePointee"
        | "SmartPointer"
        | "From"
        | "ConstParamTy_" => "builtin_derive",
        "alloc_error_handler"
        | "bench"
        | "cfg_accessible"
        | "cfg_eval"
        | "derive"
        | "derive_const"
        | "global_allocator"
        | "test"
        | "test_case"
        | "define_opaque"
        | "autodiff"
        | "autodiff_forward"
        | "autodiff_reverse"
        | "contracts_ensures"
        | "contracts_requires"
        | "unsafe_eii"
        | "eii" => "builtin_attr",
        "compile_error" | "concat" | "concat_bytes" | "concat_idents" | "env" | "include" | "include_bytes"
        | "include_str" | "option_env" => "builtin_eager",
        _ => "builtin",
    }
}

/// Whether a builtin macro expands the calls in what it is given before it expands itself.
pub(crate) fn is_eager(name: &str) -> bool {
    expander_of(name) == "builtin_eager"
}

/// The name and the helpers of a macro that the compiler has by itself.
pub(super) fn builtin_name(item: &Item) -> Option<(String, Vec<String>)> {
    let attribute = item.attributes.iter().find(|it| it.path.text == "rustc_builtin_macro")?;
    let mut found = (item.name_text().to_owned(), Vec::new());
    if let [Token { kind: Kind::Group(Delimiter::Parenthesis, inner), .. }] = &attribute.input[..] {
        let parts = comma_separated(inner);
        if let Some(name) = parts.first().and_then(|it| it.first()).and_then(Token::word) {
            found.0 = plain(name).to_owned();
        }
        found.1 = parts.get(1).map_or(Vec::new(), |it| names_in_group(it));
    }
    Some(found)
}

#[cfg(test)]
mod tests {
    #[test]
    fn builtin_attributes_are_in_order() {
        assert!(super::BUILTIN.windows(2).all(|it| it[0] < it[1]));
    }
}
