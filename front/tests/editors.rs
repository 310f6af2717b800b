//! The configurations for editors in the readme, and the extension for VS Code: read as the editors read them.

use std::path::Path;
use std::process::Command;

use crate::common::{market, own, server_on_path};
use serde_json::{json, Value};
use tempfile::TempDir;

/// The texts of the readme that are marked as ones of this language.
fn snippets(language: &str) -> Vec<String> {
    let readme = std::fs::read_to_string(own("README.md")).unwrap();
    let begin = format!("```{language}\n");
    readme.split(&begin).skip(1).map(|it| it.split_once("```").unwrap().0.to_owned()).collect()
}

#[test]
fn the_configuration_of_helix() {
    let texts = snippets("toml");
    let [text] = &texts[..] else {
        panic!("one text in TOML");
    };
    let read: Value = toml::from_str(text).unwrap();
    // Helix starts a server by its name in the list of a language.
    assert_eq!(read["language-server"]["nogsimat"], json!({"command": "cargo", "args": ["nogsimat", "lsp"]}));
    let [language] = &read["language"].as_array().unwrap()[..] else {
        panic!("one language");
    };
    assert_eq!(language["name"], "rust");
    assert_eq!(language["language-servers"], json!(["nogsimat", "rust-analyzer"]));
    assert_eq!(read.as_object().unwrap().len(), 2);
    assert_eq!(language.as_object().unwrap().len(), 2);
}

/// Whether a program ends well. None where it isn't installed.
fn passes(command: &mut Command) -> Option<()> {
    let made = command.output().ok()?;
    assert!(made.status.success(), "{}", String::from_utf8_lossy(&made.stderr));
    Some(())
}

/// Neovim compiles each configuration, also those for versions that it isn't.
#[test]
fn the_configurations_of_neovim() {
    let folder = TempDir::new().unwrap();
    let texts = snippets("lua");
    assert_eq!(texts.len(), 3);
    for (number, text) in texts.iter().enumerate() {
        assert!(text.contains("\"cargo\", \"nogsimat\", \"lsp\""), "{text}");
        let path = folder.path().join(format!("{number}.lua"));
        std::fs::write(&path, text).unwrap();
        let compile = format!("lua if not loadfile([[{}]]) then vim.cmd('cquit 1') end", path.display());
        let mut command = Command::new("nvim");
        command.args(["--headless", "-u", "NONE", "-i", "NONE", "-n", "-c", compile.as_str(), "-c", "qall!"]);
        if passes(command.env("XDG_STATE_HOME", folder.path())).is_none() {
            eprintln!("nvim isn't installed: not tried");
            return;
        }
    }
}

fn read_json(path: &Path) -> Value {
    serde_json::from_str(&std::fs::read_to_string(path).unwrap()).unwrap()
}

#[test]
fn the_extension_of_vs_code() {
    let folder = own("editors/vscode");
    let manifest = read_json(&folder.join("package.json"));
    for it in ["name", "publisher", "version", "main"] {
        assert!(manifest[it].is_string(), "{it}");
    }
    let main = folder.join(manifest["main"].as_str().unwrap());
    let text = std::fs::read_to_string(&main).unwrap();
    // The version of the editor is one that the client takes.
    assert_eq!(manifest["dependencies"], json!({"vscode-languageclient": "^9.0.1"}));
    assert_eq!(manifest["engines"], json!({"vscode": "^1.82.0"}));
    assert!(manifest["activationEvents"].as_array().unwrap().contains(&json!("onLanguage:rust")));
    let settings = manifest["contributes"]["configuration"]["properties"].as_object().unwrap();
    assert_eq!(settings.keys().collect::<Vec<_>>(), ["nogsimat.options"]);
    let default = &settings["nogsimat.options"]["default"];
    assert_eq!(default, &json!([]));
    assert!(text.contains("getConfiguration(\"nogsimat\").get(\"options\", [])"));
    // Standard input and output are what the client takes where no transport is named.
    assert!(text.contains("{ command: \"cargo\", args: [\"nogsimat\", \"lsp\", ...options] }"));
    if passes(Command::new("node").arg("--check").arg(&main)).is_none() {
        eprintln!("node isn't installed: not tried");
    }
}

/// The extension itself, with a client that stands for the one of VS Code.
#[test]
fn the_extension_at_work() {
    let folder = market();
    let made = Command::new("node")
        .args([own("tests/lsp/vscode.js"), own("editors/vscode/extension.js"), folder.path().canonicalize().unwrap()])
        .arg("shop/src/report.rs")
        .env("PATH", server_on_path())
        .output();
    let Ok(made) = made else {
        eprintln!("node isn't installed: not tried");
        return;
    };
    let told = String::from_utf8_lossy(&made.stdout);
    let wanted = "setting nogsimat.options\n\
        client nogsimat for [{\"scheme\":\"file\",\"language\":\"rust\"}]\n\
        cargo nogsimat lsp --no-std\n\
        server: cargo-nogsimat\n\
        shop/src/report.rs:6: unresolved import `crate::price::Rebate`\n\
        definition: shop/src/price.rs 2\n\
        status: 0\n";
    assert_eq!(told, wanted, "{}", String::from_utf8_lossy(&made.stderr));
}
