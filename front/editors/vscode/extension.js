const vscode = require("vscode");
const { LanguageClient } = require("vscode-languageclient/node");

let client;

exports.activate = () => {
  const options = vscode.workspace.getConfiguration("nogsimat").get("options", []);
  client = new LanguageClient(
    "nogsimat",
    "Nogsimat",
    { command: "cargo", args: ["nogsimat", "lsp", ...options] },
    { documentSelector: [{ scheme: "file", language: "rust" }] },
  );
  return client.start();
};

exports.deactivate = () => client && client.stop();
