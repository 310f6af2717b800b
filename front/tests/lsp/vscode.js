// Runs the extension under Node. What it takes of VS Code stands here: the settings, and a client that starts the command in
// the folder, opens a file, asks for a definition and stops, over standard input and output as the real one.
const { spawn } = require("child_process");
const { readFileSync } = require("fs");
const Module = require("module");
const [extension, folder, file] = process.argv.slice(2);

class LanguageClient {
  constructor(id, name, { command, args }, { documentSelector }) {
    console.log(`client ${id} for ${JSON.stringify(documentSelector)}`);
    console.log([command, ...args].join(" "));
    Object.assign(this, { command, args, waiting: new Map(), next: 0, kept: Buffer.alloc(0) });
  }

  async start() {
    this.process = spawn(this.command, this.args, { cwd: folder, stdio: ["pipe", "pipe", "inherit"] });
    this.ended = new Promise((done) => this.process.on("exit", done));
    this.process.stdout.on("data", (bytes) => this.read(bytes));
    const made = await this.ask("initialize", { processId: process.pid, rootUri: `file://${folder}`, capabilities: {} });
    console.log("server:", made.serverInfo.name);
    this.tell("initialized", {});
  }

  async stop() {
    await this.ask("shutdown", null);
    this.tell("exit", null);
    console.log("status:", await this.ended);
  }

  read(bytes) {
    this.kept = Buffer.concat([this.kept, bytes]);
    for (;;) {
      const at = this.kept.indexOf("\r\n\r\n");
      const length = at < 0 ? NaN : Number(/content-length: *(\d+)/i.exec(this.kept.subarray(0, at).toString())[1]);
      if (!(this.kept.length >= at + 4 + length)) return;
      const message = JSON.parse(this.kept.subarray(at + 4, at + 4 + length).toString());
      this.kept = this.kept.subarray(at + 4 + length);
      this.waiting.get(message.id ?? message.method)?.(message.result ?? message.params);
    }
  }

  tell(method, params, more) {
    const text = JSON.stringify({ jsonrpc: "2.0", method, params, ...more });
    this.process.stdin.write(`Content-Length: ${Buffer.byteLength(text)}\r\n\r\n${text}`);
  }

  expect(key) {
    return new Promise((done) => this.waiting.set(key, done));
  }

  ask(method, params) {
    const id = ++this.next;
    const answer = this.expect(id);
    this.tell(method, params, { id });
    return answer;
  }
}

let client;
const modules = {
  vscode: { workspace: { getConfiguration: (part) => ({ get: (name) => (console.log(`setting ${part}.${name}`), ["--no-std"]) }) } },
  "vscode-languageclient/node": {
    LanguageClient: function (...words) {
      return (client = new LanguageClient(...words));
    },
  },
};
const load = Module._load;
Module._load = (name, ...rest) => modules[name] ?? load(name, ...rest);

(async () => {
  const { activate, deactivate } = require(extension);
  await activate();
  const uri = `file://${folder}/${file}`;
  const published = client.expect("textDocument/publishDiagnostics");
  client.tell("textDocument/didOpen", {
    textDocument: { uri, languageId: "rust", version: 1, text: readFileSync(`${folder}/${file}`, "utf8") },
  });
  const { uri: of, diagnostics } = await published;
  for (const it of diagnostics) {
    console.log(`${of.replace(`file://${folder}/`, "")}:${it.range.start.line + 1}: ${it.message.split("\n")[0]}`);
  }
  const [found] = await client.ask("textDocument/definition", { textDocument: { uri }, position: { line: 5, character: 25 } });
  console.log("definition:", found.uri.replace(`file://${folder}/`, ""), found.range.start.line + 1);
  await deactivate();
})();
