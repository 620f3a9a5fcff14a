// A session of VS Code's extension with the language server, without VS Code: see editors.sh beside it. The API of VS
// Code is replaced by the stub in the extension's tests; the rest is what users get. $PROGRAM is the server,
// $EXTENSION the folder of the extension, and $OUT gets a line for each answer.
const { readFileSync, writeFileSync } = require("fs");
const { join } = require("path");

const folder = process.env.EXTENSION;
const editor = require(join(folder, "tests/vscode.js"));
const manifest = JSON.parse(readFileSync(join(folder, "package.json"), "utf8"));
const extension = require(join(folder, manifest.main));
const lines = [];
const say = (name, value) => lines.push(`${name}: ${JSON.stringify(value)}`);
const uri = "file:///a.toml";

const never = { onCancellationRequested: () => ({ dispose() {} }) };
const at = (line, character) => ({ line, character });
const place = ({ start, end }) => [start.line, start.character, end.line, end.character].join();
const provide = (name, method, ...values) => editor.providers[name].provider[`provide${method || name}`](...values);
const editsOf = (edits) => edits.map((it) => [place(it.range), it.newText]);

// Waits until the diagnostics are those of the document's last version.
async function diagnosed(document, condition) {
  for (let tries = 0; tries < 500 && !condition(editor.diagnostics.get(uri)); tries++) {
    await new Promise((done) => setTimeout(done, 10));
  }
  return editor.diagnostics.get(uri);
}

async function run() {
  editor.settings = { path: process.env.PROGRAM, width: 80 };
  await extension.activate({ subscriptions: [], extensionUri: editor.Uri.file(folder) });
  const [language] = manifest.contributes.languages;
  say("server", editor.output.replace(/^started .*: /, "").trim().replace(` ${manifest.version}`, " of this version"));
  say("language", [language.id, language.extensions, manifest.activationEvents]);
  const document = editor.open(uri, readFileSync("a.toml", "utf8"), language.id);
  const diagnostics = await diagnosed(document, (list) => list && list.length);
  say("diagnostics", diagnostics.map((it) => [place(it.range), it.severity, it.code.value]));
  const context = { diagnostics, triggerKind: 1 };
  const [action] = await provide("CodeActions", "", document, editor.range(0, 0, 0, 12), context, never);
  const [[, edits]] = action.edit.files;
  say("action", [action.title, action.kind.value, action.isPreferred, editsOf(edits)]);
  editor.change(document, edits.map((it) => [it.range, it.newText]));
  say("repaired", await diagnosed(document, (list) => list && !list.length));
  const symbols = await provide("DocumentSymbol", "DocumentSymbols", document, never);
  say("symbols", symbols.map((symbol) => [symbol.name, symbol.children.map((child) => child.name)]));
  const hover = await provide("Hover", "", document, at(4, 1), never);
  say("hover", hover.contents[0].value);
  const list = await provide("CompletionItem", "CompletionItems", document, at(10, 0), never, { triggerKind: 0 });
  say("completion", list.items.map((item) => item.label));
  const renamed = await provide("Rename", "RenameEdits", document, at(5, 9), "secure", never);
  say("rename", renamed.files.map(([of, changes]) => [of, editsOf(changes)]));
  const only = { value: "refactor" };
  const array = editor.range(12, 16, 12, 16);
  const conversions = await provide("CodeActions", "", document, array, { ...context, diagnostics: [], only }, never);
  say("conversions", conversions.map((found) => found.title));
  const tokens = await provide("DocumentSemanticTokens", "", document, never);
  say("tokens", [...tokens.data.slice(0, 15)]);
  const options = { tabSize: 4, insertSpaces: true };
  const formatted = await provide("DocumentFormattingEdit", "DocumentFormattingEdits", document, options, never);
  say("formatting", editsOf(formatted));
  await extension.deactivate();
  say("shown", editor.shown);
  writeFileSync(process.env.OUT, `${lines.join("\n")}\n`);
}

run();
