// Tests the extension with a stub of VS Code's API and a stub of the server: node extension.js [FOLDER]
//
// FOLDER has the extension, by default the one that this file is in.
const assert = require("assert");
const { chmodSync, existsSync, mkdtempSync, readFileSync, rmSync, symlinkSync, writeFileSync } = require("fs");
const { tmpdir } = require("os");
const { join, resolve } = require("path");
const editor = require("./vscode.js");

const folder = resolve(process.argv[2] || join(__dirname, ".."));
const work = mkdtempSync(join(tmpdir(), "toml-span-"));
const manifest = JSON.parse(readFileSync(join(folder, "package.json"), "utf8"));
const log = join(work, "log");
process.env.LOG = log;
for (const [name, { default: value }] of Object.entries(manifest.contributes.configuration.properties)) {
  editor.defaults[name.replace("toml-span.", "")] = value;
}
const SERVER = join(__dirname, "server.js");

const sleep = (time) => new Promise((done) => setTimeout(done, time));
const got = (method) => {
  const lines = existsSync(log) ? readFileSync(log, "utf8").split("\n").filter(Boolean).map(JSON.parse) : [];
  return method ? lines.filter((it) => it.method === method).map((it) => it.params) : lines;
};

// Waits until a condition holds, at most half a minute.
async function until(condition) {
  for (let tries = 0; tries < 3000; tries++) {
    if (condition()) return;
    await sleep(10);
  }
  throw new Error(`this never holds: ${condition}`);
}

// Ends the extension that a test has started.
let stop = async () => {};

// Starts the extension in a new editor, whose `settings` are those that are set.
async function start(settings = {}, more = {}) {
  rmSync(log, { force: true });
  const fresh = { documents: [], folders: [], shown: [], executed: [], watchers: [], applied: [], output: "" };
  Object.assign(editor, fresh, { chosen: undefined, settings: { path: SERVER, ...settings } }, more);
  const path = join(folder, manifest.main);
  delete require.cache[path];
  const extension = require(path);
  const extensionUri = editor.Uri.file(folder);
  const subscriptions = [];
  stop = async () => {
    stop = async () => {};
    await extension.deactivate();
    subscriptions.forEach((it) => it.dispose());
  };
  await extension.activate({ subscriptions, extensionUri });
}

const document = (text = "a = 1") => editor.open("file:///a.toml", text);
const at = { line: 0, character: 1 };
const range = editor.range(0, 0, 0, 1);
const never = { onCancellationRequested: () => ({ dispose() {} }) };
const provide = (name, method, ...values) => editor.providers[name].provider[method](...values);
const plain = (value) => JSON.parse(JSON.stringify(value));

const TESTS = {
  async "starts the server, and ends it"() {
    await start({}, { folders: ["file:///home/a"] });
    const [initialize] = got("initialize");
    assert.equal(initialize.rootUri, "file:///home/a");
    assert.deepEqual(initialize.workspaceFolders, [{ uri: "file:///home/a", name: "folder" }]);
    assert.deepEqual(initialize.initializationOptions, {});
    assert.deepEqual(initialize.capabilities.general.positionEncodings, ["utf-16"]);
    assert.equal(Object.keys(editor.providers).length, 15);
    for (const { selector } of Object.values(editor.providers)) {
      assert.deepEqual(selector, [
        { scheme: "file", language: "toml" },
        { scheme: "untitled", language: "toml" },
      ]);
    }
    await stop();
    assert.deepEqual(got().map((it) => it.method), ["initialize", "initialized", "shutdown", "exit"]);
    assert.deepEqual(editor.providers, {});
    assert.deepEqual(editor.shown, []);
    assert.match(editor.output, /^started .*server.js: fake 1\n$/);
  },

  async "tells the server about documents"() {
    const before = { documents: [] };
    const first = { uri: editor.Uri.parse("untitled:b", true), languageId: "toml", version: 3, getText: () => "b" };
    before.documents.push(first);
    await start({}, before);
    const one = document("é😀 = 1\n");
    editor.open("git:/a.toml", "a");
    editor.open("file:///a.json", "a", "json");
    editor.change(one, [[editor.range(0, 6, 0, 7), "12"]]);
    editor.change(one, []);
    editor.fire("onDidSaveTextDocument", one);
    await until(() => editor.diagnostics.has("file:///a.toml"));
    editor.close(one);
    assert(!editor.diagnostics.has("file:///a.toml"));
    await until(() => got("textDocument/didClose").length);
    const opened = got("textDocument/didOpen").map((it) => it.textDocument);
    assert.deepEqual(opened[0], { uri: "untitled:b", languageId: "toml", version: 3, text: "b" });
    assert.deepEqual(opened.slice(1).map((it) => it.uri), ["file:///a.toml"]);
    const changes = got("textDocument/didChange");
    assert.deepEqual(changes, [
      {
        textDocument: { uri: "file:///a.toml", version: 2 },
        contentChanges: [{ range: plain(editor.range(0, 6, 0, 7)), text: "12" }],
      },
    ]);
    assert.deepEqual(got("textDocument/didSave"), [{ textDocument: { uri: "file:///a.toml" } }]);
  },

  async "shows diagnostics of this version"() {
    await start();
    document();
    await until(() => editor.diagnostics.size);
    await sleep(50);
    const [[one]] = [...editor.diagnostics.values()];
    assert.deepEqual([one.message, one.severity, one.code.value, one.source], ["m", 1, "c", "s"]);
    assert.equal(one.code.target.toString(), "toml-span:c");
    assert.equal(await editor.pages["toml-span"].provideTextDocumentContent(one.code.target), "about c\n");
    await stop();
    assert.equal(editor.diagnostics.size, 0);
  },

  async "converts what features return"() {
    await start();
    const one = document();
    const hover = await provide("Hover", "provideHover", one, at, never);
    assert.equal(hover.contents[0].value, "*é* 😀");
    const [definition] = await provide("Definition", "provideDefinition", one, at, never);
    assert.equal(definition.uri.toString(), "file:///a.toml");
    await provide("Reference", "provideReferences", one, at, { includeDeclaration: true }, never);
    assert.deepEqual(got("textDocument/references")[0].context, { includeDeclaration: true });
    const marks = await provide("DocumentHighlight", "provideDocumentHighlights", one, at, never);
    assert.deepEqual(marks.map((it) => it.kind), [1, 0]);
    const [symbol] = await provide("DocumentSymbol", "provideDocumentSymbols", one, never);
    assert.deepEqual([symbol.name, symbol.kind, symbol.children[0].name], ["a", 18, '""']);
    const folds = await provide("FoldingRange", "provideFoldingRanges", one, {}, never);
    assert.deepEqual(plain(folds), [{ start: 0, end: 2, kind: 1 }, { start: 1, end: 2 }]);
    const [link] = await provide("DocumentLink", "provideDocumentLinks", one, never);
    assert.equal(link.target.toString(), "https://example.com/");
    const [selection] = await provide("SelectionRange", "provideSelectionRanges", one, [at], never);
    assert(selection.parent.range.contains(range));
    const options = { tabSize: 4, insertSpaces: true };
    const [edit] = await provide("DocumentFormattingEdit", "provideDocumentFormattingEdits", one, options, never);
    assert.equal(edit.newText, "é");
    const name = "DocumentRangeFormattingEdit";
    assert.deepEqual(await provide(name, `provide${name}s`, one, range, options, never), []);
    assert.deepEqual(got("textDocument/rangeFormatting")[0].range, plain(range));
  },

  async "completes"() {
    await start();
    const one = document();
    assert.deepEqual(editor.providers.CompletionItem.more, ["=", "."]);
    const context = { triggerKind: 1, triggerCharacter: "=" };
    const list = await provide("CompletionItem", "provideCompletionItems", one, at, never, context);
    assert.deepEqual(got("textDocument/completion")[0].context, { triggerKind: 2, triggerCharacter: "=" });
    assert.equal(list.isIncomplete, true);
    const [a, b, c] = list.items;
    assert.deepEqual([a.kind, a.detail, plain(a.insertText), a.documentation.value], [9, "d", { value: "é" }, "\\*"]);
    assert.deepEqual(plain(a.range), plain(range));
    assert.deepEqual([b.insertText, b.sortText], ["b = ", "1"]);
    assert.deepEqual(plain(b.range), plain({ inserting: range, replacing: range }));
    assert.equal(b.additionalTextEdits[0].newText, "é");
    assert.deepEqual([c.insertText, c.range, c.kind, c.filterText], ["c", undefined, undefined, "d"]);
    assert.equal(c.command.command, "editor.action.triggerSuggest");
  },

  async "offers actions for the version that they are for"() {
    await start();
    const one = document();
    await until(() => editor.diagnostics.size);
    const [diagnostics] = [...editor.diagnostics.values()];
    const only = { value: "quickfix" };
    const asked = { diagnostics, only, triggerKind: 1 };
    const actions = await provide("CodeActions", "provideCodeActions", one, range, asked, never);
    const [{ context }] = got("textDocument/codeAction");
    const [diagnostic] = context.diagnostics;
    assert.deepEqual([diagnostic.severity, diagnostic.code, context.only], [2, "c", ["quickfix"]]);
    const [action, other] = actions;
    assert.deepEqual([actions.length, action.kind.value, action.isPreferred], [2, "quickfix", true]);
    assert.equal(other.command.command, "toml-span.showOutput");
    assert.equal(action.edit.files[0][1][0].newText, "é");
    assert.equal(action.diagnostics[0].code.target.toString(), "https://example.com/c");
    const [{ providedCodeActionKinds }] = editor.providers.CodeActions.more;
    assert.deepEqual(providedCodeActionKinds.map((it) => it.value), ["quickfix", "source.fixAll"]);
  },

  async "shows why something can't be renamed"() {
    await start();
    const one = document();
    const found = await provide("Rename", "prepareRename", one, at, never);
    assert.deepEqual(plain(found), plain({ range, placeholder: "a" }));
    await assert.rejects(provide("Rename", "provideRenameEdits", one, at, "b", never), /^Error: no b$/);
  },

  async "highlights"() {
    await start();
    const one = document();
    const { more } = editor.providers.DocumentSemanticTokens;
    assert.deepEqual(more[0].tokenTypes, ["comment"]);
    const name = "DocumentSemanticTokens";
    const all = await provide(name, `provide${name}`, one, never);
    assert.deepEqual([all.resultId, ...all.data], ["1", 0, 0, 1, 2, 0]);
    const { edits } = await provide(name, `provide${name}Edits`, one, "1", never);
    assert.deepEqual([edits[0].deleteCount, ...edits[0].data], [1, 5]);
    assert.equal(got("textDocument/semanticTokens/full/delta")[0].previousResultId, "1");
    const part = await provide("DocumentRangeSemanticTokens", "provideDocumentRangeSemanticTokens", one, range, never);
    assert.equal(part.data.length, 0);
  },

  async "logs other errors, except for requests that are out of date"() {
    await start();
    const one = document();
    assert.equal(await provide("Hover", "provideHover", one, { line: 9, character: 0 }, never), null);
    assert(!/modified/.test(editor.output));
    assert.equal(await provide("Hover", "provideHover", one, { line: 8, character: 0 }, never), null);
    assert.match(editor.output, /textDocument\/hover: a failure/);
  },

  async "cancels"() {
    await start();
    const one = document();
    let cancel;
    const token = { onCancellationRequested: (call) => ((cancel = call), { dispose() {} }) };
    let disposed = 0;
    const listening = { onCancellationRequested: () => ({ dispose: () => disposed++ }) };
    await provide("Hover", "provideHover", one, at, listening);
    assert.equal(disposed, 1);
    const asked = provide("Hover", "provideHover", one, { line: 7, character: 0 }, token);
    cancel();
    await until(() => got("$/cancelRequest").length);
    const { id } = got().filter((it) => it.method === "textDocument/hover")[1];
    assert.deepEqual(got("$/cancelRequest"), [{ id }]);
    await stop();
    assert.equal(await asked, null);
  },

  async "sends the settings that are set"() {
    const settings = { width: 100, schemaMap: { "https://a": "b" }, "trace.server": "off" };
    await start(settings);
    const expected = { width: 100, schemaMap: { "https://a": "b" } };
    assert.deepEqual(got("initialize")[0].initializationOptions, expected);
    document("configuration");
    await until(() => got().find((it) => it.id === "c"));
    assert.deepEqual(got().find((it) => it.id === "c").result, [expected, null]);
    editor.set("width", 90);
    await sleep(50);
    assert.equal(got("workspace/didChangeConfiguration").length, 0);
    document("register");
    await until(() => got().find((it) => it.id === "r"));
    editor.set("width", 80);
    await until(() => got("workspace/didChangeConfiguration").length);
    const [changed] = got("workspace/didChangeConfiguration");
    assert.deepEqual(changed, { settings: { "toml-span": { ...expected, width: 80 } } });
  },

  async "watches files"() {
    await start();
    document("register");
    await until(() => editor.watchers.length === 2);
    const [one, two] = editor.watchers;
    assert.deepEqual([one.pattern, ...one.ignored], ["**/*.json", false, false, true]);
    assert.deepEqual([two.pattern.pattern, two.pattern.base.toString()], ["*", "file:///a.toml"]);
    one.Change(editor.Uri.parse("file:///b.json", true));
    await until(() => got("workspace/didChangeWatchedFiles").length);
    const [{ changes }] = got("workspace/didChangeWatchedFiles");
    assert.deepEqual(changes, [{ uri: "file:///b.json", type: 2 }]);
    document("unregister");
    await until(() => !one.isOpen && !two.isOpen);
  },

  async "answers other requests"() {
    await start({}, { folders: ["file:///a"] });
    for (const text of ["apply", "folders", "unknown", "show", "log", "stderr"]) document(text);
    await until(() => /on standard error/.test(editor.output) && editor.shown.length === 3);
    const answer = (id) => got().find((it) => it.id === id);
    await until(() => answer("a") && answer("f") && answer("n") && /logged/.test(editor.output));
    assert.deepEqual(answer("a").result, { applied: true });
    assert.equal(editor.applied[0].files[0][1][0].newText, "é");
    assert.deepEqual(answer("f").result, [{ uri: "file:///a", name: "folder" }]);
    assert.equal(answer("n").error.code, -32601);
    assert.deepEqual(editor.shown.map(([kind, text]) => `${kind} ${text}`), [
      "error toml-span: m1",
      "warning toml-span: m2",
      "information toml-span: m3",
    ]);
    assert.match(editor.output, /logged/);
    editor.fire("onDidChangeWorkspaceFolders", { added: [{ uri: "file:///b", name: "b" }], removed: [] });
    await until(() => got("workspace/didChangeWorkspaceFolders").length);
  },

  async "says how to install a program that is missing"() {
    const path = join(work, "missing");
    await start({ path }, { chosen: "How to Install" });
    await until(() => editor.executed.length);
    const [[kind, message, ...buttons]] = editor.shown;
    assert.equal(editor.shown.length, 1);
    assert.equal(kind, "error");
    assert.equal(message, `toml-span: the program ${path} was not found. Install it, or set its path.`);
    assert.deepEqual(buttons, ["How to Install", "Set Path", "Restart Server"]);
    const [[command, page]] = editor.executed;
    assert.equal(command, "markdown.showPreview");
    assert.match(readFileSync(new URL(page), "utf8"), /^## Install$/m);
    // once it is there, a restart finds it
    symlinkSync(SERVER, path);
    await editor.commands["toml-span.restartServer"]();
    assert.equal(got("initialize").length, 1);
  },

  async "offers the setting, too"() {
    await start({ path: join(work, "none") }, { chosen: "Set Path" });
    await until(() => editor.executed.length);
    assert.deepEqual(editor.executed, [["workbench.action.openSettings", "toml-span.path"]]);
  },

  async "says that a program is not executable"() {
    const path = join(work, "file");
    writeFileSync(path, "");
    chmodSync(path, 0o644);
    await start({ path });
    await until(() => editor.shown.length);
    assert.match(editor.shown[0][1], /file is not executable\. Install it/);
  },

  async "says that a program is no language server"() {
    for (const [text, why] of [["exit 3", "status 3"], ["printf 'help\\r\\n\\r\\n'; sleep 9", "protocol"]]) {
      const path = join(work, `other ${why}`);
      writeFileSync(path, `#!/bin/sh\n${text}\n`);
      chmodSync(path, 0o755);
      await start({ path });
      await until(() => editor.shown.length);
      assert.match(editor.shown[0][1], new RegExp(`is not a language server .*${why}`));
      assert.deepEqual(editor.shown[0].slice(2), ["Restart Server", "Show Output"]);
      await stop();
      assert.equal(editor.shown.length, 1);
    }
    process.env.REFUSE = "1";
    await start();
    delete process.env.REFUSE;
    await until(() => editor.shown.length);
    assert.match(editor.shown[0][1], /refused/);
  },

  async "starts a server again that has ended, not forever"() {
    await start();
    const one = document("crash");
    await until(() => editor.shown.length);
    assert.match(editor.shown[0][1], /the server has ended 5 times in three minutes/);
    assert.equal(got("initialize").length, 5);
    assert.deepEqual(editor.providers, {});
    one.text = "a = 1";
    await editor.commands["toml-span.restartServer"]();
    assert.equal(Object.keys(editor.providers).length, 15);
  },

  async "ends a server that writes something else"() {
    for (const text of ["garbage", "no_json"]) {
      await start();
      document(text);
      await until(() => editor.shown.length);
      assert.match(editor.shown[0][1], /is not a language server/);
      await stop();
    }
  },

  async "restarts"() {
    await start();
    const one = document();
    await until(() => editor.diagnostics.size);
    one.text = "b = 2";
    await Promise.all([editor.commands["toml-span.restartServer"](), editor.commands["toml-span.restartServer"]()]);
    assert.equal(got("initialize").length, 3);
    assert.equal(got("exit").length, 2);
    await until(() => got("textDocument/didOpen").length === 3);
    assert.equal(got("textDocument/didOpen")[2].textDocument.text, "b = 2");
    assert.equal(Object.keys(editor.providers).length, 15);
    editor.fire("onDidGrantWorkspaceTrust");
    await until(() => got("initialize").length === 4);
    await stop();
    assert.deepEqual(editor.shown, []);
  },

  async "kills a server that stays"() {
    process.env.STAYS = "1";
    await start();
    delete process.env.STAYS;
    const begin = Date.now();
    await stop();
    assert(Date.now() - begin < 15_000);
  },

  async "uses another path at once"() {
    await start({ path: join(work, "none") });
    await until(() => editor.shown.length);
    editor.set("path", SERVER);
    await until(() => Object.keys(editor.providers).length === 15);
  },

  async "finds the program in the open folder, at home and on PATH"() {
    symlinkSync(SERVER, join(work, "linked"));
    const { HOME, PATH } = process.env;
    const uri = editor.Uri.file(work).toString();
    for (const [path, more] of [["./linked", { folders: [uri] }], ["~/linked", {}], ["linked", {}]]) {
      Object.assign(process.env, { HOME: work, PATH: `${work}:${PATH}` });
      await start({ path }, more);
      Object.assign(process.env, { HOME, PATH });
      assert.equal(got("initialize").length, 1, path);
      await stop();
    }
  },

  async "traces messages"() {
    await start({ "trace.server": "messages" });
    const one = document();
    await provide("Hover", "provideHover", one, at, never);
    assert.match(editor.output, /^-> initialize \(1\)\n<- result \(1\)\n/);
    assert.match(editor.output, /-> textDocument\/hover \(2\)/);
    editor.set("trace.server", "verbose");
    await provide("Hover", "provideHover", one, at, never);
    assert.match(editor.output, /"value": "\*é\* 😀"/);
    editor.commands["toml-span.showOutput"]();
    assert.deepEqual(editor.shown, [["output"]]);
  },

  async "the commands and settings are those of package.json"() {
    const source = readFileSync(join(folder, manifest.main), "utf8");
    const commands = manifest.contributes.commands.map((it) => it.command);
    for (const command of commands) assert(source.includes(`registerCommand("${command}"`), command);
    const names = Object.keys(editor.defaults).filter((it) => !["path", "trace.server"].includes(it));
    assert.deepEqual(JSON.parse(/SETTINGS = (\[.*?\]);/s.exec(source)[1]), names);
    const modules = [...source.matchAll(/require\("(.*?)"\)/g)].map((it) => it[1]);
    assert.deepEqual(modules, ["child_process", "fs", "os", "path", "vscode"]);
  },
};

// Waits for a promise, at most a minute.
function inTime(promise) {
  let timer;
  const late = new Promise((_, reject) => (timer = setTimeout(() => reject(new Error("this takes too long")), 60_000)));
  return Promise.race([promise, late]).finally(() => clearTimeout(timer));
}

(async () => {
  let wrong = 0;
  for (const [name, test] of Object.entries(TESTS)) {
    try {
      await inTime(test());
      await inTime(stop());
    } catch (error) {
      wrong++;
      console.log(`wrong: ${name}: ${error.stack}\n${editor.output}`);
      await inTime(stop()).catch(() => {});
    }
  }
  rmSync(work, { recursive: true, force: true });
  const count = Object.keys(TESTS).length;
  console.log(`extension: ${count - wrong} of ${count} right`);
  process.exit(wrong ? 1 : 0);
})();
