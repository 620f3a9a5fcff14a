#!/usr/bin/env node
// A language server for tests: answers from the table below, and does what documents that are opened say. What it gets
// is written to the file $LOG, a message per line.
const { appendFileSync } = require("fs");

if (process.argv[2] === "explain") {
  console.log(`about ${process.argv[3]}`);
  process.exit();
}

const range = { start: { line: 0, character: 0 }, end: { line: 0, character: 1 } };
const ranges = { range, selectionRange: range };
const edit = { range, newText: "é" };
const diagnostic = { range, severity: 2, code: "c", source: "s", message: "m" };
const insertion = { newText: "b = ", insert: range, replace: range };
const documentation = { kind: "plaintext", value: "*" };
const uri = "file:///a.toml";
const ANSWERS = {
  "textDocument/hover": { contents: { kind: "markdown", value: "*é* 😀" }, range },
  "textDocument/definition": { uri, range },
  "textDocument/references": [{ uri, range }],
  "textDocument/documentHighlight": [{ range, kind: 2 }, { range }],
  "textDocument/documentSymbol": [
    { name: "a", kind: 19, ...ranges, children: [{ name: "", kind: 15, ...ranges }] },
  ],
  "textDocument/foldingRange": [{ startLine: 0, endLine: 2, kind: "comment" }, { startLine: 1, endLine: 2 }],
  "textDocument/documentLink": [{ range, target: "https://example.com/" }],
  "textDocument/selectionRange": [{ range, parent: { range } }],
  "textDocument/formatting": [edit],
  "textDocument/rangeFormatting": null,
  "textDocument/completion": {
    isIncomplete: true,
    items: [
      { label: "a", kind: 10, detail: "d", textEdit: edit, insertTextFormat: 2, documentation },
      { label: "b", sortText: "1", textEdit: insertion, additionalTextEdits: [edit] },
      { label: "c", filterText: "d", command: { title: "more", command: "editor.action.triggerSuggest" } },
    ],
  },
  "textDocument/codeAction": [
    {
      title: "t",
      kind: "quickfix",
      isPreferred: true,
      diagnostics: [{ ...diagnostic, codeDescription: { href: "https://example.com/c" } }],
      edit: { documentChanges: [{ textDocument: { uri, version: 1 }, edits: [edit] }] },
    },
    { title: "run", command: { title: "run", command: "toml-span.showOutput" } },
    { title: "old", edit: { documentChanges: [{ textDocument: { uri, version: 0 }, edits: [edit] }] } },
  ],
  "textDocument/prepareRename": { range, placeholder: "a" },
  "textDocument/semanticTokens/full": { data: [0, 0, 1, 2, 0], resultId: "1" },
  "textDocument/semanticTokens/full/delta": { edits: [{ start: 0, deleteCount: 1, data: [5] }], resultId: "2" },
  "textDocument/semanticTokens/range": { data: [] },
  shutdown: null,
};
const PROVIDERS = `hover definition references documentHighlight documentSymbol foldingRange documentLink selectionRange
documentFormatting documentRangeFormatting`.split(/\s+/);
const capabilities = {
  completionProvider: { triggerCharacters: ["=", "."] },
  codeActionProvider: { codeActionKinds: ["quickfix", "source.fixAll"] },
  renameProvider: { prepareProvider: true },
  semanticTokensProvider: {
    legend: { tokenTypes: ["comment"], tokenModifiers: [] },
    full: { delta: true },
    range: true,
  },
  workspace: { workspaceFolders: { supported: true, changeNotifications: true } },
};
for (const name of PROVIDERS) capabilities[`${name}Provider`] = true;
const registrations = [
  { id: "1", method: "workspace/didChangeConfiguration", registerOptions: { section: "toml-span" } },
  {
    id: "2",
    method: "workspace/didChangeWatchedFiles",
    registerOptions: {
      watchers: [{ globPattern: "**/*.json", kind: 3 }, { globPattern: { baseUri: uri, pattern: "*" } }],
    },
  },
];

// (in small pieces, so that messages come in parts)
function send(message) {
  const content = Buffer.from(JSON.stringify({ jsonrpc: "2.0", ...message }));
  const all = Buffer.concat([Buffer.from(`Content-Length: ${content.length}\r\n\r\n`), content]);
  for (let at = 0; at < all.length; at += 31) process.stdout.write(all.subarray(at, at + 31));
}

// What documents with these texts do when they are opened.
const DEEDS = {
  crash: () => process.exit(7),
  garbage: () => process.stdout.write("hello\r\n\r\n"),
  no_json: () => process.stdout.write("Content-Length: 1\r\n\r\n{"),
  stderr: () => process.stderr.write("on standard error\n"),
  show: () => {
    for (const type of [1, 2, 3]) send({ method: "window/showMessage", params: { type, message: `m${type}` } });
  },
  log: () => send({ method: "window/logMessage", params: { type: 4, message: "logged" } }),
  register: () => send({ id: "r", method: "client/registerCapability", params: { registrations } }),
  unregister: () => {
    const unregisterations = registrations.map(({ id, method }) => ({ id, method }));
    send({ id: "u", method: "client/unregisterCapability", params: { unregisterations } });
  },
  configuration: () => {
    const items = [{ section: "toml-span" }, { section: "x" }];
    send({ id: "c", method: "workspace/configuration", params: { items } });
  },
  apply: () => send({ id: "a", method: "workspace/applyEdit", params: { edit: { changes: { [uri]: [edit] } } } }),
  folders: () => send({ id: "f", method: "workspace/workspaceFolders" }),
  unknown: () => send({ id: "n", method: "window/unknown" }),
};

function handle(message) {
  appendFileSync(process.env.LOG, `${JSON.stringify(message)}\n`);
  const { id, method, params } = message;
  if (method === "initialize") {
    if (process.env.REFUSE) return send({ id, error: { code: 1, message: "refused" } });
    return send({ id, result: { capabilities, serverInfo: { name: "fake", version: "1" } } });
  } else if (method === "exit") {
    if (!process.env.STAYS) process.exit(0);
  } else if (method === "textDocument/rename") {
    return send({ id, error: { code: -32803, message: `no ${params.newName}` } });
  } else if (method === "textDocument/hover" && params.position.line === 9) {
    return send({ id, error: { code: -32801, message: "modified" } });
  } else if (method === "textDocument/hover" && params.position.line === 8) {
    return send({ id, error: { code: -32603, message: "a failure" } });
  } else if (method === "textDocument/hover" && params.position.line === 7) {
    return; // (no answer)
  } else if (id !== undefined && method) {
    return send({ id, result: ANSWERS[method] });
  } else if (method === "textDocument/didOpen" || method === "textDocument/didChange") {
    const { uri: of, version, text } = params.textDocument;
    if (DEEDS[text]) return DEEDS[text]();
    send({ method: "textDocument/publishDiagnostics", params: { uri: of, version, diagnostics: [diagnostic] } });
    const relatedInformation = [{ location: { uri: of, range }, message: "r" }];
    const old = { uri: of, version: version - 1, diagnostics: [{ range, message: "old", relatedInformation }] };
    send({ method: "textDocument/publishDiagnostics", params: old });
  }
}

let got = Buffer.alloc(0);
process.stdin.on("data", (data) => {
  got = Buffer.concat([got, data]);
  for (;;) {
    const head = got.indexOf("\r\n\r\n");
    const length = head < 0 ? NaN : Number(/\d+/.exec(got.toString("utf8", 0, head))[0]);
    if (!(got.length >= head + 4 + length)) return;
    const content = got.toString("utf8", head + 4, head + 4 + length);
    got = got.subarray(head + 4 + length);
    handle(JSON.parse(content));
  }
});
if (process.argv[2] !== "lsp") process.exit(2);
