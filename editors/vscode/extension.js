// The client of `toml-span lsp` in Visual Studio Code, without other packages. Its parts, in order: values of the
// protocol as those of VS Code, and back; messages; features; the life of the server.
const { execFile, spawn } = require("child_process");
const { existsSync } = require("fs");
const { homedir } = require("os");
const { isAbsolute, join } = require("path");
const vscode = require("vscode");

const SECTION = "toml-span";
const SELECTOR = ["file", "untitled"].map((scheme) => ({ scheme, language: "toml" }));
// The settings of the server. Others are the client's.
const SETTINGS = ["width", "toml", "schema", "catalog", "schemaMap", "formats"];
// The errors that mean that a client no longer wants the result: canceled, changed meanwhile, canceled by the server.
const OUTDATED = [-32800, -32801, -32802];
// How often a server that ends by itself is started again, in how many milliseconds.
const RESTARTS = 4;
const PERIOD = 180_000;
// How many milliseconds a server has to shut down.
const PATIENCE = 2_000;

// ---- values of the protocol

const toPosition = ({ line, character }) => new vscode.Position(line, character);
const toRange = ({ start, end }) => new vscode.Range(toPosition(start), toPosition(end));
const toUri = (text) => vscode.Uri.parse(text, true);
const toLocation = (it) => new vscode.Location(toUri(it.uri), toRange(it.range));
const toEdit = (it) => new vscode.TextEdit(toRange(it.range), it.newText);
const fromPosition = ({ line, character }) => ({ line, character });
const fromRange = ({ start, end }) => ({ start: fromPosition(start), end: fromPosition(end) });
const mapped = (list, change) => (list || []).map(change);

// Returns a text of the protocol: a string, Markdown, or code in a language.
function toMarkdown(content) {
  const markdown = new vscode.MarkdownString();
  if (typeof content === "string") return markdown.appendMarkdown(content);
  if (content.language) return markdown.appendCodeblock(content.value, content.language);
  return content.kind === "plaintext" ? markdown.appendText(content.value) : markdown.appendMarkdown(content.value);
}

function toDiagnostic(it) {
  const severity = (it.severity || 1) - 1;
  const diagnostic = new vscode.Diagnostic(toRange(it.range), it.message, severity);
  const page = it.codeDescription ? it.codeDescription.href : `${SECTION}:${it.code}`;
  diagnostic.code = it.code && { value: it.code, target: toUri(page) };
  diagnostic.source = it.source;
  diagnostic.tags = it.tags;
  if (it.relatedInformation) {
    const related = (one) => new vscode.DiagnosticRelatedInformation(toLocation(one.location), one.message);
    diagnostic.relatedInformation = it.relatedInformation.map(related);
  }
  return diagnostic;
}

function fromDiagnostic(it) {
  const code = it.code && typeof it.code === "object" ? it.code.value : it.code;
  return { range: fromRange(it.range), message: it.message, severity: it.severity + 1, code, source: it.source };
}

// Returns an edit of files. Returns null if it changes a document that is no longer in the version that it is for.
function toWorkspaceEdit(it) {
  const edit = new vscode.WorkspaceEdit();
  const parts = it.documentChanges
    ? it.documentChanges.map(({ textDocument, edits }) => ({ ...textDocument, edits }))
    : Object.entries(it.changes || {}).map(([uri, edits]) => ({ uri, edits }));
  for (const { uri, version, edits } of parts) {
    const document = vscode.workspace.textDocuments.find((one) => one.uri.toString() === toUri(uri).toString());
    if (document && Number.isInteger(version) && document.version !== version) return null;
    edit.set(toUri(uri), edits.map(toEdit));
  }
  return edit;
}

// (the name of a symbol must not be empty)
function toSymbol(it) {
  const range = toRange(it.range);
  const name = it.name || '""';
  const symbol = new vscode.DocumentSymbol(name, it.detail || "", it.kind - 1, range, toRange(it.selectionRange));
  symbol.children = mapped(it.children, toSymbol);
  return symbol;
}

function toFold(it) {
  const kinds = { comment: vscode.FoldingRangeKind.Comment, region: vscode.FoldingRangeKind.Region };
  return new vscode.FoldingRange(it.startLine, it.endLine, kinds[it.kind]);
}

function toSelection(it) {
  return new vscode.SelectionRange(toRange(it.range), it.parent && toSelection(it.parent));
}

function toHover(it) {
  const contents = mapped([].concat(it.contents), toMarkdown);
  return new vscode.Hover(contents, it.range && toRange(it.range));
}

function toCompletion(it) {
  const item = new vscode.CompletionItem(it.label, it.kind === undefined ? undefined : it.kind - 1);
  const { textEdit } = it;
  const text = textEdit ? textEdit.newText : it.insertText || it.label;
  item.insertText = it.insertTextFormat === 2 ? new vscode.SnippetString(text) : text;
  if (textEdit && textEdit.range) item.range = toRange(textEdit.range);
  if (textEdit && textEdit.insert) {
    item.range = { inserting: toRange(textEdit.insert), replacing: toRange(textEdit.replace) };
  }
  const same = ["detail", "sortText", "filterText", "preselect", "commitCharacters", "command"];
  for (const name of same) item[name] = it[name];
  if (it.documentation) item.documentation = toMarkdown(it.documentation);
  if (it.additionalTextEdits) item.additionalTextEdits = it.additionalTextEdits.map(toEdit);
  return item;
}

function toAction(it) {
  const kind = it.kind && vscode.CodeActionKind.Empty.append(it.kind);
  const action = new vscode.CodeAction(it.title, kind);
  if (it.edit) {
    const edit = toWorkspaceEdit(it.edit);
    if (!edit) return null;
    action.edit = edit;
  }
  action.diagnostics = it.diagnostics && it.diagnostics.map(toDiagnostic);
  action.isPreferred = it.isPreferred;
  action.disabled = it.disabled;
  action.command = it.command;
  return action;
}

function toTokens(it) {
  if (!it.edits) return new vscode.SemanticTokens(new Uint32Array(it.data), it.resultId);
  const change = (one) => new vscode.SemanticTokensEdit(one.start, one.deleteCount, new Uint32Array(one.data || []));
  return new vscode.SemanticTokensEdits(it.edits.map(change), it.resultId);
}

// What the client can do, for `initialize`.
const CAPABILITIES = {
  general: { positionEncodings: ["utf-16"] },
  window: { workDoneProgress: false },
  workspace: {
    applyEdit: true,
    configuration: true,
    workspaceFolders: true,
    workspaceEdit: { documentChanges: true },
    didChangeConfiguration: { dynamicRegistration: true },
    didChangeWatchedFiles: { dynamicRegistration: true, relativePatternSupport: true },
  },
  textDocument: {
    synchronization: { didSave: true },
    publishDiagnostics: {
      relatedInformation: true,
      versionSupport: true,
      codeDescriptionSupport: true,
      tagSupport: { valueSet: [1, 2] },
    },
    completion: {
      completionItem: { snippetSupport: true, insertReplaceSupport: true, documentationFormat: ["markdown"] },
      contextSupport: true,
    },
    hover: { contentFormat: ["markdown"] },
    documentSymbol: { hierarchicalDocumentSymbolSupport: true },
    foldingRange: { lineFoldingOnly: true },
    codeAction: {
      isPreferredSupport: true,
      disabledSupport: true,
      codeActionLiteralSupport: {
        codeActionKind: { valueSet: ["", "quickfix", "refactor", "refactor.rewrite", "source", "source.fixAll"] },
      },
    },
    rename: { prepareSupport: true },
    semanticTokens: {
      requests: { full: { delta: true }, range: true },
      tokenTypes: ["comment", "type", "property", "string", "number", "keyword"],
      tokenModifiers: [],
      formats: ["relative"],
    },
  },
};

// ---- messages

// A process that speaks JSON-RPC. `handlers` has `notified`, `asked` (which returns the result), `said` (a text on
// standard error), `traced` and `ended` (called once, with an error if the process can't be started or written to).
class Connection {
  constructor(command, args, cwd, handlers) {
    Object.assign(this, { handlers, pending: new Map(), last: 0, isOpen: true, chunks: [], length: 0 });
    this.process = spawn(command, args, { cwd, stdio: "pipe", windowsHide: true });
    this.process.on("error", (error) => this.end(error));
    this.process.on("close", (code, signal) => this.end(null, signal || code));
    this.process.stdin.on("error", () => {});
    this.process.stdout.on("data", (data) => {
      try {
        this.receive(data);
      } catch (error) {
        this.end(error);
      }
    });
    this.process.stderr.setEncoding("utf8").on("data", (text) => handlers.said(text));
    this.ended = new Promise((done) => (this.done = done));
  }

  send(message) {
    if (!this.isOpen) return;
    this.handlers.traced("->", message);
    const content = Buffer.from(JSON.stringify({ jsonrpc: "2.0", ...message }));
    this.process.stdin.write(Buffer.concat([Buffer.from(`Content-Length: ${content.length}\r\n\r\n`), content]));
  }

  notify(method, params) {
    this.send({ method, params });
  }

  // Sends a request. The promise fails with the error of the response, or if the server ends.
  request(method, params, token) {
    if (!this.isOpen) return Promise.reject(new Error("the server has ended"));
    const id = ++this.last;
    return new Promise((resolve, reject) => {
      const canceled = token && token.onCancellationRequested(() => this.notify("$/cancelRequest", { id }));
      this.pending.set(id, { resolve, reject, settled: () => canceled && canceled.dispose() });
      this.send({ id, method, params });
    });
  }

  // Takes the messages that are complete out of what has come.
  receive(data) {
    this.chunks.push(data);
    this.length += data.length;
    while (this.length >= (this.needed || 0)) {
      const all = Buffer.concat(this.chunks, this.length);
      this.chunks = [all];
      const head = all.indexOf("\r\n\r\n");
      if (head < 0) return;
      const length = /Content-Length: *(\d+)/i.exec(all.toString("latin1", 0, head));
      if (!length) return this.end(new Error("the program does not speak the language server protocol"));
      const end = head + 4 + Number(length[1]);
      this.needed = end;
      if (all.length < end) return;
      this.chunks = [all.subarray(end)];
      this.length = all.length - end;
      this.needed = 0;
      const failed = (error) => this.handlers.said(String(error.stack));
      this.handle(JSON.parse(all.toString("utf8", head + 4, end))).catch(failed);
    }
  }

  async handle(message) {
    this.handlers.traced("<-", message);
    const { id, method, params, result, error } = message;
    if (method && id === undefined) return this.handlers.notified(method, params);
    if (method) {
      const answer = await this.handlers.asked(method, params).catch((failed) => failed);
      if (!(answer instanceof Error)) return this.send({ id, result: answer === undefined ? null : answer });
      return this.send({ id, error: { code: answer.code || -32603, message: answer.message } });
    }
    const asked = this.pending.get(id);
    this.pending.delete(id);
    if (!asked) return;
    asked.settled();
    if (error) asked.reject(Object.assign(new Error(error.message), { code: error.code }));
    else asked.resolve(result);
  }

  end(error, status) {
    if (!this.isOpen) return;
    this.isOpen = false;
    for (const asked of this.pending.values()) {
      asked.settled();
      asked.reject(new Error("the server has ended"));
    }
    this.pending.clear();
    if (error) this.process.kill();
    this.handlers.ended(error, status);
    this.done();
  }
}

// ---- features

const named = (document) => ({ uri: document.uri.toString() });
const at = (document, position) => ({ textDocument: named(document), position: fromPosition(position) });

// Returns functions that ask about a place or about a document, for features that have no other parameters.
function askers(ask) {
  return {
    ask,
    place: (method, change) => async (document, position, token) => {
      const result = await ask(`textDocument/${method}`, at(document, position), token);
      return result && change(result);
    },
    // (the token is the last one of the parameters)
    whole: (method, change) => async (document, ...rest) => {
      const result = await ask(`textDocument/${method}`, { textDocument: named(document) }, rest[rest.length - 1]);
      return result && result.map(change);
    },
  };
}

const toMarks = (list) => list.map((it) => new vscode.DocumentHighlight(toRange(it.range), (it.kind || 1) - 1));
const toLink = (it) => new vscode.DocumentLink(toRange(it.range), it.target && toUri(it.target));

// For each capability of a server, the kinds of providers, the providers, and what else is registered with them.
const FEATURES = {
  hoverProvider: ({ place }) => [["Hover", { provideHover: place("hover", toHover) }]],

  definitionProvider({ place }) {
    const change = (result) => [].concat(result).map(toLocation);
    return [["Definition", { provideDefinition: place("definition", change) }]];
  },

  referencesProvider({ ask }) {
    const provideReferences = async (document, position, { includeDeclaration }, token) => {
      const params = { ...at(document, position), context: { includeDeclaration } };
      return mapped(await ask("textDocument/references", params, token), toLocation);
    };
    return [["Reference", { provideReferences }]];
  },

  documentHighlightProvider({ place }) {
    return [["DocumentHighlight", { provideDocumentHighlights: place("documentHighlight", toMarks) }]];
  },

  documentSymbolProvider({ whole }) {
    return [["DocumentSymbol", { provideDocumentSymbols: whole("documentSymbol", toSymbol) }]];
  },

  foldingRangeProvider: ({ whole }) => [["FoldingRange", { provideFoldingRanges: whole("foldingRange", toFold) }]],
  documentLinkProvider: ({ whole }) => [["DocumentLink", { provideDocumentLinks: whole("documentLink", toLink) }]],

  selectionRangeProvider({ ask }) {
    const provideSelectionRanges = async (document, positions, token) => {
      const params = { textDocument: named(document), positions: positions.map(fromPosition) };
      return mapped(await ask("textDocument/selectionRange", params, token), toSelection);
    };
    return [["SelectionRange", { provideSelectionRanges }]];
  },

  documentFormattingProvider({ ask }) {
    const provideDocumentFormattingEdits = async (document, { tabSize, insertSpaces }, token) => {
      const params = { textDocument: named(document), options: { tabSize, insertSpaces } };
      return mapped(await ask("textDocument/formatting", params, token), toEdit);
    };
    return [["DocumentFormattingEdit", { provideDocumentFormattingEdits }]];
  },

  documentRangeFormattingProvider({ ask }) {
    const provideDocumentRangeFormattingEdits = async (document, range, { tabSize, insertSpaces }, token) => {
      const options = { tabSize, insertSpaces };
      const params = { textDocument: named(document), range: fromRange(range), options };
      return mapped(await ask("textDocument/rangeFormatting", params, token), toEdit);
    };
    return [["DocumentRangeFormattingEdit", { provideDocumentRangeFormattingEdits }]];
  },

  completionProvider({ ask }, { triggerCharacters }) {
    const provideCompletionItems = async (document, position, token, { triggerKind, triggerCharacter }) => {
      const context = { triggerKind: triggerKind + 1, triggerCharacter };
      const result = await ask("textDocument/completion", { ...at(document, position), context }, token);
      const items = Array.isArray(result) ? result : result && result.items;
      return new vscode.CompletionList(mapped(items, toCompletion), Boolean(result && result.isIncomplete));
    };
    return [["CompletionItem", { provideCompletionItems }, ...(triggerCharacters || [])]];
  },

  codeActionProvider({ ask }, { codeActionKinds }) {
    const provideCodeActions = async (document, range, { diagnostics, only, triggerKind }, token) => {
      const context = { diagnostics: diagnostics.map(fromDiagnostic), triggerKind };
      if (only) context.only = [only.value];
      const params = { textDocument: named(document), range: fromRange(range), context };
      return mapped(await ask("textDocument/codeAction", params, token), toAction).filter(Boolean);
    };
    const providedCodeActionKinds = mapped(codeActionKinds, (kind) => vscode.CodeActionKind.Empty.append(kind));
    return [["CodeActions", { provideCodeActions }, { providedCodeActionKinds }]];
  },

  renameProvider({ ask }, { prepareProvider }) {
    const provideRenameEdits = async (document, position, newName, token) => {
      const result = await ask("textDocument/rename", { ...at(document, position), newName }, token, true);
      return result && toWorkspaceEdit(result);
    };
    const prepareRename = async (document, position, token) => {
      const result = await ask("textDocument/prepareRename", at(document, position), token, true);
      if (!result) throw new Error("only keys can be renamed");
      return result.range ? { ...result, range: toRange(result.range) } : toRange(result);
    };
    return [["Rename", prepareProvider ? { provideRenameEdits, prepareRename } : { provideRenameEdits }]];
  },

  semanticTokensProvider({ ask }, { legend, full, range }) {
    const types = new vscode.SemanticTokensLegend(legend.tokenTypes, legend.tokenModifiers);
    const tokens = async (method, document, more, token) => {
      const params = { textDocument: named(document), ...more };
      const result = await ask(`textDocument/semanticTokens/${method}`, params, token);
      return result && toTokens(result);
    };
    const provider = { provideDocumentSemanticTokens: (document, token) => tokens("full", document, {}, token) };
    if (full && full.delta) {
      provider.provideDocumentSemanticTokensEdits = (document, previousResultId, token) =>
        tokens("full/delta", document, { previousResultId }, token);
    }
    const provideDocumentRangeSemanticTokens = (document, part, token) =>
      tokens("range", document, { range: fromRange(part) }, token);
    const found = full ? [["DocumentSemanticTokens", provider, types]] : [];
    if (range) found.push(["DocumentRangeSemanticTokens", { provideDocumentRangeSemanticTokens }, types]);
    return found;
  },
};

// Registers the features that the server announces, and returns what ends them. `ask` sends a request and returns the
// result, or null if there is none.
function registerFeatures(capabilities, ask) {
  const names = Object.keys(FEATURES).filter((name) => capabilities[name]);
  const all = names.flatMap((name) => FEATURES[name](askers(ask), capabilities[name]));
  const register = ([kind, ...values]) => vscode.languages[`register${kind}Provider`](SELECTOR, ...values);
  return vscode.Disposable.from(...all.map(register));
}

// ---- the server's life

// Returns the settings that a user has set; the others are the server's business.
function settingsOf(uri) {
  const settings = vscode.workspace.getConfiguration(SECTION, uri);
  const set = {};
  for (const name of SETTINGS) {
    const { workspaceFolderValue, workspaceValue, globalValue } = settings.inspect(name) || {};
    const values = [workspaceFolderValue, workspaceValue, globalValue];
    if (values.some((value) => value !== undefined)) set[name] = settings.get(name);
  }
  return set;
}

// Returns the program: a name on PATH, or a path, which may begin with `~/` or be relative to the open folder.
function programOf(folder) {
  const path = vscode.workspace.getConfiguration(SECTION).get("path") || "toml-span";
  if (path.startsWith("~/")) return join(homedir(), path.slice(2));
  return folder && !isAbsolute(path) && /[/\\]/.test(path) ? join(folder, path) : path;
}

// A server, and what the editor shows of it.
class Client {
  constructor(context) {
    Object.assign(this, { context, endings: [], registered: new Map(), parts: [], work: Promise.resolve() });
    this.output = vscode.window.createOutputChannel("toml-span");
    this.diagnostics = vscode.languages.createDiagnosticCollection("toml-span");
    // (what the links of codes open)
    const provider = { provideTextDocumentContent: ({ path }) => this.explanation(path) };
    const pages = vscode.workspace.registerTextDocumentContentProvider(SECTION, provider);
    context.subscriptions.push(this.output, this.diagnostics, pages);
  }

  log(text) {
    this.output.appendLine(text);
  }

  trace(arrow, message) {
    const level = vscode.workspace.getConfiguration(SECTION).get("trace.server");
    if (level !== "messages" && level !== "verbose") return;
    const { method, id, error } = message;
    const what = method || (error ? `error: ${error.message}` : "result");
    this.log(`${arrow} ${what}${id === undefined ? "" : ` (${id})`}`);
    if (level === "verbose") this.log(JSON.stringify(message, null, 2));
  }

  // Returns what the program says about a code.
  explanation(code) {
    return new Promise((done) => {
      execFile(this.program, ["explain", code], (error, output) => done(error ? error.message : output));
    });
  }

  // Starts the server. Shows a message if that is impossible.
  async start() {
    const folders = vscode.workspace.workspaceFolders || [];
    const folder = folders.length && folders[0].uri.scheme === "file" ? folders[0].uri.fsPath : undefined;
    this.program = programOf(folder);
    this.isStopping = false;
    this.hasStarted = false;
    // (in a folder that does not exist, a program would seem to be missing)
    const connection = new Connection(this.program, ["lsp"], folder && existsSync(folder) ? folder : undefined, {
      notified: (method, params) => this.notified(method, params),
      asked: (method, params) => this.asked(method, params),
      said: (text) => this.log(text.trimEnd()),
      traced: (arrow, message) => this.trace(arrow, message),
      ended: (error, status) => this.ended(connection, error, status),
    });
    this.connection = connection;
    const params = {
      processId: process.pid,
      clientInfo: { name: "Visual Studio Code", version: vscode.version },
      rootUri: folders.length ? folders[0].uri.toString() : null,
      workspaceFolders: folders.map((it) => ({ uri: it.uri.toString(), name: it.name })),
      capabilities: CAPABILITIES,
      initializationOptions: settingsOf(),
    };
    try {
      const { capabilities, serverInfo } = await connection.request("initialize", params);
      this.hasStarted = true;
      if (serverInfo) this.log(`started ${this.program}: ${serverInfo.name} ${serverInfo.version || ""}`);
      connection.notify("initialized", {});
      this.parts = [registerFeatures(capabilities, this.ask.bind(this)), ...this.follow(connection, capabilities)];
    } catch (error) {
      // (if the server has ended, `ended` has said so)
      if (connection.isOpen) connection.end(error);
    }
  }

  // Tells the server about documents, now and later. Returns what ends this.
  follow(connection, capabilities) {
    const { workspace, languages } = vscode;
    const isOurs = (document) => languages.match(SELECTOR, document) > 0;
    const open = (document) => {
      if (!isOurs(document)) return;
      const textDocument = { ...named(document), languageId: "toml", version: document.version };
      connection.notify("textDocument/didOpen", { textDocument: { ...textDocument, text: document.getText() } });
    };
    const change = ({ document, contentChanges }) => {
      if (!isOurs(document) || !contentChanges.length) return;
      const changes = contentChanges.map(({ range, text }) => ({ range: fromRange(range), text }));
      const textDocument = { ...named(document), version: document.version };
      connection.notify("textDocument/didChange", { textDocument, contentChanges: changes });
    };
    const simple = (method) => (document) => {
      if (isOurs(document)) connection.notify(method, { textDocument: named(document) });
    };
    const close = (document) => {
      simple("textDocument/didClose")(document);
      this.diagnostics.delete(document.uri);
    };
    const folders = (list) => list.map((it) => ({ uri: it.uri.toString(), name: it.name }));
    const changeFolders = ({ added, removed }) => {
      const { workspaceFolders } = capabilities.workspace || {};
      if (!workspaceFolders || !workspaceFolders.changeNotifications) return;
      const event = { added: folders(added), removed: folders(removed) };
      connection.notify("workspace/didChangeWorkspaceFolders", { event });
    };
    workspace.textDocuments.forEach(open);
    return [
      workspace.onDidChangeWorkspaceFolders(changeFolders),
      workspace.onDidOpenTextDocument(open),
      workspace.onDidChangeTextDocument(change),
      workspace.onDidSaveTextDocument(simple("textDocument/didSave")),
      workspace.onDidCloseTextDocument(close),
    ];
  }

  // Sends a request of the editor. Errors are logged, unless the user should see them.
  async ask(method, params, token, isShown) {
    try {
      return await this.connection.request(method, params, token);
    } catch (error) {
      if (OUTDATED.includes(error.code) || !this.connection.isOpen) return null;
      if (isShown) throw error;
      this.log(`${method}: ${error.message}`);
      return null;
    }
  }

  notified(method, params) {
    if (method === "textDocument/publishDiagnostics") {
      const uri = toUri(params.uri);
      const document = vscode.workspace.textDocuments.find((it) => it.uri.toString() === uri.toString());
      const isOld = document && params.version !== undefined && params.version !== document.version;
      if (!isOld) this.diagnostics.set(uri, params.diagnostics.map(toDiagnostic));
    } else if (method === "window/showMessage") {
      const { window } = vscode;
      const show = { 1: window.showErrorMessage, 2: window.showWarningMessage }[params.type];
      (show || window.showInformationMessage)(`toml-span: ${params.message}`);
    } else if (method === "window/logMessage") {
      this.log(params.message);
    }
  }

  async asked(method, params) {
    if (method === "workspace/configuration") {
      return params.items.map((it) => (it.section === SECTION ? settingsOf(it.scopeUri && toUri(it.scopeUri)) : null));
    } else if (method === "workspace/applyEdit") {
      const edit = toWorkspaceEdit(params.edit);
      return { applied: edit ? await vscode.workspace.applyEdit(edit) : false };
    } else if (method === "client/registerCapability") {
      return params.registrations.forEach((it) => this.register(it));
    } else if (method === "client/unregisterCapability") {
      return params.unregisterations.forEach((it) => this.unregister(it.id));
    } else if (method === "workspace/workspaceFolders") {
      return mapped(vscode.workspace.workspaceFolders, (it) => ({ uri: it.uri.toString(), name: it.name }));
    }
    throw Object.assign(new Error(`${method} is not supported`), { code: -32601 });
  }

  unregister(id) {
    const found = this.registered.get(id);
    this.registered.delete(id);
    if (found) found.dispose();
  }

  register({ id, method, registerOptions }) {
    this.unregister(id);
    if (method === "workspace/didChangeConfiguration") {
      const changed = (event) => {
        if (!event.affectsConfiguration(SECTION)) return;
        this.connection.notify(method, { settings: { [SECTION]: settingsOf() } });
      };
      this.registered.set(id, vscode.workspace.onDidChangeConfiguration(changed));
    } else if (method === "workspace/didChangeWatchedFiles") {
      const watchers = registerOptions.watchers.map((it) => this.watch(it));
      this.registered.set(id, vscode.Disposable.from(...watchers));
    }
  }

  // Reports the files that match a pattern and are created, changed or deleted.
  watch({ globPattern, kind = 7 }) {
    const { baseUri, pattern } = globPattern;
    const base = baseUri && toUri(typeof baseUri === "string" ? baseUri : baseUri.uri);
    const glob = base ? new vscode.RelativePattern(base, pattern) : globPattern;
    const watcher = vscode.workspace.createFileSystemWatcher(glob, !(kind & 1), !(kind & 2), !(kind & 4));
    const report = (type) => (uri) =>
      this.connection.notify("workspace/didChangeWatchedFiles", { changes: [{ uri: uri.toString(), type }] });
    watcher.onDidCreate(report(1));
    watcher.onDidChange(report(2));
    watcher.onDidDelete(report(3));
    return watcher;
  }

  // Takes away what the editor shows of a server that has ended.
  clear() {
    for (const part of [...this.parts, ...this.registered.values()]) part.dispose();
    this.parts = [];
    this.registered.clear();
    this.diagnostics.clear();
  }

  ended(connection, error, status) {
    if (connection !== this.connection) return;
    this.clear();
    if (this.isStopping) return;
    if (error && ["ENOENT", "EACCES", "ENOTDIR"].includes(error.code)) return this.complain(error.code);
    if (error || !this.hasStarted) {
      const why = error ? error.message : `it ended with status ${status}`;
      return this.offer(`toml-span: ${this.program} is not a language server (${why}). Is it the newest version?`);
    }
    this.log(`${this.program} has ended with status ${status}`);
    const now = Date.now();
    this.endings = [...this.endings.filter((time) => now - time < PERIOD), now];
    if (this.endings.length <= RESTARTS) return this.queue(() => this.start());
    this.offer(`toml-span: the server has ended ${this.endings.length} times in three minutes.`);
  }

  // Says that the program is missing, or can't be executed.
  complain(code) {
    const what = code === "EACCES" ? "is not executable" : "was not found";
    this.offer(`toml-span: the program ${this.program} ${what}. Install it, or set its path.`, {
      "How to Install": ["markdown.showPreview", vscode.Uri.joinPath(this.context.extensionUri, "README.md")],
      "Set Path": ["workbench.action.openSettings", "toml-span.path"],
    });
  }

  // Shows an error, with buttons that execute commands.
  async offer(message, buttons) {
    const all = { ...buttons, "Restart Server": ["toml-span.restartServer"], "Show Output": ["toml-span.showOutput"] };
    this.log(message);
    const names = Object.keys(all).slice(0, 3);
    const chosen = await vscode.window.showErrorMessage(message, ...names);
    if (chosen) await vscode.commands.executeCommand(...all[chosen]);
  }

  // Ends the server, by force if it takes too long.
  async stop() {
    const { connection } = this;
    this.isStopping = true;
    if (!connection || !connection.isOpen) return;
    const timer = setTimeout(() => connection.process.kill(), PATIENCE);
    await connection.request("shutdown").catch(() => {});
    connection.notify("exit");
    await connection.ended;
    clearTimeout(timer);
  }

  // Does something when what is being done has been done.
  queue(step) {
    this.work = this.work.then(step, step);
    return this.work;
  }

  restart() {
    return this.queue(async () => {
      await this.stop();
      this.endings = [];
      await this.start();
    });
  }
}

let client;

exports.activate = async (context) => {
  client = new Client(context);
  const { registerCommand } = vscode.commands;
  const changed = (event) => {
    if (event.affectsConfiguration(`${SECTION}.path`)) return client.restart();
  };
  context.subscriptions.push(
    registerCommand("toml-span.restartServer", () => client.restart()),
    registerCommand("toml-span.showOutput", () => client.output.show()),
    vscode.workspace.onDidChangeConfiguration(changed),
    vscode.workspace.onDidGrantWorkspaceTrust(() => client.restart()),
  );
  await client.queue(() => client.start());
};

exports.deactivate = () => client && client.queue(() => client.stop());
