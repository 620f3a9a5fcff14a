// A stub of VS Code's API, of what the extension uses. A member that it does not have is an error.
//
// `editor` is what a test sees and sets: the documents, the settings, what was registered, shown and executed.
const { EventEmitter } = require("events");
const Module = require("module");
const { pathToFileURL, fileURLToPath } = require("url");

const strict = (name, members) =>
  new Proxy(members, {
    get(all, key) {
      if (key in all || typeof key === "symbol") return all[key];
      throw new Error(`the API has no ${name}.${key}`);
    },
  });
// Returns a class whose constructor stores its arguments under these names.
const record = (...names) =>
  class {
    constructor(...values) {
      names.forEach((name, index) => (this[name] = values[index]));
    }
  };
const isBefore = (a, b) => a.line < b.line || (a.line === b.line && a.character <= b.character);

class Position extends record("line", "character") {
  constructor(...values) {
    super(...values);
    if (!values.every((it) => Number.isInteger(it) && it >= 0)) throw new Error("not a position");
  }
}

class Range extends record("start", "end") {
  contains(other) {
    return isBefore(this.start, other.start) && isBefore(other.end, this.end);
  }
}

class Uri {
  constructor(text) {
    this.text = text;
    [, this.scheme, this.path] = /^([\w-]+):(?:\/\/)?(.*)/.exec(text);
  }

  static parse(text, strict) {
    if (!strict || !/^[\w-]+:/.test(text)) throw new Error(`not a URI: ${text}`);
    return new Uri(text);
  }

  static file(path) {
    return new Uri(pathToFileURL(path).href);
  }

  static joinPath(uri, ...names) {
    return new Uri([uri.text, ...names].join("/"));
  }

  get fsPath() {
    return fileURLToPath(this.text);
  }

  toString() {
    return this.text;
  }
}

class Disposable {
  constructor(dispose) {
    this.dispose = dispose;
  }

  static from(...all) {
    return new Disposable(() => all.forEach((it) => it.dispose()));
  }
}

class MarkdownString {
  constructor(value = "") {
    this.value = value;
  }

  appendMarkdown(text) {
    this.value += text;
    return this;
  }

  appendText(text) {
    return this.appendMarkdown(text.replace(/[\\`*_{}[\]()#+\-!~]/g, "\\$&"));
  }

  appendCodeblock(text, language) {
    return this.appendMarkdown(`\n\`\`\`${language}\n${text}\n\`\`\`\n`);
  }
}

class CodeActionKind {
  constructor(value) {
    this.value = value;
  }

  append(part) {
    return new CodeActionKind(this.value ? `${this.value}.${part}` : part);
  }
}
CodeActionKind.Empty = new CodeActionKind("");

class WorkspaceEdit {
  constructor() {
    this.files = [];
  }

  set(uri, edits) {
    this.files.push([uri.toString(), edits]);
  }
}

class DocumentSymbol extends record("name", "detail", "kind", "range", "selectionRange") {
  constructor(...values) {
    super(...values);
    if (!this.name) throw new Error("name must not be falsy");
    if (!this.range.contains(this.selectionRange)) throw new Error("selectionRange must be contained in fullRange");
  }
}

const events = new EventEmitter();
const event = (name) => (listener) => {
  events.on(name, listener);
  return new Disposable(() => events.off(name, listener));
};

const editor = {
  Uri,
  settings: {}, // those that are set, without their section
  defaults: {},
  documents: [],
  folders: [],
  providers: {}, // by their kinds
  pages: {}, // what returns the contents of pages, by their schemes
  diagnostics: new Map(),
  commands: {},
  executed: [],
  shown: [], // [kind, message, ...buttons]
  chosen: undefined, // the button that is chosen
  output: "",
  watchers: [],
  applied: [],

  fire(name, ...values) {
    events.emit(name, ...values);
  },

  // Opens a document, and returns it.
  open(uri, text, languageId = "toml") {
    const document = { uri: new Uri(uri), languageId, version: 1, text, getText: () => document.text };
    this.documents.push(document);
    events.emit("onDidOpenTextDocument", document);
    return document;
  },

  // Changes a document: the changes are [range, text], each with positions after those before it.
  change(document, changes) {
    for (const [range, text] of changes) {
      const lines = document.text.split("\n");
      const offset = ({ line, character }) => lines.slice(0, line).join("\n").length + (line ? 1 : 0) + character;
      document.text = document.text.slice(0, offset(range.start)) + text + document.text.slice(offset(range.end));
    }
    if (changes.length) document.version++;
    const contentChanges = changes.map(([range, text]) => ({ range, text, rangeOffset: 0, rangeLength: 0 }));
    events.emit("onDidChangeTextDocument", { document, contentChanges });
  },

  close(document) {
    this.documents.splice(this.documents.indexOf(document), 1);
    events.emit("onDidCloseTextDocument", document);
  },

  set(name, value) {
    this.settings[name] = value;
    events.emit("onDidChangeConfiguration", { affectsConfiguration: (key) => `toml-span.${name}`.startsWith(key) });
  },

  range(line, start, endLine, end) {
    return new Range(new Position(line, start), new Position(endLine, end));
  },
};

const registering = (name) => (selector, provider, ...more) => {
  editor.providers[name] = { selector, provider, more };
  return new Disposable(() => delete editor.providers[name]);
};
const languages = {
  createDiagnosticCollection: (name) => ({
    name,
    set: (uri, list) => {
      editor.diagnostics.set(uri.toString(), list);
      events.emit("diagnostics");
    },
    delete: (uri) => editor.diagnostics.delete(uri.toString()),
    clear: () => editor.diagnostics.clear(),
    dispose() {},
  }),
  match: (selector, { uri, languageId }) =>
    selector.some((it) => it.scheme === uri.scheme && it.language === languageId) ? 10 : 0,
};
for (const name of `CodeActions CompletionItem Definition DocumentFormattingEdit DocumentHighlight DocumentLink
    DocumentRangeFormattingEdit DocumentRangeSemanticTokens DocumentSemanticTokens DocumentSymbol FoldingRange Hover
    Reference Rename SelectionRange`.split(/\s+/)) {
  languages[`register${name}Provider`] = registering(name);
}

const shows = (kind) => (message, ...buttons) => {
  editor.shown.push([kind, message, ...buttons]);
  return Promise.resolve(editor.chosen);
};

function getConfiguration(section) {
  if (section !== "toml-span") throw new Error(`the section ${section}`);
  const get = (name) => (name in editor.settings ? editor.settings[name] : editor.defaults[name]);
  const inspect = (name) => ({ key: `toml-span.${name}`, globalValue: editor.settings[name] });
  return strict("configuration", { get, inspect });
}

function createFileSystemWatcher(pattern, ...ignored) {
  const watcher = { pattern, ignored, isOpen: true, dispose: () => (watcher.isOpen = false) };
  for (const name of ["Create", "Change", "Delete"]) {
    watcher[`onDid${name}`] = (listener) => (watcher[name] = listener);
  }
  editor.watchers.push(watcher);
  return watcher;
}

const workspace = {
  get textDocuments() {
    return editor.documents;
  },
  get workspaceFolders() {
    return editor.folders.length ? editor.folders.map((uri) => ({ uri: new Uri(uri), name: "folder" })) : undefined;
  },
  getConfiguration,
  createFileSystemWatcher,
  registerTextDocumentContentProvider: (scheme, provider) => {
    editor.pages[scheme] = provider;
    return new Disposable(() => delete editor.pages[scheme]);
  },
  applyEdit: async (edit) => editor.applied.push(edit) > 0,
};
for (const name of `ChangeConfiguration ChangeTextDocument ChangeWorkspaceFolders CloseTextDocument GrantWorkspaceTrust
    OpenTextDocument SaveTextDocument`.split(/\s+/)) {
  workspace[`onDid${name}`] = event(`onDid${name}`);
}

const api = {
  version: "1.85.0",
  Position,
  Range,
  Uri,
  Disposable,
  MarkdownString,
  CodeActionKind,
  WorkspaceEdit,
  DocumentSymbol,
  FoldingRangeKind: strict("FoldingRangeKind", { Comment: 1, Imports: 2, Region: 3 }),
  Location: record("uri", "range"),
  TextEdit: record("range", "newText"),
  Diagnostic: record("range", "message", "severity"),
  DiagnosticRelatedInformation: record("location", "message"),
  FoldingRange: record("start", "end", "kind"),
  SelectionRange: record("range", "parent"),
  Hover: record("contents", "range"),
  CompletionItem: record("label", "kind"),
  CompletionList: record("items", "isIncomplete"),
  SnippetString: record("value"),
  CodeAction: record("title", "kind"),
  DocumentHighlight: record("range", "kind"),
  DocumentLink: record("range", "target"),
  RelativePattern: record("base", "pattern"),
  SemanticTokens: record("data", "resultId"),
  SemanticTokensEdit: record("start", "deleteCount", "data"),
  SemanticTokensEdits: record("edits", "resultId"),
  SemanticTokensLegend: record("tokenTypes", "tokenModifiers"),
  languages: strict("languages", languages),
  workspace: strict("workspace", workspace),
  window: strict("window", {
    createOutputChannel: (name) => ({
      name,
      appendLine: (line) => {
        editor.output += `${line}\n`;
        events.emit("output");
      },
      show: () => editor.shown.push(["output"]),
      dispose() {},
    }),
    showErrorMessage: shows("error"),
    showWarningMessage: shows("warning"),
    showInformationMessage: shows("information"),
  }),
  commands: strict("commands", {
    registerCommand: (name, run) => {
      editor.commands[name] = run;
      return new Disposable(() => delete editor.commands[name]);
    },
    executeCommand: async (name, ...values) => {
      editor.executed.push([name, ...values.map(String)]);
      return editor.commands[name] && editor.commands[name](...values);
    },
  }),
};

const load = Module._load;
Module._load = (name, ...rest) => (name === "vscode" ? strict("vscode", api) : load(name, ...rest));
module.exports = editor;
