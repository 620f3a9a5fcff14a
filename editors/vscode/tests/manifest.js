// Tests package.json and the files that it names: node manifest.js [FOLDER]
//
// FIELDS are the fields that Visual Studio Code documents, as far as this extension may use them, with what they must
// be: a type, a list of values, an expression, or the fields of an object. `?` ends the name of a field that may be
// missing, and `*` stands for any name. FOLDER has the extension, by default the one that this file is in.
const { existsSync, readFileSync } = require("fs");
const { join, resolve } = require("path");

const folder = resolve(process.argv[2] || join(__dirname, ".."));
const text = (path) => readFileSync(join(folder, path), "utf8");
const manifest = JSON.parse(text("package.json"));
const wrong = [];
const expect = (holds, message) => holds || wrong.push(message);

const URL = /^https:\/\/\S+$/;
const PATH = /^(\.\/)?[\w./-]+$/;
const LIMITED = {
  supported: [true, false, "limited"],
  "description?": "string",
  "restrictedConfigurations?": ["string"],
};
const CATEGORIES = [
  ..."Azure,Chat,Data Science,Debuggers,Education,Extension Packs,Formatters,Keymaps,Language Packs".split(","),
  ..."Linters,Machine Learning,Notebooks,Other,Programming Languages,SCM Providers,Snippets,Testing".split(","),
  ..."Themes,Visualization".split(","),
];
const SETTING = {
  type: ["string", "integer", "number", "boolean", "object", "array"],
  default: "any",
  "scope?": ["application", "machine", "window", "resource", "language-overridable", "machine-overridable"],
  "description?": /[.]$/,
  "markdownDescription?": /[.]$/,
  "enum?": ["string"],
  "enumDescriptions?": ["string"],
  "minimum?": "number",
  "maximum?": "number",
  "additionalProperties?": { type: ["string"] },
  "order?": "number",
};
const LANGUAGE = {
  id: /^toml$/,
  aliases: ["string"],
  extensions: [/^\.\w+$/],
  filenames: ["string"],
  "mimetypes?": ["string"],
  configuration: PATH,
};
const FIELDS = {
  name: /^[a-z0-9-]+$/,
  displayName: "string",
  description: /^.{20,200}$/,
  version: /^\d+\.\d+\.\d+$/,
  license: "string",
  publisher: /^[a-z0-9-]+$/,
  icon: /^[\w./-]+\.png$/,
  "galleryBanner?": { color: /^#[0-9a-f]{6}$/, theme: ["dark", "light"] },
  "keywords?": ["string"],
  "repository?": { type: ["git"], url: URL },
  "bugs?": { url: URL },
  "homepage?": URL,
  "qna?": ["marketplace", false],
  engines: { vscode: /^\^\d+\.\d+\.\d+$/ },
  categories: [new RegExp(`^(${CATEGORIES.join("|")})$`)],
  main: PATH,
  activationEvents: [/^onLanguage:toml$/],
  capabilities: { untrustedWorkspaces: LIMITED, virtualWorkspaces: LIMITED },
  contributes: {
    languages: [LANGUAGE],
    grammars: [{ language: /^toml$/, scopeName: /^source\.toml$/, path: PATH }],
    semanticTokenScopes: [{ "language?": "string", scopes: { "*": [/^[\w.-]+$/] } }],
    commands: [{ command: /^toml-span\.\w+$/, title: /^[A-Z]/, category: "string" }],
    configuration: { title: "string", properties: { "*": SETTING } },
  },
};
const LANGUAGE_FIELDS = {
  comments: { lineComment: "string" },
  brackets: [["string"]],
  autoClosingPairs: [{ open: "string", close: "string", "notIn?": [/^(string|comment)$/] }],
  surroundingPairs: [["string"]],
  wordPattern: "string",
  indentationRules: { increaseIndentPattern: "string", decreaseIndentPattern: "string" },
};

// Checks a value. A list with one element is what all elements of a list must be; others are the values that are
// allowed.
function check(value, form, at) {
  if (form === "any") return;
  if (typeof form === "string") return expect(typeof value === form, `${at} is no ${form}`);
  if (form instanceof RegExp) return expect(typeof value === "string" && form.test(value), `${at} is ${value}`);
  if (Array.isArray(form) && Array.isArray(value)) {
    expect(value.length, `${at} is empty`);
    return value.forEach((it, index) => check(it, form[0], `${at}[${index}]`));
  }
  if (Array.isArray(form)) return expect(form.includes(value), `${at} is ${value}`);
  if (!value || typeof value !== "object") return expect(false, `${at} is no object`);
  for (const [name, of] of Object.entries(value)) {
    const found = form[name] || form[`${name}?`] || form["*"];
    if (found) check(of, found, `${at}.${name}`);
    else expect(false, `${at}.${name} is not documented`);
  }
  const missing = Object.keys(form).filter((it) => !/[?*]$/.test(it) && !(it in value));
  expect(!missing.length, `${at} has no ${missing.join(", ")}`);
}

function checkSettings() {
  const { properties } = manifest.contributes.configuration;
  const readme = text("README.md");
  for (const [name, it] of Object.entries(properties)) {
    const type = Array.isArray(it.default) ? "array" : typeof it.default;
    expect(type === (it.type === "integer" ? "number" : it.type), `the default of ${name}`);
    expect(!it.enum || it.enum.includes(it.default), `the default of ${name} is none of its values`);
    expect(!it.enumDescriptions || it.enumDescriptions.length === it.enum.length, `the descriptions of ${name}`);
    expect(Boolean(it.description) !== Boolean(it.markdownDescription), `${name} needs one description`);
    const value = typeof it.default === "string" ? it.default : JSON.stringify(it.default);
    expect(readme.includes(`| \`${name}\` | ${value ? `\`${value}\` ` : ""}|`), `README.md has no row of ${name}`);
  }
  expect(properties["toml-span.path"].scope === "machine-overridable", "the scope of the path");
  expect(properties["toml-span.width"].type === "integer", "the type of the width");
  const { restrictedConfigurations } = manifest.capabilities.untrustedWorkspaces;
  for (const name of restrictedConfigurations) expect(name in properties, `${name} is no setting`);
  expect(restrictedConfigurations.includes("toml-span.path"), "the path is not restricted");
  for (const { title, category } of manifest.contributes.commands) {
    const isTold = readme.includes(`"${category}: ${title}"`);
    expect(isTold, `README.md does not mention the command ${title}`);
  }
}

function checkFiles() {
  const { languages, grammars } = manifest.contributes;
  const [{ configuration, filenames }] = languages;
  for (const path of [manifest.main, manifest.icon, configuration, grammars[0].path, "README.md", "CHANGELOG.md"]) {
    expect(existsSync(join(folder, path)), `there is no ${path}`);
  }
  const icon = readFileSync(join(folder, manifest.icon));
  const size = [icon.readUInt32BE(16), icon.readUInt32BE(20)];
  expect(icon.toString("latin1", 1, 4) === "PNG" && size.join() === "128,128", `the icon is ${size}`);
  expect(text("CHANGELOG.md").includes(`\n## ${manifest.version}\n`), `CHANGELOG.md has no ${manifest.version}`);
  for (const name of filenames) expect(text("README.md").includes(`\`${name}\``), `README.md has no ${name}`);
  for (const [, path] of text("README.md").matchAll(/!\[[^\]]+\]\(([^)]*)\)/g)) {
    // (the marketplace refuses pictures in SVG)
    const isThere = URL.test(path) || existsSync(join(folder, path));
    expect(isThere && /\.(png|jpg|gif)$/.test(path), `the picture ${path} of README.md`);
  }
  const language = JSON.parse(text(configuration));
  check(language, LANGUAGE_FIELDS, configuration);
  const word = new RegExp(language.wordPattern, "g");
  const words = "[a-b.c_d]\nkey = [\"größe\", 1]".match(word);
  expect(words.join() === "a-b,c_d,key,größe,1", `the words ${words}`);
  const { increaseIndentPattern, decreaseIndentPattern } = language.indentationRules;
  const begins = ["a = [", "a = { # b", "[a]", "a = [1]", "# ["];
  const indents = begins.map((it) => new RegExp(increaseIndentPattern).test(it));
  expect(indents.join() === "true,true,false,false,false", `the indents ${indents}`);
  const ends = ["]", "  },", "a = 1"].map((it) => new RegExp(decreaseIndentPattern).test(it));
  expect(ends.join() === "true,true,false", `the ends of indents ${ends}`);
}

check(manifest, FIELDS, "package.json");
checkSettings();
checkFiles();
console.log(wrong.join("\n") || "manifest: all fields are right");
process.exitCode = wrong.length ? 1 : 0;
