// Tests the grammar: node grammar.js [FOLDER [FILE..]]
//
// A small engine of TextMate grammars, with what this grammar uses, assigns scopes to the parts of a text. The rows
// below say which parts of a line have which scope: the innermost one, except for `punctuation` and `meta`, without
// `.toml`. FOLDER has the extension, by default the one that this file is in. With FILEs, prints the parts of each file
// as JSON: the line, the columns where it starts and ends, and its scopes.
const { readFileSync } = require("fs");
const { join } = require("path");

const folder = process.argv[2] || join(__dirname, "..");
const GRAMMAR = "source.toml";
const grammar = JSON.parse(readFileSync(join(folder, "toml.tmLanguage.json"), "utf8"));
const compiled = new Map();

// Returns a pattern as an expression of JavaScript. Both have these elements, with one meaning.
function expression(pattern) {
  if (!compiled.has(pattern)) compiled.set(pattern, new RegExp(pattern, "dgm"));
  return compiled.get(pattern);
}

// Returns the rules in a list, with those that are included.
function rulesOf(patterns = []) {
  return patterns.flatMap((rule) => {
    const included = rule.include ? grammar.repository[rule.include.slice(1)] : rule;
    return included.match || included.begin ? [included] : rulesOf(included.patterns);
  });
}

// Returns the parts of a text with their scopes, of all lines: [line, start, end, scopes].
function tokens(text) {
  const parts = [];
  const stack = [{ rule: grammar, names: [grammar.scopeName], entered: -1 }];
  text.split("\n").forEach((line, row) => scanLine(`${line}\n`, row, stack, parts));
  return parts;
}

// Scans a line. The first match wins, and of several at one place the end of the open rule, then the first rule.
function scanLine(line, row, stack, parts) {
  let at = 0;
  const add = (end, names) => {
    const stop = Math.min(end, line.length - 1);
    if (stop > at) parts.push([row, at, stop, names.join(" ").split(" ")]);
    at = end;
  };
  const captured = (found, captures, names) => {
    for (const [index, { name }] of Object.entries(captures || {})) {
      if (!found.indices[index]) continue;
      add(found.indices[index][0], names);
      add(found.indices[index][1], [...names, name]);
    }
    add(found.indices[0][1], names);
  };
  while (at <= line.length) {
    const top = stack[stack.length - 1];
    const { found, rule, isEnd } = first(line, at, top);
    if (!found) return add(line.length, top.names);
    add(found.index, top.names);
    if (isEnd) {
      captured(found, rule.endCaptures, top.names);
      stack.pop();
      if (top.entered === row * 1e6 + at) throw new Error(`line ${row + 1}: a rule ends where it began`);
    } else {
      const names = rule.name ? [...top.names, rule.name] : top.names;
      const entered = row * 1e6 + at;
      if (rule.begin) stack.push({ rule, names, entered });
      captured(found, rule.begin ? rule.beginCaptures : rule.captures, names);
      if (!rule.begin && !found[0]) throw new Error(`line ${row + 1}: ${rule.match} matches nothing`);
    }
  }
}

function first(line, at, { rule: top }) {
  let best = {};
  const look = (source, rule, isEnd) => {
    const pattern = expression(source);
    pattern.lastIndex = at;
    const found = pattern.exec(line);
    if (found && (!best.found || found.index < best.found.index)) best = { found, rule, isEnd };
  };
  if (top.end) look(top.end, top, true);
  for (const rule of rulesOf(top.patterns)) look(rule.begin || rule.match, rule, false);
  return best;
}

// Returns each part of a line that has a scope of its own: its text and that scope.
function named(parts, lines, row) {
  const found = [];
  for (const [of, start, end, scopes] of parts) {
    const plain = scopes.filter((it) => !/^(source|meta|punctuation)\./.test(it));
    const scope = plain[plain.length - 1];
    if (of !== row || !scope) continue;
    const last = found[found.length - 1];
    const text = lines[row].slice(start, end);
    if (last && last.end === start && last.scope === scope) Object.assign(last, { text: last.text + text, end });
    else found.push({ text, scope, end });
  }
  return found.map(({ text, scope }) => `${text} ${scope.replace(/\.toml$/, "")}`);
}

const KEY = "support.type.property-name";
const QUOTED = `${KEY}.quoted`;
const SECTION = "entity.name.section";
const INTEGER = "constant.numeric.integer.decimal";
const COMMENT = "comment.line.number-sign";
const ESCAPE = "constant.character.escape";
const BAD = "invalid.illegal.escape";
const BASIC = "string.quoted.double";
const LITERAL = "string.quoted.single";
const TRIPLE = "string.quoted.triple.double";

// Lines of TOML, each with the parts that have scopes.
const ROWS = [
  ["comment", ["# a = 1 [b] \"c\"", `# a = 1 [b] "c" ${COMMENT}`], ["  #", `# ${COMMENT}`]],
  ["bare keys", ["a-b_1 = 1#c", `a-b_1 ${KEY}`, `1 ${INTEGER}`, `#c ${COMMENT}`], ["1=1", `1 ${KEY}`, `1 ${INTEGER}`]],
  ["dotted keys", ["a . b.\"c.d\".'e'=1", `a ${KEY}`, `b ${KEY}`, `"c.d" ${QUOTED}`, `'e' ${QUOTED}`, `1 ${INTEGER}`]],
  ["a key like a value", ["true.1.5 = true", `true ${KEY}`, `1 ${KEY}`, `5 ${KEY}`, "true constant.language.boolean"]],
  ["a key with an escape", ['"a\\"b" = 1', `"a ${QUOTED}`, `\\" ${ESCAPE}`, `b" ${QUOTED}`, `1 ${INTEGER}`]],
  ["a key that goes on", ['"a', `"a ${QUOTED}`], ["b = 1", `b ${KEY}`, `1 ${INTEGER}`]],
  ["headers", ["[a.\"b\".'c']# d", `a ${SECTION}`, `"b" ${QUOTED}`, `'c' ${QUOTED}`, `# d ${COMMENT}`]],
  ["arrays of tables", ["  [[ a . 1 ]]", `a ${SECTION}`, `1 ${SECTION}`], ["b = 1", `b ${KEY}`, `1 ${INTEGER}`]],
  ["an open header", ["[a", `a ${SECTION}`], ["b = 1", `b ${KEY}`, `1 ${INTEGER}`]],
  [
    "a basic string",
    ['a = "b # \\n\\u00e9" # c', `a ${KEY}`, `"b #  ${BASIC}`, `\\n\\u00e9 ${ESCAPE}`, `" ${BASIC}`, `# c ${COMMENT}`],
  ],
  ["a string that is open", ['a = "b', `a ${KEY}`, `"b ${BASIC}`], ["c = 1", `c ${KEY}`, `1 ${INTEGER}`]],
  ["a literal string", ["a = 'b\\n\"' # c", `a ${KEY}`, `'b\\n"' ${LITERAL}`, `# c ${COMMENT}`]],
  ["an empty string", ["a = \"\" # c", `a ${KEY}`, `"" ${BASIC}`, `# c ${COMMENT}`]],
  [
    "a string of several lines",
    ['a = """b "c" \\t\\', `a ${KEY}`, `"""b "c"  ${TRIPLE}`, `\\t ${ESCAPE}`, `\\ ${ESCAPE}.line-continuation`],
    ["[d] # e", `[d] # e ${TRIPLE}`],
    ['f = 1 ""', `f = 1 "" ${TRIPLE}`],
    ['"""""# g', `""""" ${TRIPLE}`, `# g ${COMMENT}`],
    ["h = 1", `h ${KEY}`, `1 ${INTEGER}`],
  ],
  ["an empty one", ['a = """"""# b', `a ${KEY}`, `"""""" ${TRIPLE}`, `# b ${COMMENT}`]],
  ["an escaped quote in it", ['a = """\\""""', `a ${KEY}`, `""" ${TRIPLE}`, `\\" ${ESCAPE}`, `""" ${TRIPLE}`]],
  [
    "a literal one",
    ["a = '''b''\\n", `a ${KEY}`, "'''b''\\n string.quoted.triple.single"],
    ["''''# c", "'''' string.quoted.triple.single", `# c ${COMMENT}`],
  ],
  [
    "an array of several lines",
    ["a = [ 1, # b", `a ${KEY}`, `1 ${INTEGER}`, `# b ${COMMENT}`],
    ["  [ true, 'x' ],", "true constant.language.boolean", `'x' ${LITERAL}`],
    ["[[2]]", `2 ${INTEGER}`],
    ["] # c", `# c ${COMMENT}`],
    ["d = 1", `d ${KEY}`, `1 ${INTEGER}`],
  ],
  [
    "a table of several lines",
    ["a = { b.c = 1,# d", `a ${KEY}`, `b ${KEY}`, `c ${KEY}`, `1 ${INTEGER}`, `# d ${COMMENT}`],
    ["  'e' = [", `'e' ${QUOTED}`],
    ["    { f = 'g' }, ]", `f ${KEY}`, `'g' ${LITERAL}`],
    ["  , h = {} }", `h ${KEY}`],
    ["[i]", `i ${SECTION}`],
  ],
  [
    "a table in a line",
    ["a={b=1,c='d'}#e", `a ${KEY}`, `b ${KEY}`, `1 ${INTEGER}`, `c ${KEY}`, `'d' ${LITERAL}`, `#e ${COMMENT}`],
  ],
  [
    "an array that is open",
    ["a = [1, {b = [", `a ${KEY}`, `1 ${INTEGER}`, `b ${KEY}`],
    ["", []],
    ["[c.d]", `c ${SECTION}`, `d ${SECTION}`],
  ],
  ["one before an entry", ["a = [ 1,", `a ${KEY}`, `1 ${INTEGER}`], ["b = 'c'", `b ${KEY}`, `'c' ${LITERAL}`]],
  [
    "a table that is open",
    ["a = { b = 1", `a ${KEY}`, `b ${KEY}`, `1 ${INTEGER}`],
    ["[[c]] # d", `c ${SECTION}`, `# d ${COMMENT}`],
  ],
  ["an element that no header is", ["a = [", `a ${KEY}`], ["[ true ]", "true constant.language.boolean"], ["]", []]],
  [
    "an array in the middle of a line",
    ["a = 1 [b]", `a ${KEY}`, `1 ${INTEGER}`],
    ["c [[d]] = 1", `c ${KEY}`, `d ${KEY}`, `1 ${INTEGER}`],
  ],
  ["headers with blanks", ["\t [ a ] # b", `a ${SECTION}`, `# b ${COMMENT}`], [" [[a]]", `a ${SECTION}`]],
  [
    "headers that are open, with comments",
    ["[a # [b]", `a ${SECTION}`, `# [b] ${COMMENT}`],
    ["[[a # b", `a ${SECTION}`, `# b ${COMMENT}`],
  ],
  [
    "literal strings that are open",
    ["'a", `'a ${QUOTED}`],
    ["b = 'c", `b ${KEY}`, `'c ${LITERAL}`],
    ["d = 1", `d ${KEY}`, `1 ${INTEGER}`],
  ],
  ["an array before a header with blanks", ["a = [", `a ${KEY}`], ["\t[ b ]\t# c", `b ${SECTION}`, `# c ${COMMENT}`]],
  ["before arrays of tables", ["a = [", `a ${KEY}`], [" [[ b.c ]] ", `b ${SECTION}`, `c ${SECTION}`]],
  ["before an entry with blanks", ["a = [", `a ${KEY}`], ["\tb.c = 1", `b ${KEY}`, `c ${KEY}`, `1 ${INTEGER}`]],
  ["before none", ["a = [ b = 1 ]", `a ${KEY}`, `1 ${INTEGER}`], ["c = 1", `c ${KEY}`, `1 ${INTEGER}`]],
  ["a table before a header with blanks", ["a = {", `a ${KEY}`], ["\t[b]", `b ${SECTION}`]],
  [
    "a table with an array",
    ["a = { b = [ 1 ], c [ = 1 }", `a ${KEY}`, `b ${KEY}`, `1 ${INTEGER}`, `c ${KEY}`, `1 ${INTEGER}`],
  ],
  [
    "a blank after a backslash",
    ['a = """b\\ \t', `a ${KEY}`, `"""b ${TRIPLE}`, `\\ ${ESCAPE}.line-continuation`, ` \t ${TRIPLE}`],
  ],
  ["no value", ["a =", `a ${KEY}`], ["b = 1", `b ${KEY}`, `1 ${INTEGER}`]],
];

// Lines with their other scopes: of the punctuation, or of all that is in brackets.
const MARKS = [
  ["# a", "# definition.comment"],
  ["[a.b]", "[a.b] meta.header.table", "[ definition.table.begin", ". separator.dot", "] definition.table.end"],
  [
    "[[a]]",
    "[[a]] meta.header.array-of-tables",
    "[[ definition.array-of-tables.begin",
    "]] definition.array-of-tables.end",
  ],
  [
    "a = [1,2]",
    "= separator.key-value",
    "[1,2] meta.array",
    "[ definition.array.begin",
    ", separator.array",
    "] definition.array.end",
  ],
  [
    "a = {b.c=1,}",
    "= separator.key-value",
    "{b.c=1,} meta.inline-table",
    "{ definition.inline-table.begin",
    ". separator.dot",
    "= separator.key-value",
    ", separator.inline-table",
    "} definition.inline-table.end",
  ],
  [" [[a", " [[a meta.header.array-of-tables", "[[ definition.array-of-tables.begin"],
  [
    "a = [b=]",
    "= separator.key-value",
    "[b=] meta.array",
    "[ definition.array.begin",
    "] definition.array.end",
  ],
  [
    "a = {b[}",
    "= separator.key-value",
    "{b[} meta.inline-table",
    "{ definition.inline-table.begin",
    "} definition.inline-table.end",
  ],
];
for (const quote of ['"', "'", '"""', "'''"]) {
  const marks = [`${quote} definition.string.begin`, `${quote} definition.string.end`];
  MARKS.push([`a = ${quote}b${quote}`, "= separator.key-value", ...marks]);
  if (!quote[1]) MARKS.push([`${quote}b${quote} = 1`, ...marks, "= separator.key-value"]);
}

// Values by their scopes.
const VALUES = {
  "constant.numeric.integer.decimal": "0 +0 -17 1_000 9_8_7",
  "constant.numeric.integer.hexadecimal": "0x0 0xDEAD_beef 0x00",
  "constant.numeric.integer.octal": "0o0 0o7_55",
  "constant.numeric.integer.binary": "0b0 0b1_01",
  "constant.numeric.float": "1.0 -0.0 +1_0.0_1 1e5 1E+06 -2.5e-3_0 0e0 1_0e1_0 1_0.0_1e1",
  "constant.numeric.float.special": "inf +inf -inf nan +nan -nan",
  "constant.numeric.date-time.offset":
    "1979-05-27T07:32:00Z 1979-05-27t07:32Z 1979-05-27T00:32:00.99-07:00 2024-12-31T23:59:60+00:00 0000-01-01t00:00z",
  "constant.numeric.date-time.local": "1979-05-27T07:32:00 1979-05-27T07:32:00.5 1979-05-27T07:32",
  "constant.numeric.date": "1979-05-27 0000-01-31",
  "constant.numeric.time": "07:32:00 00:00:00.25 23:59",
  "constant.language.boolean": "true false",
};

// What is no value, and has no scope.
const WRONG = `00 01 +01 1_ _1 1__0 0x 0xG 0X1 +0x1 0o8 0b2 1. .5 1.e5 1e 1e1.5 Inf +-1 infinity TRUE True yes null
1979-13-01 1979-05-32 79-05-27 24:00:00 07:60 7:32 1979-05-27T07:32:00.Z 1979-05-27T25:00:00 07:32:00Z
1979-05-27T07:32:00+24:00 1979-05-27T truefalse true1 - + x1979-05-27 x1979-05-27T07:32 x1979-05-27T07:32Z x07:32
1979-05-27T07:32Zx 1979-05-27x 07:32x 1.0x x1.0 1e5x x1e5 infx xinf x0o7 0o7x x0b1 0b1x x0x1 0x1x x1 1x xtrue`;

const ESCAPES = "\\b \\t \\n \\f \\r \\e \\\" \\\\ \\x41 \\u00E9 \\uD7ff \\uE000 \\U0010FFFF \\U0001f600 \\U0000D7FF";
const BAD_ESCAPES = "\\a \\' \\x4 \\xg0 \\u12 \\uD800 \\udfff \\U00110000 \\U0000DFFF \\N \\U1";

// Returns the other scopes of a line, each with its text, where it begins.
function marks(line) {
  const found = [];
  const opened = new Map();
  for (const [, start, end, scopes] of tokens(line)) {
    const kept = scopes.filter((it) => /^(meta|punctuation)\./.test(it));
    for (const scope of kept) {
      const last = opened.get(scope);
      if (last && (last.end === start || kept[0] === scope) && scope.startsWith("meta")) last.end = end;
      else opened.set(scope, found[found.push({ scope, start, end }) - 1]);
    }
  }
  const name = (scope) => scope.replace(/^punctuation\./, "").replace(/\.toml$/, "");
  return found.map(({ scope, start, end }) => `${line.slice(start, end)} ${name(scope)}`);
}

function failures() {
  const wrong = grammar.scopeName === GRAMMAR && grammar.name === "TOML" ? [] : ["the name of the grammar"];
  const expect = (name, found, expected) => {
    if (JSON.stringify(found) !== JSON.stringify(expected)) wrong.push(`${name}: ${found.join(" | ")}`);
  };
  for (const [name, ...rows] of ROWS) {
    const lines = rows.map(([line]) => line);
    const parts = tokens(lines.join("\n"));
    rows.forEach(([, ...expected], row) => {
      expect(`${name}, line ${row + 1}`, named(parts, lines, row), expected.flat());
    });
  }
  for (const [line, ...expected] of MARKS) expect(line, marks(line), expected);
  const inArray = (value, expected) => {
    for (const line of [`k = ${value}`, `k=[${value},${value}]#`, `k = {k=${value}}`, `k = [ ${value} ] # `]) {
      const found = named(tokens(line), [line], 0).filter((it) => !it.endsWith(KEY) && !it.endsWith(COMMENT));
      expect(line, [...new Set(found)], expected);
    }
  };
  for (const [scope, values] of Object.entries(VALUES)) {
    for (const value of values.split(" ")) inArray(value, [`${value} ${scope}`]);
  }
  inArray("1979-05-27 07:32:00Z", ["1979-05-27 07:32:00Z constant.numeric.date-time.offset"]);
  for (const value of WRONG.split(/\s+/)) inArray(value, []);
  for (const quotes of ['"', '"""']) {
    const of = (line) => named(tokens(line), [line], 0).filter((it) => /escape/.test(it));
    for (const escape of ESCAPES.split(" ")) {
      expect(escape, of(`a = ${quotes}${escape}${quotes}`), [`${escape} ${ESCAPE}`]);
    }
    for (const escape of BAD_ESCAPES.split(" ")) {
      expect(escape, of(`a = ${quotes}${escape}${quotes}`), [`${escape.slice(0, 2)} ${BAD}`]);
    }
  }
  // (what is open at the end of each line of the rows, in any order, must not be scanned forever)
  for (const [, ...rows] of ROWS) tokens(rows.map(([line]) => line).reverse().join("\n"));
  return wrong;
}

// Returns the rules of the grammar that no row uses.
function unused() {
  return Object.values(grammar.repository)
    .flatMap((rule) => rulesOf([rule]))
    .flatMap((rule) => [rule.begin, rule.end, rule.match].filter(Boolean))
    .filter((pattern) => !compiled.has(pattern));
}

if (process.argv.length > 3) {
  for (const file of process.argv.slice(3)) console.log(JSON.stringify(tokens(readFileSync(file, "utf8"))));
} else {
  const wrong = [...failures(), ...unused().map((pattern) => `no row uses ${pattern}`)];
  console.log(wrong.join("\n") || `grammar: all rows are right, ${compiled.size} patterns`);
  process.exitCode = wrong.length ? 1 : 0;
}
