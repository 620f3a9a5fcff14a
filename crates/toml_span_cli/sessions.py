#!/usr/bin/env python3
"""Tests the language server: python3 sessions.py PROGRAM FILE..

A session is a file of lines: `-> JSON` is a message to the server, `<- JSON` one that it must send next, `=> TEXT`
bytes that are sent as they are (with the escapes of Python), `spaces N` that many spaces that are sent, and `status N`
the exit status, by default 0.
`"jsonrpc": "2.0"` is added to messages without it, and not compared; `"..."` stands for any value. What is sent after
`<-` lines is sent once their messages have come; lines with nothing between them are sent at once. `file PATH TEXT`
writes a file in the folder in which the server runs, once all messages before it have come; `HERE` stands for the path
of that folder. Lines that begin with `#` are comments. A line that begins with spaces goes on with the line before it.

With `--refused FAULTS FILE..`, where FAULTS is scripts/c_tests/faults.c as a library, runs the sessions again with one
request for memory refused, in turn each whose innermost CALLERS callers differ from those of the requests before it, in
all sessions. The server must write whole frames, and either end with status 4 or go on. What it
has written until then, or writes after that, must be as usual, except for one error or message.

With `--fuzz COUNT [SEED]`, sends that many frames at random, most of them wrong, and checks after each hundred that a
right request is answered. With `--speed FILE`, opens the file and measures how long the server takes for a keystroke
until its diagnostics are there, how much memory it has after many of them, and how much processor time it takes for a
keystroke with all that an editor asks for then.
"""

import concurrent.futures
import difflib
import json
import os
import random
import re
import shutil
import struct
import subprocess
import sys
import tempfile
import threading
import time


def framed(content):
    return b"Content-Length: %d\r\n\r\n%s" % (len(content), content)


def encoded(message):
    if isinstance(message, dict) and "jsonrpc" not in message:
        message = {"jsonrpc": "2.0", **message}
    return framed(json.dumps(message, ensure_ascii=False).encode())


def contents(data):
    """Splits the output of the server into the contents of its frames."""
    found = []
    while data:
        head, _, rest = data.partition(b"\r\n\r\n")
        match = re.fullmatch(rb"Content-Length: (\d+)", head)
        if not match or len(rest) < int(match[1]):
            found.append({"no frame": data.decode(errors="replace")})
            break
        found.append(json.loads(rest[: int(match[1])]))
        data = rest[int(match[1]) :]
    for message in found:
        message.pop("jsonrpc", None)
    return found


def shown(message):
    return "<- " + json.dumps(message, ensure_ascii=False, sort_keys=True)


def masked(wanted, made):
    """Returns a message with `"..."` where the wanted one has that."""
    if wanted == "...":
        return wanted
    if isinstance(wanted, dict) and isinstance(made, dict):
        return {key: masked(wanted.get(key), value) for key, value in made.items()}
    if isinstance(wanted, list) and isinstance(made, list) and len(wanted) == len(made):
        return [masked(*pair) for pair in zip(wanted, made)]
    return made


def lines_of(name):
    lines = []
    with open(name, encoding="utf-8") as file:
        for line in file.read().split("\n"):
            if line.startswith(" ") and lines:
                lines[-1] += line
            elif line.strip() and not line.startswith("#"):
                lines.append(line)
    return lines


class Part:
    """What is sent after some files are written, and how many messages must have come after it."""

    def __init__(self):
        self.files, self.sent, self.wanted = [], b"", 0


def read_session(name, here):
    """Returns the parts of a session, the messages that must come, and the exit status."""
    parts, wanted, status = [Part()], [], 0
    for line in lines_of(name):
        kind, _, text = line.partition(" ")
        text = text.replace("HERE", here)
        is_next = len(wanted) > (parts[-2].wanted if len(parts) > 1 else 0)
        if kind in ("->", "=>", "spaces") and is_next or kind == "file" and parts[-1].sent:
            parts.append(Part())
            parts[-1].wanted = len(wanted)
        if kind == "file":
            parts[-1].files.append(text.partition(" "))
        elif kind == "->":
            parts[-1].sent += encoded(json.loads(text))
        elif kind == "=>":
            parts[-1].sent += text.encode().decode("unicode_escape").encode("latin-1")
        elif kind == "spaces":
            parts[-1].sent += b" " * int(text)
        elif kind == "<-":
            wanted.append(json.loads(text))
        elif kind == "status":
            status = int(text)
        else:
            sys.exit(f"{name}: neither a message nor a status: {line}")
        parts[-1].wanted = len(wanted)
    return parts, wanted, status


def write(here, files):
    """Writes files, whose paths are relative to the folder `here`."""
    for path, _, text in files:
        path = os.path.join(here, path)
        os.makedirs(os.path.dirname(path), exist_ok=True)
        with open(path, "wb") as file:
            file.write(text.encode().decode("unicode_escape").encode("latin-1") if "\\x" in text else text.encode())


def send(process, data):
    """Sends bytes to a server, unless it has ended."""
    try:
        process.stdin.raw.write(data)
    except BrokenPipeError:
        pass


def send_last(process, data):
    """Sends bytes to a server, and ends its input."""
    send(process, data)
    process.stdin.close()


def answers(program, parts, here, **settings):
    """Runs the parts of a session in the folder `here`. Returns the output and the exit status."""
    pipe, null = subprocess.PIPE, subprocess.DEVNULL
    process = subprocess.Popen([program, "lsp"], stdin=pipe, stdout=pipe, stderr=null, cwd=here, **settings)
    watch = threading.Timer(120, process.kill)
    watch.start()
    data, count = b"", 0
    for part in parts[:-1]:
        write(here, part.files)
        send(process, part.sent)
        while count < part.wanted and (head := process.stdout.readline()):
            size = int(head.split(b":")[1])
            data += head + process.stdout.readline() + process.stdout.read(size)
            count += 1
    write(here, parts[-1].files)
    sender = threading.Thread(target=send_last, args=(process, parts[-1].sent))
    sender.start()
    data += process.stdout.read()
    sender.join()
    status = process.wait()
    watch.cancel()
    process.stdout.close()
    return data, status


def session(program, name):
    """Runs a session. Returns the differences."""
    with tempfile.TemporaryDirectory() as here:
        here = os.path.realpath(here)
        parts, wanted, status = read_session(name, here)
        data, ended = answers(os.path.abspath(program), parts, here)
    made = contents(data)
    made = [masked(*pair) for pair in zip(wanted + [None] * len(made), made)]
    wanted = [*map(shown, wanted), f"status {status}"]
    made = [*map(shown, made), f"status {ended}"]
    lines = difflib.unified_diff(wanted, made, name, "the server", lineterm="", n=1)
    return [line.replace(here, "HERE") for line in lines]


def is_explained(usual, made):
    """Returns whether the frames are as usual, or only begin so, but for one that says that memory was refused."""
    spare = 1
    at = 0
    for message in made:
        if at < len(usual) and message == usual[at]:
            at += 1
        elif spare and at < len(usual) and message.get("id") == usual[at].get("id") and "error" in message:
            spare, at = 0, at + 1
        elif spare and message.get("method") in ("window/logMessage", "window/showMessage"):
            spare = 0
        else:
            return False, at
    return True, at


CALLERS = 6


def refused(program, faults, names):
    """Runs sessions with requests for memory refused. Prints how many of the requests, and how many ended the server."""
    program, faults, seen, chosen, made = os.path.abspath(program), os.path.abspath(faults), set(), [], 0

    def run(name, told, **environment):
        with tempfile.TemporaryDirectory() as here:
            here = os.path.realpath(here)
            parts, _, status = read_session(name, here)
            environment = {**os.environ, "LD_PRELOAD": faults, "TOLD": str(told.fileno()), **environment}
            data, code = answers(program, parts, here, env=environment, pass_fds=[told.fileno()])
            return contents(data.replace(here.encode(), b"H" * len(here))), code, status

    def refuse(choice):
        name, number, usual = choice
        with open(os.devnull, "wb") as told:
            frames, code, status = run(name, told, REFUSED=str(number))
        explained, at = is_explained(usual, frames)
        if not explained or code != 4 and (code != status or at < len(usual)):
            return f"{name}: request {number} refused: status {code}, {frames}"
        return "" if code == 4 else None

    for name in names:
        with tempfile.TemporaryFile() as told:
            usual = run(name, told, CALLERS=str(CALLERS))[0]
            told.seek(0)
            data = told.read()
        for number, callers in enumerate(struct.unpack(f"{len(data) // 8}Q", data), 1):
            made += 1
            if callers not in seen:
                seen.add(callers)
                chosen.append((name, number, usual))
    with concurrent.futures.ThreadPoolExecutor(len(os.sched_getaffinity(0))) as pool:
        ends = [*pool.map(refuse, chosen)]
    if wrong := [*filter(None, ends)]:
        sys.exit("\n".join(wrong))
    print(f"{len(names)} sessions: {len(ends)} of {made} requests for memory refused, {ends.count('')} ended the server")


class Server:
    """A running server."""

    def __init__(self, program):
        self.process = subprocess.Popen([program, "lsp"], stdin=subprocess.PIPE, stdout=subprocess.PIPE)

    def send(self, *messages):
        self.process.stdin.write(b"".join(encoded(message) for message in messages))
        self.process.stdin.flush()

    def receive(self):
        head = self.process.stdout.readline()
        if not head:
            raise EOFError(f"the server has ended with status {self.process.wait()}")
        self.process.stdout.readline()
        return json.loads(self.process.stdout.read(int(head.split(b":")[1])))

    def answer(self, identity):
        """Reads up to the response with this id."""
        while True:
            message = self.receive()
            if message.get("id") == identity and "method" not in message:
                return message


def opened(uri, text, version=1):
    document = {"uri": uri, "languageId": "toml", "version": version, "text": text}
    return {"method": "textDocument/didOpen", "params": {"textDocument": document}}


METHODS = """textDocument/documentSymbol textDocument/foldingRange textDocument/selectionRange
textDocument/documentHighlight textDocument/references textDocument/definition textDocument/hover textDocument/rename
textDocument/prepareRename textDocument/formatting textDocument/rangeFormatting textDocument/codeAction
textDocument/completion textDocument/semanticTokens/full textDocument/semanticTokens/full/delta
textDocument/semanticTokens/range textDocument/diagnostic textDocument/didOpen textDocument/didChange
textDocument/didSave textDocument/didClose textDocument/documentLink workspace/symbol
workspace/didChangeConfiguration workspace/didChangeWatchedFiles $/cancelRequest $/other initialized
initialize""".split()

# what a client can announce
CAPABILITIES = {
    "general": {"positionEncodings": ["utf-32"]},
    "textDocument": {
        "codeAction": {"codeActionLiteralSupport": {}},
        "completion": {"completionItem": {"snippetSupport": True, "documentationFormat": ["markdown"]}},
        "documentSymbol": {"hierarchicalDocumentSymbolSupport": True},
        "hover": {"contentFormat": ["markdown"]},
        "publishDiagnostics": {"relatedInformation": True},
    },
    "workspace": {"workspaceEdit": {"documentChanges": True}},
}

TEXTS = [
    "",
    "a = 1\n",
    "\ufeffa = '\U0001f600' # \u00e9\r\n[b.c]\r\nd = [1,\r\n 2]\r\n",
    '[[x]]\nname = "n"\nkind = 1\n[[x]]\nna\n',
    "a = 1\na = 2\nb = True\n[t\nx = 'y\n",
    'a = {b = 1979-05-27T07:32:00Z, c = 0xFF}\n"\U0001f600" = """\n\U0001f600\n"""\n',
    "\r\r\n\n\ra=1\r",
    "#:schema schema.json\na = ",
    "[x.a]\nb = [\n{na}, tr, \"\n[[x]]\nkind = {",
    "[" * 200,
    "a." * 140 + "b = 1",
]

SETTINGS = [{}, {"schema": "schema.json"}, {"schema": "none"}, {"width": 1}]


# a schema for the texts, in which each way to a subschema occurs
SCHEMA = {
    "$defs": {
        "any": {"anyOf": [{"type": "string", "enum": ["n", "m"]}, {"$ref": "#/$defs/table"}, {"items": {"$ref": "#"}}]},
        "table": {
            "properties": {"name": {"type": "string", "default": "\U0001f600"}, "kind": {"const": 1}},
            "additionalProperties": {"$ref": "#/$defs/any"},
        },
    },
    "properties": {"a": {"$ref": "#/$defs/any"}, "b": {"type": ["boolean", "object"], "deprecated": True, "title": "b"},
                   "x": {"prefixItems": [{"$ref": "#/$defs/table"}], "items": {"$ref": "#/$defs/any"}}},
    "patternProperties": {"^t": {"type": "array", "items": {"enum": [1, "y", None, [2]]}}},
    "if": {"required": ["a"]}, "then": {"required": ["c"]}, "else": {"properties": {"d": {"default": {"e": 1}}}},
    "dependentSchemas": {"b": {"properties": {"f": True}}}, "unevaluatedProperties": {"$ref": "#/$defs/any"},
}


class Fuzz:
    """Makes messages at random."""

    def __init__(self, seed):
        self.random = random.Random(seed)

    def one(self, *choices):
        return self.random.choice(choices)

    def number(self):
        large = [2**31 - 1, 2**31, 2**63, 2**64, 10**30]
        return self.one(0, 0, 1, 1, 2, 3, 4, 5, 6, 8, 11, 40, *large, -1, 0.5, None, "1")

    def position(self):
        if self.random.random() < 0.05:
            return self.junk(2)
        return {"line": self.number(), "character": self.number()}

    def range(self):
        if self.random.random() < 0.05:
            return self.junk(2)
        return {"start": self.position(), "end": self.position()}

    def text(self):
        text = self.one(*TEXTS)
        if text and self.random.random() < 0.5:
            at = self.random.randrange(len(text))
            new = self.one("", "=", "\n", "\r", '"', "[", "]", "{", "'", "#", "\U0001f600", ".")
            text = text[:at] + new + text[at + 1 :]
        return text

    def junk(self, depth):
        kinds = [None, True, 0, -1, 1.5, "", "x", "\U0001f600", "\u0000"]
        if depth:
            kinds += [[self.junk(depth - 1)], {"uri": self.junk(depth - 1)}, {"range": self.junk(depth - 1)}]
        return self.random.choice(kinds)

    def params(self):
        change = {"text": self.text()}
        if self.random.random() < 0.8:
            change["range"] = self.range()
        params = {
            "textDocument": {"uri": self.one("a", "a", "a", "b", "c"), "version": self.number(), "text": self.text()},
            "position": self.position(),
            "positions": [self.position()],
            "range": self.range(),
            "newName": self.one("n", "", "a b", "\U0001f600", "x.y"),
            "contentChanges": [change] * self.random.randrange(3),
            "context": {
                "includeDeclaration": self.one(True, False),
                "only": self.one(["quickfix"], ["source"], [""], None),
            },
            "options": {"tabSize": self.number()},
            "settings": {"toml-span": self.one(*SETTINGS, self.junk(2))},
            "id": self.one(1, 2, "x"),
            "previousResultId": str(self.random.randrange(40)),
        }
        while self.random.random() < 0.2:
            params[self.one(*params)] = self.junk(3)
        return params

    def frame(self):
        kind = self.random.random()
        if kind < 0.05:
            return framed(bytes(self.random.randrange(256) for _ in range(self.random.randrange(40))))
        message = {"jsonrpc": "2.0", "method": self.one(*METHODS), "params": self.params()}
        if kind < 0.75:
            message["id"] = self.one(1, 2, "x", None, 1.5, [], -(2**63))
        while self.random.random() < 0.1:
            message[self.one(*message)] = self.junk(2)
        content = json.dumps(message, ensure_ascii=self.random.random() < 0.5).encode(errors="replace")
        if kind > 0.97:
            at = self.random.randrange(len(content))
            content = content[:at] + bytes([self.random.randrange(256)]) + content[at + 1 :]
        return framed(content)


def fuzz(program, count, seed):
    """Sends frames at random. The server must answer a right request after each hundred."""
    makes = Fuzz(seed)
    done = 0
    here = tempfile.mkdtemp()
    write(here, [("schema.json", "", json.dumps(SCHEMA))])
    while done < count:
        rounds = 20
        settings = makes.one({}, {"schema": "schema.json"}, {"toml": "1.0", "schema": "schema.json"}, makes.junk(2))
        params = {"rootUri": f"file://{here}", "initializationOptions": settings}
        params["capabilities"] = makes.one({}, CAPABILITIES, makes.junk(2))
        sent = encoded({"id": "start", "method": "initialize", "params": params})
        for number in range(rounds):
            sent += b"".join(makes.frame() for _ in range(100))
            sent += encoded(opened("right", "a = 1\n"))
            request = {"textDocument": {"uri": "right"}, "position": {"line": 0, "character": 0}}
            sent += encoded({"id": f"right {number}", "method": "textDocument/hover", "params": request})
        sent += encoded({"id": "end", "method": "shutdown"}) + encoded({"method": "exit"})
        run = subprocess.run([program, "lsp"], input=sent, capture_output=True, timeout=600)
        answers = {message["id"]: message for message in contents(run.stdout) if isinstance(message.get("id"), str)}
        wrong = [number for number in range(rounds) if not answers.get(f"right {number}", {}).get("result")]
        if run.returncode or wrong:
            with open("fuzz.bin", "wb") as file:
                file.write(sent)
            sys.exit(f"sessions.py: status {run.returncode}, unanswered: {wrong}; the input is in fuzz.bin")
        done += 100 * rounds
    shutil.rmtree(here)
    print(f"{done} frames, seed {seed}: each right request after them was answered")


def memory(process):
    with open(f"/proc/{process.pid}/status", encoding="utf-8") as file:
        return int(re.search(r"VmRSS:\s+(\d+)", file.read())[1])


def processor(process):
    """Returns the processor time of a process in ms."""
    with open(f"/proc/{process.pid}/stat", encoding="utf-8") as file:
        fields = file.read().rpartition(")")[2].split()
    return (int(fields[11]) + int(fields[12])) * 1000 / os.sysconf("SC_CLK_TCK")


def keys(server, place, count):
    """Types keys. After each, sends at once what an editor asks for. Returns the processor time for each in ms."""
    asked = ["semanticTokens/full/delta", "documentSymbol", "foldingRange", "codeAction", "documentLink", "hover"]
    asked += ["documentHighlight", "completion"]
    start = processor(server.process)
    for number in range(count):
        document = {"uri": "u", "version": 20_000 + number}
        change = {"text": "#", "range": {"start": place, "end": place}}
        changed = {"textDocument": document, "contentChanges": [change]}
        messages = [{"method": "textDocument/didChange", "params": changed}]
        for method in asked:
            params = {"textDocument": {"uri": "u"}, "position": place, "range": change["range"], "context": {}}
            params["previousResultId"] = "0"
            messages.append({"id": f"{method} {number}", "method": f"textDocument/{method}", "params": params})
        server.send(*messages)
        server.answer(messages[-1]["id"])
    return (processor(server.process) - start) / count


def speed(program, name):
    with open(name, encoding="utf-8") as file:
        text = file.read()
    server = Server(program)
    server.send({"id": 0, "method": "initialize", "params": {"capabilities": CAPABILITIES}})
    server.answer(0)
    server.send(opened("u", text))
    server.receive()
    times, sizes = [], {}
    place = {"line": text.count("\n") // 2, "character": 0}
    for number in range(10_000 if len(text) < 100_000 else 100):
        change = {"text": "#"} if number % 2 == 0 else {"text": ""}
        end = place if number % 2 == 0 else {**place, "character": 1}
        change["range"] = {"start": place, "end": end}
        params = {"textDocument": {"uri": "u", "version": number}, "contentChanges": [change]}
        start = time.perf_counter()
        server.send({"method": "textDocument/didChange", "params": params})
        server.receive()
        times.append(time.perf_counter() - start)
        sizes[number + 1] = memory(server.process) if number in (9, 9_999) else 0
    times.sort()
    middle, late = times[len(times) // 2] * 1000, times[len(times) * 99 // 100] * 1000
    print(f"{len(text.encode())} bytes: a keystroke {middle:.2f} ms, 99 % {late:.2f} ms")
    print(f"memory after 10 changes {sizes.get(10)} KB, after 10,000 {sizes.get(10_000)} KB")
    names = ["semanticTokens/full", "formatting", "diagnostic", "codeAction"]
    for method in METHODS[:1] + ["textDocument/" + name for name in names]:
        start = time.perf_counter()
        params = {"textDocument": {"uri": "u"}, "range": {"start": place, "end": place}, "context": {}}
        server.send({"id": method, "method": method, "params": params})
        server.answer(method)
        print(f"{method}: {(time.perf_counter() - start) * 1000:.2f} ms")
    print(f"all requests after a keystroke: {keys(server, place, 50):.1f} ms of processor time")
    server.process.kill()


def main(words):
    if "--fuzz" in words:
        seed = int(words[3]) if len(words) > 3 else 1
        fuzz(words[0], int(words[2]), seed)
    elif "--refused" in words:
        refused(words[0], words[2], words[3:])
    elif "--speed" in words:
        speed(words[0], words[2])
    else:
        differences = [line for name in words[1:] for line in session(words[0], name)]
        print("\n".join(differences), end="\n" if differences else "")
        sys.exit(1 if differences else 0)


if __name__ == "__main__":
    main(sys.argv[1:])
