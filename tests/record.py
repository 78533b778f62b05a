#!/usr/bin/env python3
"""Records of sessions, as bytes and as the lines of a case.

    tests/record.py --show FILE..             the lines that tell each record
    tests/record.py --case PROGRAM FILE..     the same, with what a program writes and orders behind each event

tests/README.md says what each line means."""
import json, re, subprocess, sys

# Each type with its variants or fields, in the order of the bytes. `T?` is an Option, `T*` a list, `(T,U)` a pair and `<T,U>`
# a Result. A variant has nothing, one value, or fields in braces.
TYPES = """
StartConfig = New{root Path, threads u32} | Initialize{params Json, threads u32}
HostEvent = Bytes Bytes | Ended | Tasks TaskMsg* | DeferredTask DeferredTask* | Vfs LoaderMsg* | Flycheck FlycheckMsg* | \
TestResult TestMsg* | DiscoverProject DiscoverMsg* | Timer u64
TaskMsg: job u64, body TaskBody
TaskBody = Begin | Report Text | PrimeReport{done u64, total u64, crates Text*} | Final JobResult
JobResult = Value JobValue | Fault{code i32?, message Text} | Cancelled{saw u64} | NoMemory
JobValue = Json Json | Diagnostics (u32,Diagnostic*)* | Tests Json* | Roots Path* | Primed | Workspaces <Workspace,Text>* | \
BuildData <BuildScripts,Text>* | ProcMacros (u32,MacroState)*
DeferredTask = CheckIfIndexed Path | CheckProcMacroSources u32*
LoaderMsg = Changed{files (Path,Bytes?)*} | Loaded{files (Path,Bytes?)*} | \
Progress{n_total u64, n_done LoadingProgress, dir Path?, config_version u32}
LoadingProgress = Started | Progress u64 | Finished
FlycheckMsg = AddDiagnostic{id u64, generation u64, package Text?, path Path, diagnostic Diagnostic, fix Json?} | \
ClearDiagnostics{id u64, package Text??, older_than u64?} | Progress{id u64, progress CheckProgress}
CheckProgress = DidStart{command Text} | DidCheckCrate Text | DidCancel | DidFailToRestart Text | DidFinish <Nothing,Text>
TestMsg: target Text, output TestOutput
TestOutput = Test{name Text, state TestState} | Suite | Finished | Custom{text Text}
TestState = Started | Ignored | Ok | Failed{stdout Text}
DiscoverMsg = Finished{project Json, buildfile Text} | Progress{message Text} | Error{error Text, source Text?}
Position: line u32, character u32
Range: start Position, end Position
Related: path Path, range Range, message Text
Diagnostic: range Range, severity u8?, code Text?, source Text?, message Text, related Related*
Root: include Path*, exclude Path*, is_local Truth
Target: name Text, kind TargetKind, root Path, required_features Text*
TargetKind = Bin | Lib | Example | Test | Bench | BuildScript | Other
Package: id Text, manifest Path, targets Target*, features Text*, member_deps Text*?
CrateEntry: root Path, name Text?, deps u32*, is_proc_macro Truth
MacroPath = Built{name Text, library Path} | Failed Text
BuildScripts: error Text?, macro_paths (u32,MacroPath)*
WorkspaceKind = Cargo | Json | DetachedFile
Workspace: kind WorkspaceKind, manifest Path?, root Path, roots Root*, packages Package*, crates CrateEntry*, \
build_files Text*, toolchain Text?, error Text?, sysroot_root Path?, sysroot_error Text?, sysroot_metadata_error Text?, \
rustc_error Text?, build BuildScripts?
MacroState = NotYetBuilt | Disabled | Loaded Text* | Failed Text
"""
NUMBERS = {"u8": (1, False), "u32": (4, False), "u64": (8, False), "i32": (4, True)}

def parts_of(text, mark):
    """The parts of a text between marks that stand in no bracket."""
    depth, parts = 0, [""]
    for letter in text:
        depth += (letter in "({<") - (letter in ")}>")
        parts.append("") if letter == mark and not depth else parts.__setitem__(-1, parts[-1] + letter)
    return [part.strip() for part in parts]

def fields_of(text):
    return [tuple(field.split(" ", 1)) for field in parts_of(text, ",")]

def kinds_of(text):
    """The types by their names: fields of a struct, or variants, each a name and a type or fields."""
    kinds = {}
    for line in text.strip().splitlines():
        name, mark, rest = re.match(r"(\w+) ?([=:]) (.*)", line).groups()
        kinds[name] = fields_of(rest) if mark == ":" else [
            (word, fields_of(more.strip("{}")) if more.startswith("{") else more.strip() or None)
            for word, more in (re.match(r"(\w+)(.*)", variant).groups() for variant in parts_of(rest, "|"))]
    return kinds, {line.split()[0] for line in text.strip().splitlines() if " = " in line}

KINDS, SUMS = kinds_of(TYPES)

def compact(value):
    """The compact form of a JSON value."""
    return json.dumps(value, ensure_ascii=False, separators=(",", ":"), sort_keys=True)

def number(value, width, signed=False):
    return value.to_bytes(width, "little", signed=signed)

def counted(data):
    return number(len(data), 4) + data

def workspace_at(path):
    """The workspace that a path alone stands for: of kind Json, with that root, or with that manifest and its folder as root."""
    if not path.endswith("/Cargo.toml"):
        return {"kind": "Json", "root": path, "roots": [path]}
    root = path.removesuffix("/Cargo.toml") or "/"
    return {"kind": "Json", "manifest": path, "root": root, "roots": [root]}

# ---- values in JSON and as bytes. A struct is an object, in which null, [] and false may be left out; a variant is its name, or
# an object with its name alone; a Result is the value, or {"Err": ..}; bytes are a text, or {"hex": ..}. A position is a pair, a
# range four numbers. A text may stand for a local root, or for a workspace.

def encode(kind, value):
    """The bytes of a value of a type."""
    if isinstance(kind, list):
        return b"".join(encode(each, value.get(name)) for name, each in kind)
    if kind in NUMBERS:
        return number(value, *NUMBERS[kind])
    if kind.endswith("*"):
        return number(len(value or []), 4) + b"".join(encode(kind[:-1], item) for item in value or [])
    if kind.endswith("??"):
        return b"\0" if value is None else b"\1" + encode(kind[:-1], value[0])
    if kind.endswith("?"):
        return b"\0" if value is None else b"\1" + encode(kind[:-1], value)
    if kind[0] == "(":
        return b"".join(map(encode, parts_of(kind[1:-1], ","), value))
    if kind[0] == "<":
        wrong = isinstance(value, dict) and list(value) == ["Err"]
        return b"\1" + encode(parts_of(kind[1:-1], ",")[1], value["Err"]) if wrong else b"\0" + encode(parts_of(kind[1:-1], ",")[0], value)
    if kind in SUMS:
        name, inner = next(iter(value.items())) if isinstance(value, dict) else (value, None)
        place = [name for name, _ in KINDS[kind]].index(name)
        return bytes([place]) + (encode(KINDS[kind][place][1], inner) if KINDS[kind][place][1] else b"")
    match kind:
        case "Nothing":
            return b""
        case "Truth":
            return bytes([bool(value)])
        case "Json":
            return counted(compact(value).encode())
        case "Text" | "Path":
            return counted(value.encode())
        case "Bytes":
            return counted(bytes.fromhex(value["hex"]) if isinstance(value, dict) else value.encode())
        case "Position":
            value = dict(zip(("line", "character"), value))
        case "Range":
            value = {"start": value[:2], "end": value[2:]}
        case "Root" if isinstance(value, str):
            value = {"include": [value], "is_local": True}
        case "Workspace" if isinstance(value, str):
            value = workspace_at(value)
    unknown = set(value) - {name for name, _ in KINDS[kind]}
    if unknown:
        raise ValueError(f"{kind} has no {', '.join(unknown)}")
    return encode(KINDS[kind], value)

class Reader:
    """Reads values, which stand in a record from a place on."""
    def __init__(self, data):
        self.data, self.at = data, 0

    def take(self, size):
        if self.at + size > len(self.data):
            raise ValueError("the record is too short")
        self.at += size
        return self.data[self.at - size:self.at]

    def number(self, width, signed=False):
        return int.from_bytes(self.take(width), "little", signed=signed)

    def choice(self, number):
        place = self.number(1)
        if place >= number:
            raise ValueError(f"a byte {place}, where less than {number} is wanted, before place {self.at}")
        return place

    def read(self, kind):
        """The next value, of a type."""
        if isinstance(kind, list):
            return {name: value for name, value in [(name, self.read(each)) for name, each in kind] if value is not None
                    and value is not False and value != []}
        if kind in NUMBERS:
            return self.number(*NUMBERS[kind])
        if kind.endswith("*"):
            return [self.read(kind[:-1]) for _ in range(self.number(4))]
        if kind.endswith("?"):
            some = self.choice(2)
            return None if not some else [self.read(kind[:-1])] if kind.endswith("??") else self.read(kind[:-1])
        if kind[0] == "(":
            return [self.read(each) for each in parts_of(kind[1:-1], ",")]
        if kind[0] == "<":
            wrong = self.choice(2)
            value = self.read(parts_of(kind[1:-1], ",")[wrong])
            return {"Err": value} if wrong else value
        if kind in SUMS:
            name, inner = KINDS[kind][self.choice(len(KINDS[kind]))]
            return {name: self.read(inner)} if inner else name
        match kind:
            case "Nothing":
                return None
            case "Truth":
                return bool(self.choice(2))
            case "Json":
                return json.loads(self.take(self.number(4)))
            case "Text" | "Path":
                return self.take(self.number(4)).decode()
            case "Bytes":
                data = self.take(self.number(4))
                try:
                    return data.decode()
                except UnicodeDecodeError:
                    return {"hex": data.hex()}
        value = self.read(KINDS[kind])
        match kind:
            case "Position":
                return [value["line"], value["character"]]
            case "Range":
                return value["start"] + value["end"]
            case "Root" if len(value.get("include", [])) == 1 and value == {"include": value["include"], "is_local": True}:
                return value["include"][0]
            case "Workspace" if value in (short := {name: workspace_at(name) for name in (value["root"], value.get("manifest", ""))}).values():
                return next(name for name, meant in short.items() if meant == value)
        return value

def encode_record(begin, events):
    return b"RASREC01" + encode("StartConfig", begin) + b"".join(b"\1" + encode("HostEvent", event) for event in events) + b"\0"

def decode_record(data):
    """How the session of a record begins, and its events."""
    reader = Reader(data)
    if reader.take(8) != b"RASREC01":
        raise ValueError("no record begins so")
    begin, events = reader.read("StartConfig"), []
    while reader.choice(2):
        events.append(reader.read("HostEvent"))
    if reader.at != len(data):
        raise ValueError("the record is too long")
    return begin, events

# ---- the lines of a case

BATCHES = {"Tasks": "tasks", "DeferredTask": "deferred", "Vfs": "loader", "Flycheck": "check", "TestResult": "test",
           "DiscoverProject": "discovery"}
VALUES = {"Json": "json", "Diagnostics": "diagnostics", "Tests": "tests", "Roots": "roots", "Workspaces": "workspaces",
          "BuildData": "builds", "ProcMacros": "macros"}
EVENTS = (">", ">>", "end", "loader", "result", "job", "deferred", "timer", "check", "test", "discovery", "empty", "event")
NAMED = {b"r": b"\r", b"n": b"\n", b"\\": b"\\"}

def raw(text):
    """The bytes of a text with the escapes \\r, \\n, \\\\ and \\xHH."""
    return re.sub(rb"\\(?:x([0-9a-f]{2})|(.))", lambda m: bytes.fromhex(m[1].decode()) if m[1] else NAMED[m[2]], text)

def frame(body):
    return b"Content-Length: %d\r\n\r\n%s" % (len(body), body)

def name_of(names, word):
    return next(name for name, each in names.items() if each == word)

def result_of(kind, rest):
    """The result that the words behind a job's number tell."""
    match kind:
        case "nomemory":
            return "NoMemory"
        case "cancelled":
            return {"Cancelled": {"saw": int(rest)}}
        case "fault":
            code, _, message = rest.partition(" ")
            return {"Fault": {"code": None if code == "-" else int(code), "message": message}}
        case "primed":
            return {"Value": "Primed"}
    return {"Value": {name_of(VALUES, kind): json.loads(rest)}}

def message_of(word, rest):
    """The kind of event that a line tells, and its message."""
    first, _, more = rest.partition(" ")
    second, _, last = more.partition(" ")
    match word, first:
        case "result", _:
            return "Tasks", {"job": int(first), "body": {"Final": result_of(second, last)}}
        case "job", _ if second == "begins":
            return "Tasks", {"job": int(first), "body": "Begin"}
        case "job", _ if second == "reports":
            return "Tasks", {"job": int(first), "body": {"Report": last}}
        case "job", _ if second == "primes":
            done, total, crates = last.split(" ", 2)
            body = {"done": int(done), "total": int(total), "crates": json.loads(crates)}
            return "Tasks", {"job": int(first), "body": {"PrimeReport": body}}
        case "deferred", "indexed":
            return "DeferredTask", {"CheckIfIndexed": more}
        case "deferred", "macros":
            return "DeferredTask", {"CheckProcMacroSources": [int(file) for file in more.split()]}
        case "loader", "loaded" | "changed":
            files = json.loads(more)
            return "Vfs", {first.capitalize(): {"files": list(files.items()) if isinstance(files, dict) else files}}
        case "loader", "progress":
            version, total, done, *folder = more.split(" ", 3)
            return "Vfs", {"Progress": {
                "n_total": int(total), "n_done": {"Progress": int(done)} if done.isdigit() else done.capitalize(),
                "dir": folder[0] if folder else None, "config_version": int(version)}}
        case "check" | "test" | "discovery", _:
            return name_of(BATCHES, word), json.loads(rest)
    raise ValueError(f"no event is told by {word} {rest}")

def event_of(word, rest):
    """The event that a line tells, of its word and what stands behind it as bytes."""
    match word:
        case ">":
            return {"Bytes": {"hex": frame(rest).hex()}}
        case ">>":
            return {"Bytes": {"hex": raw(rest).hex()}}
        case "end":
            return "Ended"
        case "timer":
            return {"Timer": int(rest)}
        case "empty":
            return {name_of(BATCHES, rest.decode()): []}
        case "event":
            return json.loads(rest)
    kind, message = message_of(word, rest.decode())
    return {kind: [message]}

def begin_of(rest):
    """How the session begins that a line `begin` tells of."""
    kind, _, more = rest.decode().partition(" ")
    if kind == "new":
        root, threads = (more.split(" ") + ["4"])[:2]
        return {"New": {"root": root, "threads": int(threads)}}
    threads, params = re.fullmatch(r"(?:(\d+) )?(.*)", more).groups()
    return {"Initialize": {"params": json.loads(params), "threads": int(threads or 4)}}

def add_event(events, word, rest):
    """Adds the event that a line tells, or its message to the last one."""
    if word == "and":
        word, _, rest = rest.partition(b" ")
        kind, message = message_of(word.decode(), rest.decode())
        events[-1][kind].append(message)
    elif word in EVENTS:
        events.append(event_of(word, rest))

def record_of(lines):
    """The record that lines tell, each a word and what stands behind it as bytes. A ValueError names the line that can't be read."""
    begin, events = None, []
    for word, rest in lines:
        try:
            if word == "begin":
                begin = begin_of(rest)
                encode("StartConfig", begin)
            add_event(events, word, rest)
            encode("HostEvent", events[-1]) if word in ("and", *EVENTS) else None
        except Exception as wrong:
            raise ValueError(f"{word} {rest.decode(errors='backslashreplace')}: {wrong!r}") from None
    return encode_record(begin, events)

def shown_bytes(data):
    """The line for bytes that are given."""
    head, _, body = data.partition(b"\r\n\r\n")
    try:
        if data == frame(body) and b"\n" not in body and body.decode().isprintable():
            return "> " + body.decode()
    except UnicodeDecodeError:
        pass
    names = {13: "\\r", 10: "\\n", 92: "\\\\"}
    return ">> " + "".join(names.get(byte) or (chr(byte) if 32 <= byte < 127 else f"\\x{byte:02x}") for byte in data)

def shown_task(message):
    match message["body"]:
        case "Begin":
            return f"job {message['job']} begins"
        case {"Report": text}:
            return f"job {message['job']} reports {text}"
        case {"PrimeReport": body}:
            return f"job {message['job']} primes {body['done']} {body['total']} {compact(body.get('crates', []))}"
        case {"Final": "NoMemory"}:
            told = "nomemory"
        case {"Final": {"Cancelled": saw}}:
            told = f"cancelled {saw['saw']}"
        case {"Final": {"Fault": fault}}:
            told = f"fault {fault.get('code', '-')} {fault['message']}"
        case {"Final": {"Value": "Primed"}}:
            told = "primed"
        case {"Final": {"Value": value}}:
            told = " ".join(f"{VALUES[kind]} {json.dumps(inner, ensure_ascii=False)}" for kind, inner in value.items())
    return f"result {message['job']} {told}"

def shown_loader(message):
    [(kind, body)] = message.items()
    if kind != "Progress":
        files = body.get("files", [])
        return f"loader {kind.lower()} {json.dumps(dict(files) if len(dict(files)) == len(files) else files, ensure_ascii=False)}"
    done = body["n_done"]
    done = done["Progress"] if isinstance(done, dict) else done.lower()
    words = ["loader progress", body["config_version"], body["n_total"], done, body.get("dir")]
    return " ".join(str(word) for word in words if word is not None)

def shown_deferred(task):
    [(kind, inner)] = task.items()
    return f"deferred indexed {inner}" if kind == "CheckIfIndexed" else " ".join(["deferred macros", *map(str, inner)])

def shown(begin, events):
    """The lines that tell a session."""
    [(kind, how)] = begin.items()
    yield f"begin new {how['root']} {how['threads']}" if kind == "New" else f"begin initialize {how['threads']} {compact(how['params'])}"
    forms = {"Tasks": shown_task, "Vfs": shown_loader, "DeferredTask": shown_deferred}
    for event in events:
        match event:
            case "Ended":
                yield "end"
            case {"Timer": ticket}:
                yield f"timer {ticket}"
            case {"Bytes": data}:
                yield shown_bytes(bytes.fromhex(data["hex"]) if isinstance(data, dict) else data.encode())
            case _:
                [(kind, messages)] = event.items()
                if not messages:
                    yield f"empty {BATCHES[kind]}"
                for number, message in enumerate(messages):
                    line = forms[kind](message) if kind in forms else f"{BATCHES[kind]} {json.dumps(message, ensure_ascii=False)}"
                    yield "and " * bool(number) + line

def turns_told(text):
    """What `--explain` tells of the start, and of each event: the messages and the orders, as bytes."""
    turns = [([], [])]
    for line in text.split(b"\n"):
        word, _, rest = line.partition(b" ")
        if word == b"event":
            turns.append(([], []))
        elif word in (b"message", b"order"):
            turns[-1][word == b"order"].append(rest)
    return turns

def case_of(program, data):
    """The lines that tell a record, and behind each event what a program writes and orders."""
    told = subprocess.run([program, "--explain"], input=data, stdout=subprocess.PIPE, check=True).stdout
    lines, turns = [], iter(turns_told(told))
    for line in [*shown(*decode_record(data)), None]:
        if not (line or "").startswith("and ") and lines:
            messages, orders = next(turns, ([], []))
            lines += ["< " + message.decode() for message in messages] + ["order " + order.decode() for order in orders]
        lines.append(line)
    return lines[:-1]

def main(words):
    match words:
        case ["--show", *files] if files:
            lines_of = lambda data: shown(*decode_record(data))
        case ["--case", program, *files] if files:
            lines_of = lambda data: case_of(program, data)
        case _:
            sys.exit(__doc__)
    for path in files:
        with open(path, "rb") as file:
            print(*lines_of(file.read()), sep="\n")

if __name__ == "__main__":
    main(sys.argv[1:])
