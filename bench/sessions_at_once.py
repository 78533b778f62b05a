#!/usr/bin/env python3
"""Sessions at once with a server that has threads: bench/sessions_at_once.py [OPTIONS] PROGRAM [WORDS ..]

    --sessions 8    how many sessions stand side by side, each a process of PROGRAM (WORDS: lsp)
    --files 20      how many documents each opens
    --letters 30    how many letters a second each types
    --seconds 60    for how long
    --idle 10       for how many seconds all then rest, while time and memory of the processes are watched
    --seed 1

A client is a process of its own. Behind each letter, which goes into a document and a place that are drawn, it asks for a
hover there, behind each fifth for a completion, behind each fiftieth for the document's format, and it cancels each tenth
hover at once. Each request has to be answered once: by a value, or as cancelled (-32800) or out of date (-32801). A hover
with a value has to tell the name that stood at its place when it was asked for. After the letters the client asks for a
hover in each word of each document, and compares these with its own texts. Then all rest. At last each session ends in one
of four ways: `exit`; the input is closed; the client is killed; or it asks for hovers and reads nothing for ten seconds, and
then reads all, and leaves.

A line is written for each figure, and one for each thing that is wrong; the status is 1 where something is. Linux alone."""
import json, os, random, re, signal, statistics, subprocess, sys, threading, time
from multiprocessing import Pipe, Process

WORD = re.compile(r"[a-z_][a-z0-9_]*")
HOVER, COMPLETION, FORMATTING = "textDocument/hover", "textDocument/completion", "textDocument/formatting"
CANCELLED, OUTDATED = -32800, -32801
ENDS = ("exit", "input closed", "client killed", "client that doesn't read")


def frame(message):
    body = json.dumps(message, separators=(",", ":")).encode()
    return b"Content-Length: %d\r\n\r\n%s" % (len(body), body)


class Client:
    """One session over two pipes. A thread of its own reads, and notes when each message came."""

    def __init__(self, given, read):
        self.given, self.read = given, read
        self.asked, self.times, self.wrong, self.shown = {}, {}, [], {}
        self.answers = {}
        self.quiescent = threading.Event()
        self.reads = threading.Event()
        self.reads.set()
        self.changed = threading.Condition()
        self.writing = threading.Lock()
        threading.Thread(target=self.take_all, daemon=True).start()

    def write(self, *messages):
        with self.writing:
            left = b"".join(map(frame, messages))
            while left:
                left = left[os.write(self.given, left):]

    def tell(self, method, params):
        self.write({"jsonrpc": "2.0", "method": method, "params": params})

    def ask(self, method, params, wanted=None, before=()):
        """Sends a request, behind other messages, and notes when, and what it should come to."""
        number = len(self.asked) + 1
        self.asked[number] = method, wanted, time.perf_counter()
        self.write(*before, {"jsonrpc": "2.0", "id": number, "method": method, "params": params})
        return number

    def take_all(self):
        held = b""
        while True:
            self.reads.wait()
            piece = os.read(self.read, 1 << 16)
            now = time.perf_counter()
            if not piece:
                break
            held += piece
            while (at := held.find(b"\r\n\r\n")) >= 0:
                length = int(re.search(rb"Content-Length: (\d+)", held[:at])[1])
                if len(held) < at + 4 + length:
                    break
                self.take(json.loads(held[at + 4:at + 4 + length]), now)
                held = held[at + 4 + length:]
        with self.changed:
            self.answers[None] = now
            self.changed.notify_all()

    def take(self, message, now):
        if "method" in message:
            if message["method"] == "experimental/serverStatus" and message["params"]["quiescent"]:
                self.quiescent.set()
            if "id" in message:
                threading.Thread(target=self.write, args=({"jsonrpc": "2.0", "id": message["id"], "result": None},), daemon=True).start()
            return
        number = message["id"]
        with self.changed:
            if number in self.answers or number not in self.asked:
                self.wrong.append(f"request {number} is answered once more than it was asked")
            self.answers[number] = message
            self.times[number] = now - self.asked[number][2]
            self.changed.notify_all()

    def await_all(self, seconds=120):
        """Waits until each request has its answer."""
        with self.changed:
            if not self.changed.wait_for(lambda: len(self.answers) >= len(self.asked) or None in self.answers, seconds):
                self.wrong.append(f"{len(self.asked) - len(self.answers)} requests are not answered")

    def judge(self):
        """How many answers of each kind there are, by the method."""
        counts = {}
        for number, (method, wanted, _) in self.asked.items():
            answer = self.answers.get(number)
            code = answer.get("error", {}).get("code") if answer else "none"
            kind = {None: "value", CANCELLED: "cancelled", OUTDATED: "out of date", "none": "none"}.get(code, f"error {code}")
            if kind.startswith("error"):
                self.wrong.append(f"{method} {number} is answered by {code}")
            shown = answer and ("error" not in answer) and answer.get("result")
            if method == HOVER and kind == "value" and (shown or {}).get("contents") != wanted:
                self.wrong.append(f"hover {number} tells {shown}, and not {wanted}")
            counts[method, kind] = counts.get((method, kind), 0) + 1
        return counts


class Text:
    """A document of an editor: its lines, each of names with a space between."""

    def __init__(self, at, draws):
        self.uri = f"file:///w/a{at}.rs"
        self.lines = [" ".join(f"n{draws.randrange(1000)}_{word}" for word in "abc") for _ in range(30)]
        self.version = 1

    def opened(self):
        return {"textDocument": {"uri": self.uri, "languageId": "rust", "version": 1, "text": "\n".join(self.lines)}}

    def name_at(self, line, column):
        """The name at a place or right before it."""
        found = [it for it in WORD.finditer(self.lines[line]) if it.start() <= column <= it.end()]
        return found[0][0] if found else None

    def place(self, line, column):
        return {"textDocument": {"uri": self.uri}, "position": {"line": line, "character": column}}

    def type(self, line, column, letter):
        """Puts a letter into a line: the message."""
        self.version += 1
        self.lines[line] = self.lines[line][:column] + letter + self.lines[line][column:]
        at = {"line": line, "character": column}
        return {"jsonrpc": "2.0", "method": "textDocument/didChange", "params": {
            "textDocument": {"uri": self.uri, "version": self.version},
            "contentChanges": [{"range": {"start": at, "end": at}, "text": letter}]}}


def begin(client):
    client.ask("initialize", {"rootUri": "file:///w", "capabilities": {"experimental": {"serverStatusNotification": True}}})
    client.await_all()
    client.tell("initialized", {})
    if not client.quiescent.wait(60):
        client.wrong.append("the session is never quiescent")


def load(client, options, draws):
    """Opens the documents, and types: the documents."""
    texts = [Text(at, draws) for at in range(options["files"])]
    for text in texts:
        client.tell("textDocument/didOpen", text.opened())
    start = time.perf_counter()
    for at in range(options["letters"] * options["seconds"]):
        time.sleep(max(0, start + at / options["letters"] - time.perf_counter()))
        text = draws.choice(texts)
        line = draws.randrange(len(text.lines))
        word = draws.choice(list(WORD.finditer(text.lines[line])))
        column = draws.randrange(word.start() + 1, word.end() + 1)
        change = text.type(line, column, draws.choice("abcdefghij"))
        place = text.place(line, column)
        number = client.ask(HOVER, place, text.name_at(line, column), [change])
        if at % 10 == 9:
            client.tell("$/cancelRequest", {"id": number})
        if at % 5 == 4:
            client.ask(COMPLETION, place)
        if at % 50 == 49:
            client.ask(FORMATTING, {"textDocument": {"uri": text.uri}, "options": {"tabSize": 4, "insertSpaces": True}})
    client.await_all()
    return texts


def compare(client, texts):
    """Asks for a hover in each word: how many words there are."""
    count = 0
    for text in texts:
        for line, names in enumerate(text.lines):
            for word in WORD.finditer(names):
                client.ask(HOVER, text.place(line, word.start()), word[0])
                count += 1
        client.await_all()
    return count


def run_client(given, read, told, options, seed):
    """A client's process: it loads, tells what it found, and ends as it is told."""
    draws = random.Random(seed)
    client = Client(given, read)
    begin(client)
    texts = load(client, options, draws)
    typed = len(client.asked)
    hovers = [client.times[at] for at, (method, *_) in client.asked.items() if method == HOVER and "result" in client.answers.get(at, {})]
    words = compare(client, texts)
    told.send({"counts": client.judge(), "wrong": client.wrong, "asked": typed, "hovers": hovers, "words": words})
    client.wrong.clear()
    way = told.recv()
    if way == "client that doesn't read":
        client.reads.clear()
        threading.Timer(10, client.reads.set).start()
        count = 0
        # Where the server reads no more either, this waits.
        while not client.reads.is_set():
            client.ask(HOVER, texts[0].place(0, 0), texts[0].name_at(0, 0))
            count += 1
            time.sleep(0.0002)
        client.await_all()
        client.judge()
        told.send({"asked": count, "wrong": client.wrong})
        told.recv()
    elif way == "client killed":
        told.send(time.monotonic())
        os.kill(os.getpid(), signal.SIGKILL)
    if way == "input closed":
        told.send(time.monotonic())
    else:
        client.ask("shutdown", None)
        client.await_all()
        told.send(time.monotonic())
        client.tell("exit", None)
    os.close(given)
    told.recv()


def figures_of(process):
    """The processor seconds, the threads and the resident megabytes of a process."""
    with open(f"/proc/{process.pid}/stat") as file:
        parts = file.read().rsplit(")", 1)[1].split()
    with open(f"/proc/{process.pid}/status") as file:
        lines = dict(line.split(":", 1) for line in file)
    used = (int(parts[11]) + int(parts[12])) / os.sysconf("SC_CLK_TCK")
    return used, int(lines["Threads"]), int(lines["VmRSS"].split()[0]) / 1024


def share(sorted_times, part):
    return sorted_times[min(len(sorted_times) - 1, int(part * len(sorted_times)))] * 1000


def main(words):
    options = {"sessions": 8, "files": 20, "letters": 30, "seconds": 60, "idle": 10, "seed": 1}
    while words and words[0][2:] in options and words[0].startswith("--"):
        options[words[0][2:]], words = int(words[1]), words[2:]
    if not words:
        sys.exit(__doc__)
    command, wrong = words if len(words) > 1 else [words[0], "lsp"], []
    servers, tells, clients = [], [], []
    for at in range(options["sessions"]):
        (read_input, given), (read, written) = os.pipe(), os.pipe()
        servers.append(subprocess.Popen(command, stdin=read_input, stdout=written, stderr=subprocess.DEVNULL))
        ours, theirs = Pipe()
        client = Process(target=run_client, args=(given, read, theirs, options, options["seed"] * 1000 + at), daemon=True)
        client.start()
        for pipe in (read_input, given, read, written):
            os.close(pipe)
        theirs.close()
        tells.append(ours), clients.append(client)

    def say(what, figure):
        print(f"{what}\t{figure}", flush=True)

    threads, most = 0, 0.0
    while not all(tell.poll() for tell in tells):
        for server in servers:
            try:
                _, count, size = figures_of(server)
                threads, most = max(threads, count), max(most, size)
            except (OSError, KeyError):
                pass
        if any(server.poll() is not None for server in servers) or not all(client.is_alive() for client in clients):
            say("a session ended too early, with the status", [server.poll() for server in servers])
            return 1
        time.sleep(0.02)
    results = [tell.recv() for tell in tells]
    counts, hovers = {}, sorted(time for result in results for time in result["hovers"])
    for at, result in enumerate(results):
        wrong += [f"session {at}: {it}" for it in result["wrong"]]
        for kind, count in result["counts"].items():
            counts[kind] = counts.get(kind, 0) + count
    say("requests while letters are typed", sum(result["asked"] for result in results))
    say("words compared afterwards", sum(result["words"] for result in results))
    for (method, kind), count in sorted(counts.items()):
        say(f"{method}, {kind}", count)
    say("hover, middle, ms", f"{share(hovers, 0.5):.2f}")
    say("hover, 99 of 100, ms", f"{share(hovers, 0.99):.2f}")
    say("hover, longest, ms", f"{hovers[-1] * 1000:.2f}")
    say("processor seconds of each session", " ".join(f"{figures_of(server)[0]:.2f}" for server in servers))
    say("threads of a session at most", threads)
    say("resident at most, MB", f"{most:.1f}")
    time.sleep(1)
    before = [figures_of(server)[0] for server in servers]
    time.sleep(options["idle"])
    after = [figures_of(server) for server in servers]
    say(f"processor seconds of all while {options['idle']} s are idle", f"{sum(it[0] for it in after) - sum(before):.2f}")
    say("threads of a session while it is idle", max(it[1] for it in after))
    say("resident after it, MB", f"{max(it[2] for it in after):.1f}")
    for at, (server, tell) in enumerate(zip(servers, tells)):
        way = ENDS[at % len(ENDS)]
        tell.send(way)
        most = 0.0
        if way == "client that doesn't read":
            while not tell.poll(0.05):
                most = max(most, figures_of(server)[2])
            told = tell.recv()
            wrong += [f"session {at}: {it}" for it in told["wrong"]]
            say(f"{way}: hovers asked for in 10 s", told["asked"])
            say(f"{way}: resident meanwhile, MB", f"{most:.1f}")
            tell.send("leave")
        begun = tell.recv()
        try:
            status = server.wait(30)
        except subprocess.TimeoutExpired:
            status = "none"
            server.kill()
        taken = time.monotonic() - begun
        say(f"{way}: status, and ms to it", f"{status}, {taken * 1000:.1f}")
        if status not in {"input closed": (3,), "client killed": (3, 7)}.get(way, (0,)):
            wrong.append(f"session {at}: {way}: the status is {status}")
    for it in wrong[:40]:
        print("wrong:", it)
    print(f"{len(wrong)} wrong")
    return 1 if wrong else 0


if __name__ == "__main__":
    sys.exit(main(sys.argv[1:]))
