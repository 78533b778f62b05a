#!/usr/bin/env python3
"""Runs the stored sessions: tests/run.py [-p PROGRAM].. [FILE ..]. tests/README.md says how a case is written."""
import fcntl, os, pathlib, resource, signal, subprocess, sys, tempfile, termios, threading, time
from concurrent.futures import ThreadPoolExecutor

sys.dont_write_bytecode = True
from record import EVENTS, frame, raw, record_of, turns_told

HERE = pathlib.Path(__file__).resolve().parent
BUILT = HERE.parent / "crates/ra_serve/out/ra_serve"
SENT, WANTED, REST = (">", ">>", "record"), ("<", "<<"), ("words", "pieces", "input", "output", "status", "!")
TOLD = ("begin", "and", "order", *EVENTS)

def bytes_of(word, rest):
    return rest if word == "record" else raw(rest) if len(word) == 2 else frame(rest)

def lines_of(path, parts):
    """The cases of a file, each a name and its lines: those before the first line `case` begin each of them. A line `part` begins
    lines that have a name, in place of which a line `use` stands."""
    first, cases = [], []
    lines = first
    for number, line in enumerate(path.read_bytes().split(b"\n"), 1):
        word, _, rest = line.partition(b" ")
        times = 1
        if word == b"times":
            times, word, rest = (rest.split(b" ", 2) + [b""])[:3]
        word = word.decode()
        if word == "case":
            lines = list(first)
            cases.append((f"{path.stem}: {rest.decode()}", lines))
        elif word == "part":
            lines = parts[rest] = []
        elif word == "use" and rest in parts:
            lines += parts[rest]
        elif word == "bytewise":
            lines += [(number, ">>", b"\\x%02x" % byte) for byte in raw(rest)]
        elif word in SENT + WANTED + REST + TOLD:
            lines += [(number, word, rest)] * int(times)
        elif word not in ("", "#"):
            sys.exit(f"{path}:{number}: no line begins with {word!r}, or no part is named so")
    return cases or [(path.stem, first)]

def turns_of(lines):
    """What is wanted of the first turn, and behind each event: messages, and orders where some line tells one."""
    turns = [(0, [], [])]
    for number, word, rest in lines:
        if word in EVENTS:
            turns.append((number, [], []))
        elif word == "<":
            turns[-1][1].append(rest)
        elif word == "order":
            turns[-1][2].append(rest)
    return turns

def cases_of(path, parts):
    """The cases of a file, each a name, its lines, and the turns that are wanted. One that begins with `begin` is told by events, which
    make a record; its lines are those of a replay of it."""
    for name, lines in lines_of(path, dict(parts)):
        if not any(word == "begin" for _, word, _ in lines):
            yield name, lines, []
            continue
        try:
            record = record_of([(word, rest) for _, word, rest in lines])
        except ValueError as wrong:
            sys.exit(f"{path}: {name}: no event is told by {wrong}")
        kept = [line for line in lines if line[1] in WANTED + REST]
        yield name, [(0, "words", b"replay"), (0, "status", b"3"), (0, "record", record)] + kept, (
            turns_of(lines) if any(word == "order" for _, word, _ in lines) else [])

def threads_of(program):
    """Of each thread of a program whether it sleeps, and how often it was put to sleep or set aside."""
    told = {}
    for task in pathlib.Path(f"/proc/{program.pid}/task").iterdir():
        status = dict(line.split(":\t", 1) for line in (task / "status").read_text().splitlines() if ":\t" in line)
        told[task.name] = status["State"][0], status["voluntary_ctxt_switches"], status["nonvoluntary_ctxt_switches"]
    return told

def is_at_rest(program):
    """Whether a program has read all that was given and has nothing else to do: two threads at most, of which none ran meanwhile."""
    try:
        before = threads_of(program)
        is_read = not any(fcntl.ioctl(program.stdin, termios.FIONREAD, bytes(4)))
        return is_read and len(before) <= 2 and all(state == "S" for state, *_ in before.values()) and threads_of(program) == before
    except (FileNotFoundError, ProcessLookupError):
        return False

def await_rest(program):
    while program.poll() is None and not is_at_rest(program):
        time.sleep(0.0002)

def give(program, lines, pieces, out, has_threads):
    """Writes the input: all at once, in pieces of so many bytes, or each message once the answers before it are there. A program with
    threads gets each piece, and of what is given at once each message, while it rests."""
    parts = [bytes_of(word, rest) for _, word, rest in lines if word in SENT]
    before = [sum(len(bytes_of(w, r)) for n, w, r in lines if w in WANTED and n < number)
              for number, word, _ in lines if word in SENT]
    if pieces != "replies":
        before = []
    if pieces not in ("replies", "all") or pieces == "all" and not has_threads:
        whole = b"".join(parts)
        size = len(whole) + 1 if pieces == "all" else int(pieces)
        parts = [whole[at:at + size] for at in range(0, len(whole), size)]
    try:
        for at, part in enumerate(parts):
            if has_threads:
                await_rest(program)
            while before and program.poll() is None and os.fstat(out.fileno()).st_size < before[at]:
                time.sleep(0.001)
            program.stdin.write(part)
            while pieces != "all" and program.poll() is None and any(fcntl.ioctl(program.stdin, termios.FIONREAD, bytes(4))):
                time.sleep(0)
        if has_threads:
            await_rest(program)
        program.stdin.close()
    except BrokenPipeError:
        pass

def run(program, lines, pieces):
    """The status, the output and the standard error of one run."""
    one = {word: rest.decode() for _, word, rest in lines if word in REST}
    output = one.get("output", "")
    limit = lambda: (signal.signal(signal.SIGXFSZ, signal.SIG_IGN), resource.setrlimit(resource.RLIMIT_FSIZE, (int(output),) * 2))
    (gone, closed), (said, err) = os.pipe(), os.pipe()
    os.close(gone), fcntl.fcntl(err, fcntl.F_SETPIPE_SZ, 1 << 20)
    with tempfile.TemporaryFile() as out, open("/dev/full", "wb") as full, open(said, "rb") as errors:
        source = os.open(one["input"], os.O_RDONLY) if "input" in one else subprocess.PIPE
        begun = subprocess.Popen([program, *map(raw, one["words"].encode().split())], bufsize=0, stdin=source, stderr=err,
                                 stdout={"full": full, "closed": closed}.get(output, out), preexec_fn=limit if output.isdigit() else None)
        os.close(err), os.close(closed)
        clock = threading.Timer(60, begun.kill)
        clock.start()
        os.close(source) if "input" in one else give(begun, lines, pieces, out, one["words"].split()[:1] == ["lsp"])
        status = begun.wait()
        clock.cancel(), out.seek(0)
        return status, out.read(), errors.read()

def other_turn(program, at, lines, turns):
    """What a turn writes or orders otherwise than a case wants, in words."""
    told = run(program, [(0, "words", b"--explain")] + [line for line in lines if line[1] == "record"], "all")[1]
    for (number, messages, orders), shown in zip(turns, turns_told(told) + [([], [])] * len(turns)):
        for wants, has, what in [(messages, shown[0], "writes"), ([order for order in orders if order], shown[1], "orders")]:
            if wants != has and (what == "writes" or orders):
                return "\n".join([f"{at}\n  the turn of line {number or 'begin'} {what}",
                                  *(f"    {line.decode()}" for line in has or [b"nothing"]), "  and not",
                                  *(f"    {line.decode()}" for line in wants or [b"nothing"])])

def difference(program, name, lines, turns, pieces):
    """What is otherwise than a case wants, in words."""
    status, found, errors = run(program, lines, pieces)
    at = f"{name} ({os.path.basename(program)}, pieces {pieces})"
    for number, word, rest in [line for line in lines if line[1] in WANTED] + [(0, "<<", b"")]:
        wanted, shown = bytes_of(word, rest), found[:len(rest) + 200].decode(errors="backslashreplace")
        if not found.startswith(wanted) or not number and found:
            return f"{at}\n  line {number or 'the last'} wants {rest.decode() or 'no more'}\n  found  {shown or 'nothing'}"
        found = found[len(wanted):]
    told = [(number, rest) for number, word, rest in lines if word == "!" and rest]
    missing = len(errors.splitlines()) - len(told)
    for (number, wanted), line in zip(told + [(0, b"")] * missing, errors.splitlines() + [b""] * -missing):
        if wanted != line and any(word == "!" for _, word, _ in lines):
            return f"{at}\n  line {number or 'the last'} wants {wanted.decode() or 'no more'} on standard error\n  found  {line.decode() or 'nothing'}"
    wants = int(([b"0"] + [rest for _, word, rest in lines if word == "status"])[-1])
    if status != wants:
        return f"{at}\n  wants status {wants}, found {status}"
    return other_turn(program, at, lines, turns) if turns else None

def main(words):
    programs = [words[at + 1] for at in range(len(words)) if words[at] == "-p"] or [str(BUILT), f"{BUILT}.by-rattle"]
    all(map(os.path.exists, programs)) or sys.exit(f"one of {programs} is not there: a plain `rt ci` leaves them")
    files = [word for at, word in enumerate(words) if word != "-p" and words[at - 1:at] != ["-p"]]
    parts = {}
    lines_of(HERE / "parts.case", parts)
    cases = [case for path in files or sorted(HERE.glob("cases/**/*.case")) for case in cases_of(pathlib.Path(path), parts)]
    runs = [(program, name, lines, turns, pieces.decode()) for name, lines, turns in cases for program in programs
            for pieces in dict.fromkeys(([b"all"] + [rest for _, word, rest in lines if word == "pieces"])[-1].split())]
    with ThreadPoolExecutor(os.cpu_count()) as pool:
        wrong = [text for text in pool.map(lambda one: difference(*one), runs) if text]
    print(*wrong, f"{len(runs) - len(wrong)} passed, {len(wrong)} failed", sep="\n")
    return 1 if wrong or not runs else 0

if __name__ == "__main__":
    sys.exit(main(sys.argv[1:]))
