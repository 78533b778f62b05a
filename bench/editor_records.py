#!/usr/bin/env python3
"""Records what editors write, and compares replays with the sessions: bench/editor_records.py PROGRAM [CASE ..]

A case is a file of tests/cases/editors, a session of the word `lsp`, which has threads: each message is given while it rests. What
stands behind its handshake is given to the words `session` and `record`; the record is replayed as it is, and once more with the
editor's own `initialize` as its beginning.
The first has to be what `session` wrote, the second what `lsp` wrote behind the handshake."""
import json, pathlib, subprocess, sys

TOP = pathlib.Path(__file__).resolve().parent.parent
sys.path.insert(0, str(TOP / "tests"))
import record
import run as stored

def run(program, word, data):
    done = subprocess.run([program, word], input=data, capture_output=True)
    return done.returncode, done.stdout

def behind_first_frame(data):
    head, _, rest = data.partition(b"\r\n\r\n")
    return rest[int(head.split(b":")[1]):]

def main(program, *paths):
    equal = True
    for path in map(pathlib.Path, paths or sorted((TOP / "tests/cases/editors").glob("*.case"))):
        bodies = [line[2:] for line in path.read_bytes().split(b"\n") if line.startswith(b"> ")]
        begun = next(at for at, body in enumerate(bodies) if b'"initialized"' in body) + 1
        frames = list(map(record.frame, bodies))
        whole = stored.run(program, [(0, "words", b"lsp")] + [(at, ">", body) for at, body in enumerate(bodies)], "all")[1]
        session = run(program, "session", b"".join(frames[begun:]))[1]
        status, kept = run(program, "record", b"".join(frames[begun:]))
        events = record.decode_record(kept)[1]
        begin = {"Initialize": {"params": json.loads(bodies[0])["params"], "threads": 4}}
        same = run(program, "replay", kept) == (0, session)
        own = run(program, "replay", record.encode_record(begin, events)) == (0, behind_first_frame(whole))
        equal = equal and same and own
        print(f"{path.stem}: {len(bodies)} messages, a record of {len(kept)} bytes, replayed: {'equal' if same else 'OTHER'};"
              f" with its own initialize: {'equal' if own else 'OTHER'}")
    return 0 if equal else 1

if __name__ == "__main__":
    sys.exit(main(*sys.argv[1:]) if len(sys.argv) > 1 else __doc__)
