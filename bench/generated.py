#!/usr/bin/env python3
"""What `generate N` has to write, by another hand: bench/generated.py N PROGRAM

It makes the messages of `generate N` as docs/PROTOCOL.md tells them, edits the texts, and runs PROGRAM's word `lsp` on the
messages, without diagnostics. It prints the hash of the texts and that of what was written behind the handshake: the lines
`sha1` and `output` of `generate N`."""
import hashlib
import json
import subprocess
import sys


def frame(message):
    body = json.dumps(message, separators=(",", ":")).encode()
    return b"Content-Length: %d\r\n\r\n" % len(body) + body


def note(method, params):
    return frame({"jsonrpc": "2.0", "method": method, "params": params})


def ask(number, method, params):
    return frame({"jsonrpc": "2.0", "id": number, "method": method, "params": params})


def messages(count):
    """The frames, and the texts in the end."""
    state, frames, texts = count, [], []

    def draw():
        nonlocal state
        state = (state * 6364136223846793005 + 1442695040888963407) % 2**64
        return state >> 33

    for k in range(count):
        uri, line = f"file:///w/g{k}.rs", f"fn g{k}() {{}}"
        document = {"uri": uri, "languageId": "rust", "version": 1, "text": line + "\n"}
        frames.append(note("textDocument/didOpen", {"textDocument": document}))
        for version in range(2, 12):
            column = draw() % (len(line) + 1)
            letter = chr(ord("a") + draw() % 26)
            line = line[:column] + letter + line[column:]
            place = {"line": 0, "character": column}
            change = {"range": {"start": place, "end": place}, "text": letter}
            versioned = {"uri": uri, "version": version}
            frames.append(note("textDocument/didChange", {"textDocument": versioned, "contentChanges": [change]}))
        where = {"textDocument": {"uri": uri}, "position": {"line": 0, "character": 3}}
        frames.append(ask(k, "textDocument/hover", where))
        texts.append(line + "\n")
    frames.append(frame({"jsonrpc": "2.0", "method": "exit"}))
    return b"".join(frames), "".join(texts)


def main():
    if len(sys.argv) != 3:
        sys.exit(__doc__)
    frames, texts = messages(int(sys.argv[1]))
    options = {"diagnostics": {"enable": False}, "cachePriming": {"enable": False}}
    params = {"rootUri": "file:///w", "capabilities": {}, "initializationOptions": options}
    head = ask(0, "initialize", params) + note("initialized", {})
    run = subprocess.run([sys.argv[2], "lsp"], input=head + frames, capture_output=True, check=True)
    at = run.stdout.index(b"\r\n\r\n")
    behind = at + 4 + int(run.stdout[len(b"Content-Length: "):at])
    print("sha1", hashlib.sha1(texts.encode()).hexdigest())
    print("output", hashlib.sha1(run.stdout[behind:]).hexdigest())


main()
