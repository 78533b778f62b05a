# Writes the frames of a session with one document of so many lines (20,000 where none are given), and n times a didChange of one
# letter and a hover at its place: awk -v lines=20000 -v n=1000 -f bench/edits.awk
function frame(body) { printf "Content-Length: %d\r\n\r\n%s", length(body), body }
BEGIN {
  if (!lines) lines = 20000
  for (i = 0; i < lines; i++) text = text "    let value = other + 1234;\\n"
  frame("{\"jsonrpc\":\"2.0\",\"method\":\"textDocument/didOpen\",\"params\":{\"textDocument\":{\"uri\":\"file:///w/a.rs\",\"languageId\":\"rust\",\"version\":1,\"text\":\"" text "\"}}}")
  for (i = 1; i <= n; i++) {
    place = "{\"line\":" (i * 7919) % lines ",\"character\":8}"
    frame("{\"jsonrpc\":\"2.0\",\"method\":\"textDocument/didChange\",\"params\":{\"textDocument\":{\"uri\":\"file:///w/a.rs\",\"version\":" i + 1 "},\"contentChanges\":[{\"range\":{\"start\":" place ",\"end\":" place "},\"text\":\"x\"}]}}")
    frame("{\"jsonrpc\":\"2.0\",\"id\":" i ",\"method\":\"textDocument/hover\",\"params\":{\"textDocument\":{\"uri\":\"file:///w/a.rs\"},\"position\":" place "}}")
  }
  frame("{\"jsonrpc\":\"2.0\",\"method\":\"exit\"}")
}
