# Writes the frames of a session with many documents of so many lines (one where none are given), and n times a didChange of one
# letter in one of them and a hover there: awk -v documents=1000 -v lines=100 -v n=10000 -f bench/documents.awk
function frame(body) { printf "Content-Length: %d\r\n\r\n%s", length(body), body }
function uri(number) { return "\"file:///w/crates/part_" number % 500 "/src/file_" number ".rs\"" }
BEGIN {
  if (!lines) lines = 1
  for (i = 0; i < lines; i++) text = text "let value = other + 1234;\\n"
  for (i = 0; i < documents; i++)
    frame("{\"jsonrpc\":\"2.0\",\"method\":\"textDocument/didOpen\",\"params\":{\"textDocument\":{\"uri\":" uri(i) ",\"languageId\":\"rust\",\"version\":1,\"text\":\"" text "\"}}}")
  for (i = 1; i <= n; i++) {
    file = uri((i * 7919) % documents)
    line = (i * 31) % lines
    place = "{\"line\":" line ",\"character\":8}"
    end = "{\"line\":" line ",\"character\":9}"
    letter = substr("abcdefghijklmnopqrstuvwxyz", i % 26 + 1, 1)
    frame("{\"jsonrpc\":\"2.0\",\"method\":\"textDocument/didChange\",\"params\":{\"textDocument\":{\"uri\":" file ",\"version\":" i + 1 "},\"contentChanges\":[{\"range\":{\"start\":" place ",\"end\":" end "},\"text\":\"" letter "\"}]}}")
    frame("{\"jsonrpc\":\"2.0\",\"id\":" i ",\"method\":\"textDocument/hover\",\"params\":{\"textDocument\":{\"uri\":" file "},\"position\":" place "}}")
  }
  frame("{\"jsonrpc\":\"2.0\",\"method\":\"exit\"}")
}
