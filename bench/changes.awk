# Writes the frames of a session with one document whose changes have a shape of their own:
# awk -v shape=burst -v n=1000 -f bench/changes.awk
#   burst      n changes of one letter, each in another of 20,000 lines, and one hover behind them
#   downwards  n changes of 200 letters each, in rising lines, and a hover behind each
#   upwards    the same in falling lines
#   long_line  n changes of one letter in a line of 1 MB, and a hover behind each
function frame(body) { printf "Content-Length: %d\r\n\r\n%s", length(body), body }
function place(line, column) { return "{\"line\":" line ",\"character\":" column "}" }
function letter(line, column) {
  return "{\"range\":{\"start\":" place(line, column) ",\"end\":" place(line, column) "},\"text\":\"x\"}"
}
function change(list) {
  version++
  frame("{\"jsonrpc\":\"2.0\",\"method\":\"textDocument/didChange\",\"params\":{\"textDocument\":{\"uri\":\"file:///w/a.rs\",\"version\":" version "},\"contentChanges\":[" list "]}}")
}
function hover(line, column) {
  asked++
  frame("{\"jsonrpc\":\"2.0\",\"id\":" asked ",\"method\":\"textDocument/hover\",\"params\":{\"textDocument\":{\"uri\":\"file:///w/a.rs\"},\"position\":" place(line, column) "}}")
}
function listed(i, k, list) {
  for (k = 0; k < 200; k++) list = list (k ? "," : "") letter(shape == "upwards" ? 19900 - 100 * k : 100 * k, 8)
  return list
}
BEGIN {
  if (shape != "burst" && shape != "downwards" && shape != "upwards" && shape != "long_line") {
    print "shape is burst, downwards, upwards or long_line" > "/dev/stderr"
    exit 2
  }
  if (shape == "long_line") {
    text = "x"
    while (length(text) < 1000000) text = text text
    text = "fn f() { " substr(text, 1, 1000000) " }"
  } else {
    for (i = 0; i < 20000; i++) text = text "    let value = other + 1234;\\n"
  }
  version = 1
  frame("{\"jsonrpc\":\"2.0\",\"method\":\"textDocument/didOpen\",\"params\":{\"textDocument\":{\"uri\":\"file:///w/a.rs\",\"languageId\":\"rust\",\"version\":1,\"text\":\"" text "\"}}}")
  for (i = 1; i <= n; i++) {
    if (shape == "burst") change(letter((i * 7919) % 20000, 8))
    else if (shape == "long_line") { change(letter(0, 900000)); hover(0, 500000) }
    else { change(listed()); hover(5, 8) }
  }
  if (shape == "burst") hover(5, 8)
  frame("{\"jsonrpc\":\"2.0\",\"method\":\"exit\"}")
}
