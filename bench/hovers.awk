# Writes the frames of a session with one document and n hovers: awk -v n=10000 -f bench/hovers.awk
function frame(body) { printf "Content-Length: %d\r\n\r\n%s", length(body), body }
BEGIN {
  frame("{\"jsonrpc\":\"2.0\",\"method\":\"textDocument/didOpen\",\"params\":{\"textDocument\":{\"uri\":\"file:///w/a.rs\",\"languageId\":\"rust\",\"version\":1,\"text\":\"fn a() {}\"}}}")
  for (i = 1; i <= n; i++)
    frame("{\"jsonrpc\":\"2.0\",\"id\":" i ",\"method\":\"textDocument/hover\",\"params\":{\"textDocument\":{\"uri\":\"file:///w/a.rs\"},\"position\":{\"line\":0,\"character\":3}}}")
  frame("{\"jsonrpc\":\"2.0\",\"method\":\"exit\"}")
}
