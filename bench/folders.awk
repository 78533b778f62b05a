# A whole session of `lsp`, of a client with n folders, each of which becomes a workspace: awk -v n=4000 -f bench/folders.awk
function frame(body) { printf "Content-Length: %d\r\n\r\n%s", length(body), body }
BEGIN {
  for (i = 0; i < n; i++)
    folders = folders (i ? "," : "") sprintf("{\"uri\":\"file:///w/p%05d\",\"name\":\"p\"}", i)
  frame("{\"jsonrpc\":\"2.0\",\"id\":0,\"method\":\"initialize\",\"params\":{\"workspaceFolders\":[" folders "],\"capabilities\":{}}}")
  frame("{\"jsonrpc\":\"2.0\",\"method\":\"initialized\",\"params\":{}}")
  frame("{\"jsonrpc\":\"2.0\",\"id\":1,\"method\":\"shutdown\"}")
  frame("{\"jsonrpc\":\"2.0\",\"method\":\"exit\"}")
}
