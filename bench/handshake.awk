# Writes what stands in front of a session of `lsp`: awk -f bench/handshake.awk
# With -v diagnostics=false the client wants none.
function frame(body) { printf "Content-Length: %d\r\n\r\n%s", length(body), body }
BEGIN {
  options = diagnostics == "" ? "" : ",\"initializationOptions\":{\"diagnostics\":{\"enable\":" diagnostics "}}"
  frame("{\"jsonrpc\":\"2.0\",\"id\":0,\"method\":\"initialize\",\"params\":{\"rootUri\":\"file:///w\",\"capabilities\":{\"general\":{\"positionEncodings\":[\"utf-16\"]}}" options "}}")
  frame("{\"jsonrpc\":\"2.0\",\"method\":\"initialized\",\"params\":{}}")
}
