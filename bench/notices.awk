# A session of n notifications of one kind, and `exit`: awk -v n=10000 -v method=textDocument/didSave -f bench/notices.awk
function frame(body) {
    printf "Content-Length: %d\r\n\r\n%s", length(body), body
}

function document() {
    return "\"textDocument\":{\"uri\":\"file:///w/a.rs\",\"version\":" i ",\"text\":\"fn a() {}\"}"
}

function params() {
    if (method == "$/cancelRequest") return "{\"id\":" i "}"
    if (method == "window/workDoneProgress/cancel") return "{\"token\":\"rust-analyzer/flycheck/" i "\"}"
    if (method == "textDocument/didChange") return "{" document() ",\"contentChanges\":[{\"text\":\"fn a() { " i " }\"}]}"
    if (method ~ /^textDocument/ || method == "rust-analyzer/runFlycheck") return "{" document() "}"
    if (method == "workspace/didChangeWorkspaceFolders") return "{\"event\":{\"added\":[{\"uri\":\"file:///x\"}],\"removed\":[{\"uri\":\"file:///x\"}]}}"
    if (method == "workspace/didChangeWatchedFiles") return "{\"changes\":[{\"uri\":\"file:///w/" i ".rs\"}]}"
    return "null"
}

BEGIN {
    frame("{\"jsonrpc\":\"2.0\",\"method\":\"textDocument/didOpen\",\"params\":{\"textDocument\":{\"uri\":\"file:///w/a.rs\",\"version\":0,\"text\":\"fn a() {}\"}}}")
    for (i = 1; i <= n; i++) frame("{\"jsonrpc\":\"2.0\",\"method\":\"" method "\",\"params\":" params() "}")
    frame("{\"jsonrpc\":\"2.0\",\"method\":\"exit\"}")
}
