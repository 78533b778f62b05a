// A client of `ra_serve lsp` for VS Code, in one file and without other packages: it tells the
// server which documents are open and how they change, and shows what a hover is answered.
const { spawn } = require("node:child_process");
const vscode = require("vscode");

const LANGUAGE = "rust";

/// Frames on the streams of a child process.
class Connection {
  constructor(path, log) {
    this.waiting = new Map();
    this.number = 0;
    this.held = Buffer.alloc(0);
    this.child = spawn(path, ["lsp"]);
    this.child.stdout.on("data", (bytes) => this.feed(bytes));
    // (the log has to be read: a full pipe would stop the server)
    this.child.stderr.on("data", (bytes) => log.append(bytes.toString()));
    this.child.stdin.on("error", () => {});
    this.ended = new Promise((resolve) => {
      this.child.on("error", (error) => resolve(`${path} does not start: ${error.message}`));
      this.child.on("exit", (status, signal) => resolve(`${path} ended with ${status ?? signal}`));
    });
    this.ended.then((why) => {
      log.appendLine(why);
      for (const { reject } of this.waiting.values()) reject(new Error(why));
    });
  }

  send(message) {
    const body = Buffer.from(JSON.stringify({ jsonrpc: "2.0", ...message }));
    this.child.stdin.write(`Content-Length: ${body.length}\r\n\r\n`);
    this.child.stdin.write(body);
  }

  notify(method, params) {
    this.send({ method, params });
  }

  request(method, params) {
    const id = this.number++;
    const answer = new Promise((resolve, reject) => this.waiting.set(id, { resolve, reject }));
    this.send({ id, method, params });
    return { id, answer };
  }

  feed(bytes) {
    this.held = Buffer.concat([this.held, bytes]);
    for (;;) {
      const end = this.held.indexOf("\r\n\r\n");
      if (end < 0) return;
      const length = Number(/Content-Length: (\d+)/i.exec(this.held.toString("latin1", 0, end))[1]);
      if (this.held.length < end + 4 + length) return;
      const body = this.held.toString("utf8", end + 4, end + 4 + length);
      this.held = this.held.subarray(end + 4 + length);
      this.take(JSON.parse(body));
    }
  }

  take(message) {
    if (message.method === undefined) {
      const asked = this.waiting.get(message.id);
      this.waiting.delete(message.id);
      if (message.error) asked?.reject(new Error(message.error.message));
      else asked?.resolve(message.result);
    } else if (message.id !== undefined) {
      this.send({ id: message.id, result: answerTo(message) });
    }
  }
}

/// What the server's own requests are answered: no settings, and that all else is done.
function answerTo({ method, params }) {
  return method === "workspace/configuration" ? params.items.map(() => null) : null;
}

const positionOf = ({ line, character }) => ({ line, character });
const rangeOf = ({ start, end }) => ({ start: positionOf(start), end: positionOf(end) });
const named = (document) => ({ uri: document.uri.toString() });
const isOurs = (document) => document.languageId === LANGUAGE && document.uri.scheme === "file";

let connection;

async function activate(context) {
  const log = vscode.window.createOutputChannel("ra_serve");
  context.subscriptions.push(log);
  const folders = vscode.workspace.workspaceFolders;
  if (!folders?.length) {
    vscode.window.showWarningMessage("ra_serve needs an open folder.");
    return;
  }
  const begun = new Connection(vscode.workspace.getConfiguration("ra_serve").get("path"), log);
  connection = begun;
  begun.ended.then((why) => {
    // (the one that `deactivate` ends is no longer in use)
    if (connection !== begun) return;
    connection = undefined;
    vscode.window.showErrorMessage(why);
  });
  const { answer } = begun.request("initialize", {
    processId: process.pid,
    rootUri: folders[0].uri.toString(),
    workspaceFolders: folders.map(({ uri, name }) => ({ uri: uri.toString(), name })),
    capabilities: {
      general: { positionEncodings: ["utf-16"] },
      textDocument: { hover: {}, synchronization: { didSave: true } },
    },
  });
  await answer;
  begun.notify("initialized", {});

  const open = (document) => {
    if (!isOurs(document)) return;
    const text = { languageId: LANGUAGE, version: document.version, text: document.getText() };
    connection?.notify("textDocument/didOpen", { textDocument: { ...named(document), ...text } });
  };
  const tell = (method) => (document) => {
    if (isOurs(document)) connection?.notify(method, { textDocument: named(document) });
  };
  const change = ({ document, contentChanges }) => {
    if (!isOurs(document) || !contentChanges.length) return;
    connection?.notify("textDocument/didChange", {
      textDocument: { ...named(document), version: document.version },
      contentChanges: contentChanges.map(({ range, text }) => ({ range: rangeOf(range), text })),
    });
  };
  const provideHover = async (document, position, token) => {
    if (!connection) return undefined;
    const params = { textDocument: named(document), position: positionOf(position) };
    const { id, answer } = connection.request("textDocument/hover", params);
    token.onCancellationRequested(() => connection?.notify("$/cancelRequest", { id }));
    const hover = await answer;
    // (as text: a name such as `__init__` is no Markdown)
    return hover && new vscode.Hover(new vscode.MarkdownString().appendText(hover.contents));
  };
  vscode.workspace.textDocuments.forEach(open);
  context.subscriptions.push(
    vscode.workspace.onDidOpenTextDocument(open),
    vscode.workspace.onDidChangeTextDocument(change),
    vscode.workspace.onDidSaveTextDocument(tell("textDocument/didSave")),
    vscode.workspace.onDidCloseTextDocument(tell("textDocument/didClose")),
    vscode.languages.registerHoverProvider(
      { language: LANGUAGE, scheme: "file" },
      { provideHover },
    ),
  );
}

async function deactivate() {
  const leaving = connection;
  connection = undefined;
  if (!leaving) return;
  await leaving.request("shutdown").answer.catch(() => {});
  leaving.notify("exit");
  leaving.child.stdin.end();
  await leaving.ended;
}

module.exports = { activate, deactivate };
