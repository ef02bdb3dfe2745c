// ALM sources and boot texts of m36 in VS Code: starts the language server and the debug adapter.
// It needs no other module.

"use strict";

const childProcess = require("child_process");
const path = require("path");
const vscode = require("vscode");

const LANGUAGES = ["alm", "m36boot"];

function commandOf(name) {
  const [program, ...words] = vscode.workspace.getConfiguration("m36").get(name);
  return { program, words };
}

// The language server as a child, and the requests that wait for its answers.
class Server {
  constructor(onNotification, onEnd) {
    const { program, words } = commandOf("languageServer");
    this.onNotification = onNotification;
    this.waiting = new Map();
    this.rest = Buffer.alloc(0);
    this.count = 0;
    this.child = childProcess.spawn(program, words, { stdio: ["pipe", "pipe", "ignore"] });
    this.child.on("error", onEnd);
    this.child.stdin.on("error", () => {});
    this.child.stdout.on("data", (data) => this.take(data));
    this.child.on("exit", () => this.end());
  }

  send(message) {
    const text = JSON.stringify({ jsonrpc: "2.0", ...message });
    this.child.stdin.write(`Content-Length: ${Buffer.byteLength(text)}\r\n\r\n${text}`);
  }

  notify(method, params) {
    this.send({ method, params });
  }

  request(method, params) {
    this.count += 1;
    const id = this.count;
    return new Promise((resolve) => {
      this.waiting.set(id, resolve);
      this.send({ id, method, params });
    });
  }

  take(data) {
    this.rest = Buffer.concat([this.rest, data]);
    for (;;) {
      const head = /^Content-Length: (\d+)\r\n\r\n/.exec(this.rest.toString("latin1", 0, 64));
      if (!head || this.rest.length < head[0].length + Number(head[1])) return;
      const end = head[0].length + Number(head[1]);
      const message = JSON.parse(this.rest.toString("utf8", head[0].length, end));
      this.rest = this.rest.subarray(end);
      this.dispatch(message);
    }
  }

  dispatch(message) {
    const resolve = this.waiting.get(message.id);
    if (resolve) {
      this.waiting.delete(message.id);
      resolve(message.result === undefined ? null : message.result);
    } else if (message.method) {
      this.onNotification(message.method, message.params);
    }
  }

  end() {
    this.waiting.forEach((resolve) => resolve(null));
    this.waiting.clear();
  }

  stop() {
    this.request("shutdown", null).then(() => this.notify("exit", null));
  }
}

function rangeOf({ start, end }) {
  return new vscode.Range(start.line, start.character, end.line, end.character);
}

function diagnosticOf(problem) {
  const severity = problem.severity - 1;
  const found = new vscode.Diagnostic(rangeOf(problem.range), problem.message, severity);
  found.code = problem.code;
  found.source = problem.source;
  return found;
}

function placeOf(document, position) {
  const { line, character } = position;
  return { textDocument: { uri: document.uri.toString() }, position: { line, character } };
}

async function hoverAt(server, document, position) {
  const found = await server.request("textDocument/hover", placeOf(document, position));
  if (!found) return null;
  return new vscode.Hover(new vscode.MarkdownString(found.contents.value), rangeOf(found.range));
}

async function definitionsAt(server, document, position) {
  const found = await server.request("textDocument/definition", placeOf(document, position));
  return (found || []).map(
    ({ uri, range }) => new vscode.Location(vscode.Uri.parse(uri), rangeOf(range)),
  );
}

// Reports each open document, and each change of one, to the server.
function follow(server, context) {
  const isOurs = (document) => LANGUAGES.includes(document.languageId);
  const itemOf = (document) => ({ uri: document.uri.toString(), version: document.version });
  const open = (document) => {
    if (!isOurs(document)) return;
    const item = { ...itemOf(document), languageId: document.languageId, text: document.getText() };
    server.notify("textDocument/didOpen", { textDocument: item });
  };
  const change = ({ document }) => {
    if (!isOurs(document)) return;
    const contentChanges = [{ text: document.getText() }];
    server.notify("textDocument/didChange", { textDocument: itemOf(document), contentChanges });
  };
  const close = (document) => {
    if (!isOurs(document)) return;
    server.notify("textDocument/didClose", { textDocument: itemOf(document) });
  };
  context.subscriptions.push(
    vscode.workspace.onDidOpenTextDocument(open),
    vscode.workspace.onDidChangeTextDocument(change),
    vscode.workspace.onDidCloseTextDocument(close),
  );
  vscode.workspace.textDocuments.forEach(open);
}

async function startServer(context) {
  const problems = vscode.languages.createDiagnosticCollection("m36");
  const onNotification = (method, params) => {
    if (method === "textDocument/publishDiagnostics") {
      problems.set(vscode.Uri.parse(params.uri), params.diagnostics.map(diagnosticOf));
    } else if (method === "window/showMessage") {
      vscode.window.showErrorMessage(params.message);
    }
  };
  const onEnd = (why) => vscode.window.showErrorMessage(`m36: the language server: ${why.message}`);
  const server = new Server(onNotification, onEnd);
  context.subscriptions.push(problems, { dispose: () => server.stop() });
  await server.request("initialize", { processId: process.pid, rootUri: null, capabilities: {} });
  server.notify("initialized", {});
  follow(server, context);
  context.subscriptions.push(
    vscode.languages.registerHoverProvider(LANGUAGES, {
      provideHover: (document, position) => hoverAt(server, document, position),
    }),
    vscode.languages.registerDefinitionProvider(LANGUAGES, {
      provideDefinition: (document, position) => definitionsAt(server, document, position),
    }),
  );
}

// Without a launch.json the folder of the text that is shown is debugged.
function resolveDebugConfiguration(_folder, config) {
  const editor = vscode.window.activeTextEditor;
  if (config.program || !editor) return config;
  const program = path.dirname(editor.document.uri.fsPath);
  return { type: "m36", request: "launch", name: "m36", stopOnEntry: true, ...config, program };
}

function activate(context) {
  const createDebugAdapterDescriptor = () => {
    const { program, words } = commandOf("debugAdapter");
    return new vscode.DebugAdapterExecutable(program, words);
  };
  context.subscriptions.push(
    vscode.debug.registerDebugAdapterDescriptorFactory("m36", { createDebugAdapterDescriptor }),
    vscode.debug.registerDebugConfigurationProvider("m36", { resolveDebugConfiguration }),
  );
  return startServer(context);
}

module.exports = { activate, deactivate() {} };
