// A stand-in for VS Code: runs its extension with one text, asks for what it provides, and prints
// that as JSON. The one word is JSON: extension, server, adapter, path and text.

"use strict";

const Module = require("module");

const given = JSON.parse(process.argv[2]);
const found = {};
const providers = {};
let reported;
const isReported = new Promise((resolve) => {
  reported = resolve;
});

class Range {
  constructor(...numbers) {
    this.numbers = numbers;
  }
}

class Diagnostic {
  constructor(range, message, severity) {
    Object.assign(this, { range, message, severity });
  }
}

const nothing = { dispose() {} };
const subscribe = () => nothing;
const uri = { toString: () => `file://${given.path}`, fsPath: given.path };
const document = { languageId: "alm", version: 1, uri, getText: () => given.text };
const settings = { languageServer: [given.server], debugAdapter: [given.adapter] };

const vscode = {
  Range,
  Diagnostic,
  Hover: function Hover(contents) {
    this.contents = contents;
  },
  MarkdownString: function MarkdownString(value) {
    this.value = value;
  },
  Location: function Location(target, range) {
    Object.assign(this, { target, range });
  },
  Uri: { parse: (text) => text },
  DebugAdapterExecutable: function DebugAdapterExecutable(command) {
    this.command = command;
  },
  workspace: {
    getConfiguration: () => ({ get: (name) => settings[name] }),
    onDidOpenTextDocument: subscribe,
    onDidChangeTextDocument: subscribe,
    onDidCloseTextDocument: subscribe,
    textDocuments: [document],
  },
  languages: {
    createDiagnosticCollection: () => ({ set: (_uri, list) => reported(list), dispose() {} }),
    registerHoverProvider: (_languages, provider) => {
      providers.hover = provider;
      return nothing;
    },
    registerDefinitionProvider: (_languages, provider) => {
      providers.definition = provider;
      return nothing;
    },
  },
  window: { activeTextEditor: { document }, showErrorMessage: (text) => console.error(text) },
  debug: {
    registerDebugAdapterDescriptorFactory: (_type, factory) => {
      providers.adapter = factory;
      return nothing;
    },
    registerDebugConfigurationProvider: (_type, provider) => {
      providers.config = provider;
      return nothing;
    },
  },
};

const load = Module._load;
Module._load = (name, ...rest) => (name === "vscode" ? vscode : load(name, ...rest));

async function main() {
  const context = { subscriptions: [] };
  await require(given.extension).activate(context);
  const [problem, ...more] = await isReported;
  found.codes = [problem, ...more].map((it) => it.code);
  found.range = problem.range.numbers;
  found.severity = problem.severity;
  const hover = await providers.hover.provideHover(document, { line: 4, character: 2 });
  found.hover = hover.contents.value.includes("A becomes the operand.");
  const [place] = await providers.definition.provideDefinition(document, {
    line: 6,
    character: 9,
  });
  found.definition = place.target;
  found.adapter = providers.adapter.createDebugAdapterDescriptor().command;
  found.config = providers.config.resolveDebugConfiguration(undefined, {});
  console.log(JSON.stringify(found));
  context.subscriptions.forEach((it) => it.dispose());
}

main();
