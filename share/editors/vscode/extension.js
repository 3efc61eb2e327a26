// TRAC T-64 in VS Code. `trac lsp` is started once, is told of each text, and asked what VS Code wants to know; `trac
// dap` is started for each program that is debugged. It takes no package and no build step.
"use strict";

const vscode = require("vscode");
const { spawn } = require("child_process");

const HEADER_END = "\r\n\r\n";

// A server, with the requests that wait for its replies.
class Server {
  constructor(command, told) {
    this.told = told;
    this.waiting = new Map();
    this.count = 0;
    this.hasEnded = false;
    this.bytes = Buffer.alloc(0);
    this.process = spawn(command, ["lsp"], { stdio: ["pipe", "pipe", "ignore"] });
    this.process.on("error", (error) => vscode.window.showWarningMessage(`trac lsp: ${error.message}`));
    this.process.stdin.on("error", () => {});
    this.process.stdout.on("data", (bytes) => this.take(bytes));
    this.process.on("close", () => {
      this.hasEnded = true;
      for (const give of this.waiting.values()) give(null);
      this.waiting.clear();
    });
  }

  send(message) {
    const text = Buffer.from(JSON.stringify({ jsonrpc: "2.0", ...message }));
    this.process.stdin.write(`Content-Length: ${text.length}${HEADER_END}`);
    this.process.stdin.write(text);
  }

  tell(method, params) {
    this.send({ method, params });
  }

  ask(method, params) {
    const id = ++this.count;
    return new Promise((give) => {
      if (this.hasEnded) return give(null);
      this.waiting.set(id, give);
      return this.send({ id, method, params });
    });
  }

  take(bytes) {
    this.bytes = Buffer.concat([this.bytes, bytes]);
    for (;;) {
      const end = this.bytes.indexOf(HEADER_END);
      if (end < 0) return;
      const length = /Content-Length: *(\d+)/i.exec(this.bytes.toString("latin1", 0, end));
      const start = end + HEADER_END.length;
      const stop = start + Number(length ? length[1] : 0);
      if (this.bytes.length < stop) return;
      const message = JSON.parse(this.bytes.toString("utf8", start, stop));
      this.bytes = this.bytes.subarray(stop);
      this.obey(message);
    }
  }

  obey(message) {
    const give = this.waiting.get(message.id);
    if (message.method) {
      this.told(message.method, message.params);
    } else if (give) {
      this.waiting.delete(message.id);
      give(message.error ? null : message.result);
    }
  }
}

// What VS Code and the protocol say of the same things.
const rangeOf = ({ start, end }) => new vscode.Range(start.line, start.character, end.line, end.character);
const placeOf = ({ uri, range }) => new vscode.Location(vscode.Uri.parse(uri), rangeOf(range));
const placesOf = (found) => (found ? [].concat(found).map(placeOf) : null);
const named = (document) => ({ textDocument: { uri: document.uri.toString() } });
const at = (document, { line, character }) => ({ ...named(document), position: { line, character } });
const wordsOf = (contents) =>
  [].concat(contents).map((it) => new vscode.MarkdownString(typeof it === "string" ? it : it.value));

function diagnosticOf(told) {
  const it = new vscode.Diagnostic(rangeOf(told.range), told.message, (told.severity || 1) - 1);
  it.code = told.code;
  it.source = told.source;
  it.tags = told.tags;
  it.relatedInformation = (told.relatedInformation || []).map(
    (more) => new vscode.DiagnosticRelatedInformation(placeOf(more.location), more.message),
  );
  return it;
}

function symbolOf(told) {
  const it = new vscode.DocumentSymbol(
    told.name, told.detail || "", told.kind - 1, rangeOf(told.range), rangeOf(told.selectionRange),
  );
  it.children = (told.children || []).map(symbolOf);
  return it;
}

function completionOf(told) {
  const it = new vscode.CompletionItem(told.label, (told.kind || 1) - 1);
  it.detail = told.detail;
  it.insertText = told.insertText;
  if (told.documentation) it.documentation = wordsOf(told.documentation)[0];
  if (told.textEdit) {
    it.insertText = told.textEdit.newText;
    it.range = rangeOf(told.textEdit.range);
  }
  return it;
}

function editOf(told) {
  const edit = new vscode.WorkspaceEdit();
  for (const [uri, changes] of Object.entries((told && told.changes) || {})) {
    for (const it of changes) edit.replace(vscode.Uri.parse(uri), rangeOf(it.range), it.newText);
  }
  return edit;
}

function selectionOf(told) {
  return new vscode.SelectionRange(rangeOf(told.range), told.parent ? selectionOf(told.parent) : undefined);
}

// Each answer that the server says it can give, with how VS Code is told of it.
function providers(server) {
  const ask = (method, params, make) =>
    server.ask(`textDocument/${method}`, params).then((told) => (told ? make(told) : null));
  const { languages } = vscode;
  return {
    hoverProvider: () => languages.registerHoverProvider("trac", {
      provideHover: (document, place) =>
        ask("hover", at(document, place), (it) =>
          new vscode.Hover(wordsOf(it.contents), it.range && rangeOf(it.range))),
    }),
    completionProvider: ({ triggerCharacters }) => languages.registerCompletionItemProvider("trac", {
      provideCompletionItems: (document, place) =>
        ask("completion", at(document, place), (it) => (it.items || it).map(completionOf)),
    }, ...(triggerCharacters || [])),
    documentSymbolProvider: () => languages.registerDocumentSymbolProvider("trac", {
      provideDocumentSymbols: (document) => ask("documentSymbol", named(document), (it) => it.map(symbolOf)),
    }),
    definitionProvider: () => languages.registerDefinitionProvider("trac", {
      provideDefinition: (document, place) => ask("definition", at(document, place), placesOf),
    }),
    referencesProvider: () => languages.registerReferenceProvider("trac", {
      provideReferences: (document, place, context) =>
        ask("references", { ...at(document, place), context }, placesOf),
    }),
    renameProvider: () => languages.registerRenameProvider("trac", {
      provideRenameEdits: (document, place, newName) =>
        ask("rename", { ...at(document, place), newName }, editOf),
    }),
    foldingRangeProvider: () => languages.registerFoldingRangeProvider("trac", {
      provideFoldingRanges: (document) =>
        ask("foldingRange", named(document), (it) =>
          it.map(({ startLine, endLine }) => new vscode.FoldingRange(startLine, endLine))),
    }),
    selectionRangeProvider: () => languages.registerSelectionRangeProvider("trac", {
      provideSelectionRanges: (document, positions) =>
        ask("selectionRange", { ...named(document), positions }, (it) => it.map(selectionOf)),
    }),
  };
}

// The debugger: how it is started, and what it is asked for if nothing is said.
function debuggers(command) {
  const { debug, window } = vscode;
  return [
    debug.registerDebugAdapterDescriptorFactory("trac", {
      createDebugAdapterDescriptor: () => new vscode.DebugAdapterExecutable(command, ["dap"]),
    }),
    debug.registerDebugConfigurationProvider("trac", {
      resolveDebugConfiguration: (_folder, asked) => {
        const { document } = window.activeTextEditor || {};
        if (asked.type || !document || document.languageId !== "trac") return asked;
        return { type: "trac", request: "launch", name: "TRAC", program: document.fileName, stopOnEntry: true };
      },
    }),
  ];
}

async function activate(context) {
  const command = vscode.workspace.getConfiguration("trac").get("command") || "trac";
  context.subscriptions.push(...debuggers(command));
  const doubts = vscode.languages.createDiagnosticCollection("trac");
  const server = new Server(command, (method, params) => {
    if (method === "textDocument/publishDiagnostics") {
      doubts.set(vscode.Uri.parse(params.uri), params.diagnostics.map(diagnosticOf));
    }
  });
  context.subscriptions.push(doubts, { dispose: () => server.process.kill() });
  const begun = await server.ask("initialize", { processId: process.pid, rootUri: null, capabilities: {} });
  if (!begun) return;
  server.tell("initialized", {});
  const isOurs = (document) => document.languageId === "trac";
  const open = (document) => isOurs(document) && server.tell("textDocument/didOpen", {
    textDocument: {
      uri: document.uri.toString(), languageId: "trac", version: document.version, text: document.getText(),
    },
  });
  const { workspace } = vscode;
  workspace.textDocuments.forEach(open);
  context.subscriptions.push(
    workspace.onDidOpenTextDocument(open),
    workspace.onDidChangeTextDocument(({ document }) => isOurs(document) && server.tell("textDocument/didChange", {
      textDocument: { uri: document.uri.toString(), version: document.version },
      contentChanges: [{ text: document.getText() }],
    })),
    workspace.onDidCloseTextDocument((document) => {
      if (!isOurs(document)) return;
      server.tell("textDocument/didClose", named(document));
      doubts.delete(document.uri);
    }),
  );
  for (const [name, register] of Object.entries(providers(server))) {
    const given = begun.capabilities[name];
    if (given) context.subscriptions.push(register(given));
  }
}

module.exports = { activate, deactivate: () => {} };
