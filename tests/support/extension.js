// Begins the extension for VS Code over a stand-in for its module `vscode`, opens a program, and prints what it says.
// node tests/support/extension.js EXTENSION COMMAND FILE
"use strict";

const Module = require("module");
const { readFileSync } = require("fs");
const { resolve } = require("path");

const [, , extension, command, file] = process.argv;
const registered = {};
const keep = (name) => (_language, provider) => {
  registered[name] = provider;
  return { dispose() {} };
};
const kinds = ["Location", "Diagnostic", "DiagnosticRelatedInformation", "Hover", "DocumentSymbol", "CompletionItem",
  "MarkdownString", "FoldingRange", "SelectionRange", "DebugAdapterExecutable", "WorkspaceEdit"];
const vscode = {
  Uri: { parse: (text) => text },
  Range: class {
    constructor(...numbers) {
      this.text = `${numbers[0] + 1}:${numbers[1] + 1}-${numbers[2] + 1}:${numbers[3] + 1}`;
    }
  },
  window: { showWarningMessage: console.log, activeTextEditor: undefined },
  debug: {
    registerDebugAdapterDescriptorFactory: keep("adapter"),
    registerDebugConfigurationProvider: keep("configuration"),
  },
  languages: {
    createDiagnosticCollection: () => ({
      set: (_uri, all) => all.forEach((it) => console.log(`${it.given[0].text} ${it.given[1]}`)),
      delete() {}, dispose() {},
    }),
    registerHoverProvider: keep("hover"),
    registerCompletionItemProvider: keep("completion"),
    registerDocumentSymbolProvider: keep("symbols"),
    registerDefinitionProvider: keep("definition"),
    registerReferenceProvider: keep("references"),
    registerRenameProvider: keep("rename"),
    registerFoldingRangeProvider: keep("folding"),
    registerSelectionRangeProvider: keep("selection"),
  },
};
for (const name of kinds) {
  vscode[name] = class {
    constructor(...given) {
      this.given = given;
    }
  };
}
const document = {
  languageId: "trac", version: 1, fileName: resolve(file), uri: `file://${resolve(file)}`,
  getText: () => readFileSync(file, "utf8"),
};
vscode.workspace = {
  textDocuments: [document],
  getConfiguration: () => ({ get: () => command }),
  onDidOpenTextDocument: () => ({ dispose() {} }),
  onDidChangeTextDocument: () => ({ dispose() {} }),
  onDidCloseTextDocument: () => ({ dispose() {} }),
};
const load = Module._load;
Module._load = (name, ...more) => (name === "vscode" ? vscode : load(name, ...more));
const subscriptions = [];
const { activate } = require(resolve(extension));

(async () => {
  await activate({ subscriptions });
  const symbols = await registered.symbols.provideDocumentSymbols(document);
  for (const it of symbols) console.log(`symbol ${it.given[0]} ${it.given[3].text}`);
  const hover = await registered.hover.provideHover(document, { line: 1, character: 3 });
  console.log(`hover ${hover.given[0][0].given[0].includes("ds")}`);
  const items = await registered.completion.provideCompletionItems(document, { line: 1, character: 3 });
  console.log(`completion ${items.some((it) => it.given[0] === "ds")}`);
  vscode.window.activeTextEditor = { document };
  const { name, program } = registered.configuration.resolveDebugConfiguration(undefined, {});
  console.log(`debug ${name} ${program === document.fileName}`);
  console.log(registered.adapter.createDebugAdapterDescriptor().given[1].join(" "));
  for (const it of subscriptions) it.dispose();
})();
