"use strict";
// The client of the language server and of the debug adapter of the verified short stack: `stack editor server` and `stack editor adapter`.
// It is one file without libraries, so that nothing has to be built.
const { spawn } = require("child_process");
const vscode = require("vscode");

const LANGUAGES = ["gypsy", "piton", "mini", "stackvalues", "fm9001"];
const CAPABILITIES = { textDocument: { completion: { completionItem: { snippetSupport: true } } } };
const stackPath = () => vscode.workspace.getConfiguration("stack").get("path");

// ---- Messages ----

class Server {
  constructor(path, onNote) {
    this.process = spawn(path, ["editor", "server"], { stdio: ["pipe", "pipe", "ignore"] });
    Object.assign(this, { buffer: Buffer.alloc(0), waiting: new Map(), last: 0, onNote });
    this.process.stdout.on("data", (data) => this.take(data));
    // What is written when the server has ended goes nowhere, and what waits for it is refused.
    this.process.stdin.on("error", () => {});
    this.process.on("exit", (status) => {
      for (const { refuse } of this.waiting.values()) refuse(new Error("the language server has ended"));
      this.waiting.clear();
      if (status) vscode.window.showErrorMessage(`The language server of the short stack ended with ${status}. "${path} prove" proves and builds the program.`);
    });
    this.process.on("error", (fault) => vscode.window.showErrorMessage(`${path}: ${fault.message}. The setting stack.path tells where the script is.`));
  }

  take(data) {
    this.buffer = Buffer.concat([this.buffer, data]);
    for (;;) {
      const head = this.buffer.indexOf("\r\n\r\n");
      if (head < 0) return;
      const size = Number(/content-length: *(\d+)/i.exec(this.buffer.toString("ascii", 0, head))[1]);
      if (this.buffer.length < head + 4 + size) return;
      const message = JSON.parse(this.buffer.toString("utf8", head + 4, head + 4 + size));
      this.buffer = this.buffer.subarray(head + 4 + size);
      if (message.method) this.onNote(message);
      else {
        const waiting = this.waiting.get(message.id);
        this.waiting.delete(message.id);
        if (message.error) waiting?.refuse(new Error(message.error.message));
        else waiting?.answer(message.result);
      }
    }
  }

  send(message) {
    const content = Buffer.from(JSON.stringify({ jsonrpc: "2.0", ...message }));
    this.process.stdin.write(`Content-Length: ${content.length}\r\n\r\n`);
    this.process.stdin.write(content);
  }

  note(method, params) {
    this.send({ method, params });
  }

  ask(method, params) {
    const id = ++this.last;
    this.send({ id, method, params });
    return new Promise((answer, refuse) => this.waiting.set(id, { answer, refuse }));
  }
}

// ---- What the server says, as the editor wants it ----

const rangeOf = (it) => new vscode.Range(it.start.line, it.start.character, it.end.line, it.end.character);
const markdown = (text) => new vscode.MarkdownString(text);
const locationOf = (it) => new vscode.Location(vscode.Uri.parse(it.uri), rangeOf(it.range));
const editOf = (edit) => {
  const made = new vscode.WorkspaceEdit();
  for (const [uri, edits] of Object.entries(edit.changes)) for (const it of edits) made.replace(vscode.Uri.parse(uri), rangeOf(it.range), it.newText);
  return made;
};
const symbolOf = (it) => {
  const made = new vscode.DocumentSymbol(it.name, it.detail, it.kind - 1, rangeOf(it.range), rangeOf(it.selectionRange));
  made.children = it.children.map(symbolOf);
  return made;
};
const diagnosticOf = (it) => {
  const made = new vscode.Diagnostic(rangeOf(it.range), it.message, it.severity - 1);
  const code = it.code && { value: it.code, target: vscode.Uri.parse(it.codeDescription.href) };
  return Object.assign(made, { source: it.source, code, asked: it });
};
const offerOf = (it) => {
  const made = new vscode.CompletionItem(it.label, it.kind - 1);
  if (it.insertText) made.insertText = new vscode.SnippetString(it.insertText);
  return Object.assign(made, { detail: it.detail, documentation: it.documentation && markdown(it.documentation.value) });
};

function activate(context) {
  const found = vscode.languages.createDiagnosticCollection("stack");
  const server = new Server(stackPath(), ({ method, params }) => {
    if (method === "textDocument/publishDiagnostics") found.set(vscode.Uri.parse(params.uri), params.diagnostics.map(diagnosticOf));
    if (method === "window/showMessage") vscode.window.showWarningMessage(params.message);
  });
  const isOurs = (document) => LANGUAGES.includes(document.languageId) && document.uri.scheme === "file";
  const at = (document, position) => ({ textDocument: { uri: document.uri.toString() }, position });
  const open = (document) => {
    if (!isOurs(document)) return;
    const textDocument = { uri: document.uri.toString(), languageId: document.languageId, version: document.version, text: document.getText() };
    server.note("textDocument/didOpen", { textDocument });
  };
  server.ask("initialize", { processId: process.pid, rootUri: null, capabilities: CAPABILITIES }).then(() => {
    server.note("initialized", {});
    vscode.workspace.textDocuments.forEach(open);
  });
  const selector = LANGUAGES.map((language) => ({ language, scheme: "file" }));
  const { languages, workspace } = vscode;
  context.subscriptions.push(
    found,
    { dispose: () => server.process.kill() },
    workspace.onDidOpenTextDocument(open),
    workspace.onDidChangeTextDocument(({ document }) => {
      const textDocument = { uri: document.uri.toString(), version: document.version };
      if (isOurs(document)) server.note("textDocument/didChange", { textDocument, contentChanges: [{ text: document.getText() }] });
    }),
    workspace.onDidCloseTextDocument((document) => {
      if (isOurs(document)) server.note("textDocument/didClose", { textDocument: { uri: document.uri.toString() } });
    }),
    languages.registerHoverProvider(selector, {
      provideHover: async (document, position) => {
        const it = await server.ask("textDocument/hover", at(document, position));
        return it && new vscode.Hover(markdown(it.contents.value), rangeOf(it.range));
      },
    }),
    languages.registerDefinitionProvider(selector, {
      provideDefinition: async (document, position) => (await server.ask("textDocument/definition", at(document, position))).map(locationOf),
    }),
    languages.registerReferenceProvider(selector, {
      provideReferences: async (document, position) => (await server.ask("textDocument/references", at(document, position))).map(locationOf),
    }),
    languages.registerDocumentHighlightProvider(selector, {
      provideDocumentHighlights: async (document, position) =>
        (await server.ask("textDocument/documentHighlight", at(document, position))).map((it) => new vscode.DocumentHighlight(rangeOf(it.range))),
    }),
    languages.registerRenameProvider(selector, {
      provideRenameEdits: async (document, position, newName) => editOf(await server.ask("textDocument/rename", { ...at(document, position), newName })),
    }),
    languages.registerDocumentSymbolProvider(selector, {
      provideDocumentSymbols: async (document) => (await server.ask("textDocument/documentSymbol", at(document))).map(symbolOf),
    }),
    languages.registerCompletionItemProvider(selector, {
      provideCompletionItems: async (document, position) => (await server.ask("textDocument/completion", at(document, position))).map(offerOf),
    }, "("),
    languages.registerCodeActionsProvider(selector, {
      provideCodeActions: async (document, range, { diagnostics }) => {
        const params = { ...at(document), range, context: { diagnostics: diagnostics.map((it) => it.asked).filter(Boolean) } };
        return (await server.ask("textDocument/codeAction", params)).map((it) =>
          Object.assign(new vscode.CodeAction(it.title, vscode.CodeActionKind.QuickFix), { edit: editOf(it.edit) }));
      },
    }),
    vscode.debug.registerDebugAdapterDescriptorFactory("stack", {
      createDebugAdapterDescriptor: () => new vscode.DebugAdapterExecutable(stackPath(), ["editor", "adapter"]),
    }),
    vscode.debug.registerDebugConfigurationProvider("stack", {
      // Without a launch.json the source in front is run.
      resolveDebugConfiguration: (_, it) => (it.program ? it : { type: "stack", request: "launch", name: "Run this source", program: "${file}", ...it }),
    }),
  );
}

module.exports = { activate, deactivate() {} };
