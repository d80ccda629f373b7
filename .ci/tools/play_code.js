"use strict";
// Plays VS Code for the extension in editor/code: opens a text with a misspelt name, and prints what the extension shows of it, in lines; and which colours
// its grammars give to a line of each language.
//     node play_code.js EXTENSION STACK FOLDER
const fs = require("fs");
const Module = require("module");
const path = require("path");

const [extension, stack, folder] = process.argv.slice(2).map((it) => path.resolve(it));
const text = "(program main\n(proc main ((x integer)) () () ()\n(mg-integer-ad x x x)))\n";
const right = text.replace("-ad ", "-add ");
const file = path.join(folder, "played.gypsy");
fs.writeFileSync(file, text);
const uri = { scheme: "file", toString: () => `file://${file}` };
const document = { uri, languageId: "gypsy", version: 1, getText: () => text };
const providers = {}, listeners = {}, factories = {};
const keep = (name) => (_, provider) => (providers[name] = provider);
const listen = (name) => (act) => (listeners[name] = act);
class Plain {
  constructor(...parts) {
    this.parts = parts;
  }
}
const say = (...parts) => console.log(...parts);

let shown = 0;
const vscode = {
  workspace: {
    getConfiguration: () => ({ get: () => stack }), textDocuments: [document], onDidOpenTextDocument: listen("open"), onDidChangeTextDocument: listen("change"),
    onDidCloseTextDocument: listen("close"),
  },
  window: { showErrorMessage: (it) => say("error", it), showWarningMessage: (it) => say("warning", it) },
  Uri: { parse: (it) => it },
  languages: {
    createDiagnosticCollection: () => ({ set: (_, found) => showFound(found) }), registerHoverProvider: keep("hover"), registerDefinitionProvider: keep("definition"),
    registerReferenceProvider: keep("references"), registerDocumentHighlightProvider: keep("highlights"), registerRenameProvider: keep("rename"),
    registerDocumentSymbolProvider: keep("symbols"), registerCompletionItemProvider: keep("completion"), registerCodeActionsProvider: keep("actions"),
  },
  debug: {
    registerDebugAdapterDescriptorFactory: (_, it) => (factories.adapter = it), registerDebugConfigurationProvider: (_, it) => (factories.configuration = it),
  },
  Range: Plain, Location: Plain, Hover: Plain, MarkdownString: Plain, DocumentSymbol: Plain, SnippetString: Plain, CompletionItem: Plain, DocumentHighlight: Plain,
  Diagnostic: Plain, DebugAdapterExecutable: Plain, CodeAction: Plain, CodeActionKind: { QuickFix: "quickfix" },
  WorkspaceEdit: class {
    constructor() {
      this.made = [];
    }

    replace(...parts) {
      this.made.push(parts);
    }
  },
};
const load = Module._load;
Module._load = (name, ...rest) => (name === "vscode" ? vscode : load(name, ...rest));

// The parts of a line with their scopes, as a grammar without nested rules gives them: the first rule that matches first.
const coloursOf = (language, line) => {
  const { patterns } = JSON.parse(fs.readFileSync(path.join(extension, `syntaxes/${language}.tmLanguage.json`)));
  const found = [];
  for (let at = 0; at < line.length; ) {
    const matches = patterns.map((rule) => {
      const pattern = new RegExp(rule.match, "g");
      pattern.lastIndex = at;
      return [rule, pattern.exec(line)];
    }).filter(([, match]) => match?.[0]);
    if (matches.length === 0) break;
    const [rule, match] = matches.reduce((one, other) => (other[1].index < one[1].index ? other : one));
    const parts = rule.captures ? Object.entries(rule.captures).map(([n, { name }]) => [match[n], name]) : [[match[0], rule.name]];
    found.push(...parts.filter(([text]) => text).map(([text, name]) => `${text}:${name.split(".")[0]}`));
    at = match.index + match[0].length;
  }
  return found.join(" ");
};
for (const [language, line] of [
  ["gypsy", "(begin (mg-integer-add x x one) (routineerror) (signal c)) ; if"], ["gypsy", "(proc loop ((b boolean)) () ((c character #65)) () (no-op))"],
  ["piton", "(dl L1 () (test-int-and-jump not-neg L2)) (push-constant (int -7))"], ["mini", "while not (x1 <= 20) { y := -y; }"],
  ["fm9001", "a: SUB{z} r3,(r15)+ ; r1"], ["stackvalues", "((x -7) (b true))"],
]) say(`${language}  ${coloursOf(language, line)}`);

const showFound = async (found) => {
  shown += 1;
  say("found", found.map((it) => it.code.value).join(" ") || "nothing");
  if (shown === 1) {
    const [action] = await providers.actions.provideCodeActions(document, null, { diagnostics: found });
    say("action", action.parts[0], action.edit.made[0][2]);
    listeners.change({ document: { ...document, version: 2, getText: () => right } });
    return;
  }
  const changed = { ...document, getText: () => right }, at = (word) => {
    const line = right.split("\n").findIndex((it) => it.includes(word));
    return { line, character: right.split("\n")[line].indexOf(word) };
  };
  const hover = await providers.hover.provideHover(changed, at("mg-integer"));
  say("hover", hover.parts[0].parts[0].split("\n")[0]);
  say("definition", (await providers.definition.provideDefinition(changed, at("x x x")))[0].parts[1].parts.join(" "));
  say("references", (await providers.references.provideReferences(changed, at("x x x"))).length);
  say("highlights", (await providers.highlights.provideDocumentHighlights(changed, at("x x x"))).length);
  say("rename", (await providers.rename.provideRenameEdits(changed, at("x x x"), "y")).made.length);
  say("symbols", (await providers.symbols.provideDocumentSymbols(changed)).map((it) => it.parts[0]).join(" "));
  const offers = await providers.completion.provideCompletionItems(changed, at("mg-integer"));
  say("completion", offers.find((it) => it.parts[0] === "mg-integer-add").insertText.parts[0]);
  say("adapter", factories.adapter.createDebugAdapterDescriptor().parts[1].join(" "));
  say("configuration", factories.configuration.resolveDebugConfiguration(null, {}).program);
  process.exit(0);
};

const context = { subscriptions: [] };
require(path.join(extension, "extension.js")).activate(context);
setTimeout(() => process.exit(1), 20000);
