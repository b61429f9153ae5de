// What the extension of VS Code does with cycc's server, over a small stand-in for VS Code itself: run by editors/test with $FILE and $CYCC.
const assert = require('assert');
const fs = require('fs');
const Module = require('module');

const shown = new Map();
const made = {};
const listeners = {};
const text = { value: fs.readFileSync(process.env.FILE, 'utf8') };
const uri = { toString: () => 'file:///test.cyc' };
const document = { languageId: 'cycc', uri, version: 1, getText: () => text.value };
const remember = (name) => (...given) => { made[name] = given[1]; return {}; };
const listen = (name) => (call) => { listeners[name] = call; return {}; };

class Plain { constructor(...given) { Object.assign(this, { given }); } }
class Edits { constructor() { this.list = []; } replace(where, range, newText) { this.list.push({ range, newText }); } }
const vscode = {
  Range: class { constructor(a, b, c, d) { Object.assign(this, { start: { line: a, character: b }, end: { line: c, character: d } }); } },
  Location: class { constructor(where, range) { Object.assign(this, { where, range }); } },
  Hover: class { constructor(value) { this.value = value; } },
  MarkdownString: class { constructor(value) { this.value = value; } },
  Diagnostic: class { constructor(range, message, severity) { Object.assign(this, { range, message, severity }); } },
  DiagnosticRelatedInformation: class { constructor(where, message) { Object.assign(this, { where, message }); } },
  CompletionItem: class { constructor(label) { this.label = label; } },
  DocumentSymbol: class { constructor(name) { this.name = name; } },
  FoldingRange: Plain,
  TextEdit: class { constructor(where, newText) { Object.assign(this, { newText }); } },
  WorkspaceEdit: Edits,
  SignatureHelp: Plain,
  SignatureInformation: class { constructor(label) { this.label = label; } },
  ParameterInformation: class { constructor(label) { this.label = label; } },
  CodeAction: class { constructor(title) { this.title = title; } },
  CodeActionKind: { QuickFix: 'quickfix' },
  Uri: { parse: (it) => it },
  window: { showErrorMessage: (words) => { throw new Error(words); } },
  languages: {
    createDiagnosticCollection: () => ({ set: (where, list) => shown.set(where, list) }),
    registerHoverProvider: remember('hover'),
    registerDefinitionProvider: remember('definition'),
    registerReferenceProvider: remember('references'),
    registerRenameProvider: remember('rename'),
    registerCodeActionsProvider: remember('actions'),
    registerCompletionItemProvider: remember('completion'),
    registerSignatureHelpProvider: remember('signature'),
    registerDocumentSymbolProvider: remember('symbols'),
    registerFoldingRangeProvider: remember('folds'),
    registerDocumentFormattingEditProvider: remember('layout'),
  },
  workspace: {
    getConfiguration: () => ({ get: () => process.env.CYCC }),
    onDidOpenTextDocument: listen('open'),
    onDidChangeTextDocument: listen('change'),
    onDidSaveTextDocument: listen('save'),
    onDidCloseTextDocument: listen('close'),
    textDocuments: [document],
  },
};
const load = Module._load;
Module._load = (name, ...rest) => (name === 'vscode' ? vscode : load(name, ...rest));
const client = require('../client.js');

async function until(words, test) {
  for (let tries = 0; tries < 400; tries++) {
    if (test()) return;
    await new Promise((go) => setTimeout(go, 50));
  }
  throw new Error(words);
}

async function main() {
  await client.activate({ subscriptions: [] });
  const faults = () => shown.get('file:///test.cyc') || [];
  await until('no fault appeared', () => faults().length === 1 && faults()[0].code === 'Name');
  document.version = 2;
  const range = { start: { line: 5, character: 11 }, end: { line: 5, character: 16 } };
  const [offered] = await made.actions.provideCodeActions(document, range);
  assert.strictEqual(offered.title, 'Write `total`');
  assert.deepStrictEqual(offered.edit.list.map((it) => it.newText), ['total']);
  listeners.change({ document, contentChanges: [{ range, text: 'total' }] });
  await until('the fault did not go', () => faults().length === 0);
  const at = { line: 5, character: 12 };
  assert.strictEqual((await made.definition.provideDefinition(document, at)).range.start.line, 4);
  assert.match((await made.hover.provideHover(document, at)).value.value, /int total/);
  assert.strictEqual((await made.rename.provideRenameEdits(document, at, 'sum')).list.length, 2);
  assert.strictEqual((await made.references.provideReferences(document, at, { includeDeclaration: false })).length, 1);
  const members = await made.completion.provideCompletionItems(document, { line: 5, character: 22 });
  assert.deepStrictEqual(members.map((it) => it.label), ['x', 'next']);
  const help = await made.signature.provideSignatureHelp(document, { line: 3, character: 41 });
  assert.strictEqual(help.signatures[0].label, 'int step(int n)');
  assert.strictEqual((await made.symbols.provideDocumentSymbols(document)).length, 3);
  assert.strictEqual((await made.folds.provideFoldingRanges(document)).length, 1);
  const twice = 'int main() { int n; int n; return 0; }\n';
  document.version = 3;
  listeners.change({ document, contentChanges: [{ text: twice }] });
  await until('no fault appeared of a name declared twice', () => faults().length === 1);
  const [place] = faults()[0].relatedInformation;
  assert.deepStrictEqual([place.where.where, place.where.range.start, place.message], ['file:///test.cyc', { line: 0, character: 17 }, 'declared here: n']);
  document.version = 4;
  listeners.change({ document, contentChanges: [{ text: text.value.replace('tot_l', 'total') }] });
  await until('the fault did not go', () => faults().length === 0);
  const [laid] = await made.layout.provideDocumentFormattingEdits(document);
  assert.match(laid.newText, /;\n\}\n$/);
  listeners.save(document);
  listeners.close(document);
  await client.deactivate();
  console.log('vscode: faults, definition, hover, cure, rename, references, completion, signature, symbols, folding, layout and a related place were seen');
}

main().then(() => process.exit(0), (error) => { console.error(`vscode: ${error.message}`); process.exit(1); });
