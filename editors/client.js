// The extension's client of `cycc lsp`: it starts the server, and asks it what VS Code asks. No library of others is needed.
const vscode = require('vscode');
const { spawn } = require('child_process');

const LANGUAGE = { language: 'cycc' };
const CAPABILITIES = { textDocument: { publishDiagnostics: { relatedInformation: true } } };

/** A server, and what was asked of it. */
class Server {
  constructor(command, onFaults) {
    this.asked = new Map();
    this.last = 0;
    this.bytes = Buffer.alloc(0);
    this.onFaults = onFaults;
    this.process = spawn(command, ['lsp']);
    this.process.stdout.on('data', (part) => this.received(part));
    this.process.on('error', () => vscode.window.showErrorMessage(`cycc: ${command} can't be started`));
    this.process.on('exit', () => this.asked.forEach((answer) => answer(null)));
  }

  write(message) {
    const body = Buffer.from(JSON.stringify({ jsonrpc: '2.0', ...message }));
    this.process.stdin.write(`Content-Length: ${body.length}\r\n\r\n`);
    this.process.stdin.write(body);
  }

  notify(method, params) {
    this.write({ method, params });
  }

  ask(method, params) {
    const id = ++this.last;
    this.write({ id, method, params });
    return new Promise((answer) => this.asked.set(id, answer));
  }

  received(part) {
    this.bytes = Buffer.concat([this.bytes, part]);
    for (;;) {
      const end = this.bytes.indexOf('\r\n\r\n');
      if (end < 0) return;
      const length = Number(/Content-Length: (\d+)/.exec(this.bytes.subarray(0, end).toString())[1]);
      if (this.bytes.length < end + 4 + length) return;
      const body = this.bytes.subarray(end + 4, end + 4 + length).toString();
      this.bytes = this.bytes.subarray(end + 4 + length);
      this.answered(JSON.parse(body));
    }
  }

  answered(message) {
    if (message.method === 'textDocument/publishDiagnostics') return this.onFaults(message.params);
    const answer = this.asked.get(message.id);
    this.asked.delete(message.id);
    if (answer) answer(message.error ? null : message.result);
  }
}

const range = (it) => new vscode.Range(it.start.line, it.start.character, it.end.line, it.end.character);
const location = (it) => new vscode.Location(vscode.Uri.parse(it.uri), range(it.range));

function diagnostic(it) {
  const found = new vscode.Diagnostic(range(it.range), it.message, it.severity - 1);
  found.code = it.code;
  found.source = it.source;
  found.relatedInformation = (it.relatedInformation || []).map((one) => new vscode.DiagnosticRelatedInformation(location(one.location), one.message));
  return found;
}

function symbol(it) {
  const found = new vscode.DocumentSymbol(it.name, '', it.kind - 1, range(it.range), range(it.selectionRange));
  found.children = (it.children || []).map(symbol);
  return found;
}

function completion(it) {
  const found = new vscode.CompletionItem(it.label, it.kind - 1);
  found.detail = it.detail;
  return found;
}

function signature(it) {
  const found = new vscode.SignatureHelp();
  found.signatures = it.signatures.map(({ label, parameters }) => {
    const made = new vscode.SignatureInformation(label);
    made.parameters = parameters.map((one) => new vscode.ParameterInformation(one.label));
    return made;
  });
  found.activeSignature = it.activeSignature;
  found.activeParameter = it.activeParameter;
  return found;
}

function edits(change) {
  const all = new vscode.WorkspaceEdit();
  for (const [uri, list] of Object.entries(change.changes)) {
    for (const it of list) all.replace(vscode.Uri.parse(uri), range(it.range), it.newText);
  }
  return all;
}

function action(it) {
  const found = new vscode.CodeAction(it.title, vscode.CodeActionKind.QuickFix);
  found.diagnostics = it.diagnostics.map(diagnostic);
  found.edit = edits(it.edit);
  return found;
}

/** What VS Code asks, and how the answers look there. */
function providers(server) {
  const about = (document) => ({ textDocument: { uri: document.uri.toString() } });
  const plain = (position) => ({ line: position.line, character: position.character });
  const at = (document, position) => ({ ...about(document), position: plain(position) });
  const ask = async (name, params, made) => {
    const found = await server.ask(`textDocument/${name}`, params);
    return found && made(found);
  };
  const list = (made) => (found) => found.map(made);
  const text = (it) => new vscode.Hover(new vscode.MarkdownString(it.contents.value));
  return {
    hover: { provideHover: (d, p) => ask('hover', at(d, p), text) },
    definition: { provideDefinition: (d, p) => ask('definition', at(d, p), location) },
    references: { provideReferences: (d, p, context) => ask('references', { ...at(d, p), context }, list(location)) },
    actions: { provideCodeActions: (d, r) => ask('codeAction', { ...about(d), range: { start: plain(r.start), end: plain(r.end) }, context: { diagnostics: [] } }, list(action)) },
    rename: { provideRenameEdits: (d, p, newName) => ask('rename', { ...at(d, p), newName }, edits) },
    completion: { provideCompletionItems: (d, p) => ask('completion', at(d, p), list(completion)) },
    signature: { provideSignatureHelp: (d, p) => ask('signatureHelp', at(d, p), signature) },
    layout: { provideDocumentFormattingEdits: (d) => ask('formatting', { ...about(d), options: {} }, list((it) => new vscode.TextEdit(range(it.range), it.newText))) },
    symbols: { provideDocumentSymbols: (d) => ask('documentSymbol', about(d), list(symbol)) },
    folds: { provideFoldingRanges: (d) => ask('foldingRange', about(d), list((it) => new vscode.FoldingRange(it.startLine, it.endLine))) },
  };
}

function register(context, server) {
  const made = providers(server);
  const { languages } = vscode;
  context.subscriptions.push(
    languages.registerHoverProvider(LANGUAGE, made.hover),
    languages.registerDefinitionProvider(LANGUAGE, made.definition),
    languages.registerReferenceProvider(LANGUAGE, made.references),
    languages.registerRenameProvider(LANGUAGE, made.rename),
    languages.registerCodeActionsProvider(LANGUAGE, made.actions),
    languages.registerCompletionItemProvider(LANGUAGE, made.completion, '.', '>', '`'),
    languages.registerSignatureHelpProvider(LANGUAGE, made.signature, '(', ','),
    languages.registerDocumentSymbolProvider(LANGUAGE, made.symbols),
    languages.registerDocumentFormattingEditProvider(LANGUAGE, made.layout),
    languages.registerFoldingRangeProvider(LANGUAGE, made.folds),
  );
}

/** Tells the server which texts are open, and how they change. */
function follow(context, server) {
  const { workspace } = vscode;
  const named = (document) => ({ uri: document.uri.toString(), version: document.version });
  const opened = (document) => {
    if (document.languageId !== LANGUAGE.language) return;
    server.notify('textDocument/didOpen', { textDocument: { ...named(document), languageId: 'cycc', text: document.getText() } });
  };
  const changed = ({ document, contentChanges }) => {
    if (document.languageId !== LANGUAGE.language) return;
    server.notify('textDocument/didChange', { textDocument: named(document), contentChanges: contentChanges.map(({ range, text }) => ({ range, text })) });
  };
  const closed = (document) => {
    if (document.languageId !== LANGUAGE.language) return;
    server.notify('textDocument/didClose', { textDocument: named(document) });
  };
  const saved = (document) => server.notify('textDocument/didSave', { textDocument: named(document) });
  context.subscriptions.push(
    workspace.onDidOpenTextDocument(opened),
    workspace.onDidChangeTextDocument(changed),
    workspace.onDidSaveTextDocument(saved),
    workspace.onDidCloseTextDocument(closed),
  );
  workspace.textDocuments.forEach(opened);
}

let server;

async function activate(context) {
  const shown = vscode.languages.createDiagnosticCollection('cycc');
  const command = vscode.workspace.getConfiguration('cycc').get('command') || 'cycc';
  server = new Server(command, ({ uri, diagnostics }) => shown.set(vscode.Uri.parse(uri), diagnostics.map(diagnostic)));
  context.subscriptions.push(shown);
  await server.ask('initialize', { processId: process.pid, rootUri: null, capabilities: CAPABILITIES });
  server.notify('initialized', {});
  register(context, server);
  follow(context, server);
}

async function deactivate() {
  if (!server) return;
  await server.ask('shutdown', null);
  server.notify('exit', null);
}

module.exports = { activate, deactivate };
