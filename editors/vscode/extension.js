'use strict';
// Ringcheck in VS Code: what `ringcheck lsp` says of the open models, handed to VS Code's API. It needs no package and no
// build step.
const { execFile } = require('child_process');
const fs = require('fs');
const path = require('path');
const { pathToFileURL } = require('url');
const vscode = require('vscode');
const { Client } = require('./client');

const LANGUAGE = 'ringcheck';

// What this client takes; the server hears of it in `initialize`.
const CAPABILITIES = {
    general: { positionEncodings: ['utf-16'] },
    workspace: { executeCommand: {} },
    textDocument: {
        synchronization: { didSave: true },
        publishDiagnostics: { relatedInformation: true, codeDescriptionSupport: true, tagSupport: { valueSet: [1] } },
        hover: { contentFormat: ['markdown', 'plaintext'] },
        definition: {},
        references: {},
        documentHighlight: {},
        documentSymbol: { hierarchicalDocumentSymbolSupport: true },
        foldingRange: { lineFoldingOnly: true },
        completion: { completionItem: {} },
        rename: { prepareSupport: true },
        codeAction: { codeActionLiteralSupport: { codeActionKind: { valueSet: ['quickfix', 'refactor.rewrite'] } } },
        formatting: {},
    },
};

// The documents of Ringcheck, which diagnostics link to where this folder stands in its repository.
const DOCS = path.resolve(__dirname, '../../docs');

let client;
let diagnostics;
let output;

// ---- from the server's words to VS Code's, which counts its kinds from 0

function toRange({ start, end }) {
    return new vscode.Range(start.line, start.character, end.line, end.character);
}

function toLocation({ uri, range }) {
    return new vscode.Location(vscode.Uri.parse(uri), toRange(range));
}

function toDiagnostic(told) {
    const made = new vscode.Diagnostic(toRange(told.range), told.message, told.severity - 1);
    made.source = told.source;
    made.tags = told.tags;
    made.code = told.codeDescription
        ? { value: told.code, target: vscode.Uri.parse(told.codeDescription.href) }
        : told.code;
    made.relatedInformation = (told.relatedInformation || []).map(
        (one) => new vscode.DiagnosticRelatedInformation(toLocation(one.location), one.message),
    );
    return made;
}

function toText(contents) {
    const text = new vscode.MarkdownString();
    return contents.kind === 'markdown' ? text.appendMarkdown(contents.value) : text.appendCodeblock(contents.value, 'text');
}

function toTextEdits(edits) {
    return edits.map((edit) => vscode.TextEdit.replace(toRange(edit.range), edit.newText));
}

function toWorkspaceEdit(told) {
    const made = new vscode.WorkspaceEdit();
    for (const [uri, edits] of Object.entries(told.changes || {})) {
        made.set(vscode.Uri.parse(uri), toTextEdits(edits));
    }
    for (const { textDocument, edits } of told.documentChanges || []) {
        made.set(vscode.Uri.parse(textDocument.uri), toTextEdits(edits));
    }
    return made;
}

function toSymbol(told) {
    const made = new vscode.DocumentSymbol(
        told.name,
        told.detail || '',
        told.kind - 1,
        toRange(told.range),
        toRange(told.selectionRange),
    );
    made.children = (told.children || []).map(toSymbol);
    return made;
}

function toCompletion(told) {
    const made = new vscode.CompletionItem(told.label, told.kind - 1);
    made.detail = told.detail;
    made.insertText = told.insertText;
    if (told.textEdit) {
        made.range = toRange(told.textEdit.range);
        made.insertText = told.textEdit.newText;
    }
    return made;
}

function toCodeAction(told) {
    const kind = told.kind === 'quickfix' ? vscode.CodeActionKind.QuickFix : vscode.CodeActionKind.RefactorRewrite;
    const made = new vscode.CodeAction(told.title, kind);
    made.edit = told.edit && toWorkspaceEdit(told.edit);
    made.isPreferred = told.isPreferred;
    return made;
}

// ---- from VS Code's words to the server's

function document(of) {
    return { uri: of.uri.toString() };
}

function at(of, position) {
    return { textDocument: document(of), position: { line: position.line, character: position.character } };
}

function whole(of) {
    return { textDocument: document(of) };
}

// A request about a document, whose answer is made into VS Code's words. What the server refuses is no answer.
async function ask(method, params, token, made) {
    const answer = await client.request('textDocument/' + method, params, token).catch(() => null);
    return answer && made(answer);
}

function each(made) {
    return (answers) => answers.map(made);
}

// ---- what VS Code asks for

const HOVER = {
    provideHover: (of, position, token) =>
        ask('hover', at(of, position), token, (told) => new vscode.Hover(toText(told.contents), told.range && toRange(told.range))),
};

const DEFINITION = {
    provideDefinition: (of, position, token) => ask('definition', at(of, position), token, toLocation),
};

const REFERENCES = {
    provideReferences: (of, position, context, token) =>
        ask('references', { ...at(of, position), context }, token, each(toLocation)),
};

const HIGHLIGHTS = {
    provideDocumentHighlights: (of, position, token) =>
        ask('documentHighlight', at(of, position), token,
            each((told) => new vscode.DocumentHighlight(toRange(told.range), (told.kind || 1) - 1))),
};

const SYMBOLS = {
    provideDocumentSymbols: (of, token) => ask('documentSymbol', whole(of), token, each(toSymbol)),
};

const FOLDS = {
    provideFoldingRanges: (of, context, token) =>
        ask('foldingRange', whole(of), token,
            each((told) => new vscode.FoldingRange(told.startLine, told.endLine, told.kind === 'comment' ? 1 : undefined))),
};

const COMPLETION = {
    provideCompletionItems: (of, position, token) =>
        ask('completion', at(of, position), token, (told) => (told.items || told).map(toCompletion)),
};

// Here the server's refusal is shown: it says which name can't be.
const RENAME = {
    provideRenameEdits: async (of, position, newName, token) =>
        toWorkspaceEdit((await client.request('textDocument/rename', { ...at(of, position), newName }, token)) || {}),
    prepareRename: async (of, position, token) => {
        const told = await client.request('textDocument/prepareRename', at(of, position), token);
        if (!told) {
            throw new Error('nothing to rename');
        }
        return toRange(told.range || told);
    },
};

const ACTIONS = {
    provideCodeActions: async (of, range, context, token) => {
        const params = { textDocument: document(of), range: { start: range.start, end: range.end }, context: { diagnostics: [] } };
        return [...((await ask('codeAction', params, token, each(toCodeAction))) || []), ...drafting(of)];
    },
};

const FORMATTING = {
    provideDocumentFormattingEdits: (of, options, token) =>
        ask('formatting', { textDocument: document(of), options: { tabSize: options.tabSize, insertSpaces: options.insertSpaces } },
            token, toTextEdits),
};

function providers() {
    const files = { language: LANGUAGE };
    return [
        vscode.languages.registerHoverProvider(files, HOVER),
        vscode.languages.registerDefinitionProvider(files, DEFINITION),
        vscode.languages.registerReferenceProvider(files, REFERENCES),
        vscode.languages.registerDocumentHighlightProvider(files, HIGHLIGHTS),
        vscode.languages.registerDocumentSymbolProvider(files, SYMBOLS),
        vscode.languages.registerFoldingRangeProvider(files, FOLDS),
        vscode.languages.registerCompletionItemProvider(files, COMPLETION, ' ', ':'),
        vscode.languages.registerRenameProvider(files, RENAME),
        vscode.languages.registerCodeActionsProvider(files, ACTIONS),
        vscode.languages.registerDocumentFormattingEditProvider(files, FORMATTING),
    ];
}

// ---- the documents that are open

function open(of) {
    if (of.languageId === LANGUAGE) {
        const { version, languageId } = of;
        client.notify('textDocument/didOpen', { textDocument: { uri: of.uri.toString(), languageId, version, text: of.getText() } });
    }
}

function change({ document: of, contentChanges }) {
    if (of.languageId === LANGUAGE && contentChanges.length) {
        const textDocument = { uri: of.uri.toString(), version: of.version };
        client.notify('textDocument/didChange', { textDocument, contentChanges: [{ text: of.getText() }] });
    }
}

function save(of) {
    if (of.languageId === LANGUAGE) {
        client.notify('textDocument/didSave', whole(of));
    }
}

function close(of) {
    if (of.languageId === LANGUAGE) {
        client.notify('textDocument/didClose', whole(of));
    }
}

function follow() {
    vscode.workspace.textDocuments.forEach(open);
    return [
        vscode.workspace.onDidOpenTextDocument(open),
        vscode.workspace.onDidChangeTextDocument(change),
        vscode.workspace.onDidSaveTextDocument(save),
        vscode.workspace.onDidCloseTextDocument(close),
    ];
}

// ---- the run that shows the harm, or after which nothing can go on

async function search(name, none) {
    const editor = vscode.window.activeTextEditor;
    if (!editor || editor.document.languageId !== LANGUAGE) {
        return;
    }
    const command = { command: name, arguments: [editor.document.uri.toString()] };
    const told = await client.request('workspace/executeCommand', command);
    output.clear();
    output.appendLine(told.verdict);
    output.appendLine(typeof told.moves === 'string' ? `--moves ${told.moves}\n${told.trace}` : none);
    (told.threads || []).forEach((thread) => output.appendLine(`${thread.name} ${thread.says}`));
    output.show(true);
    if (told.picture) {
        const panel = vscode.window.createWebviewPanel('ringcheck', 'Ringcheck', vscode.ViewColumn.Beside, {});
        panel.webview.html = `<body style="background: white">${told.picture}</body>`;
    }
}

function find() {
    return search('ringcheck.find', 'no run into a fault was found');
}

function findStuck() {
    return search('ringcheck.findStuck', 'not stuck in 2000 walks');
}

// ---- drafts. The server opens no files, so the program itself is run.

function program() {
    return vscode.workspace.getConfiguration(LANGUAGE).get('path');
}

// The logs beside a document, if it is in a folder.
function logsBeside(of) {
    if (of.uri.scheme !== 'file') {
        return [];
    }
    const folder = path.dirname(of.uri.fsPath);
    return fs.readdirSync(folder).filter((name) => name.endsWith('.log')).map((name) => path.join(folder, name));
}

// The action that drafts a model from these logs, if there are any.
function drafting(of) {
    if (!logsBeside(of).length) {
        return [];
    }
    const made = new vscode.CodeAction('Draft from the logs beside this file', vscode.CodeActionKind.RefactorRewrite);
    made.command = { command: 'ringcheck.draft', title: made.title };
    return [made];
}

// Opens a model that is drafted from the logs beside the document, and says what comes out.
function draft() {
    const editor = vscode.window.activeTextEditor;
    const logs = editor ? logsBeside(editor.document) : [];
    if (!logs.length) {
        vscode.window.showErrorMessage('there is no .log beside this file');
        return;
    }
    execFile(program(), ['draft', ...logs], { maxBuffer: 2 ** 26 }, async (failed, text, told) => {
        output.clear();
        output.appendLine(told || String(failed));
        output.show(true);
        if (text) {
            await vscode.window.showTextDocument(await vscode.workspace.openTextDocument({ language: LANGUAGE, content: text }));
        }
    });
}

async function activate(context) {
    diagnostics = vscode.languages.createDiagnosticCollection(LANGUAGE);
    output = vscode.window.createOutputChannel('Ringcheck');
    const told = (method, params) => {
        if (method === 'textDocument/publishDiagnostics') {
            diagnostics.set(vscode.Uri.parse(params.uri), params.diagnostics.map(toDiagnostic));
        }
    };
    const ended = (why) => vscode.window.showErrorMessage(`${program()} lsp: ${why}`);
    client = new Client(program(), ['lsp'], told, ended);
    const initializationOptions = fs.existsSync(path.join(DOCS, 'causes.md')) ? { docs: pathToFileURL(DOCS).href } : {};
    await client.request('initialize', {
        processId: process.pid,
        rootUri: null,
        initializationOptions,
        capabilities: CAPABILITIES,
    });
    client.notify('initialized', {});
    const commands = Object.entries({ 'ringcheck.find': find, 'ringcheck.findStuck': findStuck, 'ringcheck.draft': draft });
    const made = commands.map(([name, call]) => vscode.commands.registerCommand(name, call));
    context.subscriptions.push(diagnostics, output, ...made, ...providers(), ...follow());
}

function deactivate() {
    return client && client.stop();
}

// `process` is for tests of this extension.
module.exports = { activate, deactivate, process: () => client.process };
