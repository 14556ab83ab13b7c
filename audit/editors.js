'use strict';
// The steps of audit/editors in the extension of VS Code, with a stand-in for VS Code's API: `node` this file, in a folder
// with early.rc, keeps.rc and fixed.rc. It prints a line for each step, and how many there were.
const assert = require('assert');
const fs = require('fs');
const Module = require('module');
const path = require('path');

// How long something may take to come, in milliseconds.
const PATIENCE = 5000;

let passed = 0;
let failed = 0;

async function step(name, call) {
    try {
        await call();
        passed += 1;
        console.log(`vscode: ${name}`);
    } catch (why) {
        failed += 1;
        console.log(`vscode: ${name}: FAILED: ${why.message}`);
    }
}

async function until(what, call) {
    for (const end = Date.now() + PATIENCE; Date.now() < end; ) {
        const found = call();
        if (found) {
            return found;
        }
        await new Promise((resolve) => setTimeout(resolve, 5));
    }
    throw new Error(`${what} doesn't come`);
}

// ---- the stand-in: what the extension uses of VS Code's API

class Position {
    constructor(line, character) {
        Object.assign(this, { line, character });
    }
}

class Range {
    constructor(line, character, lastLine, lastCharacter) {
        this.start = new Position(line, character);
        this.end = new Position(lastLine, lastCharacter);
    }
}

class WorkspaceEdit {
    set(uri, edits) {
        this.edits = edits;
    }
}

class MarkdownString {
    appendMarkdown(value) {
        return Object.assign(this, { value });
    }

    appendCodeblock(value) {
        return this.appendMarkdown(value);
    }
}

// A class that keeps what it is made with, by these names.
function record(...names) {
    return class {
        constructor(...values) {
            names.forEach((name, at) => (this[name] = values[at]));
        }
    };
}

const providers = {};
const listeners = {};
const published = new Map();
const shown = [];
const documents = [];

function registered(name) {
    return (files, provider) => (providers[name] = provider) && { dispose() {} };
}

function listened(name) {
    return (listener) => (listeners[name] = listener) && { dispose() {} };
}

const vscode = {
    Position,
    Range,
    WorkspaceEdit,
    MarkdownString,
    Location: record('uri', 'range'),
    Diagnostic: record('range', 'message', 'severity'),
    DiagnosticRelatedInformation: record('location', 'message'),
    Hover: record('contents', 'range'),
    DocumentHighlight: record('range', 'kind'),
    DocumentSymbol: record('name', 'detail', 'kind', 'range', 'selectionRange'),
    FoldingRange: record('start', 'end', 'kind'),
    CompletionItem: record('label', 'kind'),
    CodeAction: record('title', 'kind'),
    CodeActionKind: { QuickFix: 'quickfix', RefactorRewrite: 'refactor.rewrite' },
    TextEdit: { replace: (range, newText) => ({ range, newText }) },
    ViewColumn: { Beside: -2 },
    Uri: { parse: (text) => ({ toString: () => text }) },
    languages: {
        createDiagnosticCollection: () => ({ set: (uri, all) => published.set(uri.toString(), all), dispose() {} }),
        registerHoverProvider: registered('hover'),
        registerDefinitionProvider: registered('definition'),
        registerReferenceProvider: registered('references'),
        registerDocumentHighlightProvider: registered('highlights'),
        registerDocumentSymbolProvider: registered('symbols'),
        registerFoldingRangeProvider: registered('folds'),
        registerCompletionItemProvider: registered('completion'),
        registerRenameProvider: registered('rename'),
        registerCodeActionsProvider: registered('actions'),
        registerDocumentFormattingEditProvider: registered('formatting'),
    },
    workspace: {
        textDocuments: documents,
        getConfiguration: () => ({ get: () => 'ringcheck' }),
        onDidOpenTextDocument: listened('open'),
        onDidChangeTextDocument: listened('change'),
        onDidSaveTextDocument: listened('save'),
        onDidCloseTextDocument: listened('close'),
    },
    window: {
        createOutputChannel: () => ({ clear() {}, appendLine: (line) => shown.push(line), show() {}, dispose() {} }),
        createWebviewPanel: () => ({ webview: { set html(text) { shown.push(text); } } }),
        showErrorMessage: (text) => shown.push(text),
    },
    commands: { registerCommand: (name, call) => (providers[name] = call) && { dispose() {} } },
};

const load = Module._load;
Module._load = (name, ...rest) => (name === 'vscode' ? vscode : load(name, ...rest));
const extension = require('../editors/vscode/extension.js');

// ---- documents as VS Code has them

class TextDocument {
    constructor(name) {
        this.uri = vscode.Uri.parse(`file://${path.resolve(name)}`);
        this.languageId = 'ringcheck';
        this.version = 1;
        this.text = fs.readFileSync(name, 'utf8');
    }

    getText() {
        return this.text;
    }

    line(number) {
        return this.text.split('\n')[number - 1];
    }

    setText(text) {
        this.text = text;
        this.version += 1;
        listeners.change({ document: this, contentChanges: [{ text }] });
    }

    setLine(number, line) {
        const lines = this.text.split('\n');
        lines[number - 1] = line;
        this.setText(lines.join('\n'));
    }

    // Applies edits that don't overlap, last one first.
    apply(edits) {
        const lengths = this.text.split('\n').map((line) => line.length + 1);
        const place = ({ line, character }) => lengths.slice(0, line).reduce((a, b) => a + b, 0) + character;
        const ordered = edits.map(({ range, newText }) => [place(range.start), place(range.end), newText]);
        ordered.sort((a, b) => b[0] - a[0]);
        this.setText(ordered.reduce((text, [from, to, put]) => text.slice(0, from) + put + text.slice(to), this.text));
    }

    errorAt(line) {
        return until(`an error at line ${line}`, () => {
            const errors = (published.get(this.uri.toString()) || []).filter((one) => one.severity === 0);
            return errors.length === 1 && errors[0].range.start.line === line - 1 && errors[0];
        });
    }

    noError() {
        return until('a text without errors', () => {
            const all = published.get(this.uri.toString());
            return all && all.every((one) => one.severity !== 0);
        });
    }
}

function opened(name) {
    const document = new TextDocument(name);
    documents.push(document);
    listeners.open(document);
    return document;
}

function lines(locations) {
    return locations.map((one) => (one.range || one).start.line + 1);
}

async function act(document, line, word) {
    const actions = await providers.actions.provideCodeActions(document, new Range(line - 1, 0, line - 1, 0), {});
    const action = actions.find(({ title }) => title.toLowerCase().includes(word));
    assert(action, `no action has the word ${word}: ${actions.map(({ title }) => title)}`);
    document.apply(action.edit.edits);
}

// ---- the steps

async function ofRefused(document) {
    const at = (line, character) => new Position(line - 1, character);
    await step('a diagnostic comes, at its line, with its cause and a link', async () => {
        const error = await document.errorAt(18);
        assert.strictEqual(String(error.code.value), 'V8');
        assert(error.code.target.toString().includes('docs/causes.md'), String(error.code.target));
        assert(error.message.includes('asks for 1 share of a; held: 0'), error.message);
        assert(error.message.includes('Reap request 7 first'), error.message);
        assert.deepStrictEqual(lines(error.relatedInformation.map(({ location }) => location)), [9]);
    });
    await step('hover says what is known before the line, and the manual page of the call', async () => {
        const { contents } = await providers.hover.provideHover(document, at(9, 2));
        for (const part of ['a:1 t:7', 'entry vacant', 'io_uring_prep_read(3)']) {
            assert(contents.value.includes(part), contents.value);
        }
    });
    await step('the definition of a token is its declaration', async () => {
        assert.deepStrictEqual(lines([await providers.definition.provideDefinition(document, at(24, 5))]), [5]);
    });
    await step('the references of a buffer are all lines that name it', async () => {
        const context = { includeDeclaration: true };
        const found = await providers.references.provideReferences(document, at(4, 7), context);
        assert.deepStrictEqual(lines(found), [4, 5, 6, 9, 18, 35]);
        assert.strictEqual((await providers.highlights.provideDocumentHighlights(document, at(4, 7))).length, 6);
    });
    await step('threads are symbols, and blocks fold', async () => {
        const names = (await providers.symbols.provideDocumentSymbols(document)).map(({ name }) => name);
        assert(names.includes('thread t0') && names.includes('thread t1'), names.join());
        const first = (await providers.folds.provideFoldingRanges(document, {})).map(({ start }) => start);
        assert(first.includes(5) && first.includes(6), first.join());
    });
    await step('completion has the calls that may stand on the line', async () => {
        document.setLine(8, 'get');
        const items = await providers.completion.provideCompletionItems(document, at(8, 3));
        assert(items.some(({ insertText, label }) => /^get_sqe/.test(insertText || label)), JSON.stringify(items));
        document.setLine(8, 'get_sqe');
        await document.errorAt(18);
    });
    await step('rename changes each place of the name, and refuses a word that is none', async () => {
        document.apply((await providers.rename.provideRenameEdits(document, at(9, 12), 'page')).edits);
        assert.deepStrictEqual([4, 6, 9, 18].map((line) => document.line(line)),
            ['buffer page 16 1', 'thread t0 holds page:1 t:7 c:1 {', 'prep_read 3 page 16 0', 'v = load page 0']);
        await assert.rejects(providers.rename.provideRenameEdits(document, at(9, 12), 'no name'));
        await document.errorAt(18);
    });
    await step('formatting indents by blocks', async () => {
        document.apply(await providers.formatting.provideDocumentFormattingEdits(document, { tabSize: 4, insertSpaces: true }));
        assert.deepStrictEqual([7, 8, 17, 19].map((line) => document.line(line)), ['    lock {', '        get_sqe', '    }', '}']);
        await document.errorAt(18);
    });
    await step('the run that shows the harm is found, with its picture', async () => {
        vscode.window.activeTextEditor = { document };
        await providers['ringcheck.find']();
        const all = shown.join('\n');
        for (const part of ['--moves t0*9', 'fault F2 ReadOfFilling t0 line 18', '<svg']) {
            assert(all.includes(part), all);
        }
    });
}

async function main() {
    const context = { subscriptions: [] };
    await step('the extension starts the server', () => extension.activate(context));
    await ofRefused(opened('early.rc'));
    await step('a code action fills in the list of a loop', async () => {
        const document = opened('keeps.rc');
        await document.noError();
        await act(document, 5, 'this loop');
        assert.strictEqual(document.line(5), 'loop keeps a:1 {');
    });
    await step('a code action fixes the line that is at fault', async () => {
        const document = opened('fixed.rc');
        await document.errorAt(6);
        await act(document, 6, 'fill in the lists');
        assert.strictEqual(document.line(5), 'loop keeps a:1 {');
        await document.noError();
    });
    await step('a document that is closed has no diagnostics', async () => {
        listeners.close(documents[0]);
        await until('no diagnostics', () => published.get(documents[0].uri.toString()).length === 0);
    });
    await step('the server ends with status 0', async () => {
        const process = extension.process();
        const ended = new Promise((resolve) => process.on('close', resolve));
        await extension.deactivate();
        assert.strictEqual(await ended, 0);
        assert(!shown.some((line) => line.startsWith('ringcheck lsp:')), shown.join('\n'));
    });
    console.log(`vscode: ${passed} passed, ${failed} failed`);
}

main();
