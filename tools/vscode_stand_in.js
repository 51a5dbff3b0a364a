// A stand-in for the module `vscode`: what the extension uses of it, with the meaning that the documentation of VS Code's interface gives it.
// Beside that it has `editor`, by which tools/vscode_checks.js does what a user does, and sees what the user would see.
"use strict";

class Position {
  constructor(line, character) {
    if (!(line >= 0 && character >= 0)) throw new Error(`no position: ${line}, ${character}`);
    Object.assign(this, { line, character });
  }

  isBefore(other) {
    return this.line < other.line || (this.line === other.line && this.character < other.character);
  }
}

// Its ends are swapped where the first is not before the second.
class Range {
  constructor(...ends) {
    const [start, end] = ends.length === 4 ? [new Position(ends[0], ends[1]), new Position(ends[2], ends[3])] : ends;
    [this.start, this.end] = end.isBefore(start) ? [end, start] : [start, end];
  }

  get isEmpty() {
    return !this.start.isBefore(this.end);
  }

  contains(other) {
    return !other.start.isBefore(this.start) && !this.end.isBefore(other.end);
  }
}

// A name of a document. The text is spelled as VS Code spells it: all but a few characters of the path are bytes of UTF-8 in hexadecimal.
class Uri {
  constructor(scheme, path) {
    Object.assign(this, { scheme, path });
  }

  static parse(text) {
    const [, scheme, path] = /^([a-z]+):(?:\/\/)?(.*)$/.exec(text);
    return new Uri(scheme, decodeURIComponent(path));
  }

  static file(path) {
    return new Uri("file", path);
  }

  toString() {
    return `${this.scheme}:${this.path.startsWith("/") ? "//" : ""}${this.path.split("/").map(encodeURIComponent).join("/")}`;
  }
}

class Location {
  constructor(uri, range) {
    Object.assign(this, { uri, range });
  }
}

class Disposable {
  constructor(dispose) {
    this.dispose = () => {
      dispose();
      dispose = () => {};
    };
  }
}

class EventEmitter {
  constructor() {
    this.listeners = new Set();
    this.event = (listener) => {
      this.listeners.add(listener);
      return new Disposable(() => this.listeners.delete(listener));
    };
  }

  fire(event) {
    for (const listener of [...this.listeners]) listener(event);
  }
}

// Lines end as the first one does. A text that is put in gets the same line ends.
class TextDocument {
  constructor(uri, languageId, text) {
    Object.assign(this, { uri, languageId, version: 1, isClosed: false, eol: text.includes("\r\n") ? "\r\n" : "\n" });
    this.text = this.withLineEnds(text);
  }

  withLineEnds(text) {
    return text.replace(/\r\n|\r|\n/g, this.eol);
  }

  getText() {
    return this.text;
  }

  get lineCount() {
    return this.text.split(this.eol).length;
  }

  offsetAt({ line, character }) {
    const lines = this.text.split(this.eol);
    if (line >= lines.length) return this.text.length;
    return lines.slice(0, line).join(this.eol).length + (line > 0 ? this.eol.length : 0) + Math.min(character, lines[line].length);
  }

  positionAt(offset) {
    const lines = this.text.slice(0, offset).split(this.eol);
    return new Position(lines.length - 1, lines.at(-1).length);
  }
}

class Diagnostic {
  constructor(range, message, severity = 0) {
    Object.assign(this, { range, message, severity });
  }
}

class DiagnosticRelatedInformation {
  constructor(where, message) {
    Object.assign(this, { location: where, message });
  }
}

// What it is given is kept until other diagnostics of the document take its place.
class DiagnosticCollection {
  constructor(name) {
    this.name = name;
    this.kept = new Map();
    this.sets = 0;
  }

  set(uri, diagnostics) {
    this.sets += 1;
    if (diagnostics === undefined) this.delete(uri);
    else this.kept.set(uri.toString(), [...diagnostics]);
  }

  get(uri) {
    return this.kept.get(uri.toString());
  }

  delete(uri) {
    this.kept.delete(uri.toString());
  }

  clear() {
    this.kept.clear();
  }

  dispose() {
    this.clear();
  }
}

class MarkdownString {
  constructor(value = "") {
    this.value = value;
  }

  appendCodeblock(code, language = "") {
    this.value += `\n\`\`\`${language}\n${code}\n\`\`\`\n`;
    return this;
  }
}

class Hover {
  constructor(contents, range) {
    Object.assign(this, { contents: Array.isArray(contents) ? contents : [contents], range });
  }
}

class DocumentHighlight {
  constructor(range, kind = 0) {
    Object.assign(this, { range, kind });
  }
}

class DocumentSymbol {
  constructor(name, detail, kind, range, selectionRange) {
    if (!name) throw new Error("name must not be falsy");
    if (!range.contains(selectionRange)) throw new Error("selectionRange must be contained in fullRange");
    Object.assign(this, { name, detail, kind, range, selectionRange, children: [] });
  }
}

class TextEdit {
  constructor(range, newText) {
    Object.assign(this, { range, newText });
  }
}

class WorkspaceEdit {
  constructor() {
    this.edits = new Map();
  }

  set(uri, edits) {
    this.edits.set(uri.toString(), [uri, edits]);
  }

  entries() {
    return [...this.edits.values()];
  }
}

class CompletionItem {
  constructor(label, kind) {
    Object.assign(this, { label, kind });
  }
}

class SignatureHelp {
  constructor() {
    Object.assign(this, { signatures: [], activeSignature: 0, activeParameter: 0 });
  }
}

class SignatureInformation {
  constructor(label, documentation) {
    Object.assign(this, { label, documentation, parameters: [] });
  }
}

class ParameterInformation {
  constructor(label, documentation) {
    Object.assign(this, { label, documentation });
  }
}

class SemanticTokensLegend {
  constructor(tokenTypes, tokenModifiers = []) {
    Object.assign(this, { tokenTypes, tokenModifiers });
  }
}

class SemanticTokens {
  constructor(data, resultId) {
    if (!(data instanceof Uint32Array)) throw new Error("tokens are a Uint32Array");
    Object.assign(this, { data, resultId });
  }
}

class InlayHint {
  constructor(position, label, kind) {
    Object.assign(this, { position, label, kind });
  }
}

class FoldingRange {
  constructor(start, end, kind) {
    Object.assign(this, { start, end, kind });
  }
}

class CodeActionKind {
  constructor(value) {
    this.value = value;
  }

  append(parts) {
    return new CodeActionKind(this.value ? `${this.value}.${parts}` : parts);
  }

  contains(other) {
    return this.value === "" || other.value === this.value || other.value.startsWith(`${this.value}.`);
  }
}
CodeActionKind.Empty = new CodeActionKind("");
CodeActionKind.QuickFix = new CodeActionKind("quickfix");
CodeActionKind.Refactor = new CodeActionKind("refactor");

class CodeAction {
  constructor(title, kind) {
    Object.assign(this, { title, kind });
  }
}

// Those members that the checks name. (VS Code API: DiagnosticSeverity, SymbolKind, CompletionItemKind)
const DiagnosticSeverity = { Error: 0, Warning: 1, Information: 2, Hint: 3 };
const SymbolKind = { Function: 11, Constant: 13 };
const CompletionItemKind = { Function: 2, Variable: 5, Module: 8, Keyword: 13, Constant: 20, Operator: 23 };

const opened = new EventEmitter();
const changed = new EventEmitter();
const closed = new EventEmitter();

const editor = {
  documents: [],
  settings: {},
  // The collection of diagnostics, the providers by what they provide, the lines of the output, and the messages, each with what answers it.
  diagnostics: undefined,
  providers: {},
  output: [],
  messages: [],

  open(uri, text, languageId = "riscv") {
    const document = new TextDocument(uri, languageId, text);
    this.documents.push(document);
    opened.fire(document);
    return document;
  },

  close(document) {
    this.documents = this.documents.filter((other) => other !== document);
    document.isClosed = true;
    closed.fire(document);
  },

  // Another language is the end of the document and the beginning of one.
  setLanguage(document, languageId) {
    closed.fire(document);
    document.languageId = languageId;
    opened.fire(document);
  },

  // Puts texts in the place of ranges, all of which count in the text before the edit. The event lists the last place first.
  edit(document, ...edits) {
    const spans = edits.map(([range, text]) => {
      const rangeOffset = document.offsetAt(range.start);
      return { range, rangeOffset, rangeLength: document.offsetAt(range.end) - rangeOffset, text: document.withLineEnds(text) };
    });
    const contentChanges = spans.sort((a, b) => b.rangeOffset - a.rangeOffset);
    for (const { rangeOffset, rangeLength, text } of contentChanges) {
      document.text = document.text.slice(0, rangeOffset) + text + document.text.slice(rangeOffset + rangeLength);
    }
    document.version += 1;
    changed.fire({ document, contentChanges });
  },

  // Makes the edits of a WorkspaceEdit.
  apply(workspaceEdit) {
    for (const [uri, edits] of workspaceEdit.entries()) {
      const document = this.documents.find((other) => other.uri.toString() === uri.toString());
      this.edit(document, ...edits.map(({ range, newText }) => [range, newText]));
    }
  },

  store(document) {
    changed.fire({ document, contentChanges: [] });
  },

  // Asks the provider of a document, as `ask("Hover", "provideHover", document, ..)`. A token by which VS Code cancels comes after the rest.
  async ask(what, method, document, ...rest) {
    const found = (this.providers[what] ?? []).find(({ selector }) => languages.match(selector, document) > 0);
    return found?.provider[method](document, ...rest, { isCancellationRequested: false });
  },

  // Waits for the diagnostics of all changes so far: an answer to a question that is asked now comes after them.
  settled(document) {
    return this.ask("FoldingRange", "provideFoldingRanges", document, {});
  },

  // What the user sees where a provider of other names refuses: the message of the Error.
  async rename(document, position, newName) {
    try {
      await this.ask("Rename", "prepareRename", document, position);
      this.apply(await this.ask("Rename", "provideRenameEdits", document, position, newName));
      return undefined;
    } catch (refused) {
      if (!(refused instanceof Error)) throw new Error("no Error");
      return refused.message;
    }
  },
};

function register(what, selector, provider, more) {
  const entry = { selector, provider, more };
  (editor.providers[what] ??= []).push(entry);
  return new Disposable(() => {
    editor.providers[what] = editor.providers[what].filter((other) => other !== entry);
  });
}

const languages = {
  createDiagnosticCollection(name) {
    editor.diagnostics = new DiagnosticCollection(name);
    return editor.diagnostics;
  },
  match: (selector, { uri, languageId }) => (selector.some(({ scheme, language }) => scheme === uri.scheme && language === languageId) ? 10 : 0),
};
const PROVIDERS = [
  "Hover", "Definition", "Reference", "DocumentHighlight", "DocumentSymbol", "Rename", "CompletionItem", "SignatureHelp", "DocumentSemanticTokens",
  "DocumentRangeSemanticTokens", "InlayHints", "FoldingRange", "CodeActions",
];
for (const what of PROVIDERS) {
  languages[`register${what}Provider`] = (selector, provider, ...more) => register(what, selector, provider, more);
}

// Keeps a message, and hands back what the user presses.
function show(kind) {
  return (text, ...buttons) => new Promise((press) => {
    editor.messages.push({ kind, text, buttons, press });
  });
}

const window = {
  showErrorMessage: show("error"),
  showWarningMessage: show("warning"),
  showInformationMessage: show("information"),
  createOutputChannel: () => ({ appendLine: (line) => editor.output.push(line), dispose() {} }),
};

const workspace = {
  get textDocuments() {
    return editor.documents;
  },
  getConfiguration: (section) => ({ get: (name) => editor.settings[`${section}.${name}`] }),
  onDidOpenTextDocument: opened.event,
  onDidChangeTextDocument: changed.event,
  onDidCloseTextDocument: closed.event,
};

module.exports = {
  CodeAction, CodeActionKind, CompletionItem, CompletionItemKind, Diagnostic, DiagnosticRelatedInformation, DiagnosticSeverity, Disposable,
  DocumentHighlight, DocumentSymbol, EventEmitter, FoldingRange, Hover, InlayHint, Location, MarkdownString, ParameterInformation, Position, Range,
  SemanticTokens, SemanticTokensLegend, SignatureHelp, SignatureInformation, SymbolKind, TextEdit, Uri, WorkspaceEdit, editor, languages, window,
  workspace,
};
