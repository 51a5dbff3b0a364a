// The JSON of the language server protocol as objects of VS Code, and positions and ranges the other way. Both count columns in UTF-16.
"use strict";
const vscode = require("vscode");

const toPosition = ({ line, character }) => ({ line, character });

const toRange = ({ start, end }) => ({ start: toPosition(start), end: toPosition(end) });

const range = ({ start, end }) => new vscode.Range(start.line, start.character, end.line, end.character);

const location = (from) => new vscode.Location(vscode.Uri.parse(from.uri), range(from.range));

// Severities, and the kinds of symbols and of completions, have the numbers of the protocol less 1.
function diagnostic(from) {
  const made = new vscode.Diagnostic(range(from.range), from.message, from.severity - 1);
  made.code = from.code;
  made.source = from.source;
  made.relatedInformation = from.relatedInformation?.map(
    (related) => new vscode.DiagnosticRelatedInformation(location(related.location), related.message));
  return made;
}

// A code block keeps the columns of bytes and fields.
const hover = ({ contents }) => new vscode.Hover(new vscode.MarkdownString().appendCodeblock(contents.value, "plaintext"));

const highlight = (from) => new vscode.DocumentHighlight(range(from.range));

const symbol = ({ name, kind, ...from }) =>
  new vscode.DocumentSymbol(name, "", kind - 1, range(from.range), range(from.selectionRange));

const placeToRename = (from) => ({ range: range(from.range), placeholder: from.placeholder });

function workspaceEdit({ changes }) {
  const made = new vscode.WorkspaceEdit();
  for (const [uri, edits] of Object.entries(changes)) {
    made.set(vscode.Uri.parse(uri), edits.map((edit) => new vscode.TextEdit(range(edit.range), edit.newText)));
  }
  return made;
}

function completion({ label, kind, detail, documentation, textEdit }) {
  const made = new vscode.CompletionItem(label, kind - 1);
  made.detail = detail;
  made.documentation = documentation;
  made.insertText = textEdit.newText;
  made.range = range(textEdit.range);
  return made;
}

function signature({ label, parameters }) {
  const made = new vscode.SignatureInformation(label);
  made.parameters = parameters.map((parameter) => new vscode.ParameterInformation(parameter.label));
  return made;
}

function signatures(from) {
  const made = new vscode.SignatureHelp();
  made.signatures = from.signatures.map(signature);
  made.activeSignature = from.activeSignature;
  made.activeParameter = from.activeParameter;
  return made;
}

const tokens = ({ data }) => new vscode.SemanticTokens(new Uint32Array(data));

function hint({ position, label, paddingLeft }) {
  const made = new vscode.InlayHint(new vscode.Position(position.line, position.character), label);
  made.paddingLeft = paddingLeft;
  return made;
}

const fold = ({ startLine, endLine }) => new vscode.FoldingRange(startLine, endLine);

function quickFix({ title, edit }) {
  const made = new vscode.CodeAction(title, vscode.CodeActionKind.QuickFix);
  made.edit = workspaceEdit(edit);
  return made;
}

// The same of each element of an array.
const each = (convert) => (all) => all.map((one) => convert(one));

module.exports = {
  toPosition, toRange, location, diagnostic, hover, highlight, symbol, placeToRename, workspaceEdit, completion, signatures, tokens, hint, fold,
  quickFix, each,
};
