// What the stand-in for VS Code shows of a document, beside what a second rvls answers that is given the same text and asked the same. The objects of
// VS Code are written as the JSON of the protocol, from which the extension made them.
"use strict";
const { spawn } = require("node:child_process");
const { isDeepStrictEqual } = require("node:util");

const NO_NAME = { refused: "There is no name here that the document defines." };

const position = ({ line, character }) => ({ line, character });
const place = ({ start, end }) => ({ start: position(start), end: position(end) });
const location = (from) => ({ uri: from.uri.toString(), range: place(from.range) });
const textEdit = (from) => ({ range: place(from.range), newText: from.newText });
const changes = (from) => ({ changes: Object.fromEntries(from.entries().map(([uri, edits]) => [uri.toString(), edits.map(textEdit)])) });
const each = (back) => (all) => all.map((one) => back(one));

const diagnostic = ({ range: where, severity, code, source, message, relatedInformation }) => ({
  range: place(where), severity: severity + 1, code, source, message,
  relatedInformation: relatedInformation?.map((related) => ({ location: location(related.location), message: related.message })),
});
const textOf = ({ contents: [{ value }] }) => /^\n```plaintext\n([^]*)\n```\n$/.exec(value)[1];
const hover = (from) => ({ contents: { kind: "plaintext", value: textOf(from) } });
const symbol = ({ name, kind, ...from }) => ({ name, kind: kind + 1, range: place(from.range), selectionRange: place(from.selectionRange) });
const completion = ({ label, kind, detail, documentation, insertText, range: where }) => ({
  label, kind: kind + 1, detail, documentation, textEdit: { range: place(where), newText: insertText },
});
const signatureHelp = ({ signatures, activeSignature, activeParameter }) => ({
  signatures: signatures.map(({ label, parameters }) => ({ label, parameters: parameters.map((parameter) => ({ label: parameter.label })) })),
  activeSignature, activeParameter,
});
const codeAction = ({ title, kind, edit }) => ({ title, kind: kind.value, edit: changes(edit) });

// A second rvls, which is asked here.
class Direct {
  constructor(rvls) {
    Object.assign(this, { child: spawn(rvls, { stdio: ["pipe", "pipe", "inherit"] }), bytes: Buffer.alloc(0), waiting: new Map(), asked: 0, published: {} });
    this.child.stdout.on("data", (chunk) => {
      this.bytes = Buffer.concat([this.bytes, chunk]);
      for (let frame = this.frame(); frame; frame = this.frame()) this.take(frame);
    });
  }

  frame() {
    const head = this.bytes.indexOf("\r\n\r\n");
    const size = head < 0 ? Infinity : head + 4 + Number(this.bytes.subarray(0, head).toString().split(": ")[1]);
    if (this.bytes.length < size) return undefined;
    const body = this.bytes.subarray(head + 4, size).toString();
    this.bytes = this.bytes.subarray(size);
    return JSON.parse(body);
  }

  take({ id, method, params, ...answer }) {
    if (method === "textDocument/publishDiagnostics") this.published[params.uri] = params.diagnostics;
    else if (id) this.waiting.get(id)(answer);
  }

  send(message) {
    const body = Buffer.from(JSON.stringify({ jsonrpc: "2.0", ...message }));
    this.child.stdin.write(Buffer.concat([Buffer.from(`Content-Length: ${body.length}\r\n\r\n`), body]));
  }

  // What the answer is, with the message of an error in the place of a result.
  async ask(method, params) {
    this.asked += 1;
    const answer = await new Promise((take) => {
      this.waiting.set(this.asked, take);
      this.send({ id: this.asked, method, params });
    });
    return answer.error ? { refused: answer.error.message } : answer.result;
  }

  async begin() {
    await this.ask("initialize", { capabilities: { textDocument: { rename: { prepareSupport: true } } } });
  }

  // The diagnostics of a document that is opened anew.
  async diagnostics(document) {
    const uri = document.uri.toString();
    this.send({ method: "textDocument/didOpen", params: { textDocument: { uri, languageId: "riscv", version: 1, text: document.text } } });
    await this.ask("textDocument/foldingRange", { textDocument: { uri } });
    return this.published[uri];
  }
}

// Questions: the provider and its function, the request, what each is asked with, and what makes JSON of what the provider gives.

function questionsAt(where) {
  const there = { position: position(where) };
  const uses = (includeDeclaration) =>
    ["Reference", "provideReferences", "references", [where, { includeDeclaration }], { ...there, context: { includeDeclaration } }, each(location)];
  return [
    ["Hover", "provideHover", "hover", [where], there, hover],
    ["Definition", "provideDefinition", "definition", [where], there, location],
    uses(true), uses(false),
    ["DocumentHighlight", "provideDocumentHighlights", "documentHighlight", [where], there, each((from) => ({ range: place(from.range) }))],
    ["CompletionItem", "provideCompletionItems", "completion", [where], there, each(completion)],
    ["SignatureHelp", "provideSignatureHelp", "signatureHelp", [where], there, signatureHelp],
    ["Rename", "prepareRename", "prepareRename", [where], there, (from) => ({ range: place(from.range), placeholder: from.placeholder })],
    ["Rename", "provideRenameEdits", "rename", [where, "other"], { ...there, newName: "other" }, changes],
  ];
}

function questionsIn(where) {
  const there = { range: place(where) };
  const context = { diagnostics: [] };
  const tokens = ({ data }) => ({ data: [...data] });
  const hint = (from) => ({ position: position(from.position), label: from.label, paddingLeft: from.paddingLeft });
  const fold = ({ start, end }) => ({ startLine: start, endLine: end });
  return [
    ["DocumentSymbol", "provideDocumentSymbols", "documentSymbol", [], {}, each(symbol)],
    ["FoldingRange", "provideFoldingRanges", "foldingRange", [{}], {}, each(fold)],
    ["InlayHints", "provideInlayHints", "inlayHint", [where], there, each(hint)],
    ["DocumentSemanticTokens", "provideDocumentSemanticTokens", "semanticTokens/full", [], {}, tokens],
    ["DocumentRangeSemanticTokens", "provideDocumentRangeSemanticTokens", "semanticTokens/range", [where], there, tokens],
    ["CodeActions", "provideCodeActions", "codeAction", [where, { diagnostics: [], only: undefined }], { ...there, context }, each(codeAction)],
  ];
}

async function differs(editor, direct, document, [what, method, request, handed, params, back]) {
  const refused = (fault) => ({ refused: fault.message });
  const shown = await editor.ask(what, method, document, ...handed).then((made) => made && back(made), refused);
  const answer = await direct.ask(`textDocument/${request}`, { textDocument: { uri: document.uri.toString() }, ...params });
  const wanted = request === "prepareRename" && answer === null ? NO_NAME : answer;
  const found = JSON.parse(JSON.stringify(shown ?? null));
  return isDeepStrictEqual(found, wanted) ? [] : [{ request, params, found, wanted }];
}

// What differs between all that is shown of a document, as a whole and at these positions, and what rvls answers about its text.
async function differences(editor, direct, document, where, places) {
  const wanted = await direct.diagnostics(document);
  await editor.settled(document);
  const found = JSON.parse(JSON.stringify(editor.diagnostics.get(document.uri).map(diagnostic)));
  const all = isDeepStrictEqual(found, wanted) ? [] : [{ found, wanted }];
  for (const question of [...questionsIn(where), ...places.flatMap(questionsAt)]) all.push(...(await differs(editor, direct, document, question)));
  return all;
}

module.exports = { Direct, NO_NAME, differences, textOf };
