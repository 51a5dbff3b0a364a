// tools/vscode runs this in the folder where it has unpacked the extension: node tools/vscode_checks.js FOLDER RVLS
//
// What is wanted is written here by hand from docs/EDITORS.md and the pages that it names. Beside that, all that is shown of some documents is compared
// with what a second rvls answers (tools/vscode_answers.js). Lines and columns count from 0 on, and `3:8-12` is a range of line 3.
"use strict";
const fs = require("node:fs");
const path = require("node:path");
const { isDeepStrictEqual } = require("node:util");

const { Direct, NO_NAME, differences, textOf } = require("./vscode_answers.js");

const [FOLDER, RVLS] = process.argv.slice(2);
const vscode = require(path.join(FOLDER, "node_modules", "vscode"));
const extension = require(path.join(FOLDER, "extension"));
const { Connection } = require(path.join(FOLDER, "extension", "connection.js"));
const description = require(path.join(FOLDER, "extension", "package.json"));
const { editor, CodeActionKind, CompletionItemKind, DiagnosticSeverity, Position, Range, SymbolKind, Uri } = vscode;

// How long a run may take, and one that waits for a program, in milliseconds.
const PATIENCE = 120000;
const WAIT = 20000;

// Counting.

let passed = 0;
let failed = 0;

function check(what, found, wanted) {
  const right = isDeepStrictEqual(found, wanted);
  console.log(`${right ? "ok" : "FAILED"}: ${what}`);
  if (!right) console.log(`    found  ${JSON.stringify(found)}\n    wanted ${JSON.stringify(wanted)}`);
  if (right) passed += 1;
  else failed += 1;
}

async function until(what, isThere) {
  const end = Date.now() + WAIT;
  while (!isThere()) {
    if (Date.now() > end) throw new Error(`${what} does not come`);
    await new Promise((go) => setTimeout(go, 5));
  }
}

// Programs that the extension starts.

function program(name, text) {
  const file = path.join(FOLDER, "bin", name);
  fs.mkdirSync(path.dirname(file), { recursive: true });
  fs.writeFileSync(file, text, { mode: 0o755 });
  return file;
}

const STARTED = path.join(FOLDER, "started");
const STATUS = path.join(FOLDER, "status");

// The server under its usual name, which writes down its process, and one whose status is written down.
program("rvls", `#!/bin/sh\necho $$ >>'${STARTED}'\nexec '${RVLS}' "$@"\n`);
const COUNTED = program("counted", `#!/bin/sh\n'${RVLS}' "$@"\necho $? >>'${STATUS}'\n`);
process.env.PATH = `${path.join(FOLDER, "bin")}:${process.env.PATH}`;

const rows = (file) => (fs.existsSync(file) ? fs.readFileSync(file, "utf8").trim().split("\n") : []);

// A session of the extension with some settings; the others are as package.json says.

const DEFAULTS = Object.fromEntries(Object.entries(description.contributes.configuration.properties).map(([name, row]) => [name, row.default]));
let subscriptions;

async function begin(settings = {}) {
  await end();
  Object.assign(editor, { documents: [], messages: [], output: [], settings: { ...DEFAULTS, ...settings } });
  subscriptions = [];
  await extension.activate({ subscriptions });
}

async function end() {
  if (!subscriptions) return;
  await extension.deactivate();
  subscriptions.forEach((one) => one.dispose());
  subscriptions = undefined;
}

const providers = () => Object.values(editor.providers).flat().length;

// What the stand-in shows, in rows.

const span = ({ start, end }) => `${start.line}:${start.character}-${start.line === end.line ? "" : `${end.line}:`}${end.character}`;
const nameIn = (members, number) => Object.keys(members).find((name) => members[name] === number);
const range = (line, start, end, text) => [new Range(line, start, line, end), text];
const at = (line, character) => new Position(line, character);
const whole = (document) => new Range(new Position(0, 0), document.positionAt(document.text.length));

async function faults(document) {
  await editor.settled(document);
  const row = ({ range: where, severity, code }) => `${span(where)} ${nameIn(DiagnosticSeverity, severity)} ${code}`;
  return editor.diagnostics.get(document.uri).map(row);
}

async function hints(document, place = whole(document)) {
  const found = await editor.ask("InlayHints", "provideInlayHints", document, place);
  return found.map(({ position, label }) => `${position.line}:${position.character} ${label}`);
}

function tokenRows({ data }, [{ tokenTypes }]) {
  let [line, start] = [0, 0];
  return Array.from({ length: data.length / 5 }, (_, k) => data.subarray(5 * k, 5 * k + 5)).map(([down, right, length, type]) => {
    [line, start] = [line + down, down > 0 ? right : start + right];
    return `${line}:${start}-${start + length} ${tokenTypes[type]}`;
  });
}

const hovered = async (document, where) => textOf(await editor.ask("Hover", "provideHover", document, where)).split("\n");

// All that is shown of a document is what a second rvls answers.

const direct = new Direct(RVLS);

const positions = (document) =>
  document.text.split(document.eol).flatMap((line, number) => Array.from({ length: line.length + 1 }, (_, character) => at(number, character)));

const differing = (document, places) => differences(editor, direct, document, whole(document), places);

async function agrees(what, document, places = positions(document)) {
  check(`${what}: all is as rvls answers it, at ${places.length} positions`, (await differing(document, places)).slice(0, 2), []);
}

// Messages of any lengths, cut anywhere.

async function takesFrames() {
  const sent = ["\u00e4\u{1f600}", "x".repeat(70000), ""].map((text, number) => ({ method: `method ${number}`, params: { text } }));
  const heads = ["Content-Type: application/vscode-jsonrpc; charset=utf-8\r\nContent-Length", "content-length", "Content-Length"];
  const frame = (message, head) => `${head}: ${Buffer.byteLength(JSON.stringify(message))}\r\n\r\n${JSON.stringify(message)}`;
  const bytes = Buffer.from(sent.map((message, number) => frame(message, heads[number])).join(""));
  const taken = (pieces) => {
    const found = [];
    const reader = Object.assign(Object.create(Connection.prototype), { chunks: [], size: 0, needed: 0, waiting: new Map() });
    reader.notified = (method, params) => found.push({ method, params });
    pieces.forEach((piece) => reader.read(piece));
    return found;
  };
  check("messages in one piece", taken([bytes]), sent);
  check("messages byte by byte", taken(Array.from(bytes, (byte) => Buffer.from([byte]))), sent);
  const cuts = [...Array(300).keys(), ...Array.from(Array(300), (_, k) => bytes.length - 1 - k)];
  check("messages cut in two", cuts.filter((cut) => !isDeepStrictEqual(taken([bytes.subarray(0, cut), bytes.subarray(cut)]), sent)), []);
}

// Programs that are no server, or cannot be started.

async function isTold(what, settings, ...parts) {
  await begin(settings);
  await until("a message", () => editor.messages.length > 0);
  await new Promise((go) => setTimeout(go, 100));
  const told = editor.messages.map(({ kind, text, buttons }) => [kind, parts.filter((part) => !text.includes(part)), buttons]);
  check(`${what}: ${editor.messages[0].text}`, told, [["error", [], ["Start again"]]]);
  check(`${what}: nothing is asked of it`, providers(), 0);
}

async function startsInVain() {
  await isTold("a program that does not exist", { "rvls.path": "/nowhere/rvls" }, "/nowhere/rvls", "rvls.path");
  await isTold("a file that is no program", { "rvls.path": path.join(FOLDER, "extension", "package.json") }, "package.json", "rvls.path");
  await isTold("a file that no machine runs", { "rvls.path": program("other", "\x7fELF") }, "other", "rvls.path");
  await isTold("no program at all", { "rvls.path": "" }, "rvls.path");
  await isTold("a program that ends at once", { "rvls.path": program("ends", "#!/bin/sh\nexit 7\n") }, "7", "rvls.path");
  await isTold("a program that speaks otherwise", { "rvls.path": program("speaks", "#!/bin/sh\nprintf 'hello\\r\\n\\r\\n'\nexec cat\n") }, "rvls.path");
  await isTold("a program that writes without an end", { "rvls.path": program("writes", "#!/bin/sh\nexec yes\n") }, "rvls.path");
  await isTold("a base that is none", { "rvls.base": "5" }, "rvls.base", "4096");
  const document = editor.open(Uri.file("/t/a.s"), "nop");
  editor.settings["rvls.base"] = "0x80000000";
  editor.messages[0].press("Start again");
  await until("the server", () => providers() > 0);
  check("another base counts from the next start on", await hints(document), ["0:3 80000000 13 00 00 00"]);
  check("the log says it", editor.output, [`rvls ${description.version}, base 0x80000000`]);
  editor.settings["rvls.base"] = "0x1000";
  check("and not before it", await hints(document), ["0:3 80000000 13 00 00 00"]);
}

// A server that announces nothing, answers each request alike, and says something to the user.
const FAKE = `#!${process.execPath}
const frame = (message) => \`Content-Length: \${JSON.stringify(message).length}\\r\\n\\r\\n\${JSON.stringify(message)}\`;
const write = (message) => process.stdout.write(frame(message));
process.stdin.on("data", (asked) => {
  for (const [, id] of String(asked).matchAll(/"id":(\\d+)/g)) write({ id: Number(id), result: { capabilities: {} } });
});
process.stdin.on("end", () => process.exit(0));
write({ method: "$/other" });
for (const type of [1, 2, 3]) write({ method: "window/showMessage", params: { type, message: "message " + type } });
`;

async function announcesNothing() {
  await begin({ "rvls.path": program("fake", FAKE) });
  await until("messages", () => editor.messages.length === 3);
  const told = editor.messages.map(({ kind, text }) => `${kind}: ${text}`);
  check("messages of each type", told, ["error: message 1", "warning: message 2", "information: message 3"]);
  check("what is not announced is not asked for", providers(), 0);
}

// The first text of EDITORS.md.

const FAULTY = `\
start:  li   a0, 5
loop:   addi a0, a0, 2048
        bnez a0, lop
        ebreak
`;
const RANGE = "2048 is out of range (-2048 to 2047); load the number by 'li' into a register";

async function showsFaults() {
  await begin();
  const document = editor.open(Uri.file("/t/first text \u00e4.s"), FAULTY);
  check("faults of a text that is opened", await faults(document), ["1:21-25 Error Range", "2:17-20 Error Undefined"]);
  check("the log", editor.output, [`rvls ${description.version}, base 0x00000000`]);
  const said = editor.diagnostics.get(document.uri).map(({ message, source }) => [source, message]);
  check("their messages", said, [["rvls", RANGE], ["rvls", "'lop' is not defined; did you mean 'loop'?"]]);
  const all = ["0:18 00000000 13 05 50 00", "1:25 00000004 00 00 00 00", "2:20 00000008 00 00 00 00", "3:14 0000000c 73 00 10 00"];
  check("hints", await hints(document), all);
  await agrees("opened", document);
  editor.edit(document, range(2, 18, 18, "o"));
  check("a letter typed", await faults(document), ["1:21-25 Error Range"]);
  editor.edit(document, range(1, 24, 25, ""));
  check("a digit deleted", await faults(document), []);
  // 204 is 0x0cc, and the branch goes 4 bytes back.
  const two = ["1:24 00000004 13 05 c5 0c", "2:21 00000008 e3 1e 05 fe"];
  check("hints after that", await hints(document), [all[0], ...two, all[3]]);
  check("hints of two lines", await hints(document, new Range(1, 0, 3, 0)), two);
  editor.edit(document, range(0, 0, 5, "other"));
  editor.edit(document, range(1, 0, 5, ""));
  check("a label deleted: the line that uses it is marked", await faults(document), ["2:17-21 Error Undefined"]);
  editor.edit(document, [whole(document), ""]);
  check("all deleted", [await faults(document), await hints(document)], [[], []]);
  await agrees("empty", document);
}

// The second text of EDITORS.md.

const RIGHT = `\
start:  la   a0, x
        lw   a1, 4(a0)
        ebreak
        .data
x:      .word 1, 2, 3
`;

const ADDRESS = [
  "00000000 17 15 00 00 13 05 05 00 (8 bytes)",
  "00000000  auipc a0, 0x1",
  "  31 12 imm[31:12] 00000000000000000001 imm = 0x00001000",
  "  11 7 rd 01010 x10 (a0)",
  "  6 0 opcode 0010111 AUIPC",
  "00000004  addi a0, a0, 0",
  "  31 20 imm[11:0] 000000000000 imm = 0",
  "  19 15 rs1 01010 x10 (a0)",
  "  14 12 funct3 000 addi",
  "  11 7 rd 01010 x10 (a0)",
  "  6 0 opcode 0010011 OP-IMM",
];

async function explainsLines() {
  await begin();
  const document = editor.open(Uri.parse("untitled:Untitled-1"), RIGHT);
  check("hover over a line", await hovered(document, at(0, 7)), ADDRESS);
  check("hover over a name", await hovered(document, at(0, 17)), ["x = 0x00001000 (label, line 5)", ...ADDRESS]);
  const load = await hovered(document, at(1, 9));
  check("hover over an instruction", load.slice(0, 3), [
    "Loads the four bytes at rs1 plus the sign-extended offset into rd.",
    "RISC-V Unprivileged ISA 20191213, section 2.6",
    "00000008 83 25 45 00 (4 bytes)",
  ]);
  check("hover over nothing", (await editor.ask("Hover", "provideHover", document, at(5, 0))) ?? null, null);
  check("hints of more than 4 bytes", await hints(document), [
    "0:18 00000000 17 15 00 00 13 05 05 00", "1:22 00000008 83 25 45 00", "2:14 0000000c 73 00 10 00", "4:21 00001000 01 00 00 00 02 00 00 00 ..."]);
  const folds = await editor.ask("FoldingRange", "provideFoldingRanges", document, {});
  check("folds", folds.map(({ start, end }) => [start, end]), [[0, 2], [3, 4]]);
  await agrees("a text that is not stored", document);
}

// Names, and columns after characters of two units of UTF-16.

const NAMES = `\
        .equ n, 4
start:  li   a0, 5
loop:   addi a0, a0, n
        lw   a1, 0(a0)
1:      beqz a1, 1f
        bnez a0, loop
1:      j    start
        ebreak
        .data
table:  .word 1, 2, 3, n
        .ascii "\u00e4\u{1f600}", "b"
`;

const NAMES_TOKENS = [
  "0:8-12 macro", "0:13-14 enumMember", "0:16-17 number",
  "1:0-5 function", "1:8-10 keyword", "1:13-15 variable", "1:17-18 number",
  "2:0-4 function", "2:8-12 keyword", "2:13-15 variable", "2:17-19 variable", "2:21-22 enumMember",
  "3:8-10 keyword", "3:13-15 variable", "3:17-18 number", "3:19-21 variable",
  "4:0-1 function", "4:8-12 keyword", "4:13-15 variable", "4:17-19 function",
  "5:8-12 keyword", "5:13-15 variable", "5:17-21 function",
  "6:0-1 function", "6:8-9 keyword", "6:13-18 function",
  "7:8-14 keyword",
  "8:8-13 macro",
  "9:0-5 function", "9:8-13 macro", "9:14-15 number", "9:17-18 number", "9:20-21 number", "9:23-24 enumMember",
  "10:8-14 macro", "10:15-20 string", "10:22-25 string",
];

async function looksUp(document) {
  const uses = async (line, character, includeDeclaration) =>
    (await editor.ask("Reference", "provideReferences", document, at(line, character), { includeDeclaration })).map((use) => span(use.range));
  const definition = async (line, character) => {
    const found = await editor.ask("Definition", "provideDefinition", document, at(line, character));
    return found && [found.uri.toString() === document.uri.toString(), span(found.range)];
  };
  check("the definition of a constant", await definition(2, 21), [true, "0:13-14"]);
  check("the definition of a local label", await definition(4, 18), [true, "6:0-1"]);
  check("no definition of a register", await definition(3, 14), null);
  check("where a name is used", [await uses(2, 0, true), await uses(5, 20, false)], [["2:0-4", "5:17-21"], ["5:17-21"]]);
  const marked = await editor.ask("DocumentHighlight", "provideDocumentHighlights", document, at(5, 17));
  check("a name is marked at its places", marked.map((mark) => span(mark.range)), ["2:0-4", "5:17-21"]);
  const symbols = await editor.ask("DocumentSymbol", "provideDocumentSymbols", document);
  check("symbols", symbols.map(({ name, kind, selectionRange }) => `${span(selectionRange)} ${name} ${nameIn(SymbolKind, kind)}`), [
    "0:13-14 n Constant", "1:0-5 start Function", "2:0-4 loop Function", "9:0-5 table Function"]);
  const folds = await editor.ask("FoldingRange", "provideFoldingRanges", document, {});
  check("folds of labels and sections", folds.map(({ start, end }) => [start, end]), [[2, 7], [8, 10], [9, 10]]);
}

async function colors(document) {
  const all = await editor.ask("DocumentSemanticTokens", "provideDocumentSemanticTokens", document);
  check("tokens", tokenRows(all, editor.providers.DocumentSemanticTokens[0].more), NAMES_TOKENS);
  const some = await editor.ask("DocumentRangeSemanticTokens", "provideDocumentRangeSemanticTokens", document, new Range(9, 0, 10, 8));
  const wanted = NAMES_TOKENS.filter((row) => row.startsWith("9:") || row.startsWith("10:"));
  check("tokens of two lines", tokenRows(some, editor.providers.DocumentRangeSemanticTokens[0].more), wanted);
}

const NAMES_HINTS = [
  "1:18 00000000 13 05 50 00", "2:22 00000004 13 05 45 00", "3:22 00000008 83 25 05 00", "4:19 0000000c 63 84 05 00", "5:21 00000010 e3 1a 05 fe",
  "6:18 00000014 6f f0 df fe", "7:14 00000018 73 00 10 00", "9:24 00001000 01 00 00 00 02 00 00 00 ...", "10:25 00001010 c3 a4 f0 9f 98 80 62",
];

async function namesThings() {
  await begin();
  const document = editor.open(Uri.file("/t/names.s"), NAMES);
  check("no faults", await faults(document), []);
  check("hints, one of them after a character of two units", await hints(document), NAMES_HINTS);
  await looksUp(document);
  await colors(document);
  await agrees("names", document);
}

async function countsUnits() {
  await begin();
  const document = editor.open(Uri.file("/t/wide.s"), NAMES);
  editor.edit(document, range(10, 22, 25, "n"));
  check("a change after a character of two units", await faults(document), ["10:22-23 Error BadOperand"]);
  editor.edit(document, range(10, 19, 19, "x\u{1f600}"));
  check("another such character", await faults(document), ["10:25-26 Error BadOperand"]);
  editor.edit(document, range(10, 17, 19, ""));
  check("the first one deleted", await faults(document), ["10:23-24 Error BadOperand"]);
  editor.edit(document, range(10, 23, 24, '"b"'));
  check("a string again", await faults(document), []);
  // ä x 😀 b in UTF-8
  check("its bytes", (await hints(document)).at(-1), "10:26 00001010 c3 a4 78 f0 9f 98 80 62");
  await agrees("after changes of wide characters", document);
}

async function changesSeveral() {
  await begin();
  const document = editor.open(Uri.file("/t/two.s"), NAMES);
  editor.edit(document, range(2, 3, 4, "k"), range(5, 20, 21, "k"));
  check("two changes in one event", [await faults(document), document.text.match(/look/g).length], [[], 2]);
  editor.edit(document, range(2, 3, 4, "p"));
  check("one of them taken back", await faults(document), ["5:17-21 Error Undefined"]);
  editor.edit(document, range(0, 0, 0, "# a comment\n"), range(5, 20, 21, "p"));
  check("a line put in above another change of the event", await faults(document), []);
  await looksUpBelow(document);
  editor.edit(document, [new Range(0, 0, 1, 0), ""], range(1, 0, 0, "\n\n"), range(6, 17, 21, "here"));
  check("lines taken out and put in above another change", await faults(document), ["7:17-21 Error Undefined"]);
  await agrees("after several changes in one event", document);
}

async function looksUpBelow(document) {
  const symbols = await editor.ask("DocumentSymbol", "provideDocumentSymbols", document);
  check("symbols a line below", symbols.map(({ selectionRange }) => span(selectionRange)), ["1:13-14", "2:0-5", "3:0-4", "10:0-5"]);
}

// Other names.

async function renames() {
  await begin();
  const document = editor.open(Uri.file("/t/rename.s"), NAMES);
  const prepared = await editor.ask("Rename", "prepareRename", document, at(4, 18));
  check("a local label is renamed without its letter", [span(prepared.range), prepared.placeholder], ["4:17-18", "1"]);
  check("a label renamed", [await editor.rename(document, at(5, 18), "again"), document.text], [undefined, NAMES.replaceAll("loop", "again")]);
  check("no fault after it", await faults(document), []);
  check("a local label renamed", await editor.rename(document, at(4, 18), "7"), undefined);
  const renamed = NAMES.replaceAll("loop", "again").replace("1f", "7f").replace("1:      j", "7:      j");
  check("its places", [document.text, await faults(document)], [renamed, []]);
  check("a register is not renamed", await editor.rename(document, at(3, 14), "x"), NO_NAME.refused);
  await direct.diagnostics(document);
  for (const [what, newName] of [["a register", "a0"], ["no identifier", "2x"], ["a name that is there", "start"]]) {
    const asked = { textDocument: { uri: document.uri.toString() }, position: { line: 0, character: 13 }, newName };
    const { refused } = await direct.ask("textDocument/rename", asked);
    check(`not renamed to ${what}: ${refused}`, [typeof refused, await editor.rename(document, at(0, 13), newName)], ["string", refused]);
  }
  check("and nothing is changed", document.text, renamed);
}

// What is typed.

async function completes() {
  await begin();
  const document = editor.open(Uri.file("/t/typed.s"), NAMES);
  const items = (line, character) => editor.ask("CompletionItem", "provideCompletionItems", document, at(line, character));
  const labels = async (...where) => (await items(...where)).map(({ label }) => label);
  editor.edit(document, range(7, 14, 14, "\n        bnez a0, lo"));
  check("an unknown name", await faults(document), ["8:17-19 Error Undefined"]);
  const [loop, ...others] = await items(8, 19);
  const kind = nameIn(CompletionItemKind, loop.kind);
  check("completion of a label", [loop.label, kind, span(loop.range), loop.insertText, others], ["loop", "Function", "8:17-19", "loop", []]);
  editor.edit(document, [loop.range, loop.insertText]);
  check("completed", await faults(document), []);
  editor.edit(document, range(8, 8, 21, ".eq"));
  const [equ, ...more] = await items(8, 11);
  check("completion of a directive, with its dot", [equ.label, span(equ.range), more], [".equ", "8:8-11", []]);
  editor.edit(document, range(8, 8, 11, "lui  a0, %"));
  check("completion of modifiers", await labels(8, 18), ["%hi(", "%pcrel_hi("]);
  editor.edit(document, range(8, 8, 18, "jalr a0, a1, "));
  check("completion at the end of a name", await labels(7, 14), ["ebreak"]);
  check("no completion in a string", await labels(11, 16), []);
  check("what asks by itself", [editor.providers.CompletionItem[0].more, editor.providers.SignatureHelp[0].more], [[".", "%"], [" ", ","]]);
  const help = await editor.ask("SignatureHelp", "provideSignatureHelp", document, at(8, 21));
  const parameters = ({ label, parameters: some }) => [label, ...some.map(({ label: [from, to] }) => label.slice(from, to))];
  check("signatures", [help.signatures.map(parameters), help.activeSignature, help.activeParameter], [
    [["jalr rd, offset(rs1)", "rd", "offset(rs1)"], ["jalr rd, rs1, immediate", "rd", "rs1", "immediate"], ["jalr rs1", "rs1"]], 1, 2]);
  check("no signature before an instruction", await editor.ask("SignatureHelp", "provideSignatureHelp", document, at(8, 3)), null);
  await agrees("while a line is typed", document);
}

// Quick fixes.

const BROKEN = `\
        adi  a0, a0, 1
        jmp  later
loop:   add  a0, a0, 5000
        nop
loop:   ebreak
mcycle: csrr a0, mcycle
`;

async function fixes() {
  await begin();
  const document = editor.open(Uri.file("/t/fixes.s"), BROKEN);
  check("faults and a warning", await faults(document), [
    "0:8-11 Error UnknownName", "1:8-11 Error UnknownName", "2:21-25 Error BadRegister", "4:0-4 Error Duplicate", "5:17-23 Warning label-as-register",
  ]);
  const [duplicate] = editor.diagnostics.get(document.uri).filter(({ code }) => code === "Duplicate");
  const [related, ...others] = duplicate.relatedInformation;
  const { uri, range: first } = related.location;
  check("a second definition leads to the first", [duplicate.message, uri.toString(), span(first), others], [
    "'loop' is already defined in line 3", "file:///t/fixes.s", "2:0-4", []]);
  await agrees("faults of each kind", document);
  const offered = (line, only) =>
    editor.ask("CodeActions", "provideCodeActions", document, new Range(line, 0, line, 0), { diagnostics: [], only, triggerKind: 1 });
  check("fixes are quick fixes", editor.providers.CodeActions[0].more, [{ providedCodeActionKinds: [CodeActionKind.QuickFix] }]);
  check("no other actions", await offered(0, CodeActionKind.Refactor), []);
  check("no fix of a right line", await offered(3), []);
  check("no fix that would not mend the line", await offered(2), []);
  const fix = async (line, text, only) => {
    const found = (await offered(line, only)).find(({ edit }) => edit.entries().flatMap(([, edits]) => edits)[0].newText === text);
    editor.apply(found.edit);
    return [found.kind.value, document.text.split("\n")[line], (await faults(document)).filter((row) => row.startsWith(`${line}:`))];
  };
  check("a fix of a misspelled name", await fix(0, "addi", CodeActionKind.QuickFix), ["quickfix", "        addi  a0, a0, 1", []]);
  check("a fix before the label is there", await fix(1, "j"), ["quickfix", "        j  later", ["1:11-16 Error Undefined"]]);
  editor.edit(document, range(4, 0, 4, "later"));
  check("and the label", await faults(document), ["2:21-25 Error BadRegister", "5:17-23 Warning label-as-register"]);
  await agrees("after fixes", document);
}

// Documents: other languages and schemes, line ends, storing and closing.

async function followsDocuments() {
  fs.rmSync(STARTED, { force: true });
  await begin();
  const shown = (document) => editor.diagnostics.get(document.uri)?.length;
  const first = editor.open(Uri.file("/t/a.s"), "adi");
  const second = editor.open(Uri.file("/t/b.s"), "nop\r\n        adi\r\n");
  const older = editor.open(Uri.parse("git:/t/a.s"), "adi");
  const other = editor.open(Uri.file("/t/c.c"), "adi", "c");
  check("two documents", [await faults(first), await faults(second)], [["0:0-3 Error UnknownName"], ["1:8-11 Error UnknownName"]]);
  editor.edit(older, range(0, 0, 0, " "));
  await editor.settled(first);
  check("nothing of an older version and of another language", [shown(older), shown(other)], [undefined, undefined]);
  check("one server for all", rows(STARTED).length, 1);
  editor.edit(second, range(1, 11, 11, "\n        nop"), range(0, 3, 3, "\nadi"));
  check("lines that end in 0x0D 0x0A", [await faults(second), second.text], [
    ["1:0-3 Error UnknownName", "2:8-11 Error UnknownName"], "nop\r\nadi\r\n        adi\r\n        nop\r\n"]);
  await agrees("lines that end in 0x0D 0x0A", second);
  const { sets } = editor.diagnostics;
  editor.store(first);
  await editor.settled(first);
  check("nothing is sent where a document is stored", editor.diagnostics.sets, sets);
  editor.setLanguage(other, "riscv");
  await editor.settled(first);
  check("a document that becomes one of assembly", shown(other), 1);
  editor.setLanguage(other, "c");
  await editor.settled(first);
  check("and another one again", shown(other), 0);
  editor.close(first);
  await editor.settled(second);
  check("a document that is closed", [shown(first), shown(second)], [0, 2]);
  const asked = await editor.ask("Hover", "provideHover", first, at(0, 0)).catch((fault) => fault.message);
  check("the server has closed it", asked, "the document is not open");
  editor.open(first.uri, "nop\nadi\nadi");
  check("and opened again", await faults(first), ["1:0-3 Error UnknownName", "2:0-3 Error UnknownName"]);
}

// Many faults, and many keys at once.

async function takesMany() {
  await begin();
  const document = editor.open(Uri.file("/t/many.s"), "        addi a0, a0, 2048\n".repeat(1500));
  const found = await faults(document);
  check("1,000 faults, and one row that counts the others", [found.length, found.filter((row) => row.endsWith("Error Range")).length], [1001, 1000]);
  const [rest] = editor.diagnostics.get(document.uri).filter(({ code }) => code !== "Range");
  check("that row", [rest.severity, /\b500\b/.test(rest.message)], [DiagnosticSeverity.Error, true]);
  const keyed = editor.open(Uri.file("/t/keys.s"), NAMES);
  for (let key = 0; key < 300; key += 1) editor.edit(keyed, range(7, 14 + key, 14 + key, " #"[Number(key > 0)]));
  for (let key = 0; key < 300; key += 1) editor.edit(keyed, range(1, 17, 17, "1"));
  for (let key = 0; key < 298; key += 1) editor.edit(keyed, range(1, 17, 18, ""));
  check("900 keys that nobody waits for", [await faults(keyed), (await hints(keyed))[0]], [[], "1:20 00000000 13 05 30 07"]);
  await agrees("after them", keyed, [at(1, 18), at(5, 18)]);
}

// Changes made from a seed.

const PIECES = [
  "\n", "\n", " ", ",", '"', "\u00e4", "\u{1f600}", "\u{1f600}", "# x", "loop", "loop:", "1:", "1b", "n", "a0", "5", "2048", "addi a0, a0, 5", "lw a0, n",
  "\n        .data\n", "\n        .text\n        j    loop\n", "", "", "",
];

function random(seed) {
  let state = seed;
  return (below) => {
    state = (Math.imul(state, 1664525) + 1013904223) >>> 0;
    return Math.floor((state / 2 ** 32) * below);
  };
}

// Up to three places of a text, which do not touch, none within a pair of surrogates or a line end.
function someEdits(document, choose) {
  const pair = /^(?:[\ud800-\udbff][\udc00-\udfff]|\r\n)$/;
  const offsets = [...Array(document.text.length + 1).keys()].filter((k) => !pair.test(document.text.slice(k - 1, k + 1)));
  const edits = [];
  let from = choose(Math.ceil(offsets.length / 2));
  for (let left = 1 + choose(3); left > 0 && from < offsets.length; left -= 1) {
    const to = Math.min(offsets.length - 1, from + choose(3) * choose(4));
    edits.push([new Range(document.positionAt(offsets[from]), document.positionAt(offsets[to])), PIECES[choose(PIECES.length)]]);
    from = to + 1 + choose(40);
  }
  return edits;
}

async function takesAnything() {
  await begin();
  for (const [what, text] of [["", NAMES], [", lines that end in 0x0D 0x0A", NAMES.replaceAll("\n", "\r\n")]]) {
    const choose = random(what.length + 1);
    const document = editor.open(Uri.file(`/t/random${what.length}.s`), text);
    const wrong = [];
    for (let step = 0; step < 200 && wrong.length === 0; step += 1) {
      editor.edit(document, ...someEdits(document, choose));
      const places = positions(document);
      wrong.push(...(await differing(document, [1, 2, 3, 4].map(() => places[choose(places.length)]))).slice(0, 1));
    }
    check(`200 events of random changes${what}: all is as rvls answers it`, wrong, []);
  }
}

// A server that ends.

async function survives() {
  fs.rmSync(STARTED, { force: true });
  await begin();
  const document = editor.open(Uri.file("/t/a.s"), "        nop\n        adi\n");
  check("a fault", await faults(document), ["1:8-11 Error UnknownName"]);
  process.kill(Number(rows(STARTED)[0]), "SIGSTOP");
  const waiting = editor.ask("Hover", "provideHover", document, at(0, 0)).then(() => "an answer", (fault) => fault instanceof Error);
  process.kill(Number(rows(STARTED)[0]), "SIGKILL");
  check("who waits for an answer is told", await waiting, true);
  await until("a message", () => editor.messages.length > 0);
  const [{ kind, text, buttons, press }] = editor.messages;
  check(`a server that is killed: ${text}`, [kind, text.includes("SIGKILL"), buttons], ["error", true, ["Start again"]]);
  check("its diagnostics are gone, and its providers", [editor.diagnostics.kept.size, providers()], [0, 0]);
  editor.edit(document, range(0, 8, 11, "j    there"));
  press("Start again");
  await until("the server", () => providers() > 0);
  check("started again, it has the text as it is now", await faults(document), ["0:13-18 Error Undefined", "1:8-11 Error UnknownName"]);
  editor.edit(document, range(1, 0, 11, "there:"));
  check("and its changes", await faults(document), []);
  await agrees("started again", document);
  process.kill(Number(rows(STARTED)[1]), "SIGTERM");
  await until("a message", () => editor.messages.length > 1);
  editor.messages[1].press(undefined);
  editor.edit(document, range(0, 0, 0, "adi "));
  await new Promise((go) => setTimeout(go, 100));
  check("told once each time, and started when the user says so", [editor.messages.length, rows(STARTED).length, providers()], [2, 2, 0]);
}

async function startsLater() {
  await isTold("a program that does not exist yet", { "rvls.path": "/nowhere/rvls" }, "/nowhere/rvls");
  const document = editor.open(Uri.file("/t/a.s"), "adi");
  editor.messages[0].press("Start again");
  await until("a message", () => editor.messages.length > 1);
  check("not there when it is started again: told again", editor.messages[1].text, editor.messages[0].text);
  editor.settings["rvls.path"] = "rvls";
  editor.messages[1].press("Start again");
  await until("the server", () => providers() > 0);
  check("there when the setting names it", await faults(document), ["0:0-3 Error UnknownName"]);
}

async function stops() {
  fs.rmSync(STATUS, { force: true });
  await begin({ "rvls.path": COUNTED });
  const document = editor.open(Uri.file("/t/a.s"), "adi");
  await editor.settled(document);
  check("providers of all requests", providers(), 13);
  await end();
  await until("a status", () => rows(STATUS).length > 0);
  check("the server ends with status 0, without a message", [rows(STATUS), editor.messages], [["0"], []]);
  check("and nothing is left", [providers(), editor.diagnostics.kept.size], [0, 0]);
}

const GROUPS = [
  takesFrames, announcesNothing, startsInVain, showsFaults, explainsLines, namesThings, countsUnits, changesSeveral, renames, completes, fixes,
  followsDocuments, takesMany, takesAnything, survives, startsLater, stops,
];

async function main() {
  setTimeout(() => {
    console.log(`FAILED: no end after ${PATIENCE / 1000} seconds`);
    process.exit(1);
  }, PATIENCE).unref();
  await direct.begin();
  for (const group of GROUPS) await group().catch((fault) => check(`${group.name}: ${fault.stack}`, "an end", "no fault"));
  await end();
  direct.child.stdin.end();
  console.log(`${passed} passed, ${failed} failed`);
  process.exit(failed > 0 ? 1 : 0);
}

main();
