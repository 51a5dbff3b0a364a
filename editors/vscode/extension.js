// Starts rvls for documents of RISC-V assembly, tells it how they change, and shows what it says of them.
"use strict";
const { languages, window, workspace, Uri } = require("vscode");
const { Connection, startFault } = require("./connection");
const convert = require("./convert");
const { SELECTOR, registerProviders } = require("./providers");

const START_AGAIN = "Start again";

// What rvls asks of a client: how it counts columns, and whether it asks before it renames.
const CAPABILITIES = { general: { positionEncodings: ["utf-16"] }, textDocument: { rename: { prepareSupport: true } } };

// What shows a message, by its type.
const SHOW = { 1: "showErrorMessage", 2: "showWarningMessage", 3: "showInformationMessage" };

let diagnostics;
let log;
let session;

const NOTIFICATIONS = {
  "textDocument/publishDiagnostics": ({ uri, diagnostics: found }) => diagnostics.set(Uri.parse(uri), found.map(convert.diagnostic)),
  "window/logMessage": ({ message }) => log.appendLine(message),
  "window/showMessage": ({ type, message }) => window[SHOW[type]](message),
};

// Tells the server which documents are open and how they change, and returns what ends that.
function follow(connection) {
  const open = new Set();
  const opened = (document) => {
    const uri = document.uri.toString();
    if (open.has(uri) || !languages.match(SELECTOR, document)) return;
    open.add(uri);
    const { languageId, version } = document;
    connection.notify("textDocument/didOpen", { textDocument: { uri, languageId, version, text: document.getText() } });
  };
  const changed = ({ document, contentChanges }) => {
    const uri = document.uri.toString();
    // An event without changes says that the document was stored, or differs from what is stored.
    if (!open.has(uri) || contentChanges.length === 0) return;
    // VS Code lists changes from the last place to the first, so that each counts in the text that the one before it left.
    connection.notify("textDocument/didChange", {
      textDocument: { uri, version: document.version },
      contentChanges: contentChanges.map(({ range, text }) => ({ range: convert.toRange(range), text })),
    });
  };
  const closed = (document) => {
    const uri = document.uri.toString();
    if (open.delete(uri)) connection.notify("textDocument/didClose", { textDocument: { uri } });
  };
  workspace.textDocuments.forEach(opened);
  return [workspace.onDidOpenTextDocument(opened), workspace.onDidChangeTextDocument(changed), workspace.onDidCloseTextDocument(closed)];
}

// Takes away what a session has shown, and says why it ended.
async function end(parts, reason) {
  parts.forEach((part) => part.dispose());
  diagnostics.clear();
  if (await window.showErrorMessage(reason, START_AGAIN)) await start();
}

async function start() {
  const settings = workspace.getConfiguration("rvls");
  const program = settings.get("path");
  const parts = [];
  let connection;
  try {
    connection = new Connection(program, (method, params) => NOTIFICATIONS[method]?.(params), (reason) => end(parts, reason));
  } catch (fault) {
    end(parts, startFault(program, fault));
    return;
  }
  session = { connection, parts };
  const initializationOptions = { base: settings.get("base") };
  const asked = connection.request("initialize", { processId: process.pid, rootUri: null, capabilities: CAPABILITIES, initializationOptions });
  const answer = await asked.catch((fault) => connection.fail(`rvls refused to start: ${fault.message}; the setting rvls.base says it.`));
  if (!answer) return;
  connection.notify("initialized", {});
  parts.push(...registerProviders(connection, answer.capabilities), ...follow(connection));
}

exports.activate = (context) => {
  diagnostics = languages.createDiagnosticCollection("rvls");
  log = window.createOutputChannel("rvls");
  context.subscriptions.push(diagnostics, log);
  return start();
};

exports.deactivate = () => {
  session?.parts.forEach((part) => part.dispose());
  return session?.connection.stop();
};
