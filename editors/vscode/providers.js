// What VS Code asks about a document, as requests to the server.
"use strict";
const { languages, CodeActionKind, SemanticTokensLegend } = require("vscode");
const convert = require("./convert");

// Files, and texts that are not stored yet, but not the older versions of a file that a repository keeps.
const SELECTOR = ["file", "untitled"].map((scheme) => ({ scheme, language: "riscv" }));

// The parameters of a request, from what VS Code hands a provider after the document.
const nothing = () => ({});
const at = (position) => ({ position: convert.toPosition(position) });
const within = (range) => ({ range: convert.toRange(range) });
const usesOf = (position, { includeDeclaration }) => ({ ...at(position), context: { includeDeclaration } });
const fixesWithin = (range, { only }) => ({ ...within(range), context: { diagnostics: [], only: only && [only.value] } });
const renamed = (position, newName) => ({ ...at(position), newName });

// What a registration takes after the provider, from the options of the capability.
const triggers = ({ triggerCharacters }) => triggerCharacters;
const legendOf = ({ legend }) => [new SemanticTokensLegend(legend.tokenTypes, legend.tokenModifiers)];
const kindsOf = ({ codeActionKinds }) => [{ providedCodeActionKinds: codeActionKinds.map((kind) => CodeActionKind.Empty.append(kind)) }];

// The capability that announces a request, its provider's registration and function, the request, its parameters, what becomes of its answer,
// and what else the registration takes.
const { each } = convert;
const REQUESTS = [
  ["hoverProvider", "registerHoverProvider", "provideHover", "hover", at, convert.hover],
  ["definitionProvider", "registerDefinitionProvider", "provideDefinition", "definition", at, convert.location],
  ["referencesProvider", "registerReferenceProvider", "provideReferences", "references", usesOf, each(convert.location)],
  ["documentHighlightProvider", "registerDocumentHighlightProvider", "provideDocumentHighlights", "documentHighlight", at, each(convert.highlight)],
  ["documentSymbolProvider", "registerDocumentSymbolProvider", "provideDocumentSymbols", "documentSymbol", nothing, each(convert.symbol)],
  ["foldingRangeProvider", "registerFoldingRangeProvider", "provideFoldingRanges", "foldingRange", nothing, each(convert.fold)],
  ["inlayHintProvider", "registerInlayHintsProvider", "provideInlayHints", "inlayHint", within, each(convert.hint)],
  ["completionProvider", "registerCompletionItemProvider", "provideCompletionItems", "completion", at, each(convert.completion), triggers],
  ["signatureHelpProvider", "registerSignatureHelpProvider", "provideSignatureHelp", "signatureHelp", at, convert.signatures, triggers],
  ["codeActionProvider", "registerCodeActionsProvider", "provideCodeActions", "codeAction", fixesWithin, each(convert.quickFix), kindsOf],
  ["semanticTokensProvider.full", "registerDocumentSemanticTokensProvider", "provideDocumentSemanticTokens", "semanticTokens/full", nothing,
    convert.tokens, legendOf],
  ["semanticTokensProvider.range", "registerDocumentRangeSemanticTokensProvider", "provideDocumentRangeSemanticTokens", "semanticTokens/range",
    within, convert.tokens, legendOf],
  ["renameProvider", "registerRenameProvider", "provideRenameEdits", "rename", renamed, convert.workspaceEdit],
];

// Registers a provider for each request that a server announces, and returns what disposes of them.
function registerProviders(connection, capabilities) {
  const asks = (method, parameters, converted) => async (document, ...rest) => {
    const params = { textDocument: { uri: document.uri.toString() }, ...parameters(...rest) };
    const result = await connection.request(`textDocument/${method}`, params);
    return result && converted(result);
  };
  const preparesRename = async (...asked) => {
    const place = await asks("prepareRename", at, convert.placeToRename)(...asked);
    if (!place) throw new Error("There is no name here that the document defines.");
    return place;
  };
  return REQUESTS.flatMap(([capability, registration, provide, method, parameters, converted, more = () => []]) => {
    const [name, part] = capability.split(".");
    const options = capabilities[name];
    if (!options || (part && !options[part])) return [];
    const provider = { [provide]: asks(method, parameters, converted) };
    if (options.prepareProvider) provider.prepareRename = preparesRename;
    return [languages[registration](SELECTOR, provider, ...more(options))];
  });
}

module.exports = { SELECTOR, registerProviders };
