// Starts `ispx lsp` for the sources that are open, and ends it with the editor.
const { workspace } = require("vscode");
const { LanguageClient } = require("vscode-languageclient/node");

let client;

function activate() {
  const settings = workspace.getConfiguration("isp");
  const server = { command: settings.get("path"), args: ["lsp", "--gang", settings.get("gang")] };
  client = new LanguageClient("isp", "ISPC", server, { documentSelector: [{ language: "ispc" }] });
  return client.start();
}

function deactivate() {
  return client && client.stop();
}

module.exports = { activate, deactivate };
