// Starts `kdl lsp` for documents in KDL.
const { workspace } = require("vscode");
const { LanguageClient } = require("vscode-languageclient/node");

let client;

function activate() {
  const command = workspace.getConfiguration("kdl").get("command", "kdl");
  client = new LanguageClient("kdl", "KDL", { command, args: ["lsp"] }, { documentSelector: [{ language: "kdl" }] });
  return client.start();
}

function deactivate() {
  return client && client.stop();
}

module.exports = { activate, deactivate };
