"use strict";

const path = require("path");
const vscode = require("vscode");
const { LanguageClient } = require("vscode-languageclient/node");

// A schema in JSON keeps the language `json`, so its name selects it.
const DOCUMENTS = [
  { language: "cedar" },
  { language: "cedarschema" },
  { scheme: "file", pattern: "**/*.cedarschema.json" },
];

let client;
// Starts and stops come one after another, because settings may change while the server starts.
let work = Promise.resolve();

// The settings as the server takes them: once, when it starts.
function initializationOptions(settings) {
  const options = { mode: settings.get("mode") };
  const schema = settings.get("schema");
  const level = settings.get("level");
  if (schema) {
    const folder = vscode.workspace.workspaceFolders?.[0]?.uri.fsPath;
    options.schema = folder ? path.resolve(folder, schema) : schema;
  }
  if (level !== null) {
    options.level = level;
  }
  return options;
}

async function start() {
  const settings = vscode.workspace.getConfiguration("cedar");
  const server = { command: settings.get("server.path") };
  const options = {
    documentSelector: DOCUMENTS,
    initializationOptions: initializationOptions(settings),
  };
  client = new LanguageClient("cedar", "Cedar", server, options);
  // A server that does not start is reported by the client itself.
  await client.start().catch(() => {});
}

async function stop() {
  const old = client;
  client = undefined;
  // A client that did not start has nothing to stop.
  if (old?.isRunning()) {
    await old.stop();
  }
}

// A step is done once all earlier ones are, also where one of them failed.
function enqueue(step) {
  work = work.then(step, step);
  return work;
}

exports.activate = (context) => {
  const changes = vscode.workspace.onDidChangeConfiguration((event) => {
    if (event.affectsConfiguration("cedar")) {
      enqueue(stop);
      enqueue(start);
    }
  });
  context.subscriptions.push(changes);
  return enqueue(start);
};

exports.deactivate = () => enqueue(stop);
