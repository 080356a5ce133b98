"use strict";
// The extension of VS Code, as scripts/editor_cases.py runs it: with stand-ins for VS Code and for vscode-languageclient. It prints
// each start and each stop of a server. TOP is the repository.

const Module = require("module");
const path = require("path");

const EXTENSION = path.join(process.env.TOP, "editors", "vscode");
const declared = require(path.join(EXTENSION, "package.json")).contributes.configuration.properties;
const set = {};
let listener;

const vscode = {
  workspace: {
    workspaceFolders: [{ uri: { fsPath: "/photos" } }],
    getConfiguration: (section) => ({
      get(key) {
        const name = `${section}.${key}`;
        if (!(name in declared)) {
          throw new Error(`${name} is no setting`);
        }
        return name in set ? set[name] : declared[name].default;
      },
    }),
    onDidChangeConfiguration(given) {
      listener = given;
      return { dispose() {} };
    },
  },
};

class LanguageClient {
  constructor(id, name, server, options) {
    Object.assign(this, { server, options, runs: false });
  }

  async start() {
    console.log("start", this.server.command, JSON.stringify(this.options.initializationOptions));
    await new Promise((done) => setTimeout(done, 10));
    if (this.server.command === "missing") {
      throw new Error("there is no such program");
    }
    this.runs = true;
  }

  isRunning() {
    return this.runs;
  }

  async stop() {
    console.log("stop", this.server.command);
    this.runs = false;
  }
}

const load = Module._load;
const standIns = { vscode, "vscode-languageclient/node": { LanguageClient } };
Module._load = (name, ...more) => standIns[name] ?? load(name, ...more);

// A stand-in starts within 10 ms: by then all is done that a change leads to.
const DONE = 50;

function change(values) {
  Object.assign(set, values);
  listener({ affectsConfiguration: (section) => Object.keys(values).some((name) => name.startsWith(`${section}.`)) });
  return new Promise((done) => setTimeout(done, DONE));
}

async function session() {
  const extension = require(path.join(EXTENSION, "extension.js"));
  const context = { subscriptions: [] };
  await extension.activate(context);
  await change({ "editor.fontSize": 12 });
  await change({ "cedar.schema": "app.cedarschema", "cedar.mode": "permissive", "cedar.level": 1 });
  await change({ "cedar.server.path": "missing", "cedar.schema": "/etc/app.cedarschema", "cedar.level": 0 });
  change({ "cedar.server.path": "first" });
  await change({ "cedar.server.path": "last", "cedar.level": null });
  await extension.deactivate();
  console.log("disposables", context.subscriptions.length);
}

session();
