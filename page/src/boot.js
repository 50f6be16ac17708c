// Begins: the library out of the page, a run, and what the link asks for.

import { App } from "./app.js";
import { Diagram } from "./diagram.js";
import { Editor } from "./editor.js";
import { Library } from "../../bindings/node/library.js";
import { Members } from "./members.js";
import { Opening } from "./opening.js";
import { Search } from "./search.js";
import { Tool } from "./tool.js";
import { Waiting } from "./waiting.js";
import { begin, refresh, theme, wire } from "./controls.js";
import { asked, bytesOf, through } from "./link.js";
import { legend } from "./legend.js";
import { printout } from "./printing.js";

const FIRST = ["members 3"];
const HINT = "A group of three that has taken no step: have a member submit a message, open a run, or choose an example.";
const at = (id) => document.getElementById(id);

const NO_MODULE = "This browser can't run the library: it needs WebAssembly with vectors (Chrome 103, Firefox 113, Safari 16.4)";

// The library of the page's module.
async function library() {
  const bytes = await through(new DecompressionStream("gzip"), bytesOf(at("module").textContent));
  return Library.load(bytes);
}

function made(held, tool) {
  const waiting = new Waiting({ page: at("page"), bar: at("waiting"), text: at("progress-of-page"), button: at("leave") });
  const parts = { waiting, step: at("step"), alert: at("alert"), status: at("status"), controls: refresh, began: begin };
  parts.opening = new Opening(tool, waiting);
  const app = new App(held, parts);
  parts.diagram = new Diagram(at("diagram"), at("sheet"), (step) => app.look(step));
  parts.members = new Members(at("members-now"), (line) => app.tell(line));
  parts.editor = new Editor({ text: at("text"), gutter: at("gutter"), fault: at("fault") }, (lines) => app.change(lines));
  return app;
}

// Opens what the link asks for; else a group that has taken no step. A link that is none leaves what there is.
const follow = (app, scenarios) => app.do(async () => {
  const found = await asked(location.hash, scenarios).catch((fault) => ({ fault }));
  if (found?.text !== undefined) {
    await app.opened(app.parts.opening.ofText(found.text), found.at, found.name);
    return app.kept(found.name);
  }
  if (app.lines.length === 0 || !found) {
    await app.renew(FIRST);
    app.kept();
    app.status(HINT);
  }
  if (found) throw found.fault;
});

async function start() {
  const began = performance.now();
  theme(matchMedia("(prefers-color-scheme: dark)").matches);
  at("legend").innerHTML = legend();
  const held = await library().catch((error) => {
    at("alert").textContent = `${NO_MODULE} (${error.message})`;
  });
  if (!held) return;
  const scenarios = JSON.parse(at("scenarios").textContent);
  const tool = new Tool(at("tool").textContent);
  const app = made(held, tool);
  wire(app, scenarios);
  const search = new Search(app, tool);
  const failed = (error) => app.alert(`the page failed: ${error?.message ?? error}`);
  addEventListener("error", (event) => failed(event.error ?? event.message));
  addEventListener("unhandledrejection", (event) => failed(event.reason));
  await follow(app, scenarios);
  addEventListener("hashchange", () => follow(app, scenarios));
  addEventListener("beforeprint", () => { at("print").innerHTML = printout(app); });
  addEventListener("afterprint", () => { at("print").innerHTML = ""; });
  window.ct = { app, search, loaded: performance.now() - began };
}

await start();
