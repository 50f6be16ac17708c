// The buttons, fields and keys of the page.

import { KINDS } from "./columns.js";
import { download, picture } from "./saving.js";
import { packed } from "./link.js";

const PAGE = 20;
const at = (id) => document.getElementById(id);

// Has the buttons do what they say.
export function wire(app, scenarios) {
  runs(app, scenarios);
  taking(app);
  moving(app);
  sifting(app);
  group(app);
  keys(app);
  dropping(app);
}

// Shows what the page's state allows.
export function refresh(app) {
  const { run } = app;
  at("undo").disabled = app.history.before.length === 0;
  at("redo").disabled = app.history.behind.length === 0;
  const slider = at("slider");
  slider.max = run.steps.length;
  slider.value = app.at;
  slider.setAttribute("aria-valuetext", `step ${app.at} of ${run.steps.length}`);
  at("place").textContent = `${app.at} of ${run.steps.length}`;
  for (const id of ["first", "back"]) at(id).disabled = app.at === 0;
  for (const id of ["last", "forth"]) at(id).disabled = app.isEnd;
  const { isAll, length } = app.columns;
  at("filter").querySelector("summary").textContent = isAll ? "Show only .." : `Shown: ${length} of ${run.steps.length}`;
  at("fork").hidden = app.isEnd;
  at("past").setAttribute("aria-pressed", String(app.isPast));
  at("past").disabled = app.at === 0;
  for (const it of document.querySelectorAll("#group button, #further button, #cut button")) it.disabled = !app.isEnd;
  at("examples").value = app.isKept ? app.held.example : "";
}

// Makes the boxes for members anew, where the group is another.
export function begin(app) {
  const members = app.run.group?.members ?? 0;
  if (members > 0) at("members").value = members;
  if (at("only-members").dataset.members === String(members)) return;
  at("only-members").dataset.members = members;
  app.filter = { ...app.filter, members: null };
  const boxes = (name, isOn) => Array.from({ length: members }, (_, i) =>
    `<label><input type="checkbox" name="${name}" value="${i + 1}"${isOn ? " checked" : ""}> ${i + 1}</label>`).join("");
  at("only-members").innerHTML = `<legend>members</legend>${boxes("only", true)}`;
  at("suspected").innerHTML = `<legend>the detectors suspect, in turns</legend>${boxes("suspect", false)}`;
  at("cut").innerHTML = `<legend>cut: members of one side</legend>${boxes("side", false)}`
    + `<button id="do-cut" type="button">Cut</button><button id="heal" type="button">Heal</button>`;
  at("do-cut").onclick = () => app.tell(`cut ${ticked("side").join(",")}`);
  at("heal").onclick = () => app.tell("heal");
}

const ticked = (name) => [...document.querySelectorAll(`input[name=${name}]:checked`)].map((it) => Number(it.value));

function runs(app, scenarios) {
  at("new").onclick = () => { if (at("members").reportValidity()) app.begin(at("members").value); };
  at("open").onchange = async (event) => {
    const files = [...event.target.files];
    if (files.length > 0) await app.openFiles(files);
    event.target.value = "";
  };
  for (const name of Object.keys(scenarios)) at("examples").add(new Option(name.replaceAll("_", " "), name));
  at("examples").onchange = (event) => {
    const hash = `#example=${event.target.value}`;
    if (event.target.value === "") return;
    if (location.hash === hash) dispatchEvent(new Event("hashchange"));
    else location.hash = hash;
  };
  addEventListener("beforeunload", (event) => { if (!app.isKept) event.preventDefault(); });
  at("undo").onclick = () => app.undo();
  at("redo").onclick = () => app.redo();
}

function taking(app) {
  at("save-schedule").onclick = () => {
    download("run.schedule", `${app.lines.join("\n")}\n`, "text/plain");
    app.kept();
  };
  at("save-record").onclick = () => {
    if (!app.run.group) return app.alert("no record: no line says how many members there are");
    download("run.json", `${app.run.live.record()}\n`, "application/json");
    if (!app.run.fault) app.kept();
  };
  at("save-svg").onclick = () => {
    const style = at("diagram-style").textContent;
    download("run.svg", picture(app.run, app.columns, app.at, style), "image/svg+xml");
  };
  at("link").onclick = async () => {
    const hash = `#s=${await packed(`${app.lines.join("\n")}\n`)}${app.isEnd ? "" : `&at=${app.at}`}`;
    history.replaceState(null, "", hash);
    app.kept();
    const isCopied = await navigator.clipboard?.writeText(location.href).then(() => true, () => false);
    app.status(`The link is in the address line${isCopied ? ", and copied" : ""}: ${location.href.length.toLocaleString("en")} letters.`);
  };
  at("theme").onclick = () => theme(!document.documentElement.classList.contains("dark"));
}

// Dark or light.
export function theme(isDark) {
  document.documentElement.classList.toggle("dark", isDark);
  at("theme").textContent = isDark ? "Light" : "Dark";
}

function moving(app) {
  at("first").onclick = () => app.go(0, false);
  at("last").onclick = () => app.go(app.run.steps.length, app.isPast);
  at("back").onclick = () => app.move(-1);
  at("forth").onclick = () => app.move(1);
  at("slider").oninput = () => soon(() => app.go(Number(at("slider").value), app.isPast));
  at("fork").onclick = () => app.fork();
  at("step").ontoggle = () => { if (at("step").open) app.show(); };
  at("past").onclick = () => app.go(app.at, !app.isPast);
  at("narrower").onclick = () => app.parts.diagram.zoomBy(-1);
  at("wider").onclick = () => app.parts.diagram.zoomBy(1);
}

let due = null;

// Does the last of what is asked for, once a frame.
function soon(work) {
  if (!due) requestAnimationFrame(() => { const it = due; due = null; it(); });
  due = work;
}

function sifting(app) {
  const boxes = KINDS.map((kind) => `<label><input type="checkbox" name="kind" value="${kind}" checked> ${kind}</label>`);
  at("only-kinds").innerHTML = `<legend>kinds</legend>${boxes.join("")}`;
  at("only-kinds").onchange = () => {
    const kinds = [...document.querySelectorAll("input[name=kind]:checked")].map((it) => it.value);
    app.sift({ kinds: kinds.length === KINDS.length ? null : kinds });
  };
  at("only-members").onchange = () => {
    const members = ticked("only");
    app.sift({ members: members.length === app.run.group.members ? null : members });
  };
  at("only-instance").oninput = (event) => app.sift({ instance: event.target.value === "" ? null : Number(event.target.value) });
  at("all").onclick = () => {
    for (const it of document.querySelectorAll("input[name=kind], input[name=only]")) it.checked = true;
    at("only-instance").value = "";
    app.sift({ members: null, kinds: null, instance: null });
  };
}

function group(app) {
  const suspecting = () => (ticked("suspect").length ? ` suspecting ${ticked("suspect").join(",")}` : "");
  at("turn").onclick = () => app.tell(`all turns 1${suspecting()}`);
  at("go").onclick = () => app.tell(`all turns ${at("turns").value}${suspecting()}`);
  at("settle").onclick = () => app.tell(`all settle${suspecting()}`);
  at("further").onsubmit = (event) => {
    event.preventDefault();
    const line = at("line").value.trim();
    if (line) app.tell(line);
    at("line").select();
  };
  at("group").onsubmit = (event) => event.preventDefault();
}

function keys(app) {
  const moves = {
    ArrowLeft: () => app.move(-1), ArrowRight: () => app.move(1), ArrowUp: () => app.moveInLine(-1), ArrowDown: () => app.moveInLine(1),
    PageUp: () => app.move(-PAGE), PageDown: () => app.move(PAGE), Home: () => app.go(0, app.isPast),
    End: () => app.go(app.run.steps.length, app.isPast), "+": () => app.parts.diagram.zoomBy(1), "-": () => app.parts.diagram.zoomBy(-1),
    Enter: () => app.go(app.at, !app.isPast),
  };
  at("diagram").addEventListener("keydown", (event) => {
    if (!moves[event.key] || event.ctrlKey || event.altKey) return;
    event.preventDefault();
    soon(moves[event.key]);
  });
  document.addEventListener("keydown", (event) => {
    if (!(event.ctrlKey || event.metaKey) || event.key.toLowerCase() !== "z" || event.target.matches("textarea, input[type=text]")) return;
    event.preventDefault();
    if (event.shiftKey) app.redo();
    else app.undo();
  });
}

function dropping(app) {
  const over = (isOver) => document.body.classList.toggle("over", isOver);
  addEventListener("dragover", (event) => { event.preventDefault(); over(true); });
  addEventListener("dragleave", (event) => { if (!event.relatedTarget) over(false); });
  addEventListener("drop", async (event) => {
    event.preventDefault();
    over(false);
    const files = [...event.dataTransfer.files];
    if (files.length > 0) await app.openFiles(files);
  });
}
