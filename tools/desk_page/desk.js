// ---- the positions, and the steps that led to them

const items = new Map(data.items.map((item) => [item.path, item]));
const switches = data.items.filter((item) => item.switch).map((item) => item.path);
const allOff = () => Object.fromEntries(switches.map((path) => [path, "off"]));
let history = [{ words: allOff(), said: "all off", step: null }], at = 0;
let releases = {}, states = {}, changed = [];
const now = () => history[at].words;
const field = (text) => (/[",\r\n]/.test(text) ? `"${text.replace(/"/g, '""')}"` : text);
const csv = (words) => Object.entries(words).map(([path, word]) => `${field(path)},${word}\n`).join("");

function go(words, said, step = null) {
  history.splice(at + 1);
  history.push({ words, said, step });
  at += 1;
}

// ---- what the judge says of positions; each is asked once

const known = new Map();

async function judgedText(positions) {
  if (known.has(positions)) return known.get(positions);
  const answer = await ask({ asks: "check", positions });
  if (answer.code !== 0) throw new Error(refusal(answer));
  if (known.size > 400) known.clear();
  known.set(positions, answer.texts);
  return answer.texts;
}

async function judged(words) {
  const [check, state] = await judgedText(csv(words));
  return { releases: releasesOf(check), states: statesOf(state) };
}

// What a step released or denied.
function differences(before, after) {
  const lines = [];
  for (const [free, said] of [[true, "released by this:"], [false, "denied by this:"]]) {
    const turned = switches.flatMap((path) => ["open", "close"].filter((d) => before[path] && after[path]
      && before[path][d] !== after[path][d] && after[path][d] === free).map((d) => `    ${d} ${path}`));
    if (turned.length) lines.push(said, ...turned);
  }
  return lines;
}

async function judge() {
  const from = performance.now(), before = releases;
  $("took").textContent = "judging ..";
  ({ releases, states } = await judged(now()));
  changed = differences(before, releases);
  paint(picture, now(), states, releases);
  paintLegend(states);
  paintWords();
  paintSteps();
  paintSwitches();
  document.body.classList.remove("refused");
  $("took").textContent = `judged in ${(performance.now() - from).toFixed(0)} ms by the ${data.module ? "module in this page" : "program on this machine"}`;
  document.body.dataset.judged = String(Number(document.body.dataset.judged || 0) + 1);
}

// ---- what the user does; one thing after another

let busy = Promise.resolve();

// Where there is no answer, the picture shows none.
function failed(error) {
  releases = {};
  states = {};
  paint(picture, now(), states, releases);
  paintSwitches();
  document.body.classList.add("refused");
  $("answer").textContent = String(error.message || error);
  $("took").textContent = "no answer";
  document.body.dataset.failed = String(Number(document.body.dataset.failed || 0) + 1);
}

const settle = () => { document.body.dataset.done = String(Number(document.body.dataset.done || 0) + 1); };
const doing = (act) => (event) => { busy = busy.then(() => act(event)).catch(failed).then(settle); };

// Commands a switch; says whether it moved.
async function command(direction, path) {
  if (!releases[path] || !releases[path][direction]) { await tell(path, direction); return false; }
  go({ ...now(), [path]: BECOMES[direction] }, `${direction} ${path}`, `${direction} ${path}`);
  await judge();
  await tell(path);
  return true;
}

// Takes a switch to be in a position, whatever the rules say.
async function take(path, word) {
  go({ ...now(), [path]: word }, `${path} is ${word}`);
  await judge();
  await tell(path);
}

// Where the position is not known, both operations are told, and neither is done.
const click = (path) => (OPERATION[now()[path]] ? command(OPERATION[now()[path]], path) : tell(path));

async function travel(to) {
  if (to < 0 || to >= history.length) return;
  at = to;
  putAway();
  await judge();
  $("answer").replaceChildren();
  added($("answer"), "div", `step ${at}: ${history[at].said}`);
  if (changed.length) added($("answer"), "pre", changed.join("\n"), "changed");
}

// The rows of a text of positions.
function rowsOf(text) {
  const rows = [];
  const pattern = /(?:"((?:[^"]|"")*)"|([^",\r\n]*)),([a-z]+)[ \t]*(?:\r\n|\n|\r|$)/g;
  for (const found of text.replace(/^\uFEFF/, "").matchAll(pattern)) rows.push([found[1] === undefined ? found[2] : found[1].replace(/""/g, '"'), found[3]]);
  return rows;
}

// Takes over a file of positions: the judge accepts it, and says of the words that were read here what it says of the file.
async function takeFile(bytes, said) {
  const text = new TextDecoder().decode(bytes);
  const answer = await ask({ asks: "check", positions: data.module ? bytes : text });
  if (answer.code !== 0) {
    $("answer").textContent = `${said}: ${refusal(answer)}`;
    return;
  }
  const words = { ...Object.fromEntries(switches.map((path) => [path, "lost"])), ...Object.fromEntries(rowsOf(text)) };
  const again = await judgedText(csv(words));
  if (again[0] !== answer.texts[0] || again[1] !== answer.texts[1]) {
    $("answer").textContent = `${said}: the page reads this file otherwise than the judge, so it was not taken over`;
    return;
  }
  go(words, said);
  putAway();
  await judge();
  $("answer").textContent = `${said} taken over`;
}

const readFile = async (file) => takeFile(new Uint8Array(await file.arrayBuffer()), file.name);

function save() {
  const link = document.createElement("a");
  link.href = URL.createObjectURL(new Blob([csv(now())], { type: "text/csv" }));
  link.download = "positions.csv";
  link.click();
}

function printPage() {
  $("stamp").textContent = `${data.title}, printed ${new Date().toISOString().slice(0, 16).replace("T", " ")} UTC`;
  const before = view;
  fit();
  window.print();
  look(before);
}

// ---- clicks and keys

each("#picture .switch", (e) => {
  const path = e.dataset.path;
  e.addEventListener("click", () => { if (!drag || !drag.far) doing(() => click(path))(); });
  e.addEventListener("contextmenu", (event) => openMenu(event, path));
  e.addEventListener("focus", () => choose(path));
});
const WIRED = {
  undo: () => travel(at - 1), redo: () => travel(at + 1), taken: takeSteps, step: nextStep, whole: judgeOrder, sheets: makeSheet,
  save, alloff: async () => { go(allOff(), "all off"); putAway(); await judge(); },
};
for (const [id, act] of Object.entries(WIRED)) $(id).onclick = doing(act);
$("larger").onclick = () => zoom(1 / 1.3);
$("smaller").onclick = () => zoom(1.3);
$("fit").onclick = fit;
$("print").onclick = printPage;
$("filter").oninput = paintSwitches;
$("file").onchange = (event) => { for (const file of event.target.files) doing(() => readFile(file))(); };
$("help").onclick = () => { $("keys").hidden = !$("keys").hidden; };
$("enough").onclick = () => { $("keys").hidden = true; };
$("shade").onclick = () => {
  const root = document.documentElement, dark = root.dataset.shade ? root.dataset.shade === "dark" : matchMedia("(prefers-color-scheme: dark)").matches;
  root.dataset.shade = dark ? "light" : "dark";
};

addEventListener("dragover", (event) => { event.preventDefault(); document.body.classList.add("drop"); });
addEventListener("dragleave", () => document.body.classList.remove("drop"));
addEventListener("drop", (event) => {
  event.preventDefault();
  document.body.classList.remove("drop");
  for (const file of event.dataTransfer.files) doing(() => readFile(file))();
});

const needs = (act) => () => { if (chosen) doing(() => act(chosen))(); };
const menuByKey = (path) => {
  const e = picture.querySelector(`.switch[data-path="${CSS.escape(path)}"]`), box = e.getBoundingClientRect();
  openMenu({ preventDefault() {}, clientX: box.right, clientY: box.top }, path);
};
const KEYS = {
  Enter: needs(click), o: needs((path) => command("open", path)), c: needs((path) => command("close", path)), m: needs(menuByKey),
  w: needs((path) => tell(path, OPERATION[now()[path]] || "close")), u: WIRED.undo && doing(WIRED.undo), r: doing(WIRED.redo),
  "/": () => $("filter").focus(), "+": () => zoom(1 / 1.3), "-": () => zoom(1.3), 0: fit, "?": () => $("help").click(),
  ArrowLeft: () => move(-0.1, 0), ArrowRight: () => move(0.1, 0), ArrowUp: () => move(0, -0.1), ArrowDown: () => move(0, 0.1),
};
addEventListener("keydown", (event) => {
  if (event.key === "Escape") { shutMenu(); putAway(); $("keys").hidden = true; if (event.target.blur) event.target.blur(); return; }
  if (["TEXTAREA", "INPUT", "BUTTON"].includes(event.target.tagName) || event.altKey || event.metaKey) return;
  if (event.ctrlKey) {
    if (event.key === "z" || event.key === "y") { event.preventDefault(); doing(event.key === "z" ? WIRED.undo : WIRED.redo)(); }
    return;
  }
  if (KEYS[event.key]) { event.preventDefault(); KEYS[event.key](); }
});

busy = (async () => {
  const from = performance.now();
  ask = data.module ? await startWorker() : overServer;
  document.body.dataset.started = (performance.now() - from).toFixed(0);
  if (data.positions) {
    await takeFile(bytesOf(data.positions), "positions of the page");
    if (at > 0) { history = [{ ...history[at], said: "start" }]; at = 0; changed = []; paintSteps(); return; }
  }
  await judge();
})().catch(failed).then(settle);
