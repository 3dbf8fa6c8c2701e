"use strict";
// Who answers: the module in a worker of this page, or the server that gave the page. Nothing is judged here.
const data = JSON.parse(document.getElementById("data").textContent);
const $ = (id) => document.getElementById(id);
const each = (selector, act) => document.querySelectorAll(selector).forEach(act);
const bytesOf = (text) => Uint8Array.from(atob(text), (c) => c.charCodeAt(0));

const WORKER = `
let judge, line = Promise.resolve();
onmessage = ({ data: { id, code, station, question } }) => {
  line = line.then(async () => {
    try {
      if (!code) return postMessage({ id, answer: await judge.answer(question) });
      judge = new Judge(await WebAssembly.compile(code), station);
      postMessage({ id, answer: await judge.start() });
    } catch (error) { postMessage({ id, answer: { code: -1, texts: [], error: String(error) } }); }
  });
};`;

async function startWorker() {
  const packed = new Blob([bytesOf(data.module)]).stream().pipeThrough(new DecompressionStream("gzip"));
  const code = await new Response(packed).arrayBuffer();
  const worker = new Worker(URL.createObjectURL(new Blob([$("judge").textContent, WORKER], { type: "text/javascript" })));
  const waiting = new Map();
  let last = 0;
  worker.onmessage = ({ data: { id, answer } }) => { waiting.get(id)(answer); waiting.delete(id); };
  const send = (message) => new Promise((done) => { waiting.set(++last, done); worker.postMessage({ id: last, ...message }); });
  const started = await send({ code, station: bytesOf(data.station) });
  if (started.code > 0) throw new Error(refusal(started));
  if (started.code < 0) {
    throw new Error("this browser cannot run the judge, which wants WebAssembly with a 64-bit memory (Chrome from 133, Firefox from 134); "
      + `tools/desk --serve needs none. It says: ${started.error}`);
  }
  return (question) => send({ question });
}

async function overServer(question) {
  const answer = await fetch("/ask", { method: "POST", body: JSON.stringify({ ...question, key: data.key }) });
  if (!answer.ok) throw new Error(`the server answers ${answer.status}`);
  return answer.json();
}

let ask;

// What a code above 1 says, in words.
function refusal(answer) {
  if (answer.code === 5) {
    const where = { 16: "part", 17: "bay" }[answer.number] || "byte";
    return `The drawing is refused: number ${answer.number}` + (answer.place ? `, at ${where} ${answer.place}` : "");
  }
  if (answer.code === 6) return `The input is refused: number ${answer.number}` + (answer.place ? `, line ${answer.place}` : "");
  if (answer.code === 8) return "There was not enough memory.";
  return `The judge gave no answer (${answer.code}): ${answer.error || ""}`;
}

// ---- the texts, as what they say

const linesOf = (text) => text.split("\n").filter(Boolean);

// `check`: by path both releases, their rules, and the reading of each denial.
function releasesOf(text) {
  const found = {};
  let last;
  for (const line of linesOf(text)) {
    const words = line.split(" ");
    if (words[0] === "+") {
      last[words[1] + "ing"].push({ word: words[2], path: words.slice(3).join(" ") });
      continue;
    }
    last = { open: words[0] === "1", close: words[1] === "1", rules: { open: words[2], close: words[3] }, opening: [], closeing: [] };
    found[words.slice(4).join(" ")] = last;
  }
  return found;
}

// `state`: by path the voltage and the earth.
function statesOf(text) {
  const found = {};
  for (const line of linesOf(text)) {
    const [voltage, earth, ...path] = line.split(" ");
    found[path.join(" ")] = `${voltage} ${earth}`;
  }
  return found;
}

// What joins two nodes: a closed switch, a link of a part, or a breaker that is open and counts as closed.
const overOf = ([kind, ...rest]) => (kind === "open" || kind === "link" ? { over: kind, path: rest.join(" ") } : { over: "switch", path: [kind, ...rest].join(" ") });

// `why`: the rule, the reading, the switches that do not matter alone, and the parts with their nodes, what joins these and
// the switch at their end. null: it is released.
function denialOf(text) {
  const said = { rule: "", reading: [], whatever: [], parts: [] };
  for (const line of linesOf(text)) {
    const [first, ...rest] = line.split(" "), part = said.parts[said.parts.length - 1];
    if (first === "released") return null;
    if (first === "denied") said.rule = rest[0];
    else if (first === "with") said.reading.push({ word: rest[0], path: rest.slice(1).join(" ") });
    else if (first === "whatever") said.whatever.push(rest.join(" "));
    else if (first === "node") part.steps.push({ node: rest.join(" ") });
    else if (first === "over") part.steps.push(overOf(rest));
    else if (first === "by") part.by = rest.join(" ");
    else if (rest.length === 0) said.parts.push({ name: first, steps: [], by: null });
    else throw new Error(`the page does not know the line ${line}`);
  }
  return said;
}
