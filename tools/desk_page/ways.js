// ---- why not: the way of a denial, and the readings, in the picture

const RULES = {
  R1: "it would be closed onto what may be live",
  R2: "what may be live would be coupled to what is earthed",
  R3: "the disconnector would break or make load: a side is live, neither is without load, and nothing else bonds them",
};
const PARTS = { live: "live by this way", earthed: "earthed by this way", tap: "load by this way", bonded: "bonded to its first side" };
const COLOURS = { live: "#dd2f36", earthed: "#16874a", tap: "#2f76d2", bonded: "#b36200" };

function putAway() {
  each(".halo, .said:not(.word)", (e) => e.remove());
  each(".chosen, .way", (e) => e.classList.remove("chosen", "way"));
}

function halo(node, colour) {
  const number = String(data.nodes.indexOf(node));
  each("#picture polyline[data-stroke]", (e) => {
    if (e.dataset.stroke !== number) return;
    const line = e.cloneNode();
    for (const name of ["data-stroke", "stroke-dasharray"]) line.removeAttribute(name);
    line.setAttribute("class", "halo");
    line.setAttribute("stroke", colour);
    line.setAttribute("stroke-width", 14);
    e.parentNode.insertBefore(line, e);
  });
}

// What text beside a symbol must not cover: other text, the releases, and the symbols.
const boxesOf = () => [...picture.querySelectorAll("text, .mark rect, rect[pointer-events]")].filter((e) => e.getClientRects().length).map((e) => e.getBoundingClientRect());
const covers = (a, b) => a.left < b.right && b.left < a.right && a.top < b.bottom && b.top < a.bottom;

// Text beside a symbol, at the first place that is free.
function note(path, text, kind = "", others = boxesOf()) {
  const at = symbolPlace(path);
  if (!at) return;
  const e = document.createElementNS("http://www.w3.org/2000/svg", "text");
  e.setAttribute("class", `said ${kind}`);
  e.textContent = text;
  picture.append(e);
  let box = null;
  for (const [dx, dy] of [[0, -20], [0, 28], [0, -32], [0, 40], [0, 60], [-34, 4], [34, 4], [-34, -16], [34, -16], [-34, 20], [34, 20], [0, -20]]) {
    e.setAttribute("x", at.x + dx);
    e.setAttribute("y", at.y + dy);
    box = e.getBoundingClientRect();
    if (!others.some((other) => covers(box, other))) break;
  }
  others.push(box);
}

const mark = (path) => each("#picture [data-path]", (e) => { if (e.dataset.path === path) e.classList.add("way"); });
const nameOf = (path) => path.split("/").slice(-2).join("/");

// A line of a way as it is shown: what joins two nodes is named by the judge.
const OVER = {
  switch: (path) => `over ${nameOf(path)}`, open: (path) => `over open ${nameOf(path)} (an open breaker counts as closed)`,
  link: (path) => `over a link of ${path}`,
};

// The lines of a part: from the switch at its end over the devices.
function wayLines({ name, steps, by }) {
  const nodes = steps.filter((step) => step.node).map((step) => step.node);
  if (name === "bonded") return [`${PARTS.bonded}: ${nodes.join(", ")}`];
  nodes.forEach((node) => halo(node, COLOURS[name]));
  const lines = steps.map((step) => {
    if (step.node) return `    ${step.node}`;
    mark(step.path);
    return `    ${OVER[step.over](step.path)}`;
  });
  if (by) {
    mark(by);
    lines.push(`    by ${nameOf(by)}`);
  }
  return [`${PARTS[name]}:`, ...lines];
}

// Why the operation is denied, told in lines and shown in the picture.
async function why(direction, path) {
  const answer = await ask({ asks: "why", positions: csv(now()), closes: direction === "close", path });
  if (answer.code !== 0) return [refusal(answer)];
  const denial = denialOf(answer.texts[0]);
  if (!denial) return ["released"];
  const { rule, reading, whatever } = denial, lines = [`${rule}: ${RULES[rule]}`];
  if (whatever.length) lines.push(`denied whatever ${whatever.map(nameOf).join(", ")} ${whatever.length > 1 ? "are, each alone" : "is"}`);
  for (const { path: open, word } of reading) {
    if (whatever.includes(open)) continue;
    note(open, `if ${word}`);
    lines.push(`for example if ${nameOf(open)} is ${word}`);
  }
  if (reading.length && whatever.length === reading.length) lines.push("the way below is that of one reading");
  return [...lines, ...denial.parts.flatMap(wayLines)];
}
