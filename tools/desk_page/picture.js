// ---- the picture: its colours, its marks, and how it is moved

const GREY = ["#767676", 2, ""];
const shownWord = (word) => (word === "on" || word === "off" ? word : "intermediate");

// The parts of a picture that change, each with what it shows now: a picture is looked through once.
const parts = new WeakMap();

function partsOf(svg) {
  if (!parts.has(svg)) {
    const all = (selector, more = () => ({})) => [...svg.querySelectorAll(selector)].map((e) => ({ e, shows: null, ...more(e) }));
    parts.set(svg, {
      lines: all("[data-stroke]"), fills: all("[data-fill]"), words: all("[data-word]", (e) => ({ path: e.parentNode.dataset.path })),
      switches: all(".switch", (e) => ({ titles: [...e.querySelectorAll("title")] })), marks: all("[data-mark]"),
    });
  }
  return parts.get(svg);
}

// Shows something else where it does not show this already.
function show(part, what, act) {
  if (part.shows === what) return;
  part.shows = what;
  act(part);
}

function paintLine({ e, shows: [colour, width, dashes] }) {
  e.setAttribute("stroke", colour);
  if (e.tagName !== "polyline") return;
  e.setAttribute("stroke-width", width + (e.hasAttribute("stroke-linecap") ? 2 : 0));
  e.setAttribute("stroke-dasharray", dashes);
}

function paintTitle({ e, shows, titles }) {
  titles.forEach((title) => { title.textContent = shows; });
  e.setAttribute("aria-label", shows.replace(/\n/g, ", "));
}

const paintShown = ({ e, shows }) => { e.style.display = shows ? "" : "none"; };

// Paints a picture by the words, the states of the nodes and the releases.
function paint(svg, words, states, releases) {
  const all = partsOf(svg), styles = data.nodes.map((path) => data.states[states[path]] || GREY);
  for (const part of all.lines) show(part, styles[part.e.dataset.stroke], paintLine);
  for (const part of all.fills) show(part, styles[part.e.dataset.fill][0], ({ e, shows }) => e.setAttribute("fill", shows));
  for (const part of all.words) show(part, shownWord(words[part.path]) === part.e.dataset.word, paintShown);
  for (const part of all.switches) {
    const path = part.e.dataset.path, told = releases[path], said = (d) => (told[d] ? "1" : `0, ${told.rules[d]}`);
    show(part, `${path}\nword: ${words[path]}` + (told ? `\nEnaOpn: ${said("open")}\nEnaCls: ${said("close")}` : ""), paintTitle);
  }
  for (const part of all.marks) {
    const told = releases[part.e.dataset.of];
    show(part, Boolean(told) && told[part.e.dataset.mark] === (part.e.dataset.free === "1"), paintShown);
  }
}

// The colours that occur, and what they mean.
function paintLegend(states) {
  const occur = new Set(Object.values(states));
  $("legend").replaceChildren(...data.legend.filter(([state]) => occur.has(state)).map(([state, words]) => {
    const item = document.createElement("li"), [colour, width, dashes] = data.states[state];
    item.innerHTML = `<svg viewBox="0 0 44 10"><line x1="0" x2="44" y1="5" y2="5" stroke="${colour}" stroke-width="${width + 1}" stroke-dasharray="${dashes}"/></svg>`;
    item.append(words);
    return item;
  }));
}

const picture = document.querySelector("#picture svg");
const whole = picture.viewBox.baseVal, size = { w: whole.width, h: whole.height };
let view = { x: 0, y: 0, w: size.w, h: size.h };
picture.removeAttribute("width");
picture.removeAttribute("height");

function look(next) {
  const w = Math.min(Math.max(next.w, size.w / 20), 2 * size.w), h = (w / next.w) * next.h;
  view = { x: next.x, y: next.y, w, h };
  picture.setAttribute("viewBox", `${view.x} ${view.y} ${view.w} ${view.h}`);
}

// Larger (below 1) or smaller, about a point of the picture.
function zoom(by, at = { x: view.x + view.w / 2, y: view.y + view.h / 2 }) {
  const w = Math.min(Math.max(view.w * by, size.w / 20), 2 * size.w), part = w / view.w;
  look({ x: at.x - (at.x - view.x) * part, y: at.y - (at.y - view.y) * part, w, h: view.h * part });
}

const fit = () => look({ x: 0, y: 0, w: size.w, h: size.h });
const move = (dx, dy) => look({ ...view, x: view.x + dx * view.w, y: view.y + dy * view.h });

function placeOf(event) {
  const point = new DOMPoint(event.clientX, event.clientY).matrixTransform(picture.getScreenCTM().inverse());
  return { x: point.x, y: point.y };
}

const fingers = new Map();
let drag = null;
picture.addEventListener("wheel", (event) => { event.preventDefault(); zoom(event.deltaY > 0 ? 1.15 : 1 / 1.15, placeOf(event)); }, { passive: false });
picture.addEventListener("pointerdown", (event) => {
  fingers.set(event.pointerId, event);
  if (event.button === 0) drag = { from: placeOf(event), x: event.clientX, y: event.clientY, far: false };
});
picture.addEventListener("pointermove", (event) => {
  if (!fingers.has(event.pointerId)) return;
  if (fingers.size === 2) {
    const apart = () => { const [a, b] = [...fingers.values()]; return Math.hypot(a.clientX - b.clientX, a.clientY - b.clientY); };
    const before = apart();
    fingers.set(event.pointerId, event);
    if (before > 0 && apart() > 0) zoom(before / apart(), placeOf(event));
    drag.far = true;
    return;
  }
  fingers.set(event.pointerId, event);
  if (!drag) return;
  if (Math.hypot(event.clientX - drag.x, event.clientY - drag.y) > 5) drag.far = true;
  if (!drag.far) return;
  picture.classList.add("panning");
  const at = placeOf(event);
  look({ ...view, x: view.x + drag.from.x - at.x, y: view.y + drag.from.y - at.y });
});
const lift = (event) => { fingers.delete(event.pointerId); picture.classList.remove("panning"); };
addEventListener("pointerup", lift);
addEventListener("pointercancel", lift);

// The place of an item's symbol in the picture.
function symbolPlace(path) {
  const group = picture.querySelector(`[data-path="${CSS.escape(path)}"] g[transform]`);
  const found = group && group.getAttribute("transform").match(/translate\(([-\d.]+) ([-\d.]+)\)/);
  return found ? { x: Number(found[1]), y: Number(found[2]) } : null;
}

function centre(path) {
  const at = symbolPlace(path);
  if (at && (at.x < view.x || at.x > view.x + view.w || at.y < view.y || at.y > view.y + view.h)) look({ ...view, x: at.x - view.w / 2, y: at.y - view.h / 2 });
}
