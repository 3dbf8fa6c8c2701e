// ---- the panel: the answer, the steps, the list of switches and the menu

const BECOMES = { open: "off", close: "on" }, OPERATION = { off: "close", on: "open" };
const WORDS = ["off", "on", "intermediate", "bad", "lost"];
let chosen = null;

function added(box, tag, text, kind = "") {
  const e = document.createElement(tag);
  e.textContent = text;
  e.className = kind;
  box.append(e);
  return e;
}

function choose(path) {
  chosen = path;
  each(".switch", (e) => e.classList.toggle("chosen", e.dataset.path === path));
  each("#switches tr", (e) => e.classList.toggle("chosen", e.dataset.path === path));
}

// What is said of a switch; where an operation was tried and denied, why.
async function tell(path, tried = null) {
  putAway();
  choose(path);
  const told = releases[path], box = $("answer");
  box.replaceChildren();
  added(box, "div", `${path} is ${now()[path]}`);
  if (!told) return;
  for (const direction of tried ? [tried] : ["open", "close"]) {
    const free = told[direction];
    added(box, "div", free ? `${direction}: released` : `${direction}: denied by ${told.rules[direction]}`, free ? "free" : "denied");
    if (free) continue;
    if (tried) added(box, "pre", (await why(direction, path)).join("\n"), "why");
    else added(box, "button", `why not ${direction}`).onclick = doing(() => tell(path, direction));
  }
  if (!tried && changed.length) added(box, "pre", changed.join("\n"), "changed");
}

function paintSteps() {
  $("steps").replaceChildren(...history.map(({ said }, i) => {
    const item = document.createElement("li");
    item.textContent = said;
    item.className = i === at ? "now" : i > at ? "undone" : "";
    item.onclick = doing(() => travel(i));
    return item;
  }));
  $("undo").disabled = at === 0;
  $("redo").disabled = at === history.length - 1;
  const last = $("steps").children[at];
  if (last) $("steps").scrollTop = last.offsetTop - $("steps").offsetTop - 40;
}

// The rows of the list, by path; each is made once.
const rows = new Map();

function rowOf(path) {
  if (!rows.has(path)) {
    const row = document.createElement("tr");
    row.dataset.path = path;
    added(row, "td", path.split("/").slice(1).join("/"));
    for (let i = 0; i < 3; i++) added(row, "td", "");
    row.onclick = doing(() => { centre(path); return tell(path); });
    row.oncontextmenu = (event) => openMenu(event, path);
    $("switches").append(row);
    rows.set(path, { row, shows: null });
  }
  return rows.get(path);
}

function paintRow({ row, shows: { word, told } }) {
  const cells = row.children;
  cells[1].textContent = word;
  ["open", "close"].forEach((direction, i) => {
    cells[2 + i].textContent = told[direction] ? "1" : `0 ${told.rules[direction] || ""}`;
    cells[2 + i].className = told[direction] ? "yes" : "no";
  });
}

function paintSwitches() {
  const wanted = $("filter").value.toLowerCase().split(" ");
  for (const path of switches) {
    const told = releases[path] || { rules: {} }, part = rowOf(path);
    const text = [path, now()[path], told.rules.open, told.rules.close].join(" ").toLowerCase();
    const hidden = !wanted.every((word) => text.includes(word));
    if (part.row.hidden !== hidden) part.row.hidden = hidden;
    part.row.classList.toggle("chosen", path === chosen);
    const { shows } = part;
    if (shows && shows.text === text && shows.told.open === told.open && shows.told.close === told.close) continue;
    part.shows = { text, word: now()[path], told };
    paintRow(part);
  }
}

// The words that the picture cannot show beside its symbol.
function paintWords() {
  each(".said.word", (e) => e.remove());
  const others = boxesOf();
  for (const path of switches) if (["bad", "lost"].includes(now()[path])) note(path, now()[path], "word", others);
}

// ---- the menu of a switch

function openMenu(event, path) {
  event.preventDefault();
  const menu = $("menu"), told = releases[path];
  menu.replaceChildren();
  choose(path);
  added(menu, "b", nameOf(path));
  for (const direction of ["open", "close"]) {
    const item = added(menu, "button", told && !told[direction] ? `${direction}: denied, why?` : direction);
    item.disabled = !told || now()[path] === BECOMES[direction];
    item.onclick = doing(() => { shutMenu(); return command(direction, path); });
  }
  menu.append(document.createElement("hr"));
  for (const word of WORDS) {
    const item = added(menu, "button", `is ${word}`);
    item.disabled = now()[path] === word;
    item.onclick = doing(() => { shutMenu(); return take(path, word); });
  }
  menu.hidden = false;
  const box = menu.getBoundingClientRect();
  menu.style.left = `${Math.max(0, Math.min(event.clientX, innerWidth - box.width))}px`;
  menu.style.top = `${Math.max(0, Math.min(event.clientY, innerHeight - box.height))}px`;
  const first = menu.querySelector("button:enabled");
  if (first) first.focus({ preventScroll: true });
}

function shutMenu() {
  $("menu").hidden = true;
}

addEventListener("pointerdown", (event) => { if (!$("menu").contains(event.target)) shutMenu(); });
