// ---- switching orders: taken from the steps, judged, replayed, and printed as a sheet

let orderStart = null;

const orderLines = () => $("order").value.split("\n").filter(Boolean);

function setStart(words, said) {
  orderStart = words;
  $("from").textContent = `judged from: ${said}`;
}

// The operations made last, and the positions before the first of them.
function takeSteps() {
  let first = at;
  while (first > 0 && history[first].step) first -= 1;
  $("order").value = history.slice(first + 1, at + 1).map(({ step }) => `${step}\n`).join("");
  setStart(history[first].words, history[first].said);
  $("judged").textContent = "";
}

async function judgeOrder() {
  if (!orderStart) setStart(now(), "the positions now");
  const answer = await ask({ asks: "order", positions: csv(orderStart), steps: $("order").value });
  $("judged").textContent = answer.code > 1 || answer.code < 0 ? refusal(answer) : answer.texts[0];
}

// Makes the first step of the order, and takes its line away where it was released.
async function nextStep() {
  const [line, ...rest] = orderLines(), [direction, ...words] = (line || "").split(" "), path = words.join(" ");
  if (!BECOMES[direction] || !items.has(path)) { $("judged").textContent = line ? `no step: ${line}` : "no step is left"; return; }
  if (now()[path] === BECOMES[direction]) { $("judged").textContent = `idle: ${line}`; return; }
  const moved = await command(direction, path);
  $("judged").textContent = moved ? `done: ${line}` : `denied: ${line}`;
  if (moved) $("order").value = rest.map((step) => `${step}\n`).join("");
}

// One step of the sheet: what was asked, the answer, the picture after it, and a place to sign.
function sheetStep(number, line, answer, words, judged) {
  const box = document.createElement("div");
  box.className = "step";
  added(box, "h3", `${number}. ${line}`);
  added(box, "p", answer);
  const svg = picture.cloneNode(true);
  svg.querySelectorAll(".halo, .said").forEach((e) => e.remove());
  svg.querySelectorAll(".chosen, .way").forEach((e) => e.classList.remove("chosen", "way"));
  svg.setAttribute("viewBox", `0 0 ${size.w} ${size.h}`);
  paint(svg, words, judged.states, judged.releases);
  box.append(svg);
  const sign = added(box, "div", "", "sign");
  for (const word of ["ordered", "done", "time"]) added(sign, "span", word);
  return box;
}

function shutSheet() {
  document.body.classList.remove("sheet");
  $("sheet").hidden = true;
}

async function makeSheet() {
  await judgeOrder();
  const sheet = $("sheet"), answers = $("judged").textContent.split("\n").filter(Boolean);
  sheet.replaceChildren();
  for (const [id, words, act] of [["back", "back to the station", shutSheet], ["press", "print", () => window.print()]]) {
    const button = added(sheet, "button", words);
    button.id = id;
    button.onclick = act;
  }
  added(sheet, "h1", `${data.title}: switching order`);
  added(sheet, "p", `${data.name}, ${new Date().toISOString().slice(0, 16).replace("T", " ")} UTC. ${answers.filter((line) => !/^\d/.test(line)).join("; ")}`);
  let words = orderStart;
  for (const [i, line] of orderLines().entries()) {
    const answer = answers.find((said) => said.startsWith(`${i + 1} `));
    if (!answer) break;
    const [direction, ...path] = line.split(" ");
    if (answer.startsWith(`${i + 1} ok`)) words = { ...words, [path.join(" ")]: BECOMES[direction] };
    sheet.append(sheetStep(i + 1, line, answer, words, await judged(words)));
  }
  added(sheet, "pre", $("sums").textContent);
  sheet.hidden = false;
  document.body.classList.add("sheet");
}
