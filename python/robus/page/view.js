"use strict";
// The page of tools/view. The data is what robus/view.py writes: texts by their numbers in
// `strings`, times in reference units, nodes by their numbers in `nodes`.
const run = JSON.parse(document.getElementById("data").textContent);
const LEFT = 46, TOP = 30, TAIL = 4;
const LANE = run.nodes.length > 16 ? 26 : 38;
const KINDS = { garbage: 3, outOfTurn: 4 };
const at = { frame: 0, slot: 0, from: 0, to: 1 }; // the place, and the times at both ends
const search = { places: [], index: -1 };
const canvas = document.getElementById("lanes");
const find = (id) => document.getElementById(id);
const frame = () => run.frames[at.frame];

function element(name, text, className) {
  const made = document.createElement(name);
  if (text !== undefined) made.textContent = text;
  if (className) made.className = className;
  return made;
}

// Times

function timeOf(node, tick) {
  const [start, segments] = run.clocks[node];
  let time = start;
  for (let i = 0; i < segments.length; i++) {
    const [first, length] = segments[i];
    const end = i + 1 < segments.length ? segments[i + 1][0] : Infinity;
    time += (Math.min(tick, end) - first) * length;
    if (tick <= end) break;
  }
  return time;
}

function timeText(units) {
  if (run.unit === null) return `${Math.round(units)} units`;
  const seconds = units * run.unit;
  const names = [["s", 1], ["ms", 1e-3], ["us", 1e-6], ["ns", 1e-9], ["ps", 1e-12]];
  const [name, size] = names.find(([, it]) => Math.abs(seconds) >= it) || names[4];
  return `${Number((seconds / size).toPrecision(6))} ${name}`;
}

// The windows of a node in the frame: slot, stage, and the times of both ends
function windowsOf(node) {
  frame().windows ??= run.nodes.map((_, it) => findWindows(it));
  return frame().windows[node];
}

function findWindows(node) {
  const epoch = frame().epochs[node];
  if (epoch === null) return [];
  const last = run.windows[run.windows.length - 1][0] + run.tail;
  const next = run.frames[at.frame + 1];
  const behind = next && next.epochs[node] !== null ? next.epochs[node] : epoch + last;
  return run.windows.map(([first, slot, stage], i) => {
    const end = i + 1 < run.windows.length ? epoch + run.windows[i + 1][0] : behind;
    return { slot, stage, from: timeOf(node, epoch + first), to: timeOf(node, end) };
  });
}

function firstNode() {
  return Math.max(0, frame().epochs.findIndex((it) => it !== null));
}

function span(slot) {
  const found = windowsOf(firstNode()).filter((it) => slot === undefined || it.slot === slot);
  return found.length ? [found[0].from, found[found.length - 1].to] : [0, 1];
}

// Who is faulty, and what is after the breach

function isFaulty(node, number, slot) {
  const onset = run.onsets[run.nodes[node]];
  return Boolean(onset) && (number > onset[0] || (number === onset[0] && slot >= onset[1]));
}

function isPast(slot, stage) {
  if (!run.breach || run.breach[0] !== frame().number) return false;
  return slot > run.breach[1] || (slot === run.breach[1] && stage > run.breach[2]);
}

// The messages of the frame, each with its fields by name
function messages() {
  const found = frame();
  found.messages ??= found.sent.map(([source, sent, slot, stage, kind, text, faulty, came]) => (
    { source, sent, slot, stage, kind, text: run.strings[text], faulty: Boolean(faulty),
      came: came.map(([node, time]) => ({ node, time: time + (sent ?? 0) })) }));
  return found.messages;
}

// The messages that say another thing than what the sender said to others in the same stage
function unlike() {
  const found = frame();
  if (found.unlike) return found.unlike;
  const said = new Map();
  for (const it of messages()) {
    const key = `${it.source} ${it.slot} ${it.stage}`;
    said.set(key, (said.get(key) || new Set()).add(it.text));
  }
  found.unlike = new Set(messages().filter((it) => (
    it.faulty && said.get(`${it.source} ${it.slot} ${it.stage}`).size > 1)));
  return found.unlike;
}

// Drawing

const look = { style: getComputedStyle(document.documentElement), isDark: false, slot: 0 };
const color = (name) => look.style.getPropertyValue(name).trim();
const laneOf = (node) => TOP + LANE * node + LANE / 2;
const width = () => canvas.clientWidth;

function colorOf(node) {
  return `hsl(${(node * 137.5 + 210) % 360} 65% ${look.isDark ? 68 : 38}%)`;
}

function xOf(time) {
  return LEFT + (time - at.from) / (at.to - at.from) * (width() - LEFT);
}

function timeAt(x) {
  return at.from + (x - LEFT) / (width() - LEFT) * (at.to - at.from);
}

function drawBands(pen) {
  for (let node = 0; node < run.nodes.length; node++) {
    if (!windowsOf(node).length) {
      pen.fillStyle = color("--bad-band");
      pen.fillRect(LEFT, TOP + LANE * node + 4, width() - LEFT, LANE - 8);
    }
    for (const it of windowsOf(node)) {
      const from = Math.max(LEFT, xOf(it.from)), to = xOf(it.to);
      if (to < LEFT || from > width()) continue;
      const faulty = isFaulty(node, frame().number, it.slot);
      const name = it.slot === at.slot ? "--chosen" : faulty ? "--bad-band"
        : it.slot % 2 ? "--band-odd" : "--band";
      pen.globalAlpha = isPast(it.slot, it.stage) ? 0.35 : 1;
      pen.fillStyle = color(name);
      pen.fillRect(from, TOP + LANE * node + 4, Math.max(0.5, to - from - 0.7), LANE - 8);
      if (faulty && it.slot === at.slot) {
        pen.fillStyle = color("--bad");
        pen.fillRect(from, TOP + LANE * node + LANE - 6, Math.max(0.5, to - from - 0.7), 2);
      }
    }
  }
  pen.globalAlpha = 1;
}

function drawLabels(pen) {
  pen.fillStyle = color("--back");
  pen.fillRect(0, 0, LEFT - 2, canvas.clientHeight);
  pen.textBaseline = "middle";
  pen.font = "bold 13px system-ui, sans-serif";
  for (let node = 0; node < run.nodes.length; node++) {
    const bad = isFaulty(node, frame().number, at.slot);
    pen.fillStyle = bad ? color("--bad") : colorOf(node);
    pen.fillText(run.nodes[node] + (bad ? " !" : ""), 8, laneOf(node));
  }
}

function drawSlots(pen) {
  pen.font = "12px system-ui, sans-serif";
  pen.textBaseline = "middle";
  let free = LEFT;
  for (let slot = 0; slot < run.purposes.length; slot++) {
    const [from, to] = span(slot).map(xOf);
    if (to < LEFT || from > width()) continue;
    const long = `${slot} ${run.purposes[slot]}`;
    const text = pen.measureText(long).width < to - from - 6 ? long : String(slot);
    const x = Math.max(from, LEFT) + 3;
    if (x < free && slot !== at.slot) continue;
    pen.fillStyle = color(slot === at.slot ? "--text" : "--soft");
    pen.fillText(text, x, TOP / 2);
    free = x + pen.measureText(text).width + 8;
  }
}

// Where the line of a message begins. When a faulty node sent it is not known
function startOf(it, came) {
  return it.sent ?? came.time - Math.max((at.to - at.from) / 60, 1);
}

function drawMessage(pen, it, came) {
  const x1 = xOf(startOf(it, came)), x2 = xOf(came.time);
  if (x2 < LEFT || x1 > width()) return;
  const y1 = laneOf(it.source), y2 = laneOf(came.node);
  const isBad = it.kind >= KINDS.garbage || unlike().has(it);
  pen.strokeStyle = pen.fillStyle = isBad ? color("--bad") : colorOf(it.source);
  pen.setLineDash(it.faulty ? [6, 4] : []);
  pen.lineWidth = isBad ? 2.5 : it.faulty ? 2 : 1;
  pen.beginPath();
  pen.moveTo(x1, y1);
  pen.lineTo(x2, y2);
  pen.stroke();
  pen.setLineDash([]);
  if (it.kind >= KINDS.garbage) drawCross(pen, x2, y2);
  else if (look.slot > 90) drawHead(pen, x2, y2, Math.atan2(y2 - y1, x2 - x1));
}

function drawHead(pen, x, y, angle) {
  pen.beginPath();
  pen.moveTo(x, y);
  pen.lineTo(x - 7 * Math.cos(angle - 0.35), y - 7 * Math.sin(angle - 0.35));
  pen.lineTo(x - 7 * Math.cos(angle + 0.35), y - 7 * Math.sin(angle + 0.35));
  pen.fill();
}

function drawCross(pen, x, y) {
  pen.beginPath();
  for (const side of [-1, 1]) {
    pen.moveTo(x - 5, y - 5 * side);
    pen.lineTo(x + 5, y + 5 * side);
  }
  pen.stroke();
}

// What is said, beside the point from which it is said, if there is room
function drawTexts(pen) {
  if (look.slot < 150) return;
  pen.font = "bold 12px system-ui, sans-serif";
  pen.textBaseline = "bottom";
  const taken = [];
  for (const it of messages()) {
    for (const came of it.sent === null ? it.came : it.came.slice(0, 1)) {
      const y = it.sent === null ? laneOf(came.node) - 5 : laneOf(it.source) - 5;
      const x = it.sent === null ? xOf(came.time) + 6 : xOf(it.sent) - 4;
      const text = it.text.length > 18 ? it.text.slice(0, 16) + "…" : it.text;
      const wide = pen.measureText(text).width;
      const isOver = taken.some((box) => box.y === y && x < box.to && x + wide > box.from);
      if (x < LEFT || x > width() || isOver) continue;
      taken.push({ y, from: x, to: x + wide });
      pen.strokeStyle = color("--back");
      pen.lineWidth = 3;
      pen.strokeText(text, x, y);
      pen.fillStyle = it.faulty ? color("--bad") : color("--text");
      pen.fillText(text, x, y);
    }
  }
}

function draw() {
  const scale = window.devicePixelRatio || 1, height = TOP + LANE * run.nodes.length + 6;
  canvas.style.height = `${height}px`;
  canvas.width = Math.round(width() * scale);
  canvas.height = Math.round(height * scale);
  const pen = canvas.getContext("2d");
  pen.scale(scale, scale);
  const [from, to] = span(at.slot);
  look.slot = xOf(to) - xOf(from);
  look.isDark = matchMedia("(prefers-color-scheme: dark)").matches;
  drawBands(pen);
  drawSlots(pen);
  for (const it of messages()) for (const came of it.came) drawMessage(pen, it, came);
  drawTexts(pen);
  drawLabels(pen);
}

let isAsked = false;
function redraw() {
  if (isAsked) return;
  isAsked = true;
  requestAnimationFrame(() => { isAsked = false; draw(); });
}

// Moving and zooming

function zoom(factor, x) {
  const still = x === undefined ? (at.from + at.to) / 2 : timeAt(x);
  const [low, high] = span();
  const wide = Math.min((high - low) * 1.02, Math.max((at.to - at.from) * factor, 20));
  const share = (still - at.from) / (at.to - at.from);
  at.from = still - wide * share;
  at.to = at.from + wide;
  keepInFrame();
}

function keepInFrame() {
  const [low, high] = span(), wide = at.to - at.from;
  at.from = Math.min(Math.max(at.from, low - wide * 0.1), Math.max(low, high - wide * 0.9));
  at.to = at.from + wide;
  redraw();
}

function showSpan([from, to], around) {
  at.from = from - (to - from) * around;
  at.to = to + (to - from) * around;
  redraw();
}

const showSlot = () => showSpan(span(at.slot), 0.15);
const showFrame = () => showSpan(span(), 0.01);

// The whole frame if its slots are wide enough to be read, else some slots around the chosen one
function showWell() {
  const [from, to] = span(at.slot), [low, high] = span();
  const wide = Math.max(1, width() - LEFT) / Math.min(180, width() / 2) * (to - from);
  if (wide >= high - low) return showFrame();
  at.from = (from + to) / 2 - wide / 2;
  at.to = at.from + wide;
  keepInFrame();
}

function follow() {
  const [from, to] = span(at.slot);
  if (from >= at.from && to <= at.to) return redraw();
  const wide = Math.max(at.to - at.from, to - from);
  at.from = (from + to) / 2 - wide / 2;
  at.to = at.from + wide;
  keepInFrame();
}

// The place

function go(index, slot, isNew) {
  const isOther = index !== at.frame || isNew;
  at.frame = Math.max(0, Math.min(run.frames.length - 1, index));
  at.slot = Math.max(0, Math.min(run.purposes.length - 1, slot));
  history.replaceState(null, "", `#frame=${frame().number}&slot=${at.slot}`);
  fillFrames();
  fillSlot();
  if (isOther) showWell();
  else follow();
}

function step(by) {
  const slot = at.slot + by, last = run.purposes.length - 1;
  if (slot < 0 && at.frame > 0) go(at.frame - 1, last);
  else if (slot > last && at.frame + 1 < run.frames.length) go(at.frame + 1, 0);
  else go(at.frame, slot);
}

// The place that the link names; where there is none the breach, or the start
function goToLink() {
  const asked = new URLSearchParams(location.hash.slice(1));
  const first = run.breach || [run.frames[0].number, 0];
  const number = asked.has("frame") ? Number(asked.get("frame")) : first[0];
  const slot = asked.has("slot") ? Number(asked.get("slot")) : asked.has("frame") ? 0 : first[1];
  const index = run.frames.findIndex((it) => it.number === number);
  const isThere = index >= 0 && Number.isInteger(slot) && slot >= 0 && slot < run.purposes.length;
  go(isThere ? index : 0, isThere ? slot : 0, true);
  if (!isThere) find("hits").textContent = "this page has no place that the link names";
}

function fillFrames() {
  const strip = find("frames");
  if (!strip.children.length) run.frames.forEach((it, i) => strip.append(frameButton(it, i)));
  [...strip.children].forEach((it, i) => {
    if (i === at.frame) it.setAttribute("aria-current", "true");
    else it.removeAttribute("aria-current");
  });
  const button = strip.children[at.frame];
  strip.scrollLeft = Math.max(0, button.offsetLeft - strip.offsetLeft - strip.clientWidth / 2);
}

function frameButton(it, i) {
  const button = element("button", `frame ${it.number}`);
  button.append(element("small", `${it.deliveries.length} delivered`));
  if (it.convicted.length) {
    button.append(element("small", `${it.convicted.join(" ")} convicted`, "bad"));
  }
  if (run.breach && run.breach[0] === it.number) button.append(element("small", "breach", "bad"));
  button.addEventListener("click", () => go(i, run.breach?.[0] === it.number ? run.breach[1] : 0));
  return button;
}

// The tables of the slot

function grouped(pairs) {
  const groups = new Map();
  for (const [text, name] of pairs) groups.set(text, [...(groups.get(text) || []), name]);
  return [...groups];
}

function fillSlot() {
  const number = frame().number;
  find("place").textContent = `Frame ${number}, slot ${at.slot}: ${run.purposes[at.slot]}`;
  const found = frame().deliveries.filter((it) => it[0] === at.slot);
  find("delivered").textContent = grouped(found.map(([, receiver, sender, word]) => (
    [`${word === null ? "no word" : word} from ${sender}`, receiver])))
    .map(([text, names]) => `${names.join(" ")} delivered ${text}`).join("; ");
  const tables = find("tables");
  tables.replaceChildren();
  for (const stage of [1, 2, 3, TAIL]) {
    const rows = frame().tables[`${at.slot}.${stage}`];
    if (rows) tables.append(stageOf(stage, rows));
  }
  if (!tables.children.length) tables.append(element("p", "The run ended before this slot."));
}

function stageOf(stage, rows) {
  const isBreach = run.breach && run.breach.slice(0, 3).join() === [frame().number, at.slot,
    stage].join();
  const made = element("div", undefined, "stage");
  made.append(element("h3", stage === TAIL ? "Tail" : `Stage ${stage}`));
  const premise = frame().premise[`${at.slot}.${stage}`];
  if (premise !== undefined) made.append(element("p", run.strings[premise], "premise"));
  if (isBreach) made.append(element("p", `Breach of the fault premise: ${run.breach[3]}`, "bad"));
  const table = element("table"), head = element("tr");
  for (const name of ["node", "said", "heard", "took", "vote", "accuses"]) {
    head.append(element("th", name));
  }
  for (const row of rows) {
    const cells = row.map((it) => run.strings[it]);
    table.append(rowOf(cells, cells.slice(1).every((it) => it === "-") ? "quiet" : undefined));
  }
  table.prepend(head);
  table.append(...faultyRows(stage));
  made.append(table);
  return made;
}

function rowOf(cells, className) {
  const row = element("tr", undefined, className);
  row.append(...cells.map((it) => element("td", it)));
  return row;
}

// A row for each faulty node: what it said to whom
function faultyRows(stage) {
  const said = messages().filter((it) => it.faulty && it.slot === at.slot && it.stage === stage);
  const sources = [...new Set(said.map((it) => it.source))].sort((a, b) => a - b);
  return sources.map((source) => {
    const pairs = said.filter((it) => it.source === source)
      .flatMap((it) => it.came.map((came) => [it.text, run.nodes[came.node]]));
    const text = grouped(pairs).map(([it, names]) => `${it} to ${names.join(" ")}`).join(", ");
    return rowOf([`${run.nodes[source]} (faulty)`, text, "", "", "", ""], "faulty");
  });
}

// Search

// Names of nodes in a row, as R0..R2, one by one
function spelledOut(text) {
  return text.replace(/([BR])(\d+)\.\.\1(\d+)/g, (_, kind, first, last) => (
    Array.from({ length: last - first + 1 }, (_, i) => kind + (Number(first) + i)).join(" ")));
}

// Whether a row of a table, or what a faulty node said, is what the query asks for
function fits(query, node, said, vote, accuses) {
  const words = query.trim().split(/\s+/), name = words[words.length - 1].toUpperCase();
  const accused = spelledOut(accuses).split(" ");
  if (words[0].toLowerCase() === "accuses") {
    return words.length === 1 ? accuses !== "-" && accuses !== "" : accused.includes(name);
  }
  if (/^[BR]\d+$/i.test(query)) return (node === name && said !== "-") || accused.includes(name);
  return said === query || vote === query || said.includes(query);
}

function matches(query) {
  const found = [];
  run.frames.forEach((it, index) => {
    const slots = new Set();
    for (const [place, rows] of Object.entries(it.tables)) {
      for (const row of rows) {
        const [node, said, , , vote, accuses] = row.map((number) => run.strings[number]);
        if (fits(query, node, said, vote, accuses)) slots.add(Number(place.split(".")[0]));
      }
    }
    for (const [source, , slot, , , text, faulty] of it.sent) {
      if (faulty && fits(query, run.nodes[source], run.strings[text], "", "")) slots.add(slot);
    }
    found.push(...[...slots].sort((a, b) => a - b).map((slot) => [index, slot]));
  });
  return found;
}

function goToHit(by) {
  if (!search.places.length) return;
  const count = search.places.length;
  search.index = (search.index + by + count) % count;
  go(...search.places[search.index]);
  find("hits").textContent = `${search.index + 1} of ${count} slots`;
}

function startSearch(event) {
  event.preventDefault();
  const query = find("query").value.trim();
  search.places = query ? matches(query) : [];
  search.index = -1;
  find("hits").textContent = query ? "nothing found" : "";
  if (search.places.length) find("query").blur(); // so that n and p are keys again
  goToHit(1);
}

// What the pointer is near

function distance(x, y, x1, y1, x2, y2) {
  const square = (x2 - x1) ** 2 + (y2 - y1) ** 2 || 1;
  const share = Math.max(0, Math.min(1, ((x - x1) * (x2 - x1) + (y - y1) * (y2 - y1)) / square));
  return Math.hypot(x - x1 - share * (x2 - x1), y - y1 - share * (y2 - y1));
}

function nearest(x, y) {
  let best = null, least = 7;
  for (const it of messages()) {
    for (const came of it.came) {
      const far = distance(x, y, xOf(startOf(it, came)), laneOf(it.source), xOf(came.time),
        laneOf(came.node));
      if (far < least) [best, least] = [{ it, came }, far];
    }
  }
  return best;
}

function showTip(x, y) {
  const tip = find("tip"), found = nearest(x, y);
  tip.hidden = !found;
  if (!found) return;
  const { it, came } = found;
  const sent = it.sent === null ? "" : `, sent at ${timeText(it.sent)}`;
  tip.textContent = `${run.nodes[it.source]}${it.faulty ? " (faulty)" : ""} to `
    + `${run.nodes[came.node]}: ${it.text}, slot ${it.slot}, stage ${it.stage}${sent}, `
    + `came at ${timeText(came.time)}`;
  tip.style.left = `${Math.min(x + 12, Math.max(0, width() - 310))}px`;
  const high = tip.offsetHeight, isLow = y + 14 + high > canvas.clientHeight;
  tip.style.top = `${isLow ? y - 14 - high : y + 14}px`;
}

function slotAt(x, y) {
  const lane = Math.floor((y - TOP) / LANE), time = timeAt(x);
  const node = frame().epochs[lane] == null ? firstNode() : lane;
  return windowsOf(node).find((it) => time >= it.from && time < it.to)?.slot;
}

let drag = null;
canvas.addEventListener("pointerdown", (event) => {
  drag = { x: event.offsetX, from: at.from, to: at.to, isMoved: false };
  canvas.setPointerCapture(event.pointerId);
});
canvas.addEventListener("pointermove", (event) => {
  if (!drag) return showTip(event.offsetX, event.offsetY);
  const by = event.offsetX - drag.x;
  drag.isMoved ||= Math.abs(by) > 4;
  if (!drag.isMoved) return;
  const time = by / (width() - LEFT) * (drag.to - drag.from);
  [at.from, at.to] = [drag.from - time, drag.to - time];
  keepInFrame();
});
canvas.addEventListener("pointerup", (event) => {
  const slot = drag && !drag.isMoved ? slotAt(event.offsetX, event.offsetY) : undefined;
  drag = null;
  if (slot !== undefined) go(at.frame, slot);
});
canvas.addEventListener("pointercancel", () => { drag = null; });
canvas.addEventListener("pointerleave", () => { find("tip").hidden = true; });
canvas.addEventListener("wheel", (event) => {
  if (event.ctrlKey || event.metaKey) zoom(event.deltaY > 0 ? 1.25 : 0.8, event.offsetX);
  else if (!event.shiftKey && !event.deltaX) return;
  else {
    const by = (event.deltaX || event.deltaY) / (width() - LEFT) * (at.to - at.from);
    [at.from, at.to] = [at.from + by, at.to + by];
    keepInFrame();
  }
  event.preventDefault();
}, { passive: false });

const actions = {
  "slot-before": () => step(-1), "slot-after": () => step(1), "zoom-in": () => zoom(0.6),
  "zoom-out": () => zoom(1 / 0.6), "zoom-slot": showSlot, "zoom-frame": showFrame,
  "hit-before": () => goToHit(-1), "hit-after": () => goToHit(1),
};
const keys = {
  ArrowLeft: "slot-before", ArrowRight: "slot-after", "+": "zoom-in", "=": "zoom-in",
  "-": "zoom-out", s: "zoom-slot", 0: "zoom-frame", n: "hit-after", p: "hit-before",
};
for (const [id, action] of Object.entries(actions)) find(id).addEventListener("click", action);
document.addEventListener("keydown", (event) => {
  if (event.ctrlKey || event.metaKey || event.altKey) return;
  if (event.target.id === "query") {
    if (event.key === "Escape") event.target.blur();
    return;
  }
  if (event.key === "/") find("query").select();
  else if (event.key === "PageDown") go(at.frame + 1, at.slot);
  else if (event.key === "PageUp") go(at.frame - 1, at.slot);
  else if (Object.hasOwn(keys, event.key)) actions[keys[event.key]]();
  else return;
  event.preventDefault();
});
find("search").addEventListener("submit", startSearch);
addEventListener("hashchange", goToLink);
addEventListener("resize", redraw);
matchMedia("(prefers-color-scheme: dark)").addEventListener("change", redraw);

document.title = `${run.name}: ROBUS run`;
find("name").textContent = run.name;
find("ending").textContent = (run.breach ? "The run ended with a " : "The run ") + run.ending;
find("ending").className = run.breach ? "bad" : "";
find("story").textContent = run.story.join("\n");
find("source").textContent = `Messages: the logs of the nodes, run by ${run.engine}. All else: `
  + "tools/model, a second model of the bus, whose report is the same. The page is not proved.";
goToLink();
