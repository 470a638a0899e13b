"use strict";

const data = JSON.parse(document.getElementById("data").textContent);
const SVG = "http://www.w3.org/2000/svg";
const SIZE = 2 ** data.m;
const COUNT = data.ids.length;
const MANY = COUNT > 24;
const STATUSES = ["dead", "wait", "ok", "ready"];
const SETS = ["left", "right", "probing", "failed", "routing", "lease", "grant"];
const KINDS = ["", "Lookup", "JoinRequest", "JoinReply", "LSProbe", "LSProbeReply", "NoLegalRoute", "LeaseRequest", "BroadcastLSet"];
const KIND_COLOURS = ["", "#b3123f", "#0e7490", "#0891b2", "#ca8a04", "#eab308", "#111827", "#15803d", "#22c55e"];
const NODE_COLOURS = ["#3a7d44", "#2f6690", "#c8791d", "#7d5ba6", "#a23b3b", "#1f8a8a", "#8a6d3b", "#5c677d"];
const SHEET = data.m > 16 ? 12 : 24;
/* Radii: of the nodes, of the band of covers; a node's own; the band's width. */
const NODES = 250, BAND = 306, OWN = MANY ? 10.5 : 18, WIDE = 20;

const part = (id) => document.getElementById(id);
const states = unfold();
const turns = spread(data.ids.map((id) => id / SIZE), Math.min((2 * OWN + 3) / (2 * Math.PI * NODES), 0.999 / COUNT));
let at = 0, chosen = -1, followed = 0, moving = null;

/* The whole of each step: nodes and covers that a step leaves are those of the step before. */
function unfold() {
  let nodes = [], covers = [];
  return data.frames.map((frame) => {
    nodes = nodes.slice();
    covers = covers.slice();
    for (const [slot, status, sets] of frame.nodes) nodes[slot] = { status, sets };
    for (const [slot, arc] of frame.covers) covers[slot] = arc;
    return { ...frame, nodes, covers };
  });
}

/* Turns near the wanted ones, in the same order, each at least a gap from the next. */
function spread(wanted, gap) {
  const turns = wanted.slice(), n = turns.length;
  for (let pass = 0, moved = n > 1; moved && pass < 20000; pass++) {
    moved = false;
    for (let here = 0; here < n; here++) {
      const next = (here + 1) % n;
      const lacking = gap - (turns[next] - turns[here] + (next === 0 ? 1 : 0));
      if (lacking > 1e-9) {
        turns[here] -= lacking / 2;
        turns[next] += lacking / 2;
        moved = true;
      }
    }
  }
  return turns;
}

function make(name, attributes, parent, words) {
  const it = document.createElementNS(SVG, name);
  for (const key in attributes) it.setAttribute(key, attributes[key]);
  if (words !== undefined) it.textContent = words;
  if (parent) parent.append(it);
  return it;
}

function put(name, parent, words, look) {
  const it = document.createElement(name);
  if (words !== undefined) it.textContent = words;
  if (look) it.className = look;
  if (parent) parent.append(it);
  return it;
}

/* A place on the ring: 0 at the top, rising counter-clockwise. */
function round(turn, radius) {
  return { x: -radius * Math.sin(turn * 2 * Math.PI), y: -radius * Math.cos(turn * 2 * Math.PI) };
}
const pair = (p) => p.x.toFixed(1) + " " + p.y.toFixed(1);
const name = (slot) => String(data.ids[slot]);
const names = (slots) => slots.map(name).join(" ");
const place = (slot) => round(turns[slot], NODES);
const colour = (slot) => NODE_COLOURS[slot % NODE_COLOURS.length];

function along(from, to, radius) {
  const ends = [from, (from + to) / 2, to].map((turn) => pair(round(turn, radius)));
  return `M${ends[0]} A${radius} ${radius} 0 0 0 ${ends[1]} A${radius} ${radius} 0 0 0 ${ends[2]}`;
}

/* Half a key beyond the first and the last. */
function ends(arc) {
  const from = (arc[0] - 0.5) / SIZE, to = (arc[1] + 0.5) / SIZE;
  return [from, to <= from ? to + 1 : to];
}

const isIn = (arc, key) => (key - arc[0] + SIZE) % SIZE <= (arc[1] - arc[0] + SIZE) % SIZE;
const meet = (one, other) => isIn(one, other[0]) || isIn(other, one[0]);

/* A lane for each arc, such that arcs of one lane share no key. */
function lanes(covers) {
  const found = [];
  covers.forEach((arc, slot) => {
    if (!arc) return;
    let lane = 0;
    while (found.some((other) => other.lane === lane && meet(arc, other.arc))) lane++;
    found.push({ slot, arc, lane });
  });
  return found;
}

function band(svg, arc, radius, look) {
  const [from, to] = ends(arc);
  return make("path", { d: along(from, to, radius), fill: "none", "stroke-width": WIDE, ...look }, svg);
}

function drawCovers(svg, state) {
  make("path", { d: along(0, 1, BAND), fill: "none", stroke: "#e5e7eb", "stroke-width": WIDE }, svg);
  let outside = BAND;
  for (const { slot, arc, lane } of lanes(state.covers)) {
    const radius = BAND + lane * (WIDE + 3), [from, to] = ends(arc);
    outside = Math.max(outside, radius);
    const drawn = band(svg, arc, radius, { stroke: colour(slot), class: "cover", "data-slot": slot });
    make("title", {}, drawn, `${name(slot)} covers ${arc[0]} to ${arc[1]}`);
    for (const end of [from, to]) line(svg, round(end, radius - WIDE / 2), round(end, radius + WIDE / 2), "white", 2);
  }
  for (const [list, look, who] of [[state.nobody, "#b3123f", "nobody covers"], [state.several, "#7c3aed", "several cover"]]) {
    for (const arc of list) {
      const mark = { stroke: look, "stroke-width": 7, "stroke-dasharray": "5 4", class: who.split(" ")[0] };
      const drawn = band(svg, arc, outside + WIDE / 2 + 9, mark);
      make("title", {}, drawn, `${who} ${arc[0]} to ${arc[1]}`);
    }
  }
  return outside + WIDE / 2 + (state.nobody.length + state.several.length ? 16 : 4);
}

function line(svg, from, to, stroke, wide, more) {
  return make("path", { d: `M${pair(from)} L${pair(to)}`, stroke, "stroke-width": wide, fill: "none", ...more }, svg);
}

function drawScale(svg, outside) {
  for (const quarter of [0, 0.25, 0.5, 0.75]) {
    const p = round(quarter, outside + 16);
    const anchor = quarter === 0.25 ? "end" : quarter === 0.75 ? "start" : "middle";
    const look = { x: p.x, y: p.y, dy: "0.35em", "text-anchor": anchor, "font-size": 12, fill: "#6b7280" };
    make("text", look, svg, Math.round(SIZE * quarter));
  }
}

/* From one node to another by way of the inside, as a path. */
function bent(from, to) {
  const a = place(from), b = place(to), middle = { x: (a.x + b.x) / 2, y: (a.y + b.y) / 2 };
  const far = Math.hypot(middle.x, middle.y) || 1;
  const deep = Math.max(0.35, 1 - (0.35 * Math.hypot(a.x - b.x, a.y - b.y) + 40) / far);
  const control = { x: middle.x * deep + (b.y - a.y) * 0.08, y: middle.y * deep - (b.x - a.x) * 0.08 };
  return { d: `M${pair(edge(a, control))} Q${pair(control)} ${pair(edge(b, control))}`, a, b, control };
}

function edge(p, towards) {
  const far = Math.hypot(towards.x - p.x, towards.y - p.y) || 1;
  return { x: p.x + ((towards.x - p.x) * (OWN + 2)) / far, y: p.y + ((towards.y - p.y) * (OWN + 2)) / far };
}

function arrow(svg, tip, from, fill) {
  const far = Math.hypot(tip.x - from.x, tip.y - from.y) || 1, x = (tip.x - from.x) / far, y = (tip.y - from.y) / far;
  const back = { x: tip.x - 11 * x, y: tip.y - 11 * y };
  const corners = [tip, { x: back.x - 5 * y, y: back.y + 5 * x }, { x: back.x + 5 * y, y: back.y - 5 * x }];
  make("path", { d: `M${corners.map(pair).join(" L")} Z`, fill }, svg);
}

/* The path of one lookup: an arrow for each routing, dots from who delivers it to its key. */
function drawLookup(svg, lookup, strong, outside, far) {
  const [key, path, delivered] = lookup, red = strong ? "#b3123f" : "#e7a8b8";
  const group = make("g", { class: strong ? "path followed" : "path" }, svg);
  for (let hop = 0; hop + 1 < path.length; hop++) {
    const way = bent(path[hop], path[hop + 1]);
    make("path", { d: way.d, fill: "none", stroke: red, "stroke-width": strong ? 3 : 1.5, class: "hop" }, group);
    arrow(group, edge(way.b, way.control), way.control, red);
  }
  if (delivered) {
    const last = place(path[path.length - 1]);
    const end = line(group, last, round(key / SIZE, BAND - WIDE / 2), red, strong ? 2.5 : 1.5, { "stroke-dasharray": "2 5", class: "hop" });
    end.parentNode.append(end);
  }
  if (strong) {
    const turn = key / SIZE, side = Math.sin(turn * 2 * Math.PI);
    line(group, round(turn, outside + 8), round(turn, far + 12), red, 1.5);
    arrow(group, round(turn, outside), round(turn, outside + 12), red);
    const anchor = Math.abs(side) < 0.3 ? "middle" : side > 0 ? "end" : "start";
    halo(group, round(turn, far + 22), String(key), { "font-weight": "bold", fill: red, "font-size": 15, "text-anchor": anchor });
  }
  return group;
}

function halo(svg, p, words, look) {
  const common = { x: p.x.toFixed(1), y: p.y.toFixed(1), dy: "0.35em", "text-anchor": "middle" };
  make("text", { ...common, ...look, stroke: "white", "stroke-width": 4, "stroke-linejoin": "round" }, svg, words);
  make("text", { ...common, ...look }, svg, words);
}

function drawMessages(svg, state) {
  const stacked = new Map(), side = MANY ? 7 : 11, most = MANY ? 5 : 6;
  state.messages.forEach(([kind, to, from, words, offer], nth) => {
    const depth = stacked.get(to) || 0;
    stacked.set(to, depth + 1);
    if (depth > most) return;
    const p = round(turns[to], NODES - OWN - side - depth * (side + 2));
    if (depth === most) {
      const more = state.messages.filter((message) => message[1] === to).length - most;
      halo(svg, p, "+" + more, { "font-size": side + 2, fill: "#1f2937" });
      return;
    }
    if (from >= 0 && from !== to) line(svg, edge(place(from), p), p, KIND_COLOURS[kind], 1, { opacity: 0.55 });
    const box = { x: p.x - side / 2, y: p.y - side / 2, width: side, height: side, fill: KIND_COLOURS[kind] };
    Object.assign(box, { stroke: "white", class: "message" });
    make("title", {}, make("rect", box, svg), `place ${nth}: ${words}` + (offer ? `; ${offer}` : ""));
  });
}

function drawNodes(svg, state, outside) {
  data.ids.forEach((id, slot) => {
    const { status } = state.nodes[slot], p = place(slot), tint = status === 0 ? "#9ca3af" : colour(slot);
    line(svg, p, round(id / SIZE, BAND - WIDE / 2), tint, 1.5);
    line(svg, round(id / SIZE, BAND - WIDE / 2), round(id / SIZE, BAND + WIDE / 2), "#1f2937", 1.5);
    const ready = status === 3, look = { class: "node " + STATUSES[status], tabindex: 0, role: "button", "data-slot": slot };
    const group = make("g", { ...look, "aria-label": `node ${id}, ${STATUSES[status]}` }, svg);
    const body = { cx: p.x, cy: p.y, r: OWN, class: "body", fill: ready ? tint : status === 0 ? "#f3f4f6" : "white" };
    const rim = { stroke: slot === chosen ? "#000" : tint, "stroke-width": slot === chosen ? 5 : 2.5 };
    make("circle", { ...body, ...rim, ...(status === 1 ? { "stroke-dasharray": "4 3" } : {}) }, group);
    make("title", {}, group, `${id} is ${STATUSES[status]}`);
    const inside = MANY ? String(slot) : name(slot).length < 4 ? name(slot) : "";
    const words = { x: p.x, y: p.y, dy: "0.36em", "text-anchor": "middle", "font-weight": "bold" };
    make("text", { ...words, "font-size": MANY ? 10.5 : 14, fill: ready ? "white" : tint }, group, inside);
    if (!inside) spoke(group, turns[slot], outside, name(slot), tint);
    group.addEventListener("click", () => choose(slot));
    group.addEventListener("keydown", (event) => {
      if (event.key !== "Enter" && event.key !== " ") return;
      event.preventDefault();
      choose(slot);
    });
  });
}

/* A long id, outside the ring and along its spoke. */
function spoke(svg, turn, outside, words, fill) {
  const p = round(turn, outside + 6), left = Math.sin(turn * 2 * Math.PI) > 0;
  const degrees = -90 - turn * 360 + (left ? 180 : 0);
  const look = { transform: `translate(${pair(p)}) rotate(${degrees.toFixed(1)})`, dy: "0.35em", "text-anchor": left ? "end" : "start" };
  make("text", { ...look, "font-size": 14, "font-weight": "bold", fill, class: "id" }, svg, words);
}

/* Lines from the chosen node to its leaf set. */
function drawChosen(svg, state) {
  if (chosen < 0) return;
  const { sets } = state.nodes[chosen];
  sets[0].forEach((other) => line(svg, place(chosen), place(other), "#1d4ed8", 2.5, { class: "left" }));
  sets[1].forEach((other) => line(svg, place(chosen), place(other), "#ea580c", 2.5, { "stroke-dasharray": "7 4", class: "right" }));
}

function draw(state) {
  const svg = part("ring");
  svg.replaceChildren();
  const outside = drawCovers(svg, state);
  const digits = String(SIZE - 1).length, long = !MANY && name(COUNT - 1).length > 3 ? 10 + 8.5 * name(COUNT - 1).length : 0;
  drawScale(svg, outside + long);
  const high = outside + long + 40, wide = outside + long + 36 + 9 * digits;
  svg.setAttribute("viewBox", `${-wide} ${-high} ${2 * wide} ${2 * high}`);
  drawChosen(svg, state);
  const few = state.lookups.length <= 6;
  state.lookups.forEach((lookup, nth) => { if (few && nth !== followed) drawLookup(svg, lookup, false, outside, outside + long); });
  drawMessages(svg, state);
  drawNodes(svg, state, outside);
  const lookup = state.lookups[followed];
  move(lookup ? drawLookup(svg, lookup, true, outside, outside + long) : null);
}

/* A dot that goes the way of the followed lookup, again and again. */
function move(group) {
  if (moving) cancelAnimationFrame(moving);
  moving = null;
  if (!group) return;
  const ways = [...group.querySelectorAll(".hop")];
  if (!ways.length) return;
  const dot = make("circle", { r: 8, fill: "#b3123f", stroke: "white", "stroke-width": 2, id: "dot" }, group);
  const still = matchMedia("(prefers-reduced-motion: reduce)").matches, each = 900, rest = 700;
  const began = performance.now();
  const tick = (now) => {
    const time = Math.max(0, now - began) % (ways.length * each + rest), nth = Math.min(Math.floor(time / each), ways.length - 1);
    const p = ways[nth].getPointAtLength(ways[nth].getTotalLength() * Math.min(1, (time - nth * each) / each));
    dot.setAttribute("cx", p.x.toFixed(1));
    dot.setAttribute("cy", p.y.toFixed(1));
    if (!still) moving = requestAnimationFrame(tick);
  };
  tick(began);
}

function choose(slot) {
  chosen = chosen === slot ? -1 : slot;
  show();
}

function follow(nth) {
  followed = nth;
  show();
}

function tellNode(state) {
  const box = part("node").lastElementChild;
  box.replaceChildren();
  if (chosen < 0) {
    put("p", box, "Click a node for its sets.");
    return;
  }
  const { status, sets } = state.nodes[chosen], table = put("table", box), arc = state.covers[chosen];
  const rows = [["id", name(chosen)], ["slot", chosen], ["status", STATUSES[status]]];
  rows.push(["covers", arc ? `${arc[0]} to ${arc[1]}` : "nothing"]);
  SETS.forEach((set, nth) => rows.push([set, names(sets[nth]) || "-"]));
  for (const [head, words] of rows) {
    const row = put("tr", table);
    put("th", row, head);
    put("td", row, words);
  }
  put("p", box, "Blue lines lead to the left side, dashed orange ones to the right.");
}

function tellKeys(state) {
  const list = part("keys").lastElementChild;
  list.replaceChildren();
  state.nobody.forEach((arc) => put("li", list, `nobody covers ${arc[0]} to ${arc[1]}`, "nobody"));
  state.several.forEach((arc) => put("li", list, `several cover ${arc[0]} to ${arc[1]}`, "several"));
  if (!list.children.length) put("li", list, "every key is covered by one node", "fine");
}

function tellList(id, words) {
  const list = part(id).lastElementChild;
  list.replaceChildren();
  words.forEach((line) => put("li", list, line));
  part(id).hidden = words.length === 0;
}

/* The waiting messages, each with the action that handles it now. */
function tellMessages(state) {
  tellList("messages", state.messages.map((message) => message[3]));
  const lines = part("messages").lastElementChild.children;
  state.messages.forEach((message, nth) => { if (message[4]) put("span", lines[nth], message[4], "offer"); });
}

function tellCovers(state) {
  const box = part("covers").lastElementChild;
  box.replaceChildren();
  const rows = put("div", box, undefined, MANY ? "rows many" : "rows");
  rows.style.setProperty("--width", name(COUNT - 1).length + 2 * String(SIZE - 1).length + 12 + "ch");
  rows.style.setProperty("--columns", data.m > 16 ? (MANY ? 3 : 2) : COUNT > 24 ? 5 : COUNT > 12 ? 4 : 3);
  data.ids.forEach((id, slot) => {
    const { status } = state.nodes[slot], arc = state.covers[slot];
    const row = put("div", rows, undefined, ["row", STATUSES[status], slot === chosen ? "chosen" : ""].join(" "));
    if (MANY) put("span", row, slot, "slot");
    put("b", row, name(slot)).style.minWidth = name(COUNT - 1).length + 1 + "ch";
    put("span", row, arc ? `${arc[0]} to ${arc[1]}` : STATUSES[status]);
    row.addEventListener("click", () => choose(slot));
  });
}

function tellListing(state) {
  const box = part("listing").lastElementChild, wide = Math.max(5, String(SIZE - 1).length + 2) + "ch";
  box.replaceChildren();
  const rows = put("div", box, undefined, "rows");
  rows.style.setProperty("--columns", data.m > 16 || state.lookups.length < 6 ? 1 : 2);
  const letters = Math.min(14, Math.max(5, ...state.lookups.map((lookup) => lookup[4].length + 2)));
  const fill = (look, words) => {
    const row = put("div", rows, undefined, look);
    row.style.gridTemplateColumns = `${wide} ${wide} ${wide} 5ch ${letters}ch 7ch 1fr`;
    words.forEach((word) => put("span", row, word));
    return row;
  };
  fill("row head", ["key", "from", "to", "hops", "via", "so far", "path"]);
  state.lookups.forEach(([key, path, delivered, words, via, soFar], nth) => {
    const to = delivered ? name(path[path.length - 1]) : "-";
    const look = ["row pick", nth === followed ? "chosen" : "", nth >= SHEET ? "cut" : ""].join(" ");
    fill(look, [key, name(path[0]), to, path.length - 1, via, soFar, words]).addEventListener("click", () => follow(nth));
  });
  const more = state.lookups.length - SHEET;
  if (more > 0) put("p", box, `and ${more} more`, "sheet");
  if (!state.lookups.length) put("p", box, "no lookup waits");
}

function tellLegend() {
  const legend = part("legend");
  const shape = (look) => `<svg width="16" height="16" viewBox="-8 -8 16 16">${look}</svg>`;
  const wait = 'fill="white" stroke="#5c677d"';
  const looks = ['fill="#f3f4f6" stroke="#9ca3af"', wait + ' stroke-dasharray="3 2"', wait, 'fill="#5c677d"'];
  const entry = (look, word) => `<span>${shape(look)} ${word}</span>`;
  const statuses = STATUSES.map((word, nth) => entry(`<circle r="6" stroke-width="2" ${looks[nth]}/>`, word));
  const square = (nth) => `<rect x="-5" y="-5" width="10" height="10" fill="${KIND_COLOURS[nth]}"/>`;
  const kinds = KINDS.slice(1).map((word, nth) => entry(square(nth + 1), word));
  const html = statuses.concat(kinds).join("");
  legend.innerHTML = html;
}

function show() {
  const state = states[at];
  if (followed >= state.lookups.length) followed = 0;
  const settled = state.settled ? "settled" : "not settled";
  const words = state.words === state.line ? "" : state.words;
  part("where").textContent = [`Step ${at} of ${states.length - 1}`, state.line, words].filter(Boolean).join(": ");
  part("sentence").textContent = state.sentence;
  part("refused").textContent = state.refused;
  part("warning").textContent = state.warning && `Warning: ${state.warning}.`;
  part("settled").textContent = `${settled}; ${state.safe}`;
  draw(state);
  tellKeys(state);
  tellNode(state);
  tellList("reasons", state.reasons);
  tellList("changes", state.changes);
  tellMessages(state);
  tellCovers(state);
  tellListing(state);
  part("slider").value = at;
  for (const id of ["go-first", "go-back"]) part(id).disabled = at === 0;
  for (const id of ["go-forward", "go-last"]) part(id).disabled = at === states.length - 1;
}

function go(to) {
  at = Math.max(0, Math.min(states.length - 1, to));
  show();
}

function fromHash() {
  const word = location.hash.slice(1);
  return word === "last" ? states.length - 1 : /^\d+$/.test(word) ? Number(word) : 0;
}

function begin() {
  document.title = `Ring: ${data.name}`;
  part("title").textContent = data.name;
  const count = `${COUNT} node${COUNT === 1 ? "" : "s"}`;
  part("about").title = data.plan.join(", ");
  const about = [`M = ${data.m}, L = ${data.l}, ${count}`];
  if (MANY) about.push("numbers on the ring are slots");
  if (data.plan.length) about.push(`plan: ${data.plan.join(", ")}`);
  part("about").textContent = about.join("; ");
  const sums = [`sha256 of the table file ${data.before}`];
  if (data.after !== data.before) sums.push(`after the plan ${data.after}`);
  part("checksum").textContent = sums.concat(data.version).join("; ");
  part("slider").max = states.length - 1;
  part("slider").addEventListener("input", (event) => go(Number(event.target.value)));
  part("go-first").addEventListener("click", () => go(0));
  part("go-back").addEventListener("click", () => go(at - 1));
  part("go-forward").addEventListener("click", () => go(at + 1));
  part("go-last").addEventListener("click", () => go(states.length - 1));
  part("print").addEventListener("click", () => print());
  addEventListener("keydown", (event) => {
    const to = { ArrowLeft: at - 1, ArrowRight: at + 1, Home: 0, End: states.length - 1 }[event.key];
    if (to !== undefined && event.target.id !== "slider") { event.preventDefault(); go(to); }
  });
  addEventListener("hashchange", () => go(fromHash()));
  tellLegend();
  go(fromHash());
}

begin();
