// What belongs together: ways of wires, what is lit with a thing that is
// pointed at, and the words for it. A row of DATA is so many numbers:
const SIZE = {pages: 9, nodes: 14, inner: 4, execs: 2, wires: 4, rerouters: 9, buses: 15, ports: 7, directs: 7};
const KINDS = ["Gate", "Event", "Chip", "Input", "Output", "Coerce"];
const CLASSES = ["", " storage", " inline-only"];
const PARTS = ["", "source", "head", "link", "tap", "gate-side", "corner"];
const U = DATA.unit;

const count = name => DATA[name].length / SIZE[name];
const get = (name, row, field) => DATA[name][SIZE[name] * row + field];

function node(k) {
  const [id, kind, klass, pin, turn, x, y, down, line, page, left, top, width, height] =
    DATA.nodes.slice(14 * k, 14 * k + 14);
  return {id, kind, klass, pin, turn, x, y, down, line, page, left, top, width, height};
}

// Where x and y of a page are drawn.
const downOf = (page, x) => U * ((get("pages", page, 6) || 0) - x);
const rightOf = (page, y) => U * (y - (get("pages", page, 7) || 0));

function rerouter(k) {
  const [x, y, turn, part, colour, page, lane, depth, run] = DATA.rerouters.slice(9 * k, 9 * k + 9);
  return {x, y, turn, part, colour, page, lane, depth, run, right: rightOf(page, y + 1), down: downOf(page, x + 1)};
}

function wire(k) {
  const [source, sourcePort, target, targetPort] = DATA.wires.slice(4 * k, 4 * k + 4);
  return {from: source + "." + sourcePort, to: target + "." + targetPort, source, target};
}

// Lists by a number, in one pass.
function gather(length, each) {
  const lists = Array.from({length}, () => []);
  each((at, item) => { if (at >= 0 && at < length) lists[at].push(item); });
  return lists;
}

const anchors = new Map();
for (let k = 0; k < count("nodes"); k++) if (!anchors.has(get("nodes", k, 0))) anchors.set(get("nodes", k, 0), k);
const insides = new Map();
for (let k = 0; k < count("inner"); k++) {
  const id = get("inner", k, 0);
  insides.set(id, k);
  if (!anchors.has(id) && get("inner", k, 3) >= 0) anchors.set(id, get("inner", k, 3));
}
const anchor = id => anchors.has(id) ? anchors.get(id) : -1;
const leaving = gather(count("nodes"), put => {
  for (let w = 0; w < count("wires"); w++) put(anchor(get("wires", w, 0)), w);
});
const arriving = gather(count("nodes"), put => {
  for (let w = 0; w < count("wires"); w++) put(anchor(get("wires", w, 2)), w);
});

// The bus wire that delivers a wire, the one that feeds a rerouter, and those
// that leave it; -1 for none.
const delivery = new Int32Array(count("wires")).fill(-1);
const feeder = new Int32Array(count("rerouters")).fill(-1);
const leaves = gather(count("rerouters"), put => {
  for (let b = 0; b < count("buses"); b++) {
    if (get("buses", b, 1) < 0) put(get("buses", b, 0), b);
    const to = get("buses", b, 2), named = get("buses", b, 4);
    if (get("buses", b, 3) < 0 && feeder[to] === -1) feeder[to] = b;
    if (named >= 0 && delivery[named] === -1) delivery[named] = b;
  }
});
const straights = gather(count("wires"), put => {
  for (let k = 0; k < count("directs"); k++) put(get("directs", k, 0), k);
});
const places = new Map();
for (let k = 0; k < count("ports"); k++) {
  places.set((get("ports", k, 2) ? "out " : "in ") + get("ports", k, 0) + "." + get("ports", k, 1), k);
}
const execs = new Set();
for (let k = 0; k < count("execs"); k++) execs.add(get("execs", k, 0) + "." + get("execs", k, 1));

// The rerouter that a bus wire comes from or goes to, or -1 for a port.
const end = (b, at) => get("buses", b, at + 1) < 0 && get("buses", b, at) < count("rerouters") ? get("buses", b, at) : -1;
const from = b => end(b, 0), target = b => end(b, 2);

// The rerouters of a bus wire's way back, source first. A plan may be broken:
// no way is longer than there are rerouters.
function wayBack(b) {
  const back = [];
  while (b >= 0 && from(b) >= 0 && back.length <= count("rerouters")) {
    back.push(from(b));
    b = feeder[from(b)];
  }
  return back.reverse();
}

// The wires that are delivered through a bus wire.
function through(b) {
  const wires = [], seen = new Set([b]), left = [b];
  while (left.length) {
    const at = left.pop();
    if (get("buses", at, 4) >= 0) wires.push(get("buses", at, 4));
    if (target(at) < 0) continue;
    for (const next of leaves[target(at)] || []) if (!seen.has(next)) { seen.add(next); left.push(next); }
  }
  return wires.sort((a, c) => a - c);
}

// Everything on the ways of some wires, and on the way to one bus wire.
function light(wires, b) {
  const lit = {wires, buses: new Set(), rerouters: new Set(), directs: new Set(), ports: new Set(), nodes: new Set()};
  const back = at => {
    for (; at >= 0 && !lit.buses.has(at); at = from(at) < 0 ? -1 : feeder[from(at)]) {
      lit.buses.add(at);
      if (from(at) >= 0) lit.rerouters.add(from(at));
      if (target(at) >= 0) lit.rerouters.add(target(at));
    }
  };
  for (const w of wires) {
    const ends = wire(w);
    for (const port of [places.get("out " + ends.from), places.get("in " + ends.to)]) if (port !== undefined) lit.ports.add(port);
    for (const id of [ends.source, ends.target]) if (anchor(id) >= 0) lit.nodes.add(anchor(id));
    for (const k of straights[w]) if (delivery[w] < 0) lit.directs.add(k);
    back(delivery[w]);
  }
  if (b >= 0) back(b);
  return lit;
}

// A wire in words: its way, and where that is.
function wireWords(w, most) {
  const ends = wire(w), b = delivery[w];
  if (b < 0) {
    const unseen = straights[w].some(k => get("directs", k, 1));
    const loose = [ends.source, ends.target].filter(id => anchor(id) < 0).map(id => "; no node has the id " + id);
    return `wire ${w}: ${ends.from} > ${ends.to}, direct` + (unseen ? "; its port is suppressed, so the board does not draw it" : "") + loose.join("");
  }
  const back = wayBack(b), lanes = [...new Set(back.map(r => rerouter(r).lane).filter(lane => lane >= 0))];
  const shown = back.length > most ? [...back.slice(0, most - 3), "..", ...back.slice(-2)] : back;
  const page = back.length ? rerouter(back[back.length - 1]).page : "?";
  const lane = lanes.length ? `lane ${lanes.join(" and ")} of page ${page}` : `no lane, page ${page}`;
  return `wire ${w}: ${[ends.from, ...shown, ends.to].join(" > ")}; distance ${get("buses", b, 5)}, ${lane}`;
}

function nodeWords(id) {
  const inside = insides.get(id), k = anchor(id);
  if (k < 0 && inside === undefined) return `no node has the id ${id}`;
  if (inside !== undefined && (k < 0 || node(k).id !== id)) {
    const at = k < 0 ? "" : `; its wires enter at the brick of node ${node(k).id}`;
    return `node ${id}:${CLASSES[get("inner", inside, 2)]} inside chip ${get("inner", inside, 1)}${at}`;
  }
  const n = node(k);
  const place = n.x === null ? "not placed" : `at x ${n.x}, y ${n.y}`;
  const row = n.page < 0 ? "on no row of a page" : `${n.height / U} by ${n.width / U}, page ${n.page}, row of down ${n.down}`;
  const line = n.line === null ? "" : `, line ${n.line} of the code`;
  return `node ${id}: ${KINDS[n.kind]}${CLASSES[n.klass]}${n.pin ? ", pin" : ""}, turned ${90 * n.turn}\u00b0; ${place}, ${row}${line}`;
}

function rerouterWords(k) {
  const r = rerouter(k), b = feeder[k];
  const lane = r.lane < 0 ? "" : ` in lane ${r.lane}`;
  const fed = b < 0 ? "fed by nothing" : from(b) < 0 ? `fed by port ${get("buses", b, 0)}.${get("buses", b, 1)}` : `fed by rerouter ${from(b)}`;
  return `rerouter ${k}: ${PARTS[r.part]}${lane} of page ${r.page}, depth ${r.depth}; at x ${r.x}, y ${r.y}, turned ${90 * r.turn}\u00b0, colour of node ${r.colour}; ${fed}`;
}

function busWords(b) {
  const name = at => get("buses", b, at + 1) < 0 ? "rerouter " + get("buses", b, at) : "port " + get("buses", b, at) + "." + get("buses", b, at + 1);
  return `bus wire ${b}: ${name(0)} > ${name(2)}`;
}

function portWords(name) {
  const k = places.get("in " + name), off = k !== undefined && get("ports", k, 3);
  const sides = (k === undefined ? "" : ", input") + (places.has("out " + name) ? ", output" : "");
  const chip = insides.has(parseInt(name, 10)) ? ` of a node inside chip ${get("inner", insides.get(parseInt(name, 10)), 1)}` : "";
  return `port ${name}${chip}${sides}${execs.has(name) ? ", exec" : ""}${off ? ", suppressed: a run delivers, no wire is drawn" : ""}`;
}

// What a thing is, in words, and what is lit with it. A thing is a letter and a
// name: n node, p port, r rerouter, b bus wire, w wire, l page and lane.
function thing(kind, name) {
  const all = () => Array.from({length: count("wires")}, (_, w) => w);
  if (kind === "l") return laneThing(...name.split(":").map(Number));
  if (kind === "w") return {words: [], lit: light([name], -1)};
  if (kind === "r") return {words: [rerouterWords(name)], lit: feeder[name] < 0 ? rerouterAlone(name) : light(through(feeder[name]), feeder[name])};
  if (kind === "b") return {words: [busWords(name)], lit: light(through(name), name)};
  if (kind === "p") {
    const wires = all().filter(w => wire(w).from === name || wire(w).to === name);
    return {words: [portWords(name)], lit: light(wires, -1)};
  }
  const k = anchor(name), own = k >= 0 && node(k).id === name;
  const wires = own ? [...new Set([...arriving[k], ...leaving[k]])].sort((a, b) => a - b)
    : all().filter(w => wire(w).source === name || wire(w).target === name);
  const lit = light(wires, -1);
  if (k >= 0) lit.nodes.add(k);
  return {words: [nodeWords(name)], lit};
}

function laneThing(page, lane) {
  const wires = new Set();
  for (let k = 0; k < count("rerouters"); k++) {
    if (get("rerouters", k, 5) === page && get("rerouters", k, 6) === lane && feeder[k] >= 0) through(feeder[k]).forEach(w => wires.add(w));
  }
  const sorted = [...wires].sort((a, b) => a - b), sources = new Set(sorted.map(w => wire(w).from));
  return {words: [`lane ${lane} of page ${page}: runs: ${sources.size}, wires: ${sorted.length}`], lit: light(sorted, -1)};
}

function rerouterAlone(k) {
  const lit = light([], -1);
  lit.rerouters.add(k);
  return lit;
}
