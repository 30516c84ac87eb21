// Pointing and searching: what is meant, its words, and the page's events.
function say(text, go, what) {
  const p = document.createElement("p"), a = document.createElement(go ? "a" : "span");
  a.textContent = text;
  if (go) a.dataset.go = go;
  if (what) p.className = "what";
  p.appendChild(a);
  words.appendChild(p);
}

const MOST = 40;
function show(found) {
  view.shown = found && Object.assign(thing(found.kind, found.name), found);
  words.textContent = "";
  drawLit();
  if (!found) return say(hint);
  const wires = view.shown.lit.wires;
  view.shown.words.forEach(text => say(text, null, true));
  for (const w of wires.slice(0, MOST)) say(wireWords(w, wires.length > 1 ? 24 : Infinity), wires.length > 1 ? "w" + w : null);
  if (wires.length > MOST) say(`and ${wires.length - MOST} wires more`);
  if (wires.length === 1) [wire(wires[0]).source, wire(wires[0]).target].forEach((id, k) => say((k ? "to " : "from ") + nodeWords(id), "n" + id));
  const pages = new Set([...view.shown.lit.rerouters].map(k => rerouter(k).page).concat([...view.shown.lit.nodes].map(k => node(k).page)));
  pages.delete(view.page);
  pages.delete(-1);
  if (pages.size) say("Also on page " + [...pages].sort((a, b) => a - b).join(", "));
}

// The nearest thing to a point of the page: a port, a rerouter, a run, a direct
// wire, then the brick that it is in.
function at(x, y) {
  const page = view.page, near = 5 / view.scale;
  let found = null, best = Math.max(near, 3);
  for (const k of here.ports[page]) {
    const d = Math.hypot(get("ports", k, 5) - x, get("ports", k, 6) - y);
    if (d < best) { best = d; found = {kind: "p", name: get("ports", k, 0) + "." + get("ports", k, 1)}; }
  }
  if (found) return found;
  for (const k of here.rerouters[page]) {
    const right = rightOf(page, get("rerouters", k, 1) + 1), down = downOf(page, get("rerouters", k, 0) + 1);
    if (Math.abs(right - x) <= U && Math.abs(down - y) <= U) return {kind: "r", name: k};
  }
  best = near;
  for (const b of here.buses[page]) {
    const d = Math.min(...[7, 9, 11].map(at => distance("buses", b, at, x, y)));
    if (d < best) { best = d; found = {kind: "b", name: b}; }
  }
  best = found ? best : near * 0.6;
  for (const k of found ? [] : here.directs[page]) {
    const d = distance("directs", k, 3, x, y);
    if (d < best) { best = d; found = {kind: "w", name: get("directs", k, 0)}; }
  }
  if (found) return found;
  const inside = here.nodes[page].filter(k => {
    const n = 14 * k, d = DATA.nodes;
    return x >= d[n + 10] && x <= d[n + 10] + d[n + 12] && y >= d[n + 11] && y <= d[n + 11] + d[n + 13];
  });
  return inside.length ? {kind: "n", name: get("nodes", inside[inside.length - 1], 0)} : laneAt(x, y);
}

function laneAt(x, y) {
  const page = view.page, left = get("pages", page, 8), top = get("pages", page, 3);
  const lane = Math.floor((x - left) / (2 * U)), inside = y > top && y < top + get("pages", page, 5);
  return left !== null && inside && lane >= 0 && lane < get("pages", page, 0) ? {kind: "l", name: page + ":" + lane} : null;
}

function distance(name, k, field, x, y) {
  const ax = get(name, k, field), ay = get(name, k, field + 1);
  const dx = get(name, k, field + 2) - ax, dy = get(name, k, field + 3) - ay;
  const length = dx * dx + dy * dy;
  const t = length ? Math.min(1, Math.max(0, ((x - ax) * dx + (y - ay) * dy) / length)) : 0;
  return Math.hypot(ax + t * dx - x, ay + t * dy - y);
}

function point(event) {
  const box = svg.getBoundingClientRect();
  return [view.left + (event.clientX - box.left) / view.scale, view.top + (event.clientY - box.top) / view.scale];
}

function same(a, b) {
  return a === b || (a && b && a.kind === b.kind && a.name === b.name);
}

let drag = null;
svg.addEventListener("pointerdown", event => {
  drag = {x: event.clientX, y: event.clientY, left: view.left, top: view.top, moved: false};
  svg.setPointerCapture(event.pointerId);
});
svg.addEventListener("pointermove", event => {
  if (drag) {
    const dx = event.clientX - drag.x, dy = event.clientY - drag.y;
    drag.moved = drag.moved || Math.abs(dx) + Math.abs(dy) > 4;
    if (!drag.moved) return;
    view.left = drag.left - dx / view.scale;
    view.top = drag.top - dy / view.scale;
    draw();
  } else if (!view.held && count("pages")) {
    const found = at(...point(event));
    if (!same(found, view.shown)) show(found);
  }
});
svg.addEventListener("pointerup", event => {
  const clicked = drag && !drag.moved;
  drag = null;
  if (!clicked || !count("pages")) return;
  const found = at(...point(event));
  view.held = !!found;
  show(found);
});
svg.addEventListener("wheel", event => {
  event.preventDefault();
  const box = svg.getBoundingClientRect();
  zoom(Math.exp(-event.deltaY * (event.deltaMode ? 0.05 : 0.0015)), event.clientX - box.left, event.clientY - box.top);
}, {passive: false});

// The page of a thing, and its frame there.
function frame(lit, page) {
  const box = [Infinity, Infinity, -Infinity, -Infinity];
  const add = (l, t, r, b) => {
    box[0] = Math.min(box[0], l); box[1] = Math.min(box[1], t);
    box[2] = Math.max(box[2], r); box[3] = Math.max(box[3], b);
  };
  for (const k of lit.nodes) { const n = node(k); if (n.page === page) add(n.left, n.top, n.left + n.width, n.top + n.height); }
  for (const k of lit.rerouters) { const r = rerouter(k); if (r.page === page) add(r.right - U, r.down - U, r.right + U, r.down + U); }
  return box;
}

function pageOf(kind, name, lit) {
  if (kind === "r") return rerouter(name).page;
  if (kind === "b") return get("buses", name, 6);
  if (kind === "n" || kind === "p") { const k = anchor(parseInt(name, 10)); if (k >= 0 && node(k).page >= 0) return node(k).page; }
  for (const k of lit.rerouters) return rerouter(k).page;
  for (const k of lit.nodes) if (node(k).page >= 0) return node(k).page;
  return view.page;
}

// Turns to a thing, holds it and brings it into view.
function go(kind, name) {
  const lit = thing(kind, name).lit, page = pageOf(kind, name, lit);
  if (page !== view.page) turnTo(page);
  view.held = true;
  show({kind, name});
  let only = lit;
  if (kind === "n" && anchor(name) >= 0) only = {nodes: new Set([anchor(name)]), rerouters: new Set()};
  if (kind === "r") only = {nodes: new Set(), rerouters: new Set([name])};
  const [l, t, r, b] = frame(only, view.page), around = kind === "w" ? 4 * U : 12 * U;
  if (l < r) fit(l - around, t - around, r - l + 2 * around, b - t + 2 * around, 3);
}

// What a text may name: n12, w5, r7, b3, 12.3, words for the letters, or a bare
// number, which may be a node, a wire and a rerouter.
function search(text) {
  const port = /^\s*(?:p|port)?\s*(\d+)\.(\d+)\s*$/i.exec(text);
  if (port) return places.has("in " + port[1] + "." + port[2]) || places.has("out " + port[1] + "." + port[2]) ? [["p", port[1] + "." + port[2]]] : [];
  const named = /^\s*(n|node|w|wire|r|rerouter|b|bus wire)?\s*(\d+)\s*$/i.exec(text);
  if (!named) return [];
  const number = Number(named[2]), letter = (named[1] || "").charAt(0).toLowerCase();
  const there = {n: anchors.has(number) || insides.has(number), w: number < count("wires"), r: number < count("rerouters"), b: number < count("buses")};
  return (letter ? [letter] : ["n", "w", "r"]).filter(kind => there[kind]).map(kind => [kind, number]);
}

const NAMES = {n: "node", w: "wire", r: "rerouter", b: "bus wire", p: "port"};
function find(text) {
  const found = search(text);
  if (!found.length) {
    view.held = false;
    show(null);
    words.textContent = "";
    return say(`Nothing is named ${text}.`, null, true);
  }
  go(...found[0]);
  for (const [kind, name] of found.slice(1)) say(`There is a ${NAMES[kind]} ${name}, too.`, kind + name);
}

document.getElementById("search").addEventListener("submit", event => {
  event.preventDefault();
  find(document.getElementById("find").value);
});
document.addEventListener("click", event => {
  const link = event.target.closest("[data-go]"), tab = event.target.closest("nav button");
  if (link) find(link.dataset.go);
  if (tab) turnTo(Number(tab.dataset.page));
});
const middle = factor => () => { const box = svg.getBoundingClientRect(); zoom(factor, box.width / 2, box.height / 2); };
document.getElementById("closer").addEventListener("click", middle(1.5));
document.getElementById("farther").addEventListener("click", middle(1 / 1.5));
document.getElementById("whole").addEventListener("click", whole);
document.addEventListener("keydown", event => {
  if (event.key === "Escape") { view.held = false; show(null); }
});
window.addEventListener("resize", draw);

function start() {
  turnTo(0);
  if (location.hash.length > 1) find(location.hash.slice(1));
}
