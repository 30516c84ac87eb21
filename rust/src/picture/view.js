// The view of a page: zoom and pan, labels, what is lit.
const svg = document.getElementById("board"), litGroup = document.getElementById("lit");
const labels = document.getElementById("labels"), words = document.getElementById("words");
const hint = words.textContent;
const groups = [...document.querySelectorAll("g.page")], tabs = [...document.querySelectorAll("nav button")];
const view = {page: 0, left: 0, top: 0, scale: 1, held: false, shown: null};

// The numbers of a kind on each page.
const onPage = (name, field) => gather(count("pages"), put => {
  for (let k = 0; k < count(name); k++) put(get(name, k, field), k);
});
const here = {nodes: onPage("nodes", 9), rerouters: onPage("rerouters", 5), buses: onPage("buses", 6), ports: onPage("ports", 4), directs: onPage("directs", 2)};

function element(parent, name, attributes, text) {
  const made = document.createElementNS("http://www.w3.org/2000/svg", name);
  for (const key in attributes) made.setAttribute(key, attributes[key]);
  if (text !== undefined) made.textContent = text;
  parent.appendChild(made);
}

let waiting = false, labelling = 0;
function draw() {
  if (waiting) return;
  waiting = true;
  requestAnimationFrame(() => {
    waiting = false;
    const box = svg.getBoundingClientRect(), k = view.scale;
    svg.setAttribute("viewBox", [view.left, view.top, box.width / k, box.height / k].join(" "));
    // Lines stay visible from afar, and do not fill the lane when near.
    svg.style.setProperty("--line", Math.max(3, 0.9 / k).toFixed(2));
    svg.style.setProperty("--thin", Math.max(1, 0.6 / k).toFixed(2));
    moved = true;
    later();
  });
}

// What waits until the view has come to rest.
let moved = false;
function later() {
  clearTimeout(labelling);
  labelling = setTimeout(() => {
    if (moved) drawNear();
    moved = false;
    label();
  }, 60);
}

function text(pale, x, y, size, said) {
  element(labels, "text", {class: pale ? "label pale" : "label", x, y: y + size / 3, "font-size": size.toFixed(1)}, said);
}

function nodeLabel(pale, n) {
  const lines = [String(n.id), KINDS[n.kind], CLASSES[n.klass].trim()].filter(line => line);
  if (n.height * view.scale < 30) lines.length = 1;
  const step = n.height / (lines.length + 1);
  lines.forEach((line, i) => text(pale, n.left + n.width / 2, n.top + n.height / 2 + (2 * i + 1 - lines.length) * step / 2,
    Math.min(14, step, (n.width - 4) * 1.7 / line.length), line));
}

function rerouterLabel(pale, r, number) {
  const [right, down, width] = r.part === 4 ? [-3, 0, 11] : r.part === 6 ? [3, 3, 10] : r.part === 5 ? [0, 0, 11] : [0, 0, 14];
  text(pale, r.right + right, r.down + down, Math.min(9, width * 1.7 / String(number).length), String(number));
}

// Labels of what is in view, where there is room to read them.
function label() {
  labels.textContent = "";
  const box = svg.getBoundingClientRect(), k = view.scale;
  const right = view.left + box.width / k, bottom = view.top + box.height / k;
  const seen = (l, t, w, h) => l < right && l + w > view.left && t < bottom && t + h > view.top;
  const lit = view.shown && view.shown.lit;
  let room = 1500;
  if (!count("pages")) return;
  for (const at of here.nodes[view.page]) {
    const n = node(at);
    if (n.width * k > 16 && seen(n.left, n.top, n.width, n.height) && room-- > 0) nodeLabel(lit && !lit.nodes.has(at), n);
  }
  if (2 * U * k < 13) return;
  const left = get("pages", view.page, 8);
  for (let lane = 0; left !== null && lane < get("pages", view.page, 0); lane++) {
    const x = left + U * (2 * lane + 1);
    if (x > view.left && x < right && view.top > get("pages", view.page, 3)) text(false, x, view.top + 10 / k, 11 / k, String(lane));
  }
  for (const at of here.rerouters[view.page]) {
    const r = rerouter(at);
    if (seen(r.right - U, r.down - U, 2 * U, 2 * U) && room-- > 0) rerouterLabel(lit && !lit.rerouters.has(at), r, at);
  }
}

function fit(left, top, width, height, most) {
  const box = svg.getBoundingClientRect();
  view.scale = Math.min(box.width / width, box.height / height, most);
  view.left = left + width / 2 - box.width / view.scale / 2;
  view.top = top + height / 2 - box.height / view.scale / 2;
  draw();
}

function whole() {
  if (count("pages")) fit(...DATA.pages.slice(9 * view.page + 2, 9 * view.page + 6), 4);
}

function turnTo(page) {
  if (page < 0 || page >= count("pages")) return;
  view.page = page;
  groups.forEach((group, k) => k === page ? group.removeAttribute("display") : group.setAttribute("display", "none"));
  tabs.forEach((tab, k) => tab.classList.toggle("now", k === page));
  drawLit();
  whole();
}

function zoom(factor, x, y) {
  const at = {right: view.left + x / view.scale, down: view.top + y / view.scale};
  view.scale = Math.min(40, Math.max(1e-6, view.scale * factor));
  view.left = at.right - x / view.scale;
  view.top = at.down - y / view.scale;
  draw();
}

// The lit things of the page in view, above all else.
function drawLit() {
  litGroup.textContent = "";
  const lit = view.shown && view.shown.lit;
  groups.concat(nearGroup).forEach(group => group.classList.toggle("dim", !!lit));
  later();
  if (!lit) return;
  const nodes = [...lit.nodes].map(node).filter(n => n.page === view.page);
  for (const n of nodes) element(litGroup, "rect", {class: "frame", "data-node": n.id, x: n.left, y: n.top, width: n.width, height: n.height});
  const line = (name, k, fields) => fields.map((at, i) => `${i ? "L" : "M"}${get(name, k, at)} ${get(name, k, at + 1)}`).join("");
  for (const k of lit.directs) {
    if (get("directs", k, 2) === view.page) element(litGroup, "path", {class: "straight", "data-wire": get("directs", k, 0), d: line("directs", k, [3, 5])});
  }
  const buses = [...lit.buses].filter(b => get("buses", b, 6) === view.page);
  // Dashes of a very long way would take long to draw.
  const long = buses.reduce((sum, b) => sum + Math.abs(get("buses", b, 13) - get("buses", b, 7)) + Math.abs(get("buses", b, 14) - get("buses", b, 8)), 0) > 2e5;
  if (buses.length) element(litGroup, "path", {class: "way edge", d: buses.map(b => line("buses", b, [7, 9, 11, 13])).join("")});
  for (const b of buses) {
    element(litGroup, "path", {class: (long ? "way long " : "way ") + styleOf(runOf(b)), "data-bus": b, d: line("buses", b, [7, 9, 11, 13])});
  }
  const rerouters = [...lit.rerouters].filter(k => rerouter(k).page === view.page);
  for (const k of rerouters) {
    const r = rerouter(k);
    element(litGroup, "path", {class: "brick " + styleOf(r.run), "data-rerouter": k, d: shape(r.part, r.right, r.down)});
  }
  for (const k of lit.ports) if (get("ports", k, 4) === view.page) portMark(k);
}

function portMark(k) {
  const out = get("ports", k, 2), right = get("ports", k, 5), down = get("ports", k, 6);
  const port = get("ports", k, 0) + "." + get("ports", k, 1);
  if (out) element(litGroup, "rect", {class: "at", "data-port": port, x: right - 4, y: down - 4, width: 8, height: 8});
  else element(litGroup, "circle", {class: "ring", "data-port": port, cx: right, cy: down, r: 4});
}
