// Runs near by. The static shapes have each run in one line without dashes,
// which a browser draws quickly however long it is. Where dashes can be seen,
// the part of the runs in view is drawn in their place: dashed, with a white
// edge that shows at crossings which run is above, and all rerouters on top.
const NEAR = 0.3;
// All dashes repeat after this length: cut at its multiples, they stay in place.
const PERIOD = 546;
const nearGroup = document.getElementById("near");

const runOf = b => get("rerouters", target(b) >= 0 ? target(b) : from(b), 8);
const styleOf = run => run === undefined || run < 0 ? "c3" : `c${DATA.runs[run] % 7} d${DATA.runs[run] % 4}`;
const shape = (part, right, down) => {
  const [dx, dy, rest] = DATA.shapes[part];
  return `M${right + dx} ${down + dy}${rest}`;
};

// The frame in view and some more around it.
function frameAround() {
  const box = svg.getBoundingClientRect(), width = box.width / view.scale, height = box.height / view.scale;
  const low = n => PERIOD * Math.floor(n / PERIOD), high = n => PERIOD * Math.ceil(n / PERIOD);
  return {left: low(view.left - width / 3), top: low(view.top - height / 3), right: high(view.left + width * 4 / 3), bottom: high(view.top + height * 4 / 3)};
}

// The part of a line inside a frame, as a path, or nothing.
function cut(ax, ay, bx, by, frame) {
  let first = 0, last = 1;
  const dx = bx - ax, dy = by - ay;
  for (const [step, room] of [[-dx, ax - frame.left], [dx, frame.right - ax], [-dy, ay - frame.top], [dy, frame.bottom - ay]]) {
    if (step === 0 && room < 0) return "";
    if (step < 0) first = Math.max(first, room / step);
    if (step > 0) last = Math.min(last, room / step);
  }
  const at = t => `${Math.round(ax + t * dx)} ${Math.round(ay + t * dy)}`;
  return first > last || (dx === 0 && dy === 0) ? "" : `M${at(first)}L${at(last)}`;
}

// The lines of each run inside a frame. Where more runs share a track than can
// be told apart, one of them is drawn.
function linesIn(frame) {
  const runs = new Map(), seen = new Set();
  for (const b of here.buses[view.page]) {
    const at = 15 * b + 7, d = DATA.buses;
    let path = "";
    for (const k of [at, at + 2, at + 4]) {
      const part = cut(d[k], d[k + 1], d[k + 2], d[k + 3], frame);
      if (part && !seen.has(part)) { seen.add(part); path += part; }
    }
    if (path) runs.set(runOf(b), (runs.get(runOf(b)) || "") + path);
  }
  return runs;
}

function drawNear() {
  const near = view.scale >= NEAR;
  svg.classList.toggle("near", near);
  nearGroup.textContent = "";
  if (!near || !count("pages")) return;
  const frame = frameAround();
  const inside = (right, down) => right > frame.left && right < frame.right && down > frame.top && down < frame.bottom;
  for (const [run, path] of linesIn(frame)) {
    element(nearGroup, "path", {class: "edge", d: path});
    element(nearGroup, "path", {class: "line " + styleOf(run), d: path});
  }
  const bricks = new Map(), marks = {out: "", in: "", off: ""};
  for (const k of here.rerouters[view.page]) {
    const r = rerouter(k), style = styleOf(r.run);
    if (inside(r.right, r.down)) bricks.set(style, (bricks.get(style) || "") + shape(r.part, r.right, r.down));
  }
  for (const [style, path] of bricks) element(nearGroup, "path", {class: "brick " + style, d: path});
  for (const k of here.ports[view.page]) {
    const out = get("ports", k, 2), x = get("ports", k, 5), y = get("ports", k, 6);
    if (!inside(x, y)) continue;
    if (out) marks.out += `M${x - 2} ${y - 2}h4v4h-4z`;
    else marks[get("ports", k, 3) ? "off" : "in"] += `M${x - 2} ${y}a2 2 0 1 0 4 0a2 2 0 1 0-4 0z`;
  }
  for (const name in marks) if (marks[name]) element(nearGroup, "path", {class: name, d: marks[name]});
}
