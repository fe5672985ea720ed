// Draws the data of picture.py: the graph of what posts what, and the timeline of a play.
"use strict";
const data = JSON.parse(document.getElementById("data").textContent);
const at = (id) => document.getElementById(id);
const SVG = "http://www.w3.org/2000/svg";
const draw = (kind, fields, into, text) => {
  const made = document.createElementNS(SVG, kind);
  for (const [name, value] of Object.entries(fields)) made.setAttribute(name, value);
  if (text !== undefined) made.textContent = text;
  if (into) into.append(made);
  return made;
};
const element = (kind, text, into) => {
  const made = document.createElement(kind);
  made.textContent = text;
  into.append(made);
  return made;
};
const time = (moment) => {
  const seconds = Math.floor(moment / 1000) % 60, rest = Math.round(moment % 1000);
  return `${Math.floor(moment / 60000)}:${String(seconds).padStart(2, "0")}.${String(rest).padStart(3, "0")}`;
};
at("answer").textContent = data.answer;
at("answer").title = data.answer;
at("answer").classList.toggle("yes", data.yes);

// Moves and zooms a view. `view` has x, y and scale; `show` draws it.
function movable(area, view, show, flat) {
  const pointers = new Map();
  let moved = false;
  const zoom = (factor, x, y) => {
    const next = Math.min(view.most, Math.max(view.least, view.scale * factor));
    const real = next / view.scale;
    view.x = x - (x - view.x) * real;
    if (!flat) view.y = y - (y - view.y) * real;
    view.scale = next;
    show();
  };
  const middle = () => [area.clientWidth / 2, area.clientHeight / 2];
  area.addEventListener("wheel", (event) => {
    event.preventDefault();
    const box = area.getBoundingClientRect();
    if (flat && event.shiftKey) { view.y -= event.deltaY; show(); return; }
    zoom(Math.exp(-event.deltaY / 400), event.clientX - box.left, event.clientY - box.top);
  }, { passive: false });
  area.addEventListener("pointerdown", (event) => {
    pointers.set(event.pointerId, [event.clientX, event.clientY]);
    moved = false;
  });
  area.addEventListener("pointermove", (event) => {
    const before = pointers.get(event.pointerId);
    if (!before) return;
    const [x, y] = [event.clientX, event.clientY];
    if (pointers.size === 2) {
      const other = [...pointers].find(([id]) => id !== event.pointerId)[1];
      const far = (p) => Math.hypot(p[0] - other[0], p[1] - other[1]) || 1;
      const box = area.getBoundingClientRect();
      zoom(far([x, y]) / far(before), other[0] - box.left, other[1] - box.top);
    } else {
      if (Math.hypot(x - before[0], y - before[1]) > 2 || moved) {
        moved = true;
        area.classList.add("moved");
        view.x += x - before[0];
        view.y += y - before[1];
        show();
      } else return;
    }
    pointers.set(event.pointerId, [x, y]);
  });
  for (const kind of ["pointerup", "pointercancel", "pointerleave"]) {
    area.addEventListener(kind, (event) => { pointers.delete(event.pointerId); area.classList.remove("moved"); });
  }
  area.addEventListener("keydown", (event) => {
    const step = { ArrowLeft: [80, 0], ArrowRight: [-80, 0], ArrowUp: [0, 80], ArrowDown: [0, -80] }[event.key];
    if (step) { view.x += step[0]; view.y += step[1]; show(); }
    else if (event.key === "+" || event.key === "=") zoom(1.3, ...middle());
    else if (event.key === "-") zoom(1 / 1.3, ...middle());
    else if (event.key === "0" || event.key === "Home") view.fit();
    else return;
    event.preventDefault();
  });
  return { zoomIn: () => zoom(1.3, ...middle()), zoomOut: () => zoom(1 / 1.3, ...middle()), wasMoved: () => moved };
}

// A graph of boxes and arrows in an area. It has one or more layouts: where each box is, if it is shown there.
const HEIGHT = 18;
const short = (name) => (name.length > 40 ? `${name.slice(0, 39)}…` : name);
const TITLES = { machine: "machine", " ": "posted, and that is all", "  ": "modes" };
const titleOf = (band) => TITLES[band] || `mode ${band}`;
function graphIn(area, graph, tell) {
  const svg = draw("svg", { "aria-hidden": "true" }, area);
  const root = draw("g", {}, svg), bands = draw("g", {}, root);
  const boxes = graph.boxes.map(([name, width, weight, isSwitch, linked], number) =>
    ({ number, name, width, weight, isSwitch, linked, leads: [], comes: [] }));
  for (const arrow of graph.arrows) {
    boxes[arrow[0]].leads.push(arrow);
    boxes[arrow[1]].comes.push(arrow);
  }
  const red = graph.arrows.filter((it) => it[2]);
  const inCycle = new Set(red.flatMap((it) => [it[0], it[1]]));
  const kinds = ["arrows", "arrows chosen", "arrows red"];
  const [plain, chosenArrows, redArrows] = kinds.map((it) => draw("path", { class: it }, root));
  let layout = graph.layouts[0], chosen = null;
  const path = ([one, other]) => {
    const from = boxes[one], to = boxes[other];
    if (!from.at || !to.at) return "";
    const x = from.at[0] + from.width, y = from.at[1] + HEIGHT / 2, u = to.at[0], v = to.at[1] + HEIGHT / 2;
    const bend = u > x ? Math.max(20, (u - x) / 2) : 60;
    return `M${x} ${y}C${x + bend} ${y} ${u - bend} ${v} ${u} ${v}`;
  };
  const paths = (arrows) => arrows.map(path).join("");
  for (const it of boxes) {
    const classes = ["box", it.isSwitch && "switch", !it.linked && "lone", inCycle.has(it.number) && "cycle"];
    it.shape = draw("g", { class: classes.filter(Boolean).join(" ") }, root);
    draw("rect", { width: it.width, height: HEIGHT, rx: 4 }, it.shape);
    draw("text", { x: 6, y: 13 }, it.shape, short(it.name));
    if (it.weight) draw("text", { class: "weight", x: it.width - 5, y: 13 }, it.shape, it.weight);
    it.shape.addEventListener("click", () => { if (!moves.wasMoved()) choose(it); });
  }
  const view = { x: 0, y: 0, scale: 1, least: 0.01, most: 4 };
  const show = () => {
    root.setAttribute("transform", `translate(${view.x} ${view.y}) scale(${view.scale})`);
    svg.classList.toggle("far", view.scale < 0.28);
  };
  const lay = (which) => {
    layout = graph.layouts[which] || graph.layouts[0];
    bands.textContent = "";
    for (const [name, y, height] of layout.bands) {
      const lone = name === " " ? " lone" : "";
      draw("rect", { class: `band${lone}`, x: 0, y, width: layout.size[0], height, rx: 8 }, bands);
      draw("text", { class: `title${lone}`, x: 12, y: y + 18 }, bands, titleOf(name));
    }
    boxes.forEach((it, number) => {
      it.at = layout.at[number];
      it.shape.classList.toggle("out", !it.at);
      if (it.at) it.shape.setAttribute("transform", `translate(${it.at[0]} ${it.at[1]})`);
    });
    plain.setAttribute("d", paths(graph.arrows.filter((it) => !it[2])));
    redArrows.setAttribute("d", paths(red));
  };
  view.fit = () => {
    view.scale = Math.min(1.2, area.clientWidth / layout.size[0], area.clientHeight / layout.size[1]);
    view.x = Math.max(0, (area.clientWidth - layout.size[0] * view.scale) / 2);
    view.y = 4;
    show();
  };
  const begin = () => {
    view.fit();
    if (view.scale >= 0.75) return;
    Object.assign(view, { x: 4, y: 4, scale: 0.85 });
    if (inCycle.size) goTo(boxes[red[0][0]]); else show();
  };
  const moves = movable(area, view, show, false);
  const goTo = (it) => {
    view.scale = Math.max(view.scale, 0.8);
    view.x = area.clientWidth / 2 - (it.at[0] + it.width / 2) * view.scale;
    view.y = area.clientHeight / 2 - it.at[1] * view.scale;
    show();
  };
  const goToBand = (name) => {
    const band = layout.bands.find((it) => it[0] === name);
    if (!band) return;
    view.scale = Math.max(view.scale, 0.8);
    view.x = 4;
    view.y = 8 - band[1] * view.scale;
    show();
  };
  function choose(it) {
    chosen = it;
    for (const box of boxes) {
      box.shape.classList.remove("chosen", "dim");
      if (it) box.shape.classList.add("dim");
    }
    plain.classList.toggle("dim", Boolean(it));
    at("panel").textContent = "";
    const near = it ? [...it.leads, ...it.comes] : [];
    for (const arrow of near) for (const end of [0, 1]) boxes[arrow[end]].shape.classList.remove("dim");
    chosenArrows.setAttribute("d", paths(near.filter((arrow) => !arrow[2])));
    if (it) it.shape.classList.remove("dim");
    if (it) it.shape.classList.add("chosen");
    tell(it, { boxes, red, inCycle, places: graph.places });
  }
  const again = () => { if (chosen && chosen.at) choose(chosen); else choose(null); };
  const bandNames = () => layout.bands.map((it) => it[0]).filter((name) => name.trim());
  lay(0);
  return { svg, boxes, view, moves, show, lay, begin, goTo, goToBand, choose, again, bandNames };
}
function list(title, arrows, end, boxes, go, places = []) {
  if (!arrows.length && !places.length) return;
  element("h3", title, at("panel"));
  const items = element("ul", "", at("panel"));
  for (const place of places.slice(0, 200)) element("li", place, items);
  for (const arrow of arrows.slice(0, 200)) {
    const item = element("li", "", items), other = boxes[arrow[end]];
    element("button", other.name + (other.weight ? ` (${other.weight})` : ""), item).onclick = () => go(other);
    for (const why of arrow[3].slice(0, 40)) element("small", why, item);
  }
}

// What posts what.
const HINTS = [
  "Choose an event to see what posts it, what it leads to, and where that is written. What an event leads to is to its "
    + "right. A number is the event's weight. A blue one comes from outside: from a switch, a timer, a ball device or "
    + "a ball save.",
  "Drag to move. The wheel, two fingers, + and − zoom. 0 fits all. The arrow keys move. / searches, Enter goes to "
    + "the next one found, Escape lets go.",
];
const events = graphIn(at("graph"), data.graph, (it, { boxes, red, inCycle, places }) => {
  if (!it) {
    if (red.length) element("h2", "The cycle, in red", at("panel"));
    for (const arrow of red) list(`${boxes[arrow[0]].name} leads to`, [arrow], 1, boxes, reach);
    for (const hint of HINTS) element("p", hint, at("panel"));
    return;
  }
  element("h2", it.name, at("panel"));
  if (it.weight) element("p", `Weight ${it.weight}: posting it once causes at most so many lines.`, at("panel"));
  if (inCycle.has(it.number)) element("p", "It is part of the cycle.", at("panel"));
  const [handledIn, postedBy] = places[it.number] || [[], []];
  list("It leads to", it.leads, 1, boxes, reach);
  list("It comes from", it.comes, 0, boxes, reach);
  list("It comes from outside, by", [], 0, boxes, reach, postedBy);
  list("It is handled in", [], 0, boxes, reach, handledIn);
});
// Chooses an event and goes to it. One that is left out is shown again.
function reach(it) {
  if (!it.linked) at("lone").checked = true;
  if (!it.at || !it.linked) { at("handled").checked = false; showLayout(); }
  events.choose(it);
  events.goTo(it);
}
// Goes to the events of a mode. If nothing handles any of them, all are shown.
function reachBand(name) {
  if (!events.bandNames().includes(name)) { at("handled").checked = false; showLayout(); }
  events.goToBand(name);
}
function showLayout() {
  const few = at("handled").checked;
  at("lone").disabled = few;
  events.lay(few ? 1 : 0);
  events.svg.classList.toggle("without", few || !at("lone").checked);
}

// The modes alone.
const modes = data.modes && graphIn(at("modes"), data.modes, (it, { boxes }) => {
  if (!it) {
    element("p", "An arrow leads from a mode to each mode that its events start or stop. Choose a mode to see which "
      + "events these are. That a mode stops with the ball or the game is not drawn.", at("panel"));
    element("p", HINTS[1], at("panel"));
    return;
  }
  const go = (other) => { modes.choose(other); modes.goTo(other); };
  element("h2", titleOf(it.name), at("panel"));
  element("button", "Show its events", at("panel")).onclick = () => { show("graph"); reachBand(it.name); };
  list("It comes from", it.comes, 0, boxes, go);
  list("It leads to", it.leads, 1, boxes, go);
});

// The timeline.
const play = data.play, lane = at("play");
at("tab-play").disabled = !play;
const table = draw("svg", { "aria-hidden": "true" }, lane);
const ROWS = 20, LEVEL = 44, TOP = 30;
const span = { x: 0, y: 0, scale: 0.1, least: 1e-7, most: 8 };
let now = null, searched = "";
const side = () => Math.min(190, Math.max(90, lane.clientWidth * 0.22));
const matches = (name) => !searched || name.toLowerCase().includes(searched);
function ticks(from, to) {
  const steps = [1, 2, 5, 10, 20, 50, 100, 200, 500, 1e3, 2e3, 5e3, 1e4, 3e4, 6e4, 12e4, 3e5, 6e5, 18e5, 36e5];
  for (let hours = 4; hours < 1e5; hours *= 2) steps.push(hours * 36e5);
  const step = steps.find((it) => it * span.scale > 90) || to, found = [];
  for (let moment = Math.ceil(from / step) * step; moment <= to; moment += step) found.push(moment);
  return found;
}
function drawSpans(left, wide) {
  let y = TOP + span.y, kind = "";
  for (const [group, name, stretches] of play.rows) {
    y += group === kind ? 0 : 10;
    kind = group;
    const row = draw("g", { class: matches(name) ? "row" : "row dim" }, table);
    for (const [start, end] of stretches) {
      const x = left + span.x + start * span.scale, width = Math.max(1.5, (end - start) * span.scale);
      if (x + width < left || x > wide) continue;
      const from = Math.max(x, left), long = Math.max(1.5, Math.min(x + width, wide) - from);
      draw("rect", { class: `span ${group}`, x: from, y: y + 3, width: long, height: ROWS - 6, rx: 2 }, row);
    }
    draw("line", { class: "rule", x1: left, x2: wide, y1: y + ROWS, y2: y + ROWS }, row);
    y += ROWS;
  }
  return y + 10;
}
function drawLevels(left, wide, top) {
  let y = top;
  for (const [name, points] of play.levels) {
    const most = points.reduce((sum, it) => Math.max(sum, it[1]), 1);
    const row = draw("g", { class: matches(name) ? "row" : "row dim" }, table);
    const up = (value) => y + LEVEL - 6 - (value / most) * (LEVEL - 14);
    let line = "", before = null;
    for (const [moment, value] of [...points, [play.end, points[points.length - 1][1]]]) {
      const x = Math.min(wide, Math.max(left, left + span.x + moment * span.scale));
      line += before === null ? `M${x} ${up(value)}` : `H${x}V${up(value)}`;
      before = value;
    }
    draw("path", { class: "level", d: line }, row);
    draw("line", { class: "rule", x1: left, x2: wide, y1: y + LEVEL, y2: y + LEVEL }, row);
    y += LEVEL;
  }
}
function drawNames(left) {
  draw("rect", { class: "shade", x: 0, y: 0, width: left, height: lane.clientHeight }, table);
  let y = TOP + span.y, kind = "";
  const wide = Math.floor((left - 12) / 7.3);
  const cut = (name) => (name.length > wide ? `${name.slice(0, wide - 1)}…` : name);
  for (const [group, name] of play.rows) {
    y += group === kind ? 0 : 10;
    kind = group;
    draw("text", { x: 8, y: y + 14, class: matches(name) ? "row" : "row dim" }, table, cut(name));
    y += ROWS;
  }
  y += 10;
  for (const [name, points] of play.levels) {
    draw("text", { x: 8, y: y + 18 }, table, cut(name));
    const most = points.reduce((sum, it) => Math.max(sum, it[1]), 0);
    draw("text", { x: 8, y: y + 34, class: "tick" }, table, cut(`${points[points.length - 1][1]}, at most ${most}`));
    y += LEVEL;
  }
}
function showPlay() {
  table.textContent = "";
  const left = side(), wide = lane.clientWidth;
  const marks = ticks(-span.x / span.scale, (wide - left - span.x) / span.scale).filter((it) => it >= 0);
  const upright = (kind, moment) => {
    const x = left + span.x + moment * span.scale;
    draw("line", { class: kind, x1: x, x2: x, y1: 0, y2: lane.clientHeight }, table);
  };
  for (const moment of marks) upright("rule", moment);
  drawLevels(left, wide, drawSpans(left, wide));
  if (now !== null) upright("now", now);
  drawNames(left);
  draw("rect", { class: "shade", x: 0, y: 0, width: wide, height: TOP - 4 }, table);
  for (const moment of marks) {
    draw("text", { class: "tick", x: left + span.x + moment * span.scale + 3, y: 17 }, table, time(moment));
  }
}
span.fit = () => {
  span.scale = Math.max(span.least, (lane.clientWidth - side() - 30) / Math.max(1, play.end));
  span.x = 6;
  span.y = 0;
  showPlay();
};
function tell(moment) {
  now = moment;
  at("panel").textContent = "";
  element("h2", time(moment), at("panel"));
  if (play.cut) element("p", `Only the first ${play.lines.length} lines of the play are drawn.`, at("panel"));
  const first = play.lines.findIndex((it) => it[0] >= moment);
  if (first < 0) { element("p", "Nothing happens after this moment.", at("panel")); return; }
  let from = first;
  const back = first > 0 && moment - play.lines[first - 1][0] < play.lines[first][0] - moment;
  const near = back ? play.lines[first - 1][0] : play.lines[first][0];
  while (from > 0 && play.lines[from - 1][0] >= near) from -= 1;
  const lines = play.lines.slice(from, from + 60);
  const words = (it, place) => (place && lines[place - 1][0] === it[0] ? `  ${it[1]}` : `${time(it[0])} ${it[1]}`);
  element("pre", lines.map(words).join("\n"), at("panel"));
}
const playMoves = play ? movable(lane, span, showPlay, true) : null;
if (play) {
  lane.addEventListener("click", (event) => {
    if (playMoves.wasMoved()) return;
    const x = event.clientX - lane.getBoundingClientRect().left - side() - span.x;
    tell(Math.max(0, x / span.scale));
    showPlay();
  });
}

// Tabs, search and buttons.
const tabs = {
  graph: { moves: events.moves, view: events.view, begin: () => { events.begin(); events.choose(null); } },
  modes: modes && { moves: modes.moves, view: modes.view, begin: () => { modes.begin(); modes.choose(null); } },
  play: play && { moves: playMoves, view: span, begin: () => { span.fit(); tell(0); } },
};
let shown = "graph";
function show(which) {
  shown = which;
  for (const name of Object.keys(tabs)) {
    at(name).hidden = name !== which;
    at(`tab-${name}`).setAttribute("aria-selected", String(name === which));
  }
  at("of-graph").hidden = which !== "graph";
  tabs[which].begin();
  search();
}
for (const name of Object.keys(tabs)) {
  at(`tab-${name}`).disabled = !tabs[name];
  at(`tab-${name}`).onclick = () => show(name);
}
at("in").onclick = () => tabs[shown].moves.zoomIn();
at("out").onclick = () => tabs[shown].moves.zoomOut();
at("fit").onclick = () => tabs[shown].view.fit();
at("lone").onchange = showLayout;
at("handled").onchange = () => { showLayout(); events.begin(); events.again(); };
for (const name of events.bandNames()) {
  const option = element("option", titleOf(name), at("to"));
  option.value = name;
}
at("to").onchange = () => { reachBand(at("to").value); at("to").value = ""; at("graph").focus(); };
let hits = [], next = 0;
function search() {
  searched = at("words").value.trim().toLowerCase();
  const boxes = shown === "play" ? [] : (shown === "modes" ? modes : events).boxes;
  hits = searched ? boxes.filter((it) => it.name.toLowerCase().includes(searched)) : [];
  next = 0;
  for (const it of boxes) it.shape.classList.toggle("hit", hits.includes(it));
  const count = shown === "play" ? play.rows.filter((it) => matches(it[1])).length : hits.length;
  at("found").textContent = searched ? `${count} found` : "";
  if (shown === "play") showPlay();
}
at("words").oninput = search;
at("search").onsubmit = (event) => {
  event.preventDefault();
  if (!hits.length) return;
  const it = hits[next % hits.length];
  next += 1;
  if (shown === "graph") { reach(it); return; }
  modes.choose(it);
  modes.goTo(it);
};
document.addEventListener("keydown", (event) => {
  if (event.key === "/" && document.activeElement !== at("words")) { event.preventDefault(); at("words").focus(); }
  else if (event.key === "Escape") {
    at("words").value = "";
    search();
    if (shown !== "play") (shown === "modes" ? modes : events).choose(null);
    at(shown).focus();
  }
});
addEventListener("resize", () => (shown === "play" ? showPlay() : (shown === "modes" ? modes : events).show()));
showLayout();
const asked = location.hash.slice(1);
show(tabs[asked] ? asked : "graph");
