// The switches and coils of the table: in groups, or on the picture of the playfield.

import {ask, byId, element, letGo} from "./link.js";

const SHORTEST = 60;  // ms: a press lasts at least so long
const buttons = new Map();  // of each switch
const placed = new Map();  // of each coil on the picture: its lamp
const held = new Map();  // the switches that this page holds, and since when
const latched = new Set();
let machine, isMoving = false;

export function makeTable(about) {
  machine = about;
  buttons.clear(); placed.clear(); held.clear(); latched.clear();
  byId("groups").replaceChildren();
  byId("board").querySelectorAll(".placed, .coil").forEach(it => it.remove());
  byId("board").hidden = byId("edit_label").hidden = !about.picture;
  if (about.picture) byId("picture").src = "/table.png";
  byId("find").hidden = about.switches.length < 30;
  const groups = new Map();
  for (const it of about.switches) {
    const button = switchButton(it);
    buttons.set(it.name, button);
    if (about.picture && about.layout[it.name]) put(button, about.layout[it.name]);
    else group(groups, it.group).append(button);
  }
  if (about.picture) for (const it of about.coils) placeCoil(it, groups);
  makeActs(about);
}

function group(groups, name) {
  if (!groups.has(name)) {
    const made = element("div", "group"), list = element("div");
    made.append(element("h3", "", name), list);
    byId("groups").append(made);
    groups.set(name, list);
  }
  return groups.get(name);
}

function makeActs(about) {
  const acts = [["drain", "drain a ball"], ["plunge", "pull the plunger"]].filter(([act]) => about.actions[act]);
  byId("acts").replaceChildren(...acts.map(([act, words]) => {
    const button = element("button", "", words);
    button.dataset.act = act;
    for (const key of about.actions[act]) button.append(" ", element("kbd", "", key));
    button.onclick = () => ask(act);
    return button;
  }));
}

// switches

function switchButton(it) {
  const button = element("button", it.stays ? "switch stays" : "switch", it.label || it.name);
  button.dataset.switch = it.name;
  const words = [it.name, it.number && `number ${it.number}`, it.stays && "stays as a click has left it"];
  button.title = words.filter(Boolean).join(", ");
  for (const key of it.keys) button.append(element("kbd", "", key));
  button.onpointerdown = event => {
    if (isMoving) return move(event, button, it.name);
    if (event.button || machine.board) return;
    button.setPointerCapture(event.pointerId);
    press(it.name, event.shiftKey || byId("latch").checked);
  };
  button.onpointerup = button.onpointercancel = button.onlostpointercapture = () => release(it.name);
  button.onkeydown = event => {
    if (event.key !== "Enter" || machine.board) return;
    event.preventDefault();
    if (!event.repeat) press(it.name, event.shiftKey);
  };
  button.onkeyup = event => { if (event.key === "Enter") release(it.name); };
  button.oncontextmenu = event => event.preventDefault();
  return button;
}

const stays = name => machine.switches.find(it => it.name === name)?.stays;

export function press(name, latch = false) {
  if (stays(name)) return ask("tap", {switch: name});
  if (latched.has(name)) {
    forget(name);
    return ask("release", {switch: name});
  }
  if (latch) latched.add(name);
  else held.set(name, performance.now());
  mark(name);
  return ask("press", {switch: name}).then(done => { if (done === undefined) forget(name); });
}

// Nobody holds this switch any more.
function forget(name) {
  held.delete(name);
  latched.delete(name);
  mark(name);
}

export function forgetAll() {
  for (const name of [...held.keys(), ...latched]) forget(name);
}

export function release(name) {
  const since = held.get(name);
  if (since === undefined) return;
  held.delete(name);
  setTimeout(() => ask("release", {switch: name}), Math.max(0, SHORTEST - (performance.now() - since)));
}

// The page is left, or hidden: nobody is there to let go.
export function releaseAll() {
  if (!held.size && !latched.size) return;
  forgetAll();
  letGo();
}

const mark = name => buttons.get(name)?.classList.toggle("latched", latched.has(name));

export function showSwitches(state) {
  const active = new Set(state.active);
  for (const [name, button] of buttons) {
    button.classList.toggle("on", active.has(name));
    button.setAttribute("aria-pressed", active.has(name));
  }
}

export function find(words) {
  for (const it of machine.switches) {
    const text = `${it.name} ${it.label} ${it.group}`.toLowerCase();
    buttons.get(it.name).hidden = !text.includes(words.toLowerCase());
  }
  for (const made of document.querySelectorAll(".group")) made.hidden = !made.querySelector(".switch:not([hidden])");
}

// the picture

function put(item, [x, y]) {
  item.classList.add("placed");
  item.style.left = `${x}%`;
  item.style.top = `${y}%`;
  byId("board").append(item);
}

function placeCoil(it, groups) {
  const item = element("span", machine.layout[it.name] ? "coil" : "loose_coil"), lamp = element("span", "lamp");
  item.append(lamp, it.label || it.name);
  item.dataset.coil = it.name;
  item.onpointerdown = event => { if (isMoving) move(event, item, it.name); };
  placed.set(it.name, lamp);
  if (machine.layout[it.name]) put(item, machine.layout[it.name]);
  else { group(groups, "coils").append(item); }
}

export const lampsOnPicture = () => placed;

export function setMoving(on) {
  isMoving = on;
  byId("table").classList.toggle("moving", on);
}

// Drags a switch or a coil over the picture, and saves its place. (The window listens, since the item may get another
// parent meanwhile, and would lose the pointer.)
function move(event, item, name) {
  event.preventDefault();
  const board = byId("board").getBoundingClientRect(), drag = new AbortController();
  let place = null;
  addEventListener("pointermove", moved => {
    const x = (moved.clientX - board.left) / board.width * 100, y = (moved.clientY - board.top) / board.height * 100;
    place = [x, y].map(it => Math.round(Math.min(100, Math.max(0, it)) * 10) / 10);
    if (item.classList.contains("loose_coil")) item.className = "coil";
    put(item, place);
  }, {signal: drag.signal});
  for (const end of ["pointerup", "pointercancel"]) addEventListener(end, () => {
    drag.abort();
    if (!place) return;
    machine.layout[name] = place;
    ask("place", {name, x: place[0], y: place[1]});
  }, {signal: drag.signal});
}
