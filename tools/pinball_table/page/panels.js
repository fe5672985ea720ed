// The scores, the balls, the modes, the timers and the coils.

import {byId, element, time} from "./link.js";
import {lampsOnPicture} from "./table.js";

const GLOW = 150;  // ms: a lamp shines at least so long
const rows = new Map();  // of each coil
const lamps = new Map();  // of each coil: when its lamp goes out, and its latest pulse
const modes = new Map(), balls = new Map();
let machine;

export function makePanels(about) {
  machine = about;
  document.title = `${about.name}: pinball table`;
  byId("name").textContent = about.name;
  byId("players").classList.toggle("kept", about.game);
  makeCoils(about.coils);
  makeDevices(about.devices);
  makeModes(about.modes);
  for (const part of ["devices", "modes", "timers", "coils"]) byId(`${part}_section`).hidden = !about[part].length;
}

function row(...cells) {
  const made = element("tr");
  made.append(...cells.map(it => it instanceof Node ? it : element("td", "", it)));
  return made;
}

function makeCoils(coils) {
  rows.clear(); lamps.clear();
  const table = element("table"), body = element("tbody");
  const head = row(...["coil", "pulses", "on", "duty", "most"].map(it => element("th", "", it)));
  head.children[3].title = "the part of the last second for which it was on";
  head.children[4].title = "the greatest part of any second";
  for (const it of coils) {
    const name = element("td"), lamp = element("span", "lamp");
    name.append(lamp, it.label || it.name);
    name.title = it.name;
    const made = row(name, "", "", "", "");
    made.dataset.coil = it.name;
    rows.set(it.name, {made, lamp, cells: [...made.children].slice(1)});
    lamps.set(it.name, {until: 0, last: -1});
    body.append(made);
  }
  table.append(element("thead"), body);
  table.tHead.append(head);
  byId("coils").replaceChildren(table);
}

function makeDevices(devices) {
  balls.clear();
  byId("devices").replaceChildren(...devices.map(device => {
    const made = element("div", "device");
    for (const name of device.switches) {
      const ball = element("span", "ball");
      ball.title = name;
      balls.set(name, ball);
      made.append(ball);
    }
    made.append(element("span", "", device.name), element("span", "dim", `→ ${device.target}`));
    return made;
  }));
}

function makeModes(listed) {
  modes.clear();
  byId("modes").replaceChildren(...listed.map(([name, priority]) => {
    const chip = element("span", "chip", name);
    chip.append(element("small", "", priority));
    chip.title = `priority ${priority}`;
    modes.set(name, chip);
    return chip;
  }), element("span", "chips"));
}

export function showPanels(state) {
  byId("phase").textContent = state.phase;
  showPlayers(state);
  const active = new Set(state.active), on = new Set(state.modes);
  for (const [name, ball] of balls) ball.classList.toggle("in", active.has(name));
  for (const [name, chip] of modes) chip.classList.toggle("on", on.has(name));
  byId("modes").lastChild.replaceChildren(...state.running.map(it => element("span", "chip on", it)));
  const ledger = state.ledger;
  byId("ledger").textContent = `Ledger: ${ledger.known} known, ${ledger.counted} in devices, ` +
    `${ledger.transit} on the way, ${ledger.playfield} on the playfield`;
  byId("loose").textContent = state.loose === null ? "" :
    `Really: ${state.loose} on the playfield, ${state.flying} on the way`;
  showTimers(state.timers);
  showCoils(state);
}

function showPlayers(state) {
  const players = Object.entries(state.players);
  byId("players").replaceChildren(...players.map(([number, variables]) => {
    const made = element("div", +number === state.player ? "player current" : "player");
    const ball = state.balls[number] ? `, ball ${state.balls[number]}` : "";
    const score = (variables.score || 0).toLocaleString("en");
    made.append(element("b", "", score), element("span", "", `player ${number}${ball}`));
    return made;
  }));
  const names = [...new Set(players.flatMap(([, variables]) => Object.keys(variables)))];
  const table = element("table");
  table.append(row(element("th", "", "variable"), ...players.map(([number]) => element("th", "", `player ${number}`))));
  for (const name of names) table.append(row(name, ...players.map(([, it]) => (it[name] ?? 0).toLocaleString("en"))));
  byId("variables").replaceChildren(players.length ? table : element("p", "dim", "no game yet"));
}

function showTimers(timers) {
  const table = element("table");
  table.append(row(...["timer", "state", "ticks", "value"].map(it => element("th", "", it))));
  for (const [name, it] of Object.entries(timers)) table.append(row(name, it.state, it.ticks, it.value ?? ""));
  byId("timers").replaceChildren(table);
}

function showCoils(state) {
  const now = performance.now();
  for (const [name, it] of Object.entries(state.coils)) {
    const shown = rows.get(name), lamp = lamps.get(name);
    if (!shown) continue;
    const skipped = it.skipped ? ` (${it.skipped} skipped)` : "", held = it.holder ? " held" : "";
    const percent = part => `${Math.round(part * 100)}%`;
    const texts = [it.pulses + skipped, time(it.on) + held, percent(it.duty), percent(it.most)];
    texts.forEach((text, at) => { if (shown.cells[at].textContent !== text) shown.cells[at].textContent = text; });
    if (it.last > lamp.last) lamp.until = now + Math.max(GLOW, it.ms / state.speed);
    lamp.last = it.last;
    lamp.held = it.holder !== "";
  }
  showLamps();
}

export function showLamps() {
  const now = performance.now(), placed = lampsOnPicture();
  for (const [name, lamp] of lamps) {
    const kind = lamp.held ? "lamp held" : lamp.until > now ? "lamp pulse" : "lamp";
    for (const shown of [rows.get(name).lamp, placed.get(name)]) {
      if (shown && shown.className !== kind) shown.className = kind;
    }
  }
}
