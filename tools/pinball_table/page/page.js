// The page: it shows the news of the table, and turns clicks and keys into requests.

import {about, ask, byId, listen, onTold, time} from "./link.js";
import {find, forgetAll, makeTable, press, release, releaseAll, setMoving, showSwitches} from "./table.js";
import {makePanels, showLamps, showPanels} from "./panels.js";
import {addLines, makeTrace} from "./trace.js";

const ACTS = {b: "back", n: "step", p: "pause"};
const ACTIONS = {drain: "drain", plunge: "plunge", step: "step", back: "back", pause: "pause"};
let machine, state = null, heard = 0;

async function begin() {
  await make();
  listen(news, () => tell("the table is gone"));
  setInterval(tick, 50);
}

// A new session may play another machine: its texts are read again.
async function make() {
  machine = await about();
  makeTable(machine);
  makePanels(machine);
  makeTrace(machine);
  for (const it of ["time", "start_over", "open", "latch_label", "by_hand"]) byId(it).hidden = machine.board;
  byId("clock").title = `the time of the log; ${machine.program}`;
}

async function news({state: now, anew, lines}) {
  if (now.session !== machine.session) await make();
  state = now;
  heard = performance.now();
  window.pinball = state;  // (for scripts that test the page)
  if (anew) {
    tell("");
    forgetAll();  // (the table has let go of all, as after going back)
  }
  addLines(lines, anew);
  showSwitches(state);
  showPanels(state);
  showTime();
  byId("ended").hidden = !state.ended;
  byId("ended").textContent = state.ended;
}

function showTime() {
  byId("pause").textContent = state.paused ? "go on" : "pause";
  byId("speed_now").textContent = `${+state.speed.toPrecision(2)}×`;
  if (document.activeElement !== byId("speed")) byId("speed").value = Math.log10(state.speed);
  const slider = byId("moment");
  slider.max = Math.max(state.last, state.now);
  if (document.activeElement !== slider) slider.value = state.now;
  for (const id of ["back", "pause", "step", "moment", "speed", "shut_down"]) byId(id).disabled = state.ended !== "";
  for (const button of byId("acts").children) button.disabled = state.ended !== "";
}

function tick() {
  if (!state) return;
  showLamps();
  const passed = state.paused || state.ended ? 0 : Math.min(state.speed * (performance.now() - heard), 1000);
  byId("clock").textContent = time(Math.round(state.now + passed));
}

function tell(text) { byId("told").textContent = text.trim(); }
onTold(tell);

const pause = () => ask(state?.paused ? "go" : "pause");

byId("back").onclick = () => ask("back");
byId("pause").onclick = pause;
byId("step").onclick = () => ask("step");
byId("speed").oninput = event => ask("speed", {speed: Math.round(10 ** event.target.value * 100) / 100});
byId("moment").onchange = event => { ask("go_to", {moment: +event.target.value}); event.target.blur(); };
byId("start_over").onclick = () => ask("start_over");
byId("shut_down").onclick = () => ask("shut_down");
byId("open").onclick = () => byId("file").click();
byId("file").onchange = async event => {
  const [file] = event.target.files;
  if (!file) return;
  const refused = await ask("open", {log: await file.text()});
  if (refused?.length) tell(`${refused.length} lines were refused, the first: ${refused[0]}`);
  event.target.value = "";
};
byId("find").oninput = event => find(event.target.value);
byId("edit").onchange = event => setMoving(event.target.checked);

// keys

const typing = event => event.target.matches("input:not([type=checkbox]):not([type=range]), select, textarea");
const keyOf = event => event.code === "Space" ? "Space" : event.key;
const down = new Map();  // the switch that each key of the keyboard presses, whatever Shift makes of it meanwhile

addEventListener("keydown", event => {
  if (!machine || machine.board || typing(event) || event.ctrlKey || event.altKey || event.metaKey) return;
  const key = keyOf(event), name = machine.keys[key] ?? machine.keys[key.toLowerCase()];
  const act = name === undefined ? ACTS[key] : ACTIONS[name];
  if (name === undefined && !act) return;
  event.preventDefault();
  if (event.repeat) return;
  if (act === "pause") pause();
  else if (act) ask(act);
  else {
    down.set(event.code, name);
    press(name, event.shiftKey && key !== event.key.toUpperCase());
  }
});
addEventListener("keyup", event => {
  const name = down.get(event.code);
  down.delete(event.code);
  if (name !== undefined) release(name);
});

addEventListener("blur", releaseAll);
addEventListener("pagehide", releaseAll);
document.addEventListener("visibilitychange", () => { if (document.hidden) releaseAll(); });

begin();
