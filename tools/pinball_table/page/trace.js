// The trace, cascade by cascade, its filter, and what a cascade caused.

import {byId, element, time} from "./link.js";
import {isMarked, isMarking, mark} from "./record.js";

const MOST = 1500;  // cascades that are shown
const KINDS = {
  "": "all lines", switch: "switches", event: "events", coil: "coils", player: "variables", balls: "balls",
  note: "notes",
};
let cascades = [], chosen = null, machine;
let follows = true;  // whether the end of the trace stays in sight
let laidOut = "";  // the sizes of the trace when its end was shown last

export function makeTrace(about) {
  machine = about;
  byId("kind").replaceChildren(...Object.entries(KINDS).map(([kind, words]) => new Option(words, kind)));
  const owners = ["machine", ...about.modes.map(([name]) => name)];
  byId("owner").replaceChildren(new Option("all owners", ""), ...owners.map(it => new Option(it, it)));
  for (const id of ["kind", "owner", "words"]) byId(id).oninput = showAll;
}

// Somebody who scrolls up leaves the end. But if the layout has changed meanwhile, this was not done by hand.
byId("trace").onscroll = ({target: log}) => {
  if (sizesOf(log) !== laidOut) showEnd();
  else follows = log.scrollTop + log.clientHeight > log.scrollHeight - 40;
};
new ResizeObserver(showEnd).observe(byId("trace"));

const sizesOf = log => `${log.clientWidth} ${log.clientHeight} ${log.scrollHeight}`;

function parsed(text) {
  const words = text.split(" ");
  if (!/^\d+$/.test(words[0])) return {text, moment: null, owner: "", kind: "note", words: [text]};
  return {text, moment: +words[0], owner: words[1], kind: words[2], words: words.slice(3)};
}

export function addLines(lines, anew) {
  if (anew) {
    cascades = [];
    chosen = null;
    byId("trace").replaceChildren();
  }
  const first = cascades.length ? cascades.length - 1 : 0;
  for (const line of lines.map(parsed)) {
    const last = cascades.at(-1);
    const isNext = last && (line.moment === last.moment || line.kind === "note" && last.isNote);
    const goesOn = isNext && line.kind !== "switch";
    if (goesOn) last.lines.push(line);
    else cascades.push({moment: line.moment, isNote: line.kind === "note", lines: [line], shown: null});
  }
  if (lines.length) show(cascades.slice(first));
  if (!chosen) showCaused(latest());
}

function wanted() {
  const kind = byId("kind").value, owner = byId("owner").value, words = byId("words").value.trim();
  const group = {coil: ["coil", "skip", "off"], player: ["player", "final"]}[kind] || [kind];
  return line => (!kind || group.includes(line.kind)) && (!owner || line.owner === owner) &&
    (!words || line.words.some(it => it.includes(words)));
}

function showAll() {
  byId("trace").replaceChildren();
  for (const it of cascades) it.shown = null;
  show(cascades);
}

function show(some) {
  const log = byId("trace"), filter = wanted();
  for (const cascade of some) {
    const lines = cascade.lines.filter(filter);
    if (!lines.length) continue;
    const made = element("div", cascade === chosen ? "cascade chosen" : "cascade");
    made.append(...lines.map(lineOf));
    made.onclick = () => choose(cascade);
    if (cascade.shown) cascade.shown.replaceWith(made);
    else log.append(made);
    cascade.shown = made;
  }
  while (log.childElementCount > MOST) log.firstChild.remove();
  if (cascades.length > 2 * MOST) cascades = cascades.slice(-MOST);
  showEnd();
}

function showEnd() {
  const log = byId("trace");
  if (follows) log.scrollTop = log.scrollHeight;
  laidOut = sizesOf(log);
}

function lineOf(line, at) {
  const made = element("div", isMarked(line.text) ? `k_${line.kind} marked` : `k_${line.kind}`);
  made.onclick = event => {
    if (!isMarking()) return;
    event.stopPropagation();
    mark(line.text, made);
  };
  made.append(element("i", "", at === 0 && line.moment !== null ? time(line.moment) : ""));
  if (line.owner && line.owner !== "machine") made.append(element("u", "", `${line.owner} `));
  made.append(line.kind === "note" ? line.text : `${line.kind} ${line.words.join(" ")}`);
  return made;
}

function choose(cascade) {
  chosen?.shown?.classList.remove("chosen");
  chosen = chosen === cascade ? null : cascade;
  chosen?.shown?.classList.add("chosen");
  showCaused(chosen || latest());
}

// The latest cascade that somebody has caused.
const latest = () => cascades.findLast(({lines: [first]}) => first.kind === "switch" && first.words[1] === "active");

// In words: the coils, the variables, the balls and the modes of a cascade, and how many events it has.
function showCaused(cascade) {
  if (!cascade) return byId("caused").replaceChildren(element("p", "dim", "nothing has happened yet"));
  const [first] = cascade.lines, list = element("ul");
  for (const line of cascade.lines) {
    const words = said(line);
    if (words) list.append(element("li", `k_${line.kind}`, words));
  }
  const events = cascade.lines.filter(it => it.kind === "event").map(it => it.words[0]);
  const count = events.length === 1 ? "1 event" : `${events.length} events`;
  if (events.length) list.append(element("li", "dim", `${count}: ${events.join(", ")}`));
  const cause = first.kind === "switch" ? `${first.words.join(" is ")}` : "an alarm was due";
  const title = element("b", "", first.moment === null ? "" : `${time(first.moment)} ${cause}`);
  byId("caused").replaceChildren(title, list);
}

function said(line) {
  const [name, word, ...numbers] = line.words;
  if (line.kind === "coil" && word === "pulse") return `coil ${name}: pulse of ${numbers[0]} ms at ${numbers[1] / 10}%`;
  if (line.kind === "coil" && word === "enable") return `coil ${name}: held at ${numbers[0] / 10}%`;
  if (line.kind === "coil") return `coil ${name}: off`;
  if (line.kind === "skip") return `coil ${name}: ${word} was skipped`;
  if (line.kind === "off") return `coil ${name}: put off at the end`;
  if (line.kind === "player") return `player ${name}: ${word} = ${(+numbers[0]).toLocaleString("en")}`;
  if (line.kind === "final") return `player ${name} ends with ${(+word).toLocaleString("en")}`;
  if (line.kind === "balls") return `${word} in devices, ${numbers[0]} on the way, ${numbers[1]} on the playfield`;
  if (line.kind === "note") return line.text;
  const mode = machine.modes.find(([it]) => name === `mode_${it}_started` || name === `mode_${it}_stopped`);
  return line.kind === "event" && mode ? `mode ${mode[0]} ${name.endsWith("started") ? "starts" : "stops"}` : "";
}
