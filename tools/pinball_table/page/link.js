// The link to the table: requests in the order in which they are made, and its news.

const page = Array.from(crypto.getRandomValues(new Uint8Array(12)), it => it.toString(16).padStart(2, "0")).join("");
let last = Promise.resolve();
let told = () => {};

export function onTold(listener) { told = listener; }

// Asks the table to do something. Of two requests the first one is answered before the second one is sent.
export function ask(deed, words = {}) {
  const answer = last.then(() => send(deed, words));
  last = answer.catch(() => {});
  return answer;
}

async function send(deed, words) {
  const made = {method: "POST", headers: {"X-Pinball": "1"}, body: JSON.stringify({...words, page})};
  try {
    const reply = await fetch("/" + deed, made);
    if (!reply.ok) return told(await reply.text());
    told("");
    return reply.json();
  } catch {
    told("the table does not answer");
  }
}

// Lets go of all switches that this page holds, also while it is being closed.
export function letGo() {
  const made = {method: "POST", keepalive: true, headers: {"X-Pinball": "1"}, body: JSON.stringify({page})};
  fetch("/let_go", made).catch(() => {});
}

export async function about() {
  return (await fetch("/about")).json();
}

export function listen(news, lost) {
  const source = new EventSource("/events?page=" + page);
  source.onmessage = event => news(JSON.parse(event.data));
  source.onerror = lost;
  return source;
}

export function element(tag, kind = "", text) {
  const made = document.createElement(tag);
  if (kind) made.className = kind;
  if (text !== undefined) made.textContent = text;
  return made;
}

export const byId = id => document.getElementById(id);

export function time(moment) {
  const minutes = Math.floor(moment / 60000), seconds = (moment % 60000) / 1000;
  return `${minutes}:${seconds.toFixed(3).padStart(6, "0")}`;
}
