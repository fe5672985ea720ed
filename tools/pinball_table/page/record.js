// Marks lines of the trace, and saves the play as a test of the rules.

import {ask, byId} from "./link.js";

const marked = new Set();  // the texts of the lines

export const isMarked = line => marked.has(line);
export const isMarking = () => byId("marking").checked;

export function mark(line, shown) {
  if (!marked.delete(line)) marked.add(line);
  shown.classList.toggle("marked", marked.has(line));
  showCount();
}

function showCount() {
  byId("record").textContent = `save as a test (${marked.size})`;
  byId("record").disabled = !marked.size;
}

byId("marking").onchange = () => {
  byId("recording").hidden = !isMarking();
  byId("trace").classList.toggle("marking", isMarking());
  showCount();
};
byId("record").onclick = async () => {
  const file = await ask("record", {title: byId("title").value, lines: [...marked]});
  if (file) byId("told").textContent = `saved as ${file}`;
};
