// What the theorem says, to be touched: a switch for each open transaction, and the values of a database of one thread.

import { element, keepChildren, part } from "./elements.js";
import { askTheorem, tryChoices } from "./client.js";
import { shownInWords } from "./words.js";

// The open transactions that are switched on.
const switched = new Set();
let asked = 0;

/** The open transactions that are switched on. */
export const switchedOn = () => [...switched];

/** Shows the switches and the comparison for a run. `trouble` says what the server has refused. */
export function showTheorem(state, trouble) {
  const { committed, open } = state.report;
  for (const transaction of [...switched]) if (!open.includes(transaction)) switched.delete(transaction);
  const switches = open.map((it) => switchOf(it, state, trouble));
  part("switch-list").replaceChildren(element("p", { class: "note" }, committedInWords(committed, open)), ...switches);
  part("choices-said").textContent = "";
  asked++;
  part("theorem").removeAttribute("aria-busy");
  showAnswer(state, state.theorem);
}

function committedInWords(committed, open) {
  if (committed.length) return `${committed.join(", ")} ${committed.length === 1 ? "has" : "have"} committed.`;
  return open.length ? "None has committed yet." : "None has committed, and none may commit yet.";
}

/** Tries every choice of the open transactions, and says in how many all agrees. */
export async function showChoices(state, trouble) {
  try {
    part("choices-said").textContent = choicesInWords(await tryChoices(state.world));
  } catch (refusal) {
    trouble(refusal);
  }
}

function choicesInWords({ choices, tried, agree }) {
  const rest = tried < choices ? `, of ${choices} that there are` : "";
  const end = agree === tried ? "all agree" : `only ${agree} agree`;
  return choices === 1 ? `There is one choice: ${end}.` : `${tried} choices tried${rest}: ${end}.`;
}

function switchOf(transaction, state, trouble) {
  const words = { type: "checkbox", role: "switch", id: `commits-${transaction}`, "data-key": `commits-${transaction}`, "data-group": "commits" };
  const made = element("input", words);
  made.checked = switched.has(transaction);
  made.addEventListener("change", () => {
    if (made.checked) switched.add(transaction);
    else switched.delete(transaction);
    compare(state, trouble);
  });
  const program = state.programs[transaction]?.program ?? "";
  return element("p", { class: "switch" }, made, element("label", { for: `commits-${transaction}` }, `${transaction} commits`), " ", element("code", {}, program));
}

async function compare(state, trouble) {
  const turn = ++asked;
  part("theorem").setAttribute("aria-busy", "true");
  try {
    const answer = await askTheorem(state.world, switchedOn());
    if (turn === asked) showAnswer(state, answer);
  } catch (refusal) {
    if (turn === asked) trouble(refusal);
  }
  if (turn === asked) part("theorem").removeAttribute("aria-busy");
}

function showAnswer(state, answer) {
  const order = answer.commit.length ? `One thread runs ${answer.commit.join(", then ")}.` : "One thread runs nothing.";
  part("theorem-order").textContent = order;
  part("theorem-items").replaceChildren(...state.items.map((item) => rowOf(item.name, state.report.items[item.name], answer.items[item.name])));
  const replies = answer.replies.filter((reply) => reply.printed).map(replyInWords);
  keepChildren(part("theorem-replies"), replies, (place) => element("li", {}, replies[place]));
  part("theorem-verdict").textContent = verdictOf(answer);
  part("theorem-verdict").className = answer.agree ? "agree" : "differ";
}

function rowOf(name, shown, value) {
  const isReadable = value.shown !== null;
  const agrees = value.shown === value.serial;
  return element(
    "tr",
    { "data-item": name },
    element("th", { scope: "row" }, name),
    element("td", {}, shownInWords(shown)),
    element("td", { class: "value" }, isReadable ? value.shown : "not readable"),
    element("td", { class: "value" }, value.serial),
    element("td", { class: agrees ? "agree" : "note" }, !isReadable ? "" : agrees ? "agree" : "differ"),
  );
}

// The reply of the serial run is one of those that were printed.
function replyInWords(reply) {
  const printed = reply.printed.length > 1 ? `one of ${reply.printed.join(", ")}` : reply.printed[0];
  return `${reply.transaction} answered ${printed}; one thread answers ${reply.serial}.`;
}

function verdictOf(answer) {
  const readable = Object.values(answer.items).filter((value) => value.shown !== null).length;
  if (!answer.agree) return "They differ, which is proved never to be so. Please report this schedule.";
  if (!readable) return "No item can be read now.";
  return readable === 1 ? "The one item that can be read agrees." : `All ${readable} items that can be read agree.`;
}
