// The messages: those under way, to be delivered, lost or kept, and those that are done, to be delivered once more.

import { button, element, keepChildren, part } from "./elements.js";
import { doingOf, messageInWords } from "./words.js";

/** Shows the messages. `kept` are the numbers of those that the person keeps back; `run` runs lines. */
export function showMessages(state, kept, run, toggle) {
  const fresh = state.fresh.map((number) => state.messages[number]);
  part("messages-none").hidden = fresh.length > 0;
  const texts = fresh.map((message) => `${textOf(message)} ${kept.has(message.number)}`);
  keepChildren(part("fresh-messages"), texts, (place) => freshEntry(fresh[place], kept.has(fresh[place].number), run, toggle));
  part("done-count").textContent = String(state.messages.length - fresh.length);
  showDone = () => showDoneOf(state, run);
  showDone();
  const isNoneFree = fresh.every((message) => kept.has(message.number));
  part("deliver-next").disabled = isNoneFree;
  part("deliver-all").disabled = isNoneFree;
}

let showDone = () => {};

/** Shows the messages that are done once a person opens their list. */
export function watchDone() {
  part("done").addEventListener("toggle", () => showDone());
}

// The newest stand first. A long list is made only for who opens it.
function showDoneOf(state, run) {
  if (!part("done").open) return;
  const fresh = new Set(state.fresh);
  const done = state.messages.filter((message) => !fresh.has(message.number)).reverse();
  keepChildren(part("done-messages"), done.map(textOf), (place) => doneEntry(done[place], run));
}

const textOf = (message) => `${message.number} ${message.from} ${message.to} ${message.kind} ${message.transaction}`;

function freshEntry(message, isKept, run, toggle) {
  const number = message.number;
  return element(
    "li",
    { class: isKept ? "kept" : null, "data-message": number },
    nameOf(message),
    element(
      "span",
      { class: "row" },
      button("Deliver", `Deliver ${messageInWords(message)}`, `deliver-${number}`, "deliver", () => run([`deliver ${number}`])),
      button("Lose", `Lose ${messageInWords(message)}`, `lose-${number}`, "lose", () => run([`lose ${number}`])),
      keepButton(message, isKept, toggle),
    ),
  );
}

function keepButton(message, isKept, toggle) {
  const made = button("Keep", `Keep ${messageInWords(message)}`, `keep-${message.number}`, "keep", () => toggle(message.number));
  made.setAttribute("aria-pressed", String(isKept));
  return made;
}

function doneEntry(message, run) {
  const number = message.number;
  const repeat = button("Repeat", `Deliver again ${messageInWords(message)}`, `repeat-${number}`, "repeat", () => run([`deliver ${number}`]));
  return element("li", { "data-message": number }, nameOf(message), repeat);
}

function nameOf(message) {
  return element(
    "span",
    { class: "message" },
    element("b", {}, String(message.number)),
    ` ${message.from} → ${message.to} `,
    element("span", { class: `kind ${message.kind}` }, doingOf(message)),
    ` ${message.transaction}`,
  );
}
