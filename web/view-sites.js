// The sites: each with its items, and what can be done to it.

import { button, element, part } from "./elements.js";
import { conditionInWords } from "./words.js";

// What a person has chosen for the fault of each site.
const chosen = new Map();

/** Shows the sites. `run` runs lines. */
export function showSites(state, run) {
  part("site-cards").replaceChildren(...state.sites.map((site) => cardOf(site, state, run)));
  const select = part("request-site");
  if (select.options.length !== state.sites.length) {
    select.replaceChildren(...state.sites.map((site) => element("option", { value: site.number }, `site ${site.number}`)));
  }
}

function cardOf(site, state, run) {
  const items = state.items.filter((item) => item.site === site.number);
  return element(
    "article",
    { class: site.up ? "card" : "card down", "aria-labelledby": `site-${site.number}` },
    element("h3", { id: `site-${site.number}` }, `Site ${site.number}`, element("span", { class: "note" }, site.up ? "" : " is down")),
    items.length ? element("ul", { class: "items" }, ...items.map((item) => itemEntry(item, state.report.items[item.name]))) : element("p", {}, "No items."),
    actionsOf(site, run),
    faultsOf(site, run),
  );
}

function itemEntry(item, shown) {
  return element("li", { "data-item": item.name }, element("b", {}, item.name), " ", ...shownParts(shown));
}

/** What an item shows, as parts of the page. */
export function shownParts(shown) {
  if (shown.down) return [element("span", { class: "note" }, "down")];
  if (shown.locked) return [element("span", { class: "locked" }, `held by ${shown.locked}`)];
  if (shown.cases.length === 1) return [element("span", { class: "value" }, shown.cases[0].value)];
  return [element("ul", { class: "cases" }, ...shown.cases.map(caseEntry))];
}

function caseEntry(one) {
  return element("li", {}, element("span", { class: "value" }, one.value), element("span", { class: "note" }, ` if ${conditionInWords(one.when)}`));
}

function actionsOf(site, run) {
  const act = (text, word) => button(text, `${text} site ${site.number}`, `${word}-${site.number}`, word, () => run([`${word} ${site.number}`]));
  return element("div", { class: "row" }, act("Tick", "tick"), site.up ? act("Stop", "stop") : act("Start", "start"), dropButton(site, run));
}

function dropButton(site, run) {
  const label = `Lose all messages under way to site ${site.number}`;
  return button("Lose all to it", label, `drop-${site.number}`, "drop", () => run([`drop ${site.number}`]));
}

// ---- a fault within a write ----

function faultsOf(site, run) {
  const number = site.number;
  const choice = choiceOf(number);
  const calls = choiceField(`call-${number}`, "at call", [1, 2, 3, 4, 5, 6, 7, 8].map(String), choice.call, (value) => (choice.call = value));
  const modes = choiceField(`mode-${number}`, "and what wasn't synced is", ["lost", "kept", "torn"], choice.mode, (value) => (choice.mode = value));
  const arm = (text, word) => button(text, `${text}, site ${number}`, `${word}-${number}`, word, () => run([`${word} ${number} ${choice.call} ${choice.mode}`]));
  const summary = site.armed ? `Within a write: ${site.armed} is armed` : "Within a write";
  return element(
    "details",
    { open: choice.open, "data-faults": number },
    element("summary", {}, summary),
    element("p", { class: "note" }, "A record takes four calls of the disk: write, sync, write, sync."),
    element("div", { class: "row" }, ...calls, ...modes),
    element("div", { class: "row" }, arm("Cut it off", "cut"), arm("Let the disk fail", "fail"), mendButton(site, run)),
  );
}

function choiceOf(number) {
  if (!chosen.has(number)) chosen.set(number, { call: "3", mode: "torn", open: false });
  return chosen.get(number);
}

function choiceField(name, label, values, value, choose) {
  const options = values.map((it) => element("option", { value: it, selected: it === value }, it));
  const select = element("select", { id: name }, ...options);
  select.addEventListener("change", () => choose(select.value));
  return [element("label", { for: name }, label), select];
}

function mendButton(site, run) {
  const made = button("Mend", `Mend the disk of site ${site.number}`, `mend-${site.number}`, "mend", () => run([`mend ${site.number}`]));
  made.disabled = !site.armed;
  return made;
}

/** Keeps in mind which faults a person has opened, as each change makes the cards anew. */
export function watchFaults() {
  const note = (event) => {
    const number = event.target.dataset?.faults;
    if (number !== undefined) choiceOf(Number(number)).open = event.target.open;
  };
  part("site-cards").addEventListener("toggle", note, true);
}
