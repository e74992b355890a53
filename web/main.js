// The page: one world of the server, what it shows, and what a person does to it.

import { appendLines, closeWorld, openWorld, readStories, replaceSchedule, undoLines } from "./client.js";
import { element, keepingFocus, part } from "./elements.js";
import { showMessages, watchDone } from "./view-messages.js";
import { charactersShown, showPicture, watchPicture } from "./view-picture.js";
import { copy, share, sharedSchedule, showFault, showSchedule } from "./view-schedule.js";
import { showSites, watchFaults } from "./view-sites.js";
import { fillStories, showStory, stepsDone } from "./view-story.js";
import { showChoices, showTheorem, switchedOn } from "./view-theorem.js";
import { momentInWords } from "./words.js";

let stories = [];
let state = null;
const kept = new Set();

const story = () => stories[Number(part("story-choice").value)];
const view = () => ({ characters: charactersShown(), commit: switchedOn() });
const trouble = (refusal) => (part("trouble").textContent = refusal.message);
const say = (text) => (part("said").textContent = text);

// ---- showing ----

function show(next) {
  const before = state?.world === next.world ? state.moments.length : next.moments.length;
  state = next;
  for (const number of [...kept]) if (!state.fresh.includes(number)) kept.delete(number);
  part("trouble").textContent = "";
  part("request-fault").replaceChildren();
  keepingFocus(() => {
    showStory(story(), state);
    showMessages(state, kept, run, toggleKept);
    showSites(state, run);
    showSchedule(state);
    showExample();
    part("undo").disabled = state.moments.length === 0;
    showTheorem(state, trouble);
    showPicture(state);
  });
  say(state.moments.slice(before).slice(-3).map((moment) => momentInWords(moment, state.messages)).join(" "));
}

function toggleKept(number) {
  if (!kept.delete(number)) kept.add(number);
  keepingFocus(() => showMessages(state, kept, run, toggleKept));
}

// ---- calls: while one is under way, what is pressed besides does nothing, so that a double click isn't two deliveries ----

let isBusy = false;

async function once(call, refused = trouble) {
  if (isBusy) return;
  isBusy = true;
  document.body.setAttribute("aria-busy", "true");
  try {
    show(await call());
  } catch (refusal) {
    refused(refusal);
  }
  document.body.removeAttribute("aria-busy");
  isBusy = false;
}

function run(lines, refused) {
  return once(() => appendLines(state.world, lines, view()), refused);
}

/** Runs a schedule in the page's world, or in a first one. */
function load(schedule, refused) {
  return once(() => (state ? replaceSchedule(state.world, schedule, view()) : openWorld(schedule, view())), refused);
}

// ---- messages ----

const freeMessages = () => state.fresh.filter((number) => !kept.has(number));

function deliverNext() {
  const [number] = freeMessages();
  if (number !== undefined) run([kept.size ? `deliver ${number}` : "pump 1"]);
}

// With messages that are kept, those that come of the delivered ones are delivered too, as `pump` would.
async function deliverAll() {
  if (!kept.size) return run(["pump"]);
  let before = null;
  while (state !== before && freeMessages().length) {
    before = state;
    await run(freeMessages().map((number) => `deliver ${number}`));
  }
}

// ---- stories ----

function beginStory() {
  kept.clear();
  load(`${story().catalog.join("\n")}\n`);
}

function nextStep() {
  const step = story().steps[stepsDone(story(), state.lines)];
  if (step) run(step.lines);
}

function toTheEnd() {
  const done = stepsDone(story(), state.lines);
  if (done >= 0) run(story().steps.slice(done).flatMap((step) => step.lines));
}

function stepBack() {
  const done = stepsDone(story(), state.lines);
  if (done > 0) once(() => undoLines(state.world, story().steps[done - 1].lines.length, view()));
}

// ---- requests ----

function request(event) {
  event.preventDefault();
  const program = part("request-program").value;
  run([`${part("request-kind").value} ${part("request-site").value} ${program}`], (refusal) => showRequestFault(refusal, program));
}

// The program once more, with a mark under the column of its fault.
function showRequestFault(refusal, program) {
  const shown = [element("p", {}, refusal.cause ?? refusal.message)];
  if (refusal.column !== null) {
    const text = program.trimStart();
    shown.push(element("pre", { "aria-hidden": "true" }, `${text.replaceAll("\t", " ")}\n${" ".repeat(refusal.column - 1)}^`));
    const place = program.length - text.length + refusal.column - 1;
    part("request-program").focus();
    part("request-program").setSelectionRange(place, place + 1);
  }
  part("request-fault").replaceChildren(...shown);
}

// A program on the items that there are.
function showExample() {
  const [one, other] = state.items.map((item) => item.name);
  part("request-help").hidden = one === undefined;
  part("request-example").textContent = other ? `${one} := ${one} - 10 ; ${other} := ${other} + 10` : `${one} := ${one} + 1`;
}

// ---- the page ----

function wire() {
  const clicks = {
    "story-begin": beginStory,
    "story-next": nextStep,
    "story-end": toTheEnd,
    "story-back": stepBack,
    "deliver-next": deliverNext,
    "deliver-all": deliverAll,
    undo: () => once(() => undoLines(state.world, 1, view())),
    "theorem-choices": () => showChoices(state, trouble),
    "schedule-run": () => load(part("schedule-text").value, showFault),
    "schedule-copy": () => copy(part("schedule-text").value, say),
    "address-copy": () => copy(share(), say),
  };
  for (const [name, act] of Object.entries(clicks)) part(name).addEventListener("click", act);
  part("story-choice").addEventListener("change", beginStory);
  part("request-form").addEventListener("submit", request);
  addEventListener("hashchange", () => sharedSchedule() && load(sharedSchedule(), showFault));
  addEventListener("pagehide", () => state && closeWorld(state.world));
  addEventListener("pageshow", (event) => event.persisted && location.reload());
  watchFaults();
  watchDone();
  watchPicture(trouble);
}

async function begin() {
  try {
    stories = await readStories();
  } catch (refusal) {
    trouble(refusal);
    return;
  }
  fillStories(stories);
  wire();
  const shared = sharedSchedule();
  if (shared) await load(shared);
  if (!state) await load(`${story().catalog.join("\n")}\n`);
  if (shared) chooseStoryOf();
}

// The story that a shared schedule is of, if there is one.
function chooseStoryOf() {
  const place = stories.findIndex((one) => stepsDone(one, state.lines) > 0);
  if (place < 0) return;
  part("story-choice").value = String(place);
  showStory(story(), state);
}

begin();
