// The picture of the run, which the server draws, and the same in words.

import { askPicture } from "./client.js";
import { element, keepChildren, keepingFocus, part } from "./elements.js";
import { momentInWords } from "./words.js";

// On a small screen there is room for an event's first word alone.
const small = matchMedia("(max-width: 34rem)");

let shown = null;
let drawn = null;
let asked = 0;

/** How many characters of each event's line the picture has room for. */
export const charactersShown = () => (small.matches ? 8 : 16);

/** Shows the newest events of a run. */
export function showPicture(state) {
  shown = state;
  asked++;
  part("picture").removeAttribute("aria-busy");
  showAnswer(state.picture);
}

/** Lets a person look at earlier events, and choose one by pointer or by the arrow keys. `trouble` says what the server has refused. */
export function watchPicture(trouble) {
  part("picture-earlier").addEventListener("click", () => drawUpTo(drawn.first - 1, trouble));
  part("picture-later").addEventListener("click", () => drawUpTo(2 * drawn.last - drawn.first + 1, trouble));
  part("words").addEventListener("toggle", showWords);
  const drawing = part("drawing");
  drawing.addEventListener("click", (event) => event.target.closest(".event")?.focus());
  drawing.addEventListener("focusin", (event) => event.target.matches(".event") && choose(event.target));
  drawing.addEventListener("keydown", step);
}

// The picture up to an event. Of several that are asked for, the last one is shown.
async function drawUpTo(last, trouble) {
  const turn = ++asked;
  part("picture").setAttribute("aria-busy", "true");
  try {
    const picture = await askPicture(shown.world, last, charactersShown());
    if (turn === asked) keepingFocus(() => showAnswer(picture));
  } catch (refusal) {
    if (turn === asked) trouble(refusal);
  }
  if (turn === asked) part("picture").removeAttribute("aria-busy");
}

function showAnswer(picture) {
  drawn = picture;
  showSpan();
  showWords();
  const place = part("drawing");
  const focused = place.contains(document.activeElement) ? document.activeElement.dataset.number : undefined;
  place.replaceChildren(drawingOf(picture.head), drawingOf(picture.body));
  const events = [...place.querySelectorAll(".event")];
  for (const event of events) event.setAttribute("tabindex", "-1");
  events.at(-1)?.setAttribute("tabindex", "0");
  showNewest(place);
  part("event-lines").hidden = true;
  if (focused !== undefined) (events.find((event) => event.dataset.number === focused) ?? events.at(-1) ?? place).focus();
}

// The last label is in view, on a small screen also sideways.
function showNewest(place) {
  const label = place.querySelector(".labels > :last-child")?.getBBox();
  place.scrollTop = place.scrollHeight;
  place.scrollLeft = label ? label.x + label.width + 12 - place.clientWidth : 0;
}

// The server's drawing has no style of its own, since the page's policy allows none. (As HTML it is parsed twice as fast as XML.)
const drawingOf = (text) => new DOMParser().parseFromString(text, "text/html").body.firstElementChild;

function showSpan() {
  const { first, last, count } = drawn;
  part("picture-span").textContent = count === 0 ? "No event yet." : `Events ${first} to ${last} of ${count}.`;
  part("picture-earlier").hidden = part("picture-later").hidden = first <= 1 && last >= count;
  part("picture-earlier").disabled = first <= 1;
  part("picture-later").disabled = last >= count;
}

// ---- one event ----

function step(pressed) {
  const by = { ArrowDown: 1, ArrowUp: -1 }[pressed.key];
  if (by === undefined || !pressed.target.matches(".event")) return;
  const events = [...part("drawing").querySelectorAll(".event")];
  const next = events[events.indexOf(pressed.target) + by];
  if (!next) return;
  pressed.preventDefault();
  next.focus();
}

// The title of an event is its lines. Tab leads to the chosen event alone, and on from it.
function choose(event) {
  for (const other of part("drawing").querySelectorAll('.event[tabindex="0"]')) other.setAttribute("tabindex", "-1");
  for (const other of part("drawing").querySelectorAll(".event.chosen")) other.classList.remove("chosen");
  event.setAttribute("tabindex", "0");
  event.classList.add("chosen");
  part("event-lines").textContent = event.querySelector("title").textContent;
  part("event-lines").hidden = false;
}

// ---- in words ----

// The events that are drawn, in words, for who opens the list.
function showWords() {
  if (!drawn || !part("words").open) return;
  const moments = momentsOf(drawn);
  const words = moments.map(({ number, moment }) => `${number} ${momentInWords(moment, shown.messages)}`);
  keepChildren(part("moments"), words, (place) => {
    const { number, moment } = moments[place];
    return element("li", { value: number }, momentInWords(moment, shown.messages));
  });
}

// The moments of some events, with the numbers of these: a `pump` has a moment for each message.
function momentsOf({ first, last }) {
  const found = [];
  let number = 0;
  let line = null;
  for (const moment of shown.moments) {
    if (moment.line !== line) number++;
    line = moment.line;
    if (number >= first && number <= last) found.push({ number, moment });
  }
  return found;
}
