// The schedule as text, and the address that holds it.

import { part } from "./elements.js";

/** The longest text that is put into the address. */
const MOST_SHARED = 20000;

/** How long nothing has to change, in milliseconds, before the address is changed: with a long text that costs the browser as much as all else of a click. */
const QUIET = 300;

let shared = null;
let waiting = 0;

/** Shows the schedule so far, and puts it into the address soon. */
export function showSchedule(state) {
  part("schedule-text").value = state.schedule;
  part("schedule-fault").textContent = "";
  part("address-copy").disabled = state.schedule.length > MOST_SHARED;
  shared = state.schedule;
  clearTimeout(waiting);
  waiting = setTimeout(share, QUIET);
}

/** Puts the schedule into the address now, and gives the address. */
export function share() {
  clearTimeout(waiting);
  if (shared !== null) history.replaceState(null, "", location.pathname + (shared.length <= MOST_SHARED ? `#${encodeURIComponent(shared)}` : ""));
  return location.href;
}

/** The schedule that the address holds, or nothing. */
export function sharedSchedule() {
  try {
    return decodeURIComponent(location.hash.slice(1));
  } catch {
    return "";
  }
}

/** Shows a fault of the text at its line. */
export function showFault(refusal) {
  part("schedule-fault").textContent = refusal.message;
  if (refusal.line === null) return;
  const text = part("schedule-text");
  const lines = text.value.split("\n");
  const start = lines.slice(0, refusal.line - 1).reduce((length, line) => length + line.length + 1, 0);
  text.focus();
  text.setSelectionRange(start, start + (lines[refusal.line - 1] ?? "").length);
}

/** Copies a text, and says so. Where the browser doesn't let a page copy, the text is selected for the person to do it. */
export async function copy(text, say) {
  try {
    await navigator.clipboard.writeText(text);
    say("Copied.");
  } catch {
    part("schedule-text").select();
    say("The browser doesn't let this page copy. The text of the schedule is selected.");
  }
}
