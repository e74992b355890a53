// The stories. How far one has come is read off the schedule, so that undo and other ways are seen at once.

import { element, part } from "./elements.js";

/** Fills the choice of stories. */
export function fillStories(stories) {
  part("story-choice").replaceChildren(...stories.map((story, place) => element("option", { value: place }, story.title)));
}

/** How many steps of a story the schedule has, or -1 where it isn't the story's. */
export function stepsDone(story, lines) {
  const expected = [...story.catalog];
  if (isSame(expected, lines)) return 0;
  for (const [place, step] of story.steps.entries()) {
    expected.push(...step.lines);
    if (isSame(expected, lines)) return place + 1;
  }
  return -1;
}

function isSame(expected, lines) {
  return expected.length === lines.length && expected.every((line, place) => line === lines[place]);
}

/** Shows a story and where it is. */
export function showStory(story, state) {
  const done = stepsDone(story, state.lines);
  const next = done >= 0 ? story.steps[done] : undefined;
  part("story-introduction").textContent = story.introduction;
  part("story-step").textContent = said(story, done);
  part("story-lines").textContent = next ? next.lines.join("\n") : "";
  part("story-lines").hidden = !next;
  part("story-next").disabled = !next;
  part("story-end").disabled = !next;
  part("story-back").disabled = done <= 0;
  part("story").dataset.done = String(done);
}

function said(story, done) {
  if (done < 0) return "You have left the story: the run is yours. Undo leads back, or begin again.";
  if (done === 0) return "Nothing has happened yet.";
  const end = done === story.steps.length ? " This is the end of the story." : "";
  return `${done} of ${story.steps.length}. ${story.steps[done - 1].say}${end}`;
}
