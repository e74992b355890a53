// The calls of the server. Each gives what the server answers, or throws a Refusal.

/** What the server has refused: why, and for a faulty line its number, its cause, and its column in the program. */
export class Refusal extends Error {
  constructor(status, said) {
    super(said.error ?? `the server answers ${status}`);
    this.status = status;
    this.line = said.line ?? null;
    this.cause = said.cause ?? null;
    this.column = said.column ?? null;
  }
}

async function answerOf(path, options) {
  let response;
  try {
    response = await fetch(path, options);
  } catch {
    throw new Refusal(0, { error: "The server doesn't answer. It ends with its terminal: start web/serve again." });
  }
  const said = await response.json();
  if (!response.ok) throw new Refusal(response.status, said);
  return said;
}

function post(path, call) {
  return answerOf(path, { method: "POST", headers: { "Content-Type": "application/json" }, body: JSON.stringify(call) });
}

/** All stories. */
export const readStories = () => answerOf("stories");

// The next four answer all that the page shows of a run. `view` says how: `characters` is how many of each event's line the picture has room for, and `commit`
// which open transactions are switched on.

/** A new world that has run a schedule. */
export const openWorld = (schedule, view) => post("worlds", { schedule, ...view });

/** The world after more lines. */
export const appendLines = (world, lines, view) => post(`worlds/${world}/lines`, { lines, ...view });

/** The world without its last lines that are events, this many. */
export const undoLines = (world, count, view) => post(`worlds/${world}/undo`, { count, ...view });

/** The world after another schedule. */
export const replaceSchedule = (world, schedule, view) => post(`worlds/${world}/schedule`, { schedule, ...view });

/** What the serial run gives where these open transactions commit. */
export const askTheorem = (world, commit) => post(`worlds/${world}/theorem`, { commit });

/** How many choices of the open transactions there are, and in how many all agrees. */
export const tryChoices = (world) => post(`worlds/${world}/choices`, {});

/** The picture of the events up to a number, with so many characters of each event's line. */
export const askPicture = (world, last, characters) => post(`worlds/${world}/picture`, { last, characters });

/** Tells the server that the page goes away. */
export function closeWorld(world) {
  const options = { method: "POST", headers: { "Content-Type": "application/json" }, body: "{}", keepalive: true };
  fetch(`worlds/${world}/close`, options).catch(() => {});
}
