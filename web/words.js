// What happened, in words.

const DOINGS = {
  lock: "asks for locks",
  granted: "grants the locks",
  denied: "denies the locks",
  prepare: "asks for the vote",
  yes: "votes yes",
  no: "votes no",
  outcome: "tells the outcome",
  ask: "asks for the outcome",
};

/** What a message does. */
export const doingOf = (message) => DOINGS[message.kind] ?? message.kind;

/** A message in words. */
export function messageInWords(message) {
  const to = message.from === message.to ? "itself" : `site ${message.to}`;
  return `message ${message.number}, site ${message.from} to ${to}: ${doingOf(message)}, ${message.transaction}`;
}

/** A moment of the run in words: what was done, and what that printed. */
export function momentInWords(moment, messages) {
  const said = [`${capital(actInWords(moment, messages))}.`];
  if (moment.printed.length) said.push(`Printed: ${moment.printed.join("; ")}.`);
  if (moment.sent.length) said.push(`Sent: ${moment.sent.join(", ")}.`);
  return said.join(" ");
}

function actInWords(moment, messages) {
  const message = messages[moment.message];
  const again = moment.again ? " again" : "";
  switch (moment.act) {
    case "deliver":
      return message ? `${messageInWords(message)} is delivered${again}` : "there is no such message";
    case "lose":
      return message ? `${messageInWords(message)} is lost${again}` : "there is no such message";
    case "drop":
      return `messages to site ${moment.site} are lost: ${moment.lost.join(", ") || "none"}`;
    case "pump":
      return "no message is under way";
    case "tick":
      return `time goes on at site ${moment.site}`;
    case "submit":
    case "query":
      return `site ${moment.site} is asked for a transaction`;
    case "stop":
      return `site ${moment.site} is stopped`;
    case "start":
      return `site ${moment.site} is started`;
    case "cut":
    case "fail":
      return `a fault is armed at the disk of site ${moment.site}`;
    case "checkpoint":
      return `site ${moment.site} writes its log anew, packed`;
    case "mend":
      return `the disk of site ${moment.site} is mended`;
    default:
      return moment.act;
  }
}

const capital = (text) => text.charAt(0).toUpperCase() + text.slice(1);

/** What a report shows of an item, in words. */
export function shownInWords(shown) {
  if (shown.down) return "down";
  if (shown.locked) return `locked by ${shown.locked}`;
  return shown.cases.map(caseInWords).join(" ; ");
}

function caseInWords(one) {
  return one.when.length ? `${one.value} if ${one.when.join(" ")}` : one.value;
}

/** A condition in words: "0.1.0 commits and 1.1.0 doesn't". */
export function conditionInWords(when) {
  return when.map((literal) => `${literal.slice(1)} ${literal[0] === "+" ? "commits" : "doesn't"}`).join(" and ");
}
