// How the desk is asked, and its refusals in words.
import { hearClock } from "./clock.js";

/** Each error of the desk by its name: what it means, and what to do. */
export const WORDS = {
  RefReused: "This order number belongs to another sale. Nothing was sold now. Take a new number for another sale.",
  NoShift: "The operator has no open shift. Nothing was done. Open one, or correct the operator.",
  ShiftOpen: "The operator's shift is open already. Go on selling, or close it first.",
  NoMeter: "The office has no meter with this number. Compare it with the number on the meter, or have the meter added.",
  NoTariff: "There is no tariff of this name. Correct the name, or add the tariff first.",
  Differs: "Something else is stored under this name, number or day. It was left as it is. Take another name, or compare what you entered.",
  BeforeBase: "At this moment the base date has not come yet. Have the clock set right, or wait for the day.",
  IdentifiersSpent: "This meter has used up its token identifiers. Have the clock set right. If it is right, have the meter moved to a later base date and cleared.",
  IdentifierAhead: "This meter's identifiers are more than a day ahead of the office's clock. Have the clock set right. If it is right, wait.",
  TooLittle: "This does not pay for 0.1 kWh. Ask for more money.",
  OfficeFull: "The office is full. Whoever runs it has to begin a new file.",
  NoSale: "There is no sale of this number or ref, or none to the meter. Correct what you entered.",
  NoSuchShift: "There is no shift of this number. Correct the number.",
  ImportRow: "A row of the file was refused, and nothing was added.",
  Memory: "The office's computer is out of memory. Nothing was done. Try again later.",
  Store: "The office's disk failed, or a row is damaged. Make room and try the same again, or audit the file.",
  Stopped: "The office has stopped after its disk failed or a row was found damaged. Have somebody look whether the disk is full, and try again.",
  NotLater: "This meter has a later base date already, and sells under it. There is nothing to do.",
  DayPast: "That day has begun (UTC), or something was sold on it or later. Take a later day. Steps that have begun stay.",
  HasSales: "Tokens were sold to this meter with the key that it has. Correct the number. The key of a meter with sales stays.",
  Body: "The desk cannot take what was entered. Correct it.",
  Clock: "The clock of the office's computer is wrong. Have it set right.",
};

/** Why a row of a file was refused. */
export const CAUSES = {
  Header: "The first line has to be the names of the columns. Correct it, and send the file again.",
  Columns: "The row has too many fields or too few. Correct it, and send the file again.",
  Field: "A field of the row is outside its rule. Correct it, and send the file again.",
  TooManyRows: "A file has at most 10000 rows. Divide it, and send each part.",
  Differs: "Something else is stored under the row's name, number or day. Correct it, and send the file again.",
  NoTariff: "There is no tariff of the name in the row. Import the tariffs first, or correct it, and send the file again.",
  DayPast: "The day of the row has begun (UTC). Correct it, and send the file again.",
};

/** What the proxy may answer in the desk's place. */
const PROXY = {
  401: "Your name or password was not taken. Load this page again, and sign in.",
  403: "The proxy refused this page.",
  413: "This is too long for the desk: at most 1048576 bytes.",
  429: "Too much at a time. Wait a moment.",
};

const PATIENCE = 20000; // milliseconds for one answer: others may be served before
export const PAUSES = [200, 1000, 5000]; // milliseconds before the second and each further try

/** An error of the desk in words. */
export function inWords(said) {
  const words = WORDS[said.error] ?? `The desk answered ${said.error}. Tell whoever runs the office.`;
  if (said.error !== "ImportRow") return words;
  const [cause, field] = said.cause.split(" ");
  return `${words} Row ${said.row}${field ? `, field number ${field}` : ""}: ${CAUSES[cause]}`;
}

function parsed(text) {
  try {
    return JSON.parse(text);
  } catch {
    return undefined;
  }
}

/** The request of a message; null where this browser cannot send it. Its address has no password in it, though that
 * of the page may have one: no browser sends to such an address. */
function requestOf(method, target, body, signal) {
  const words = { method, body, headers: { "X-Till": "1" }, cache: "no-store", redirect: "error", signal };
  try {
    return new Request(new URL(`/api${target}`, location.origin), words);
  } catch {
    return null;
  }
}

/** Sends one message. The outcome has `done`, the good reply; or `refused`, the desk's own error: nothing was
 * done; or `unsent`, why it never left this browser; or `unknown`, why it is not known what was done, with `waits`
 * where it may help to send it again. It is given up when its time is over, or when the caller aborts `stop`. */
export async function ask(method, target, body, stop = new AbortController()) {
  const request = requestOf(method, target, body, stop.signal);
  if (!request) return { unsent: "This browser did not send it, so nothing was done. Load this page again." };
  const late = setTimeout(() => stop.abort(), PATIENCE);
  let status, text;
  try {
    const reply = await fetch(request);
    hearClock(reply);
    status = reply.status;
    text = await reply.text();
  } catch {
    return { unknown: "There is no answer from the office.", waits: true };
  } finally {
    clearTimeout(late);
  }
  const said = parsed(text);
  if (status === 200) return { done: said ?? text };
  if ([404, 405, 409, 422].includes(status) && said?.error) return { refused: said };
  const why = said?.error ? inWords(said) : PROXY[status] ?? `There is no answer from the desk (${status}).`;
  return { unknown: why, waits: status >= 500 };
}

/** Sends a message that may come twice until its outcome is known, a few times at the most. */
export async function askAgain(method, target, body) {
  for (const pause of [...PAUSES, null]) {
    const outcome = await ask(method, target, body);
    if (!outcome.waits || pause === null) return outcome;
    await wait(pause);
  }
}

/** What is said of an outcome that is neither done nor refused. */
export const unanswered = ({ unsent, unknown }) => unsent ?? (/try (the same )?again/i.test(unknown) ? unknown : `${unknown} Try again.`);

export const wait = (pause) => new Promise((go) => setTimeout(go, pause));
