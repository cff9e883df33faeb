// What both pages do with their forms: one thing at a time, the answer at the form that asked, and the fields as
// people fill them.
import { askAgain, inWords, unanswered } from "./desk.js";

const SOON = 400; // milliseconds without an answer, after which a form says that it waits
const WAITS = "Please wait. The office has not answered yet.";

export const find = (id) => document.getElementById(id);

const isShown = (it) => Boolean(it?.getClientRects().length);

/** Where the answers of a form or a panel stand; undefined where it has no such place on the screen. */
function answerOf(place) {
  return [...(find(place)?.querySelectorAll(".answer") ?? [])].find(isShown);
}

/** Takes back what was said last. */
export function hush() {
  for (const field of document.querySelectorAll("[aria-invalid]")) {
    field.removeAttribute("aria-invalid");
    field.removeAttribute("aria-describedby");
  }
  for (const answer of document.querySelectorAll(".answer:not(:empty)")) {
    answer.textContent = "";
    answer.className = "answer";
    answer.closest("form")?.append(answer); // from the field that it was about
  }
}

/** Says a sentence at a form or a panel, or above them all where that is not on the screen. Screen readers say it at
 * once. Where it is about one field, it stands below this one, which gets the keyboard. */
export function say(place, text, kind = "bad", field = null) {
  hush();
  const own = answerOf(place);
  const answer = own ?? find("message");
  if (own && field) (field.closest(".step") ?? field).after(answer);
  answer.className = `answer ${kind}`;
  answer.textContent = text;
  if (field) {
    answer.id ||= `${place}-answer`;
    field.setAttribute("aria-invalid", "true");
    field.setAttribute("aria-describedby", answer.id);
    field.focus();
    field.select?.();
  }
  answer.scrollIntoView({ block: "nearest" });
}

/** What a person entered cannot be right: the sentence, and the field to correct. */
export class Wrong extends Error {
  constructor(text, field) {
    super(text);
    this.field = field;
  }
}

let busy = false;

/** Does one thing at a time: a second click changes nothing. The sentence that it gives is said at the form that
 * asked, and so is what fails: nothing is swallowed. */
export async function act(place, work) {
  if (busy) return;
  busy = true;
  hush();
  document.body.classList.add("busy");
  const late = setTimeout(() => answerOf(place) && say(place, WAITS, "wait"), SOON);
  try {
    const text = await work();
    if (document.querySelector(".wait")) hush();
    if (text) say(place, text, "good");
  } catch (error) {
    say(place, error.message, "bad", error.field);
  } finally {
    clearTimeout(late);
    busy = false;
    document.body.classList.remove("busy");
  }
}

/** Has a form do its work in place of the browser's own sending. */
export function onSubmit(id, work) {
  const form = find(id);
  form.addEventListener("submit", (event) => {
    event.preventDefault();
    act(id, () => work(form.elements, form));
  });
}

/** The reply of a message that may come twice, or an error in words; `field` is what a refusal is about. */
export async function replyTo(method, target, body, field) {
  const outcome = await askAgain(method, target, body);
  if (outcome.done !== undefined) return outcome.done;
  if (outcome.refused) throw new Wrong(inWords(outcome.refused), field);
  throw new Error(unanswered(outcome));
}

export const MOST = 100000000; // cents of one tender

/** An amount of money as people write it, such as 12, 12.5 or 12,50, in cents; null where it is none. */
export function cents(text) {
  const found = /^(\d{1,7})(?:[.,](\d{1,2}))?$/.exec(text.trim());
  return found && Number(found[1]) * 100 + Number((found[2] ?? "").padEnd(2, "0"));
}

/** Energy in kWh as people write it, in tenths; null where it is none. */
export function tenths(text) {
  const found = /^(\d{1,9})(?:[.,](\d))?$/.exec(text.trim());
  return found && Number(found[1]) * 10 + Number(found[2] ?? 0);
}

export const digits = (text) => text.replace(/[\s-]/g, "");

/** Eleven digits, the last of them a Luhn check. */
export function isMeterNumber(text) {
  const doubled = (digit) => (digit > 4 ? 2 * digit - 9 : 2 * digit);
  const values = [...text].reverse().map((digit, place) => (place % 2 ? doubled(Number(digit)) : Number(digit)));
  return /^\d{11}$/.test(text) && values.reduce((sum, value) => sum + value, 0) % 10 === 0;
}

/** The meter number in a field. */
export function meterIn(field) {
  const meter = digits(field.value);
  if (isMeterNumber(meter)) return meter;
  throw new Wrong("This is no meter number: eleven digits, the last of which checks the others. Compare it with the meter.", field);
}

/** The number of a sale or a shift in a field. */
export function numberIn(field) {
  const text = digits(field.value);
  if (/^[1-9]\d{0,8}$|^1000000000$/.test(text)) return text;
  throw new Wrong("Write a number of 1 or more.", field);
}
