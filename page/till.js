// The cashier's page. A sale is kept in this browser before it is sent, and stays until the desk has said what
// became of it: so a lost reply, a reload, a double click and a second tab lead to one sale and its receipt.
import { clockDoubt } from "./clock.js";
import { PAUSES, ask, askAgain, inWords, unanswered, wait } from "./desk.js";
import { MOST, Wrong, act, cents, find, hush, meterIn, numberIn, onSubmit, replyTo, say } from "./forms.js";
import { PENDING, SHIFT, keep, kept, pending, shift } from "./kept.js";
import { giveUpLooks } from "./looks.js";
import { offer } from "./offer.js";
import { money, receipt, report } from "./paper.js";
import { fitPaper } from "./print.js";
import { addRecent, lastOf, showRecent } from "./recent.js";
import { askAbove } from "./settings.js";

const LOCK = "till.sale"; // one tab at a time sends a sale
const SOON = 400; // milliseconds after a sending in which another one is not wanted: a double click, a key held down
const ONCE = "The sale is never made twice.";
const LONG = "If this takes long, press 'Ask again now'.";
const SELLING = `Please wait. The office has been asked for this sale. ${LONG} ${ONCE}`;
const AGAIN = `Please wait. The office has been asked again. ${LONG} ${ONCE}`;
const DOUBT = "It is not known whether the sale was made. Let the customer wait.";
const ELSEWHERE = "Another tab of this page has asked the office for this sale. Wait for the receipt there.";
const UNANSWERED = `This sale has no answer yet. Another tab of this page may be waiting for it. If not, press 'Ask again now'. ${ONCE}`;

/** The field that a refusal of a sale is about; others are about none. */
const FIELDS = { NoMeter: "meter", BeforeBase: "meter", IdentifiersSpent: "meter", IdentifierAhead: "meter", TooLittle: "tender" };

let closing = null; // the shift that the cashier was asked about, whether to close it
let asked = null; // the money of a sale that the cashier was asked about
let taken = null; // the name that the cashier was asked about, whether it is not another's

/** 128 random bits in 32 hexadecimal digits: no other order of any till has this ref. */
function newRef() {
  const bytes = crypto.getRandomValues(new Uint8Array(16));
  return Array.from(bytes, (byte) => byte.toString(16).padStart(2, "0")).join("");
}

/** Whether a good reply is the sale of this order, and no other answer. */
function isSaleOf(sale, order) {
  return ["meter", "operator", "ref", "tender"].every((name) => sale[name] === order[name])
    && /^\d{20}$/.test(sale.token);
}

/** Shows what this browser knows: who sells, whether a sale is without an outcome, and the question whether to close
 * the shift, while it is about the shift that is open. */
function show() {
  const who = shift();
  const name = pending()[0];
  const order = JSON.parse(kept(name));
  if (order && find("doubt").dataset.name !== name) tell(UNANSWERED); // until this tab asks for it
  find("doubt").dataset.name = name ?? "";
  if (closing && (closing.operator !== who?.operator || (closing.number ?? who.number) !== who.number)) closing = null;
  find("who").textContent = who ? `${who.operator}, shift ${who.number ?? "open"}` : "";
  find("doubt").hidden = !order;
  find("order").textContent = order ? `Meter ${order.meter}, ${money(order.tender)} paid` : "";
  find("start").hidden = Boolean(who || order);
  find("sale").hidden = !who || Boolean(order) || !find("paper").hidden;
  find("sure-form").hidden = asked === null;
  find("order-form").hidden = asked !== null;
  find("more").hidden = Boolean(order);
  find("end").hidden = !who || Boolean(closing);
  find("end-form").hidden = !closing;
}

/** Shows the page again and leads the keyboard and the eye to where the work goes on. */
function showAt(id) {
  show();
  const place = find(id);
  place.focus({ preventScroll: true });
  place.scrollIntoView({ block: place.offsetHeight > innerHeight ? "start" : "nearest" });
}

/** Leads the keyboard to what is to be done next. */
function showNext() {
  showAt(shift() ? "meter" : "operator");
}

/** Says what becomes of the sale that is under way, and what can be done stays in the window. */
function tell(text) {
  find("why").textContent = text;
  find("retry").scrollIntoView({ block: "nearest" });
}

/** Puts a receipt or a report on the paper that the screen shows and the printer prints. */
function showPaper([title, ...parts]) {
  find("title").textContent = title;
  find("content").replaceChildren(...parts);
  find("print").disabled = false;
  find("paper").hidden = false;
  fitPaper();
  showAt("paper");
}

/** Takes the paper away, so that nothing of an earlier sale can be printed. */
function clearPaper() {
  find("title").textContent = "";
  find("content").replaceChildren();
  find("print").disabled = true;
  find("paper").hidden = true;
  show();
}

/** What 'Ask again now' cuts short: this tab's request that is under way, or the pause after it. */
let cut = null;
let sent = 0; // when that request was sent, in milliseconds
let pressed = false;

/** Sends an order once. When it is given up, the same order can be sent anew: the desk knows it by its ref. */
function send(body) {
  const stop = new AbortController();
  cut = () => stop.abort();
  sent = performance.now();
  pressed = false;
  return ask("POST", "/sales", body, stop);
}

/** Waits for a time, or until somebody presses 'Ask again now'. */
function rest(pause) {
  return new Promise((go) => {
    cut = go;
    setTimeout(go, pause);
  });
}

/** Sends the order under a name until its outcome is known, or the tries are used up. Only under the lock. An error
 * without a number comes before the office has looked for the ref, so it settles an order that is `fresh` alone. */
async function askUntilKnown(name, fresh) {
  const body = kept(name);
  const order = JSON.parse(body);
  showAt(document.activeElement === find("retry") ? "retry" : "doubt");
  tell(SELLING);
  let pauses = [...PAUSES];
  while (true) {
    const { done, refused, unsent, unknown, waits } = await send(body);
    if (done && isSaleOf(done, order)) return sold(name, order, done);
    if (refused && (refused.refusal || fresh)) return notSold(name, order, refused);
    if (unsent && fresh) return neverSent(name, unsent);
    fresh = false;
    if (!pressed) {
      const isLast = !waits || pauses.length === 0;
      const next = isLast ? "Press 'Ask again now'." : "The page asks again by itself.";
      tell(`${unsent ?? unknown ?? "The answer was not to this sale."} ${DOUBT} ${next} ${ONCE}`);
      if (isLast) return find("retry").focus();
      await rest(pauses.shift());
    }
    if (pressed) {
      pauses = [...PAUSES];
      tell(AGAIN);
    }
  }
}

async function settle(name, fresh) {
  try {
    await askUntilKnown(name, fresh);
  } finally {
    cut = null;
    show();
  }
}

/** The order was sold, now or before: its receipt is on the screen before it is forgotten. */
function sold(name, order, sale) {
  showPaper(receipt(sale, "Receipt"));
  localStorage.removeItem(name);
  find("order-form").reset();
  // The number was not known where the answer to the opening was lost.
  const who = shift();
  if (who?.operator === order.operator && !who.number) keep(SHIFT, JSON.stringify({ ...who, number: sale.shift }));
  addRecent(sale);
  showAt("paper");
}

/** The order never left this browser, so nothing was sold. */
function neverSent(name, why) {
  localStorage.removeItem(name);
  clearPaper();
  showAt("meter");
  say("order-form", why);
}

/** The order was refused, so that it can be corrected or left. */
function notSold(name, order, refused) {
  localStorage.removeItem(name);
  if (refused.error === "NoShift" && shift()?.operator === order.operator) localStorage.removeItem(SHIFT);
  clearPaper();
  const isOpen = Boolean(shift());
  const field = FIELDS[refused.error];
  showAt(isOpen ? field ?? "meter" : "operator");
  say(isOpen ? "order-form" : "start-form", inWords(refused), "bad", isOpen && field ? find(field) : null);
  if (isOpen) find(field ?? "meter").select(); // the next key begins it anew
}

/** Has the one tab that may do so send an order that is without an outcome. */
function resume() {
  const work = async () => {
    find("retry").hidden = false;
    await wait(PAUSES[0]); // until what another tab has settled is seen here
    if (pending()[0]) await settle(pending()[0], false);
    else showNext();
    showRecent();
  };
  return act("doubt", async () => {
    tell(SELLING);
    const lock = await navigator.locks.request(LOCK, { ifAvailable: true }, (it) => it && work().then(() => it));
    if (lock) return;
    tell(ELSEWHERE);
    find("retry").hidden = true; // until the other tab has its answer, or is closed
    await navigator.locks.request(LOCK, work);
  });
}

/** Does at once what 'Ask again now' says: never beside a request, which is given up first. */
function press() {
  if (!cut) return resume();
  if (performance.now() - sent < SOON) return;
  pressed = true;
  cut();
}

onSubmit("start-form", async ({ operator }) => {
  const name = operator.value.trim();
  if (!/^[0-9A-Za-z]{1,16}$/.test(name)) throw new Wrong("Your name has 1 to 16 letters or digits, without spaces.", operator);
  const [own, other] = await lastOf(name);
  if (other && !own && taken !== name) {
    taken = name;
    throw new Wrong(`${other.operator} sells here. If ${name} is somebody else, press 'Open my shift' again.`, operator);
  }
  taken = null;
  const outcome = await askAgain("POST", "/shifts", JSON.stringify({ operator: name }));
  const { done, refused } = outcome;
  // The answer to an opening that was lost is that the shift is open.
  if (!done && refused?.error !== "ShiftOpen") throw new Error(refused ? inWords(refused) : unanswered(outcome));
  const number = done?.shift ?? await openShiftOf(name, own);
  keep(SHIFT, JSON.stringify({ operator: name, number }));
  showRecent();
  showAt("meter");
  const joined = number ? `It is shift ${number}.` : "Its number comes with the next sale.";
  say("order-form", done ? `Shift ${number} is open.` : `${inWords(refused)} ${joined}`, "good");
});

/** The number of a cashier's open shift, where a sale of it is among the last ones; else null. */
async function openShiftOf(name, sale) {
  if (!sale) return null;
  const { done } = await ask("GET", `/shifts/${sale.shift}`);
  return typeof done === "string" && /^CLOSED -$/m.test(done) ? sale.shift : null;
}

/** What is asked before a sale: whether so much money is right, above the sum that whoever runs the office has set, and
 * whether the office's clock is. Empty where nothing is asked. */
async function questionOf(amount) {
  const doubt = clockDoubt();
  const questions = doubt ? [`${doubt} Have the clock looked at before you sell. Is it right?`] : [];
  if (amount > await askAbove()) questions.push(`Did the customer pay ${money(amount)}?`);
  return questions.join(" ");
}

function askFirst(amount, question) {
  asked = amount;
  find("sure-question").textContent = question;
  find("sure").textContent = `Sell for ${money(amount)}`;
  showAt("unsure");
}

function correct() {
  asked = null;
  showAt("tender");
  find("tender").select();
}

/** Keeps the order that is written and sends it, under the lock where this tab has it. */
async function sell({ meter, tender }, lock, isSure) {
  const amount = cents(tender.value);
  const order = { meter: meterIn(meter), operator: shift().operator, ref: newRef(), tender: amount };
  if (!amount || amount > MOST) throw new Wrong("Write the money as 12 or 12.50, up to 1000000.00.", tender);
  const question = isSure ? "" : await questionOf(amount);
  if (question) return askFirst(amount, question);
  asked = null;
  if (!lock) throw new Error("Another tab of this page is selling. Nothing was sold here. Try again when it has ended.");
  if (pending()[0]) return show();
  keep(PENDING + order.ref, JSON.stringify(order)); // before it is sent: from here on it can be asked for again
  await settle(PENDING + order.ref, true);
}

function sellAs(isSure) {
  offer(true);
  giveUpLooks();
  const fields = find("order-form").elements;
  return navigator.locks.request(LOCK, { ifAvailable: true }, (lock) => sell(fields, lock, isSure)).finally(showRecent);
}

onSubmit("order-form", () => sellAs(false));
onSubmit("sure-form", () => sellAs(true));

/** Shows what a number in a field asks for. The paper is taken away first: what is refused leaves none to print. */
async function showPaperOf(field, target, partsOf) {
  clearPaper();
  showPaper(partsOf(await replyTo("GET", `${target}${numberIn(field)}`, undefined, field)));
  field.form.reset(); // the next number is written anew
}

onSubmit("reprint-form", ({ number }) =>
  showPaperOf(number, "/sales/", (sale) => receipt(sale, "Receipt, printed again")));

onSubmit("report-form", ({ number }) => showPaperOf(number, "/shifts/", report));

/** Shows the receipt of the last sale to the meter that is written. */
async function showLast() {
  const field = find("meter");
  const { sale } = await replyTo("GET", `/meters/${meterIn(field)}`, undefined, field);
  if (!sale) throw new Wrong("Nothing was sold to this meter.", field);
  showPaper(receipt(await replyTo("GET", `/sales/${sale}`), "Last receipt"));
}

/** Asks whether the shift is to be closed, which no single click does. */
function askToClose() {
  closing = shift();
  if (!closing) return show();
  const { operator, number } = closing;
  const name = number ? `shift ${number}` : "the shift";
  find("end-question").textContent = `Close ${name} of ${operator}? It is closed at every till where ${operator} sells, `
    + `not only at this one. To sell again, ${operator} opens a new shift.`;
  find("end-now").textContent = `Close ${name}`;
  showAt("keep");
  find("end-form").scrollIntoView({ block: "nearest" });
}

function keepOpen() {
  closing = null;
  showAt("close");
}

onSubmit("end-form", async () => {
  const { operator, number } = closing;
  const outcome = await askAgain("POST", "/shifts/close", JSON.stringify({ operator }));
  const { done, refused } = outcome;
  // The answer to a closing that was lost is that no shift is open.
  if (!done && refused?.error !== "NoShift") throw new Error(refused ? inWords(refused) : unanswered(outcome));
  leave();
  const closed = done?.shift ?? number;
  const text = closed ? `Shift ${closed} is closed.` : "Your shift is closed.";
  say("start-form", text, "good");
  if (!closed) return;
  const { done: lines } = await askAgain("GET", `/shifts/${closed}`);
  if (lines) showPaper(report(lines));
  if (lines) say("paper", text, "good");
  else say("start-form", `${text} Its report did not come. Ask for it below.`, "good");
});

/** Forgets who sells. */
function leave() {
  localStorage.removeItem(SHIFT);
  find("order-form").reset();
  clearPaper();
  showRecent();
  showNext();
}

find("order-form").addEventListener("input", () => {
  hush(); // what was said is about what was written before
  offer(false);
});
find("order-form").addEventListener("reset", () => offer(true));
find("last").addEventListener("click", () => act("order-form", showLast));
find("other").addEventListener("click", () => act("start-form", leave));
find("unsure").addEventListener("click", () => act("sure-form", correct));
find("sure").addEventListener("click", (event) => event.detail > 1 && event.preventDefault()); // a double click is no answer
find("recent-sales").addEventListener("click", ({ target }) => target.value && act("recent", async () => {
  clearPaper();
  showPaper(receipt(await replyTo("GET", `/sales/${target.value}`), "Receipt, printed again"));
}));
find("retry").addEventListener("click", press);
find("print").addEventListener("click", () => print());
find("next").addEventListener("click", ({ detail }) => {
  if (detail > 1) return; // the second half of a double click was meant for what stood here before
  hush();
  clearPaper();
  showNext();
});
find("close").addEventListener("click", () => act("end-form", askToClose));
find("keep").addEventListener("click", () => act("end-form", keepOpen));
find("end-now").addEventListener("click", (event) => event.detail > 1 && event.preventDefault()); // as above
find("end-form").addEventListener("keydown", ({ key }) => key === "Escape" && act("end-form", keepOpen));
addEventListener("storage", () => { // another tab has sold, or opened or closed the shift
  show();
  showRecent();
});

if (navigator.locks) {
  showNext();
  if (pending()[0]) resume();
  else showRecent();
} else {
  say("message", "This page sells over https alone.");
}
