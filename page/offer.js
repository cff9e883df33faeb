// What a sale would have, while it is written. A sale never waits for it.
import { inWords } from "./desk.js";
import { MOST, cents, digits, find, isMeterNumber } from "./forms.js";
import { lookUp } from "./looks.js";
import { energy, money } from "./paper.js";

const QUIET = 300; // milliseconds without a key, after which the office is asked
let late = null; // what asks then
let asked = false; // whether it has not answered yet

/** What the fields ask for: a quote, or the meter while there is no money; null while they ask for nothing. */
function target() {
  const [meter, paid] = [digits(find("meter").value), find("tender").value.trim()];
  const amount = cents(paid);
  if (!isMeterNumber(meter) || (paid && !(amount && amount <= MOST))) return null;
  return paid ? `/meters/${meter}/quote?tender=${amount}` : `/meters/${meter}`;
}

const line = ({ tariff, tenths, price, change }) => (price === undefined
  ? `Tariff ${tariff}. This month ${energy(tenths)}.`
  : `${energy(tenths)} for ${money(price)}, change ${money(change)}. Tariff ${tariff}.`);

function tell(text, kind) {
  Object.assign(find("offer"), { textContent: text, className: kind });
}

async function look() {
  const about = target();
  if (!about || asked) return;
  asked = true;
  const { done, refused } = await lookUp(about);
  asked = false;
  if (about !== target()) offer(false); // what came is about what was written before
  else if (done) tell(line(done), "good");
  else if (refused?.refusal) tell(inWords(refused), "bad");
}

/** Takes the offer away, which is about what was written before. Another one is asked for soon, unless this is over. */
export function offer(isOver) {
  tell("", "");
  clearTimeout(late);
  if (!isOver) late = setTimeout(look, QUIET);
}
