// The shift's last sales, below the receipt, and who sold lately. A sale never waits for them.
import { hearSale } from "./clock.js";
import { find } from "./forms.js";
import { pending, shift } from "./kept.js";
import { lookUp } from "./looks.js";
import { energy, money, table, timeOf } from "./paper.js";

const MOST = 10; // sales that are shown
const PAGE = 100; // sales of an answer
const PAGES = 3; // asked for at most: where others sell much, the list may be shorter
const LACKS = "The office did not answer, so the last sales may be missing here.";
let turn = 0; // rises with each question, whose answer alone is shown
let shown = null; // the shift whose sales are on the screen
let sales = []; // those, the newest first

/** The last sales of all cashiers that `isWanted` takes, the newest first, at most `most` of them; null where they
 * cannot be had now. */
async function lastSales(isWanted, most) {
  const { done: health } = await lookUp("/health");
  if (!Number.isInteger(health?.sales)) return null;
  hearSale(health.last_moment);
  let [found, end] = [[], health.sales];
  for (let pages = 0; pages < PAGES && end > 0 && found.length < most; pages += 1) {
    const after = Math.max(end - PAGE, 0);
    const { done } = await lookUp(`/sales?after=${after}`);
    if (!done?.sales) return null;
    const until = end;
    found = [...found, ...done.sales.filter((it) => isWanted(it) && it.number <= until).reverse()];
    end = after;
  }
  return found.slice(0, most);
}

/** Of the last sales of all cashiers the newest whose cashier has this name, and the newest whose cashier has it but
 * for capitals; undefined where there is none, or none can be had now. */
export async function lastOf(name) {
  const found = await lastSales((it) => it.operator.toLowerCase() === name.toLowerCase(), PAGES * PAGE);
  return [found?.find((it) => it.operator === name), found?.find((it) => it.operator !== name)];
}

/** The number of a sale, which shows its receipt. */
function button(number) {
  const made = Object.assign(document.createElement("button"), { type: "button", value: number, textContent: number });
  made.setAttribute("aria-label", `Receipt of sale ${number}`);
  return made;
}

function fill(number, found) {
  [shown, sales] = [number, found];
  const names = ["Sale", "Time", "Meter", "Energy", "Price"];
  const lines = sales.map((it) => [button(it.number), timeOf(it.moment), it.meter, energy(it.tenths), money(it.price)]);
  find("recent-sales").replaceChildren(table(names, lines));
  find("recent").hidden = sales.length === 0;
  find("lacks").textContent = "";
}

/** Puts a sale that this till has just made on top, before the office is asked for the list. */
export function addRecent(sale) {
  hearSale(sale.moment);
  if (sale.shift !== shift()?.number) return;
  const others = shown === sale.shift ? sales.filter((it) => it.number !== sale.number) : [];
  fill(sale.shift, [...others, sale].sort((one, other) => other.number - one.number).slice(0, MOST));
}

/** Shows the last sales of the shift that is open here. Where they cannot be had, those on the screen stay, and it is
 * said that they may not be all. */
export async function showRecent() {
  const mine = ++turn;
  const number = shift()?.number;
  if (number !== shown) fill(number, []);
  find("recent").ariaBusy = true;
  const found = number ? await lastSales((it) => it.shift === number, MOST) : [];
  if (mine !== turn) return;
  find("recent").ariaBusy = false;
  if (shift()?.number !== number) return;
  if (found) fill(number, found);
  else if (!pending()[0]) find("lacks").textContent = LACKS; // a sale gives look-ups up, and asks anew behind it
}
