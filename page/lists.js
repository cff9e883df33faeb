// The manager's lists, each page after the last member of the one before; of shifts the newest come first.
import { act, onSubmit, replyTo } from "./forms.js";
import { energy, line, money, table, timeOf } from "./paper.js";

const PAGE = 100; // members of an answer; a shorter one is the last

/** A tariff's steps in words. */
function stepsOf(text) {
  const words = text.split(";").map((step) => step.split(":"))
    .map(([end, price]) => (end ? `${money(price)} up to ${energy(end)}` : money(price)));
  const last = words.pop();
  return words.length ? `${words.join(", ")}, then ${last}` : last;
}

/** Steps of a later day, with a button that takes them back. */
function laterSteps(name, { from, steps }) {
  const button = Object.assign(document.createElement("button"), { type: "button", textContent: "Withdraw" });
  button.setAttribute("aria-label", `Withdraw the steps of ${name} from ${from} on`);
  button.addEventListener("click", () => act("tariffs-form", async () => {
    await replyTo("DELETE", `/tariffs/${name}/steps/${from}`);
    button.closest("tr").remove();
    return `The steps of ${name} from ${from} on are withdrawn.`;
  }));
  const cell = document.createElement("span"); // on narrow screens the cell is a grid
  cell.append(`${stepsOf(steps)} `, button);
  return cell;
}

/** Of each list the names of its columns, and the lines of a member. */
const LISTS = {
  tariffs: {
    names: ["Tariff", "From", "Price of a kWh"],
    lines: ({ name, steps, later }) => [[name, "today", stepsOf(steps)],
      ...later.map((it) => [name, it.from, laterSteps(name, it)])],
  },
  meters: {
    names: ["Meter", "Tariff", "Base date"],
    lines: ({ meter, tariff, base }) => [[meter, tariff, base]],
  },
  shifts: {
    names: ["Shift", "Name", "Opened", "Closed", "Sales", "Energy", "Cash"],
    lines: ({ number, operator, opened, closed, sales, tenths, cash }) => [[number, operator, timeOf(opened),
      closed === null ? "still open" : timeOf(closed), sales, energy(tenths), money(cash)]],
  },
};

const pageOf = async (kind, after) => (await replyTo("GET", `/${kind}?after=${after}`))[kind];

/** A list from its first member on: each call gives the next page, and whether it is the last one. */
function upwards(kind, key) {
  let after = "";
  return async () => {
    const page = await pageOf(kind, after);
    after = page.at(-1)?.[key];
    return [page, page.length < PAGE];
  };
}

const MOST = 1000000000; // shifts of an office

/** The number of the last shift: they are numbered from 1 on without a gap. Looks on further each time, until behind
 * the last one, and then halves what is between. */
async function lastShift() {
  let [least, most, step] = [0, Infinity, 0];
  while (least < most) {
    const after = most === Infinity ? Math.min(least + step, MOST) : Math.floor((least + most) / 2);
    const page = await pageOf("shifts", after);
    if (page.length === PAGE) least = page.at(-1).number;
    else if (page.length > 0) return page.at(-1).number;
    else most = after;
    step = 2 * step + PAGE;
  }
  return least;
}

/** The shifts from the last one on: as `upwards`. */
function downwards() {
  let end = null;
  return async () => {
    end ??= await lastShift();
    const [after, until] = [Math.max(end - PAGE, 0), end];
    const page = await pageOf("shifts", after);
    end = after;
    return [page.filter((it) => it.number <= until).reverse(), after === 0];
  };
}

/** What gives the pages of a list anew. */
const PAGES = {
  tariffs: () => upwards("tariffs", "name"),
  meters: () => upwards("meters", "meter"),
  shifts: downwards,
};

for (const [kind, { names, lines }] of Object.entries(LISTS)) {
  let [next, count] = [null, 0];
  onSubmit(`${kind}-form`, async (_, form) => {
    const isFirst = next === null;
    const pages = next ?? PAGES[kind]();
    const [page, isWhole] = await pages();
    const [place, button] = [form.querySelector("div"), form.querySelector(":scope > button")];
    if (isFirst) {
      count = 0;
      place.replaceChildren(table(names, []));
    }
    place.querySelector("tbody").append(...page.flatMap(lines).map((it) => line(it, "td", names)));
    count += page.length;
    next = isWhole ? null : pages;
    button.textContent = isWhole ? "Show again" : "More";
    return `${count} ${count === 1 ? kind.slice(0, -1) : kind}${isWhole ? "" : " so far"}.`;
  });
}
