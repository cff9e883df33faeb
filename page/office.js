// The page for tariffs and meters. Each of its messages may come twice: what is stored already changes nothing.
import { Wrong, cents, digits, find, meterIn, onSubmit, replyTo, tenths } from "./forms.js";
import "./lists.js";

const MOST_STEPS = 8;
const MOST_BYTES = 1048576; // of a file

function nameIn(field) {
  const name = field.value.trim();
  if (/^[0-9A-Za-z-]{1,32}$/.test(name)) return name;
  throw new Wrong("A tariff's name has 1 to 32 letters, digits or hyphens.", field);
}

function keyIn(field) {
  const secret = digits(field.value).toLowerCase();
  if (/^[0-9a-f]{16}$/.test(secret)) return secret;
  throw new Wrong("A key has sixteen digits of 0 to 9 and a to f.", field);
}

/** One step: up to how many kWh it holds, which the last one leaves empty, and its price. */
function addStep() {
  const place = find("steps").children.length + 1;
  const row = document.createElement("div");
  row.className = "step";
  for (const [name, text] of [["end", `Step ${place}: up to kWh (empty: all above)`], ["price", `Step ${place}: price of a kWh`]]) {
    const label = document.createElement("label");
    const field = Object.assign(document.createElement("input"), { className: name, inputMode: "decimal", maxLength: 12 });
    label.append(text, field);
    row.append(label);
  }
  find("steps").append(row);
  find("step").disabled = place === MOST_STEPS;
  return row.querySelector("input");
}

/** The steps as the desk takes them, such as 500:100;:200. */
function stepsIn(rows) {
  let before = 0;
  return rows.map((row, place) => {
    const [end, price] = row.querySelectorAll("input");
    const cost = cents(price.value);
    if (!cost || cost > 1000000) throw new Wrong("Write the price as 1 or 1.25, up to 10000.00.", price);
    if (place === rows.length - 1) {
      if (end.value.trim()) throw new Wrong("The last step holds for all above: leave its kWh empty.", end);
      return `:${cost}`;
    }
    const upTo = tenths(end.value);
    if (!upTo || upTo <= before || upTo > 4294967295) throw new Wrong("Write kWh as 50 or 50.5, more than in the step before.", end);
    before = upTo;
    return `${upTo}:${cost}`;
  }).join(";");
}

const isFilled = (row) => [...row.querySelectorAll("input")].some((field) => field.value.trim());

const change = (target, body) => replyTo("POST", target, JSON.stringify(body));

onSubmit("tariff-form", async ({ name, from }, form) => {
  const tariff = nameIn(name);
  const filled = [...find("steps").children].filter(isFilled);
  const steps = stepsIn(filled.length ? filled : [find("steps").firstChild]);
  const day = from.value;
  if (day) await change(`/tariffs/${tariff}/steps`, { from: day, steps });
  else await change("/tariffs", { name: tariff, steps });
  form.reset();
  return day ? `${tariff} has these steps from ${day} on.` : `The tariff ${tariff} is stored.`;
});

onSubmit("meter-form", async ({ meter, tariff, base, key }, form) => {
  const number = meterIn(meter);
  const name = nameIn(tariff);
  await change("/meters", { base: Number(base.value), key: keyIn(key), meter: number, tariff: name });
  form.reset();
  return `The meter ${number} is stored.`;
});

onSubmit("change-form", async ({ meter, tariff }, form) => {
  const number = meterIn(meter);
  const name = nameIn(tariff);
  await change(`/meters/${number}/tariff`, { tariff: name });
  form.reset();
  return `The meter ${number} has the tariff ${name}.`;
});

onSubmit("base-form", async ({ meter, base }, form) => {
  const number = meterIn(meter);
  const year = base.value;
  await change(`/meters/${number}/base`, { base: Number(year) });
  form.reset();
  return `The meter ${number} has the base date ${year}. Clear the meter itself.`;
});

onSubmit("key-form", async ({ meter, key }, form) => {
  const number = meterIn(meter);
  await change(`/meters/${number}/key`, { key: keyIn(key) });
  form.reset();
  return `The meter ${number} has this key.`;
});

onSubmit("import-form", async ({ kind, file }) => {
  const chosen = file.files[0];
  if (!chosen || chosen.size > MOST_BYTES) throw new Wrong("Choose a file of at most 1048576 bytes.", file);
  const { added } = await replyTo("POST", `/imports/${kind.value}`, await chosen.arrayBuffer());
  return added === 1 ? "1 row was new." : `${added} rows were new.`;
});

find("step").addEventListener("click", () => addStep().focus());
addStep();
