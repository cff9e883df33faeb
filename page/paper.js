// What stands on a receipt and on a report, on the screen and on paper, each with its title first.

export const money = (amount) => (amount / 100).toFixed(2);
export const energy = (amount) => `${(amount / 10).toFixed(1)} kWh`;
const time = (text) => text.replace("T", " ").replace(/(\.\d+)?Z$/, " UTC");
export const timeOf = (moment) => time(new Date(1000 * moment).toISOString());

function element(name, className, ...parts) {
  const made = document.createElement(name);
  made.className = className;
  made.append(...parts);
  return made;
}

/** Rows of names and values. */
function list(rows) {
  return element("dl", "", ...rows.flatMap(([name, value]) => [element("dt", "", name), element("dd", "", value)]));
}

/** A line of a table. With `names` each cell has that of its column, for screens on which columns have no room. */
export function line(cells, name = "td", names = []) {
  const row = element("tr", "", ...cells.map((cell) => element(name, "", cell)));
  names.forEach((it, place) => { row.cells[place].dataset.name = it; });
  return row;
}

/** A table under the names of its columns. */
export function table(names, lines) {
  return element("table", "", element("thead", "", line(names, "th")), element("tbody", "", ...lines.map((it) => line(it))));
}

/** A token in groups of four digits, which break over lines between them alone. */
function groups(token) {
  return token.match(/\d{4}/g).flatMap((group) => [element("span", "", group), " "]);
}

export function receipt(sale, title) {
  return [title, list([
    ["Sale", sale.number], ["Meter", sale.meter], ["Time", timeOf(sale.moment)],
    ["Energy", energy(sale.tenths)], ["Price", money(sale.price)], ["Paid", money(sale.tender)],
    ["Change", money(sale.change)],
  ]), element("p", "token", ...groups(sale.token))];
}

/** The report of a shift: docs/TEXTS.md has its lines. */
export function report(text) {
  const lines = text.trimEnd().split("\n");
  const [[, number, operator], [, opened], [, closed]] = lines.slice(0, 3).map((text) => text.split(" "));
  const [sales, sum, cash] = lines.slice(-3).map((text) => Number(text.split(" ")[1]));
  const rows = lines.slice(3, -3).map((text) => text.trim().split(/ +/)).map(([sale, meter, amount, price]) =>
    [sale, meter, energy(amount), money(price)]);
  return [`Shift ${number}, ${operator}`, list([
    ["Opened", time(opened)], ["Closed", closed === "-" ? "still open" : time(closed)], ["Sales", sales],
    ["Energy", energy(sum)], ["Cash", money(cash)],
  ]), table(["Sale", "Meter", "Energy", "Price"], rows)];
}
