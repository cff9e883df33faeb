// What the cashier's page keeps in this browser.

/** The name of an order that was sent and has no outcome yet, with its ref behind. The order is as it is sent. */
export const PENDING = "till.pending.";
/** The name of who sells, with the number of the shift where it is known. */
export const SHIFT = "till.shift";
const NOT_KEPT = "This browser keeps nothing for this page, so a lost answer could not be mended: nothing is sold. Allow storage for this site.";

/** What this browser keeps under a name; null where it keeps nothing. */
export function kept(name) {
  try {
    return localStorage.getItem(name);
  } catch {
    return null;
  }
}

/** The names of the orders without an outcome. Each has its own: a tab may see for a moment what another tab has
 * removed already, or not yet what it keeps, and so must never write over its order. */
export function pending() {
  try {
    return Object.keys(localStorage).filter((name) => name.startsWith(PENDING));
  } catch {
    return [];
  }
}

export const shift = () => JSON.parse(kept(SHIFT));

/** Keeps a text, or says that this browser does not. */
export function keep(name, text) {
  try {
    localStorage.setItem(name, text);
  } catch {
    // Whether it is kept is seen below.
  }
  if (kept(name) !== text) throw new Error(NOT_KEPT);
}
