// What a till can see of the office's clock, by its replies and by the last sale.
import { timeOf } from "./paper.js";

const LATER = 300; // seconds by which the last sale may be later than the clock: replies and clocks take some
const EARLIER = 7 * 86400; // and by which it may be earlier

let ahead = 0; // milliseconds by which the office's clock is ahead of this till's, by the last reply that told it
let last = null; // the moment of the last sale that is known

/** Takes the office's time from a reply. Where no reply has it, this till's own clock stands for it. */
export function hearClock(reply) {
  const told = Date.parse(reply.headers.get("Date"));
  if (told) ahead = told - Date.now();
}

/** Takes the moment of the office's last sale. */
export function hearSale(moment) {
  if (Number.isInteger(moment)) last = moment;
}

/** Why the office's clock may be wrong; empty where nothing shows it. */
export function clockDoubt() {
  const now = Math.floor((Date.now() + ahead) / 1000);
  if (last === null || (last <= now + LATER && last >= now - EARLIER)) return "";
  const than = last > now ? "later than" : "long before";
  return `The last sale was at ${timeOf(last)}, ${than} the time on the office's clock, ${timeOf(now)}.`;
}
