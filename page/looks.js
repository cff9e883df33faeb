// What is looked up beside the work: one request at a time, and none while a sale is on its way.
import { ask } from "./desk.js";
import { pending } from "./kept.js";

let last = Promise.resolve();
let turn = 0; // rises where all look-ups are given up
let under = null; // stops the request that is under way

/** The outcome of a look-up, once those before have theirs; empty where it is given up. */
export function lookUp(target) {
  const mine = turn;
  last = last.then(() => {
    if (mine !== turn || pending()[0]) return {};
    under = new AbortController();
    return ask("GET", target, undefined, under);
  });
  return last;
}

/** Gives up what is under way and what waits, before a sale is sent. */
export function giveUpLooks() {
  turn += 1;
  under?.abort();
}
