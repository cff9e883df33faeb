// What whoever runs the office has set for its tills, in /etc/vend/settings.json.

const ASK_ABOVE = 100000; // cents, where nothing is set

let settings = null;

async function read() {
  try {
    const reply = await fetch(new URL("/settings.json", location.origin), { cache: "no-store", redirect: "error" });
    return reply.ok ? await reply.json() : {};
  } catch {
    return {};
  }
}

/** The sum in cents above which a sale is asked about. It is read once, when the page is loaded. */
export async function askAbove() {
  const { ask_above: sum } = await (settings ??= read());
  return Number.isInteger(sum) && sum >= 0 ? sum : ASK_ABOVE;
}

settings = read();
