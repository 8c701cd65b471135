// The page's server, asked: every verdict and every place comes from it.

const page = Array.from(crypto.getRandomValues(new Uint8Array(12)), byte => byte.toString(16).padStart(2, '0')).join('');
const HEARD_EVERY = 45000;

// A question that was refused, or not answered: `key` names a text, `filled` is filled into it.
export class Fault extends Error {
  constructor(key, filled = {}) {
    super(key);
    this.key = key;
    this.filled = filled;
  }
}

// How many questions wait for their answers, but for those that settle statements.
export const waiting = { count: 0 };

export async function ask(question, asked = {}) {
  const isCounted = question !== 'judge';
  waiting.count += isCounted;
  try {
    return await askServer(question, asked);
  } finally {
    waiting.count -= isCounted;
  }
}

async function askServer(question, asked) {
  let response, told;
  try {
    response = await fetch(question, { method: 'POST', body: JSON.stringify({ ...asked, page }) });
    told = await response.json();
  } catch {
    throw new Fault('no_answer');
  }
  if (!response.ok) throw new Fault(told.fault, told.filled);
  return told;
}

export async function start() {
  const told = await (await fetch('start.json')).json();
  setInterval(() => ask('here').catch(() => {}), HEARD_EVERY);
  window.addEventListener('pagehide', () => navigator.sendBeacon('bye', JSON.stringify({ page })));
  window.addEventListener('pageshow', () => ask('here').catch(() => {}));
  return told;
}
