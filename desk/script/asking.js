// Requests to the server. One is under way at a time; what a person waits for goes before what is fetched ahead. What nobody waits for
// any more isn't asked; what is under way isn't broken off, since the server would take that for a fault.

export class NoAnswer extends Error {}  // no answer came, or the server says that its store or its memory failed
export const unlessLost = why => { if (!(why instanceof NoAnswer)) throw why; };  // (what is lost is asked again once the book answers)

const PATIENCE = 60_000, PATIENCE_OF_IMPORT = 600_000;  // milliseconds
const waiting = [[], [], []];
let isUnderWay = false;
export const howMany = () => waiting.flat().length + isUnderWay;

function inTurn(rank, signal, job) {
  return new Promise((done, failed) => {
    waiting[rank].push({ signal, job, done, failed });
    next();
  });
}
async function next() {
  const count = howMany();
  document.documentElement.dataset.asking = count;  // (for tests)
  if (isUnderWay || !count) return;
  const it = waiting.find(list => list.length).shift();
  isUnderWay = true;
  try {
    if (!it.signal?.aborted) it.done(await it.job());
    else it.failed(new NoAnswer('no longer asked'));
  } catch (why) { it.failed(why); }
  isUnderWay = false;
  next();
}

// Whether the last request had no answer; `hear(isLost)` is called when that changes.
export const line = { isLost: false, hear() {} };
function lose(isLost) {
  if (isLost === line.isLost) return;
  line.isLost = isLost;
  line.hear(isLost);
}

// Asks for a path, or sends a body to it: the status, and the text of the answer. The rank is 0, 1 or 2: the first goes first.
export function ask(path, { body = null, rank = 0, signal } = {}) {
  const options = body === null ? {} : { method: 'POST', body, headers: { 'Content-Type': 'application/json' } };
  return inTurn(rank, signal, async () => {
    const until = AbortSignal.timeout(path.startsWith('/imports/') ? PATIENCE_OF_IMPORT : PATIENCE);
    let answer;
    try {
      const response = await fetch(path, { ...options, signal: until, cache: 'no-store', redirect: 'error' });
      answer = { status: response.status, text: await response.text() };
    } catch { /* it is as if it hadn't been asked */ }
    const isThere = answer && answer.status !== 503;
    lose(!isThere);
    if (!isThere) throw new NoAnswer(path);
    return answer;
  });
}
