// What the page has read of the book, and how it is read again.

import { unlessLost } from './asking.js';
import { setZones } from './clock.js';
import { reading } from './reading.js';

export const SEATS = ['captain', 'first officer'];
export const known = {
  bases: [], members: [], pairings: [], exceedances: [],
  isListed: false,  // whether all pairings and exceedances are read; before, there are the open pairings of the board alone
  board: {},  // the duties of all members in some days, if they are read: from when, to when, and by member
  rosters: new Map(),  // all duties of a member, once they were asked for
  details: new Map(),  // a pairing with its segments, once it was asked for
  count: NaN,  // how many requests the book kept before all that was read
  window() {},  // the days to read for the board, if it is shown, and those that it shows; `isSure` if all pairings wouldn't choose others
  recount() {},  // the numbers in the head
  begin() {},  // the first drawing
  redraw(held, isAnew) {},  // the screen and the panel, but for one that has such a thing in it; if not anew, what waited for the lists
};

let members = new Map(), pairings = new Map(), exceeded = new Map();
export const memberOf = crew => members.get(crew);
export const nameOf = crew => members.get(crew)?.name ?? '';
export const pairingOf = id => pairings.get(id);
export const exceededBy = duty => exceeded.get(`${duty.crew} ${duty.key}`) ?? [];  // the sections

const byKey = (list, key) => new Map(list.map(it => [it[key], it]));
// Reads the board, if it is shown, or the members; then the lists, which take longer: the first time the board is drawn before them.
async function readBook() {
  const count = await reading.count(1), days = known.window();
  take(await (days ? reading.board(days, 1) : reading.members(1)));
  if (known.window()?.isSure !== false) known.begin();
  const [plans, exceedances] = await Promise.all([reading.pairings(1), reading.exceedances(1)]);
  takePairings(plans);
  exceeded = new Map();
  for (const { crew, key, section } of exceedances) {
    exceeded.set(`${crew} ${key}`, [...new Set([...exceededBy({ crew, key }), section])]);
  }
  Object.assign(known, { exceedances, isListed: true });
  const others = known.window();
  if (others && !hasRead(others)) take(await reading.board(others, 1));
  known.count = count;
  known.recount();
  known.begin();
}
function takePairings(plans) {
  known.pairings = plans.sort((a, b) => a.begin - b.begin || (a.pairing < b.pairing ? -1 : 1));
  pairings = byKey(plans, 'pairing');
}
function take({ bases, members: people, board = {}, open = [] }) {
  Object.assign(known, { bases, members: people, board });
  members = byKey(people, 'crew');
  if (!known.isListed) takePairings(open);
  setZones(bases);
  known.recount();
}
// Reads what all members do in the days that the board shows, unless that is there.
export async function readBoard({ from: begin, to: end }, stop) {
  if (!hasRead({ begin, end })) take(await reading.board(known.window(), 1, stop));
}
const hasRead = it => known.board.from <= it.begin && it.end <= known.board.to;

export async function rosterOf(crew, rank = 0, signal) {
  if (!known.rosters.has(crew)) known.rosters.set(crew, await reading.roster(crew, rank, signal));
  return known.rosters.get(crew);
}
export async function detailOf(id, signal) {
  if (!known.details.has(id)) known.details.set(id, await reading.pairing(id, 0, signal));
  return known.details.get(id);
}

// Which duty of a member meets one of these, but for a pairing that is given away.
export async function clashOf(crew, others, given, signal) {
  const duties = others.every(hasRead) ? known.board.duties.get(crew) : await rosterOf(crew, 0, signal);
  return duties.find(duty => duty.id !== given && others.some(it => duty.begin < it.end && it.begin < duty.end));
}

// What isn't drawn over: what somebody types, as long as it isn't sent; if it was refused, or somebody has the book read again, all that is
// typed; if nobody waits for it, also what is opened or filtered.
export const UNSENT = '[data-typed]:not([data-sent] *)';
export const IN_USE = '[data-typed], .flown-form, .extra > *, [open]:not(section > *), section > [type=search]:not(:placeholder-shown)';

let isFirst = true;  // (what the first reading draws before the lists isn't drawn again behind them)

// Reads the book again, and draws the page anew. What else was read is forgotten; but if only `own` commands were done meanwhile, just that
// of the members and pairings which they touched.
export async function readAgain({ held = '[data-typed]', own, touched } = {}) {
  const before = known.count, isAnew = !isFirst;
  isFirst = false;
  try {
    await readBook();
    for (const read of [known.rosters, known.details]) for (const id of known.count - before === own ? touched : read.keys()) read.delete(id);
    await known.redraw(held, isAnew);
  } catch (why) { unlessLost(why); }
}

export const freeSeats = it => SEATS.filter(seat => !it.seats[seat]);
export const openPairings = () => known.pairings.filter(it => freeSeats(it).length && !it.isFlown);
