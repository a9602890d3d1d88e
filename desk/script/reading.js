// The reports of the book as values. Only this part knows in which paths and in which JSON the server gives them.

import { ask } from './asking.js';
import { at, iso } from './instants.js';

async function report(path, rank, signal) {
  const { status, text } = await ask('/json' + path, { rank, signal });
  if (status !== 200) throw new Error(`${path}: ${status}`);  // (only what the lists have is asked for)
  return JSON.parse(text);
}

const segmentOf = it => ({ ...it, out: at(it.out), in: at(it.in) });
const timesOf = it => ({ report: at(it.report), release: at(it.release), segments: it.segments?.map(segmentOf) });

// A period: as planned, as flown (or null), and what is in force of these.
function periodOf(it) {
  const plan = timesOf(it), flown = it.actual && timesOf(it.actual), { report: begin, release: end } = flown ?? plan;
  return { period: it.period, fdp: it.fdp, flight: it.flight, plan, flown, begin, end };
}
function readPairing(it) {
  const periods = it.periods.map(periodOf);
  return {
    pairing: it.pairing, seats: { captain: it.captain, 'first officer': it.first_officer }, periods,
    begin: periods[0].begin, end: periods.at(-1).end, isFlown: periods.some(p => p.flown),
  };
}

// A duty, by its id and a name for people. `key` is what exceedances name it by.
const idOf = it => it[it.kind];
const dutyName = it => it.kind === 'pairing' ? `${it.pairing}/${it.period}` : it.kind === 'outside' ? `outside ${it.outside}` : it.ground;
const named = it => ({ kind: it.kind, id: idOf(it), name: dutyName(it), key: `${it.kind} ${dutyName(it)}` });
function dutyOf(crew, it) {
  const times = it.kind === 'pairing' ? periodOf(it) : { fdp: it.fdp, flight: it.flight, segments: it.segments?.map(segmentOf) };
  return { ...times, ...named(it), crew, task: it.task, begin: at(it.begin), end: at(it.end), exceeds: [...new Set(it.exceeds)] };
}
// The duties of a member in the order of time.
const dutiesOf = ({ crew, duties }) => duties.map(it => dutyOf(crew, it)).sort((a, b) => a.begin - b.begin || a.end - b.end);

export const reading = {
  // How many requests the book keeps: it changes with each command that is done.
  async count(rank) { return (await report('/count', rank)).count; },
  async members(rank) { return report('/reports/members', rank); },
  async pairings(rank) { return (await report('/reports/pairings', rank)).pairings.map(readPairing); },
  async pairing(id, rank, signal) { return readPairing(await report('/pairings/' + id, rank, signal)); },
  async roster(crew, rank, signal) { return dutiesOf(await report('/crew/' + crew, rank, signal)); },
  // All bases and members, and what each does in some days, of which each duty says what it exceeds; and the open pairings of these days.
  async board({ from, to }, rank, signal) {
    const day = m => iso(m).slice(0, 10), { bases, members, open } = await report(`/board/${day(from)}/${day(to - 1)}`, rank, signal);
    return { bases, members, open: open.map(readPairing), board: { from, to, duties: new Map(members.map(it => [it.crew, dutiesOf(it)])) } };
  },
  // The command that a number is kept under, and its reply; of an import, those of a part.
  async request(number, part) { return (await report('/requests/' + number)).parts.find(it => it.part === part); },
  async exceedances(rank) {
    return (await report('/exceedances', rank)).exceedances.map(it => ({ ...it, ...named(it) }));
  },
  async limits(crew, pairing, rank, signal) {
    const { limits } = await report(`/reports/limits/${crew}${pairing ? '/' + pairing : ''}`, rank, signal);
    return limits.map(it => ({ ...it, from: it.from && at(it.from) }));
  },
};
