// The limits in words: their names, how near something is to one, and by how much it is exceeded.

import { dated } from './clock.js';
import { DAY, hm } from './instants.js';

export const WEEK = 7 * DAY;

// A name, the words for a length, and what it is held against: a table, the least rest, or what a window of so many days may hold.
const LIMITS = {
  '117.11(a)(1)': ['Flight time of one period (Table A)', 'flight time', 'table'],
  '117.13(a)': ['Flight duty period (Table B)', 'the flight duty period', 'table'],
  '117.23(b)(1)': ['Flight time in 28 days', 'flight time in the 28 days', 28],
  '117.23(b)(2)': ['Flight time in 365 days', 'flight time in the 365 days', 365],
  '117.23(c)(1)': ['Flight duty in 7 days', 'flight duty in the 7 days', 7],
  '117.23(c)(2)': ['Flight duty in 28 days', 'flight duty in the 28 days', 28],
  '117.25(b)': ['30 consecutive hours free in 168', 'the longest free time in the 168 hours before', 'rest'],
  '117.25(e)': ['Rest before a report', 'the rest before', 'rest'],
};
export const SECTIONS = Object.keys(LIMITS);
export const limitName = section => LIMITS[section][0];
export const isRest = section => LIMITS[section][2] === 'rest';
export const windowText = it => it.duty ? '' : it.from == null ? 'before 2000' : `from ${dated(it.from)}`;
export const restText = m => m < WEEK ? hm(m) : '7 days or more';

export function limitText(it) {
  const [, words, kind] = LIMITS[it.section], used = hm(it.minutes), limit = hm(it.limit);
  if (kind === 'rest') return `${words} ${it.duty} is ${used}, and must be at least ${limit}`;
  if (kind === 'table') return `${words} of ${it.duty} is ${used}, and may be at most ${limit}`;
  return `${words} ${windowText(it)} is ${used}, and may be at most ${limit}`;
}
// By how much a limit is exceeded now, or that it isn't; of a window from when on, of a rest that isn't before the duty `name` before which
// one.
export function excess(it, name) {
  const rest = isRest(it.section), over = rest ? it.limit - it.minutes : it.minutes - it.limit;
  if (over <= 0) return { isWithin: true, text: `within ${hm(it.limit)} now` };
  const where = it.duty !== name && (it.duty ? `before ${it.duty}` : windowText(it));
  return { isWithin: false, text: [hm(over), rest ? 'short of' : 'over', hm(it.limit), where].filter(Boolean).join(' ') };
}

// Whether a window meets a duty.
export const meets = ({ section, from }, duty) => from <= duty.end && duty.begin < from + LIMITS[section][2] * DAY;

// The rests before an instant, of at most a week: the longest, and the last.
function restsBefore(duties, m) {
  let last = m - WEEK, longest = 0;
  for (const { begin, end } of duties) {
    if (begin >= m) break;
    longest = Math.max(longest, begin - last);
    last = Math.max(last, end);
  }
  return { '117.25(b)': Math.max(longest, m - last), '117.25(e)': Math.max(0, m - last) };
}
// What is nearest to a limit of rests at one of a member's duties, its own or one behind it: no report says it but for pairings. The duties
// are in the order of time.
export function nearestRest({ section, limit }, duties, duty) {
  const until = duty.end + (section === '117.25(b)' ? WEEK : limit);
  return duties.filter(it => it.fdp != null && it.begin >= duty.begin && it.begin < until)
    .map(it => ({ section, limit, duty: it.name, minutes: restsBefore(duties, it.begin)[section] }))
    .sort((a, b) => a.minutes - b.minutes)[0];
}
