// The clock by which times are shown, UTC or that of a base; days and months by that clock, and the texts of times.

import { DAY } from './instants.js';
import { keep, kept } from './kept.js';
import { zoneOf } from './zones.js';

const WEEKDAYS = ['Sun', 'Mon', 'Tue', 'Wed', 'Thu', 'Fri', 'Sat'];
const MONTHS = 'January February March April May June July August September October November December'.split(' ');

export const zones = new Map();  // of the bases of the book
export const clock = { base: 'UTC' };

export function setZones(bases) {
  zones.clear();
  for (const { base, zone } of bases) zones.set(base, zoneOf(zone));
  clock.base = zones.get(kept('clock')) ? kept('clock') : 'UTC';
}
export function chooseClock(base) {
  clock.base = base;
  keep('clock', base);
}

const offset = (m, base = clock.base) => zones.get(base)?.offset(m) ?? 0;
export const local = (m, base) => new Date((m + offset(m, base)) * 60000);  // (its UTC parts are those of the clock)

// The first minute of a day: also where clocks jump over midnight, or back over it.
export function midnight(year, month, day) {
  const there = Date.UTC(year, month, day) / 60000;
  const both = [there - offset(there - DAY), there - offset(there + DAY)];
  return Math.min(...both.filter(m => m + offset(m) >= there));
}
const midnightOf = (m, months, days) => {
  const it = local(m);
  return midnight(it.getUTCFullYear(), it.getUTCMonth() + (months ?? 0), days == null ? 1 : it.getUTCDate() + days);
};
export const dayOf = m => midnightOf(m, 0, 0);
export const addDays = (m, n) => midnightOf(m, 0, n);
export const monthOf = m => midnightOf(m, 0);
export const addMonths = (m, n) => midnightOf(m, n);

export const weekday = m => local(m).getUTCDay();
export const weekdayName = m => WEEKDAYS[weekday(m)];
export const ymd = m => local(m).toISOString().slice(0, 10);
export const monthName = m => `${MONTHS[local(m).getUTCMonth()]} ${local(m).getUTCFullYear()}`;
export const time = (m, base) => local(m, base).toISOString().slice(11, 16);
export const date = (m, base) => {
  const it = local(m, base);
  return `${WEEKDAYS[it.getUTCDay()]} ${it.getUTCDate()} ${MONTHS[it.getUTCMonth()].slice(0, 3)}`;
};
export const when = (m, base) => `${date(m, base)} ${time(m, base)}`;
export const dated = (m, base) => `${date(m, base)} ${local(m, base).getUTCFullYear()} ${time(m, base)}`;

// A time on or after another: with the number of days, if it is of a later one.
export const until = (from, to) => {
  const days = Math.round((dayOf(to) - dayOf(from)) / DAY);
  return time(to) + (days ? `\u00a0${days > 0 ? '+' : ''}${days}` : '');
};
export const span = it => `${time(it.begin)} – ${until(it.begin, it.end)}`;
export const days = it => {
  const [first, last] = [date(it.begin), date(it.end)];
  return `${first === last ? first : `${first} – ${last}`} ${local(it.end).getUTCFullYear()}`;
};
export const clockName = () => clock.base === 'UTC' ? 'UTC' : `local time of ${clock.base}`;

// The month that is best shown first: this one, or that of the duty which is nearest.
export function bestMonth(begins, today) {
  if (!begins.length || begins.some(m => monthOf(m) === monthOf(today))) return monthOf(today);
  return monthOf(begins.reduce((a, b) => Math.abs(b - today) < Math.abs(a - today) ? b : a));
}
