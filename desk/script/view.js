// What the board shows: from when to when, whose rows, how wide. And where an instant stands in it.

import { addDays, addMonths, bestMonth, dayOf, midnight, monthOf, weekday, ymd } from './clock.js';
import { go } from './address.js';
import { DAY, at, now } from './instants.js';
import { keep, kept } from './kept.js';
import { known } from './known.js';

export const ZOOMS = { week: ['Week', 7], fortnight: ['2 weeks', 14], month: ['Month', 0] };  // with so many days; a month has its own
const CROWDED = 36;  // pixels of a day
const FIRST = at('2000-01-01T00:00Z');

export const view = {
  from: 0, to: 0, zoom: 'month', width: 1000,
  month: NaN,  // that was last shown: weeks lead back to it
  seat: '', word: '',  // whose rows
  rows: new Map(),  // of the members that it has
  isSlim() { return this.width / this.days.length < CROWDED; },
  days: [], isSure: false,
};
export const place = m => (m - view.from) / (view.to - view.from) * 100;  // per cent of the width
export const isShown = it => it.end > view.from && it.begin < view.to;

// The Monday on or before today, or on or before the first pairing of a month.
function bestWeek(month) {
  const next = addMonths(month, 1), today = now(), begins = known.pairings.map(it => it.begin).filter(m => m >= month && m < next);
  const day = dayOf(today >= month && today < next ? today : begins.length ? Math.min(...begins) : month);
  return addDays(day, -((weekday(day) + 6) % 7));
}

// When pairings begin: all that are listed, or those on the board.
function beginnings() {
  const onBoard = known.isListed ? [] : [...known.board.duties?.values() ?? []].flat().filter(it => it.kind === 'pairing');
  return [...known.pairings, ...onBoard].map(it => it.begin);
}
// Takes the days from the address: `2025-06-01/month`.
export function chooseView(day, zoom) {
  view.zoom = Object.hasOwn(ZOOMS, zoom ?? '') ? zoom : kept('zoom', 'month');
  keep('zoom', view.zoom);
  const [, count] = ZOOMS[view.zoom], [year, month, date] = (day ?? '').split('-').map(Number);
  const isDay = date && year >= 2000 && year < 2100, begins = isDay ? [] : beginnings(), thisMonth = monthOf(now());
  const first = isDay ? midnight(year, month - 1, date) : bestMonth(begins, now());
  view.isSure = isDay || known.isListed || begins.some(m => monthOf(m) === thisMonth);
  view.from = !count ? monthOf(first) : isDay ? first : bestWeek(first);
  view.to = count ? addDays(view.from, count) : addMonths(view.from, 1);
  if (!count) view.month = view.from;
  view.days = [];
  for (let n = 0; addDays(view.from, n) < view.to; n++) view.days.push(addDays(view.from, n));
}
// What is read of the book for it: a day more at both ends, so that it is enough by any clock. The book has no days before 2000.
export const around = () => ({ from: Math.max(FIRST, view.from - DAY), to: view.to + DAY, begin: view.from, end: view.to, isSure: view.isSure });
export const goTo = (m, zoom = view.zoom) => go(`board/${ymd(m)}/${zoom}`);
export const step = n => goTo(ZOOMS[view.zoom][1] ? addDays(view.from, n * ZOOMS[view.zoom][1]) : addMonths(view.from, n));
export function zoomTo(zoom) {
  const isBack = isShown({ begin: view.month, end: addMonths(view.month, 1) }), week = view.zoom === 'month' ? bestWeek(view.from) : view.from;
  goTo(zoom !== 'month' ? week : isBack ? view.month : view.from, zoom);
}
