// Bars of the board: one for each duty, with a label over it where there is room; bars that meet stand in lanes, one over the other.

import { time } from './clock.js';
import { h } from './dom.js';
import { place, view } from './view.js';

const LETTER = 6.3, SLIM_LETTER = 5.7, MARGIN = 3, WARNED = 11;  // pixels of a label; with ▲
const LEAST = 3;  // pixels of a bar

// The number of the lane for each of these, in order of time: the first that is free. `least` is how long each takes at least.
export function lanesOf(list, least = 0) {
  const ends = [], lanes = [];
  for (const it of list) {
    const free = ends.findIndex(end => end <= it.begin), lane = free < 0 ? ends.length : free;
    ends[lane] = Math.max(it.end, it.begin + least);
    lanes.push(lane);
  }
  return { lanes, count: ends.length };
}
export const nextIn = (list, lanes, n) => list.find((it, k) => k > n && lanes[k] === lanes[n])?.begin ?? view.to;

// What may stand over a bar, the longest first.
export const labels = (it, name) => view.zoom === 'month' ? [name] : [`${name} ${time(it.begin)}–${time(it.end)}`, `${name} ${time(it.begin)}`, name];

// A bar of a duty; its label may be longer, if there is room until `next`.
export function bar(it, next, classes, texts, attributes) {
  const from = Math.max(it.begin, view.from), left = place(from), width = Math.max(place(Math.min(it.end, view.to)) - left, LEAST / view.width * 100);
  const letter = view.isSlim() ? SLIM_LETTER : LETTER, more = classes.includes('exceeds') ? WARNED : MARGIN;
  const widthOf = text => (text.length * letter + more) / view.width * 100, room = Math.max(width, place(Math.min(next, view.to)) - left);
  const text = texts.find(label => widthOf(label) <= room), whole = text == null ? width : Math.max(width, widthOf(text));
  const { style, ...rest } = attributes;
  return h('button', { type: 'button', class: ['duty', ...classes].filter(Boolean).join(' '), tabindex: -1,
    style: { left: `${left}%`, width: `${whole}%`, ...style }, ...rest },
    h('span', text), h('i', { style: { width: `${width / whole * 100}%` } }));
}
