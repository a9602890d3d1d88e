// The eight limits of a member as bars, each with the window or the period that is nearest to it. Their room is there before they are read.

import { unlessLost } from './asking.js';
import { fill, h } from './dom.js';
import { hm } from './instants.js';
import { reading } from './reading.js';
import { SECTIONS, WEEK, isRest, limitName, restText, windowText } from './sections.js';

const NEAR = 0.9;  // of the limit

// How much of a bar is full: of a rest, the least that must be beside what is there.
function share(it) {
  if (it.minutes == null) return 0;
  return isRest(it.section) ? it.limit / Math.max(it.minutes, 1) : it.minutes / it.limit;
}
function lengths(it) {
  if (it.minutes == null) return 'nothing to judge';
  if (!isRest(it.section)) return `${hm(it.minutes)} of ${hm(it.limit)}`;
  return it.minutes < WEEK ? `${hm(it.minutes)}, least ${hm(it.limit)}` : restText(it.minutes);
}
const row = (section, text, bar, small) => h('div.limit', h('span', limitName(section)), text, bar, h('small.num', section, small));

function limitRow(it) {
  const full = share(it), text = lengths(it), kind = it.exceeds ? 'over' : full > NEAR ? 'near' : '';
  const bar = h('div', {
    class: `meter ${kind}`, role: 'meter', label: limitName(it.section), 'aria-valuenow': Math.min(100, Math.round(full * 100)),
    'aria-valuemin': 0, 'aria-valuemax': 100, 'aria-valuetext': it.exceeds ? `exceeds: ${text}` : text,
  }, h('i', { style: { width: `${Math.min(100, full * 100)}%` } }));
  const nearest = it.duty ?? (it.minutes ? windowText(it) : '');
  return row(it.section, h('span', { class: it.exceeds ? 'num bad' : 'num' }, it.exceeds && '▲ ', text), bar,
    [nearest && ` · ${nearest}`, it.exceeds && ' · exceeds']);
}
const emptyRow = section => row(section, h('span.num.soft', '…'), h('div.meter'));

export function limitsOf(crew, stop) {
  const list = h('div.limits', SECTIONS.map(emptyRow));
  reading.limits(crew, null, 0, stop).then(limits => fill(list, limits.map(limitRow))).catch(unlessLost);
  return h('section.card', { label: 'Limits' }, h('h3', 'Nearest to each limit'),
    h('p.soft.small', 'Of all duties in the book, planned and flown. A full bar is the limit.'), list);
}
