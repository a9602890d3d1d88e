// Rows of the board: one for each member, with duties as bars; and the pairings with a free seat, in lanes below.

import { address, dutyPanel } from './address.js';
import { bar, labels, lanesOf, nextIn } from './bars.js';
import { when } from './clock.js';
import { $, all, fill, h, keyed } from './dom.js';
import { startDrag } from './drag.js';
import { hm, plural, sum } from './instants.js';
import { freeSeats, known, nameOf, openPairings } from './known.js';
import { marks } from './marks.js';
import { link } from './pieces.js';
import { isShown, view } from './view.js';

const LANES = 4, LANE = 2.3;  // lanes of open pairings that are seen at once; their height in rem

// Drawn anew, a part keeps its tab stop and its focus: this gives a function that finds them again.
function refocus(part) {
  const stop = part.querySelector('[tabindex="0"]'), isFocused = stop && stop === document.activeElement;
  return (anew = part) => {
    const el = stop && keyed(stop.dataset.key, anew);
    if (!el) return;
    el.tabIndex = 0;
    if (isFocused) el.focus({ preventScroll: true });
  };
}

export function memberRow(it) {
  const track = h('div.track', { role: 'gridcell' }), hours = h('span.num'), mark = h('span.mark', { 'aria-hidden': 'true' });
  const short = `${it.crew} ${it.seat === 'captain' ? 'CPT' : 'FO'}${it.base === 'HOME' ? '' : ' ' + it.base}`;
  const who = h('a.who', { role: 'rowheader', href: '#/member/' + it.crew, tabindex: -1, key: `who ${it.crew}` },
    mark, h('b', h('bdi', it.name)), h('small', h('span', short), hours));
  const row = h('div.row', { role: 'row', 'data-crew': it.crew }, who, track);
  view.rows.set(it.crew, { row, who, track, hours, mark, it, isNear: false, isDrawn: false });
  drawMark(it.crew);
  return row;
}

function describe(it) {
  if (it.kind === 'pairing') return `${it.name}, ${it.flown ? 'flown' : 'planned'}`;
  return it.kind === 'ground' ? `ground duty ${it.task}` : `flying ${it.id} for another airline`;
}
function dutyBar(it, n, list, lanes) {
  const isFirst = list.findIndex(other => other.kind === it.kind && other.id === it.id) === n, exceeds = it.exceeds.join(', ');
  const kind = it.kind === 'pairing' ? it.flown ? 'flown' : 'plan' : it.kind;
  const label = it.kind === 'ground' ? it.task : it.kind === 'pairing' && !isFirst ? `/${it.period}` : it.id;
  const isTight = lanes[n] > 0 || list.some((other, k) => lanes[k] > 0 && other.begin < it.end && it.begin < other.end);
  const figures = it.fdp != null && `FDP ${hm(it.fdp)}, flight ${hm(it.flight)}`;
  return bar(it, nextIn(list, lanes, n), [kind, exceeds && 'exceeds', isTight && 'tight'], labels(it, label), {
    key: `${it.crew} ${it.key}`, 'data-to': dutyPanel(it), style: { '--lane': lanes[n] },
    label: `${nameOf(it.crew)}: ${describe(it)}, ${when(it.begin)} to ${when(it.end)}${exceeds && ', exceeded ' + exceeds}`,
    title: [`${it.kind === 'ground' ? it.task : it.name}  ${when(it.begin)} – ${when(it.end)}`, figures,
      exceeds && `exceeded ${exceeds}`].filter(Boolean).join('\n'),
  });
}

// Draws a member's duties, if they were read and the row is near the window (or `anyway`).
export function drawRow(crew, anyway) {
  const it = view.rows.get(crew), duties = known.board.duties?.get(crew);
  if (!it || !duties || !(it.isNear || anyway)) return;
  it.isDrawn = true;
  const list = duties.filter(isShown), { lanes } = lanesOf(list), back = refocus(it.track);
  it.hours.textContent = hm(sum(list, 'flight'));
  fill(it.track, list.map((duty, n) => dutyBar(duty, n, list, lanes)));
  markPanel(it.track);
  back();
}
export function drawAll() {
  for (const [crew, it] of view.rows) { it.isDrawn = false; drawRow(crew); }
  const lanes = $('lanes');
  if (!lanes) return;
  const back = refocus(lanes), anew = openLanes();
  lanes.replaceWith(anew);
  back(anew);
  markPanel(anew);
}
function openBar(it, n, list, lanes) {
  const needs = freeSeats(it).join(' and ');
  return bar(it, nextIn(list, lanes, n), ['open', freeSeats(it).length === 1 && 'half'], labels(it, it.pairing), {
    key: `open ${it.pairing}`, 'data-to': 'pairing/' + it.pairing, 'data-open': it.pairing, style: { top: `${lanes[n] * LANE + 0.1}rem` },
    label: `Open pairing ${it.pairing}, ${when(it.begin)} to ${when(it.end)}, needs ${needs}`,
    title: `${it.pairing}  ${when(it.begin)} – ${when(it.end)}\nneeds ${needs}\nDrag it to a member, or press Enter`, onpointerdown: e => startDrag(e,
      it.pairing),
  });
}
export function openLanes() {
  const list = openPairings().filter(isShown), { lanes, count } = lanesOf(list, (view.to - view.from) / 30);
  const height = `${Math.min(LANES, Math.max(1, count)) * LANE + 0.3}rem`;
  return h('div.lanes', { id: 'lanes', role: 'row' },
    h('div', { role: 'rowheader' }, h('b', `${list.length} open`), h('br'), h('span.small.noprint', link('open', 'List')),
      count > LANES && h('div.small.soft', `${count} lanes: scroll`)),
    h('div.track', { role: 'gridcell', style: { height } }, list.map((it, n) => openBar(it, n, list, lanes))));
}

// Shows the rows of the seat and the word that are chosen.
export function filterRows() {
  const word = view.word.toLowerCase(), fits = it => (!view.seat || it.seat === view.seat) && `${it.crew} ${it.name} ${it.base}`.toLowerCase().includes(word);
  let shown = 0;
  for (const { row, it } of view.rows.values()) {
    row.hidden = !fits(it);
    shown += !row.hidden;
  }
  if (!$('grid')) return;
  const count = `${shown} of ${view.rows.size}`, words = [view.seat && `${view.seat}s`, word && `“${view.word}”`].filter(Boolean).join(', ');
  $('shown').textContent = shown === view.rows.size ? plural(shown, 'member') : count;
  $('chosen').textContent = words && `. Only ${words}: ${count} members`;
}

// Shows beside a row whether its member may fly the pairing that is looked at.
export function drawMark(crew) {
  const it = view.rows.get(crew), verdict = marks.verdicts.get(crew);
  if (!it) return;
  it.row.classList.toggle('yes', verdict?.ok === true);
  it.row.classList.toggle('no', verdict?.ok === false);
  it.mark.textContent = !verdict ? '' : verdict.ok ? '✓' : '✗';
  it.who.title = verdict ? `${it.it.name}: ${verdict.ok ? 'may fly' : 'may not fly'} ${marks.pairing}. ${verdict.text}` : it.it.name;
}
// Marks the bars of what stands in the panel.
export function markPanel(part = document) {
  const to = address().panel?.join('/');
  for (const it of all('.duty', part)) it.classList.toggle('chosen', it.dataset.to === to);
}
