// Keys on the board. It has one tab stop; arrows go from duty to duty, and from row to row to what is nearest in time.

import { $, all } from './dom.js';
import { drawRow } from './rows.js';
import { step, view } from './view.js';

const leftOf = el => parseFloat(el.style.left) || 0;
const stopsOf = row => all('.who, .duty', row);

export function focusOn(el) {
  if (!el) return;
  for (const it of all('[tabindex="0"]', $('grid'))) it.tabIndex = -1;
  el.tabIndex = 0;
  el.focus({ preventScroll: true });
  el.scrollIntoView({ block: 'nearest', inline: 'nearest' });
}
// The first row is the tab stop, if there is none.
export function setTabStop() {
  const grid = $('grid'), first = grid?.querySelector('.row:not([hidden]) .who, .duty');
  if (first && !grid.querySelector('[tabindex="0"]')) first.tabIndex = 0;
}
export const enterGrid = () => focusOn($('grid').querySelector('[tabindex="0"]'));
function otherRow(row, n) {
  const rows = all('.row:not([hidden]), .lanes', $('grid'));
  return rows[rows.indexOf(row) + n] ?? row;
}
function focusInRow(row, from) {
  if (view.rows.get(row.dataset.crew)?.isDrawn === false) drawRow(row.dataset.crew, true);
  const stops = stopsOf(row), bars = stops.filter(it => it.matches('.duty')), far = it => Math.abs(leftOf(it) - leftOf(from));
  focusOn(from.matches('.who') || !bars.length ? stops[0] : bars.reduce((a, b) => far(b) < far(a) ? b : a));
}
export function boardKeys(e) {
  const el = e.target.closest('.who, .duty'), row = el?.closest('.row, .lanes'), pages = { PageUp: -1, PageDown: 1 }[e.key];
  if (pages) { e.preventDefault(); return step(pages); }
  if (!row || !/^(Arrow|Home|End)/.test(e.key)) return;
  e.preventDefault();
  const stops = stopsOf(row), n = stops.indexOf(el);
  const to = { ArrowRight: stops[n + 1], ArrowLeft: stops[n - 1], Home: stops[0], End: stops.at(-1) };
  if (e.key in to) focusOn(to[e.key]);
  else focusInRow(otherRow(row, e.key === 'ArrowDown' ? 1 : -1), el);
}
