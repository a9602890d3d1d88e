// Dragging an open pairing to a member's row. Meanwhile the members are looked at, and each row says whether it may; a drop assigns.

import { assign } from './acting.js';
import { address } from './address.js';
import { unlessLost } from './asking.js';
import { candidates } from './candidates.js';
import { h } from './dom.js';
import { detailOf, freeSeats, memberOf, pairingOf } from './known.js';
import { clearMarks, marks, startMarks } from './marks.js';

const MOVED = 6, BESIDE = 12;  // pixels: from where on it is a drag; from the pointer to its words
const drag = { pairing: null, words: null, row: null, stop: null, last: null };
export const isDragged = () => drag.words !== null;

// What would come of a drop: words, and whether it is refused.
function outcome() {
  const { pairing } = drag, crew = drag.row?.dataset.crew, it = memberOf(crew), verdict = marks.verdicts.get(crew);
  if (!it) return { text: `${pairing}: drop it on a member` };
  if (!freeSeats(pairingOf(pairing)).includes(it.seat)) return { text: `The ${it.seat}’s seat of ${pairing} is taken`, isRefused: true };
  return { text: `${pairing} to ${it.name}: ${!verdict ? 'being looked at' : verdict.ok ? 'may fly' : verdict.text}`,
    isRefused: verdict?.ok === false };
}
export function drawDrag() {
  const { clientX, clientY } = drag.last, row = document.elementsFromPoint(clientX, clientY).map(it => it.closest('.row')).find(Boolean);
  if (row !== drag.row) {
    drag.row?.classList.remove('over', 'barred');
    row?.classList.add('over');
    drag.row = row;
  }
  const { text, isRefused = false } = outcome(), left = Math.min(clientX + BESIDE, innerWidth - drag.words.offsetWidth - BESIDE);
  drag.words.textContent = text;
  drag.words.classList.toggle('no', isRefused);
  row?.classList.toggle('barred', isRefused);
  drag.words.style.left = `${Math.max(0, left)}px`;
  drag.words.style.top = `${Math.min(clientY + BESIDE, innerHeight - drag.words.offsetHeight - BESIDE)}px`;
}
function begin() {
  drag.words = h('div.drag', { role: 'status' });
  drag.stop = new AbortController();
  document.body.append(drag.words);
  if (marks.pairing === drag.pairing) return;
  startMarks(drag.pairing);
  detailOf(drag.pairing, drag.stop.signal).then(it => freeSeats(it).forEach(seat => candidates(drag.pairing, seat,
    drag.stop.signal))).catch(unlessLost);
}
// (The click that ends a drag opens nothing.)
function swallowClick() {
  const swallow = e => { e.stopPropagation(); e.preventDefault(); };
  addEventListener('click', swallow, { capture: true, once: true });
  setTimeout(() => removeEventListener('click', swallow, true), 50);
}
function finish(isDropped) {
  const { pairing } = drag, crew = drag.row?.dataset.crew;
  drag.stop.abort();
  drag.words.remove();
  drag.row?.classList.remove('over', 'barred');
  Object.assign(drag, { words: null, row: null });
  swallowClick();
  if (address().panel?.[1] !== pairing) clearMarks();
  if (isDropped && crew) assign(crew, pairing);
}

export function startDrag(e, pairing) {
  if (e.button || e.pointerType === 'touch') return;
  const { clientX, clientY } = e, heard = new AbortController();
  const listen = (type, hear) => addEventListener(type, hear, { capture: true, signal: heard.signal });
  const end = isDropped => { heard.abort(); if (isDragged()) finish(isDropped); };
  drag.pairing = pairing;
  listen('pointermove', ev => {
    drag.last = ev;
    if (!isDragged() && Math.hypot(ev.clientX - clientX, ev.clientY - clientY) < MOVED) return;
    if (!isDragged()) begin();
    drawDrag();
  });
  listen('pointerup', () => end(true));
  listen('pointercancel', () => end(false));
  listen('keydown', ev => { if (ev.key === 'Escape') { ev.stopPropagation(); end(false); } });
  e.preventDefault();
  e.currentTarget.focus();
}
