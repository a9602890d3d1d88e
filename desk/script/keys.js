// Keys of the whole page, and what they are.

import { go } from './address.js';
import { $, h } from './dom.js';
import { enterGrid } from './gridkeys.js';
import { now } from './instants.js';
import { readAgain } from './known.js';
import { closeMessages } from './messages.js';
import { isOnBoard, leavePanel } from './screens.js';
import { journal } from './sending.js';
import { goTo, zoomTo } from './view.js';

const SENT = 8;  // commands that are told
const SCREEN_KEYS = { b: 'board', o: 'open', e: 'exceedances', m: 'members', i: 'import' };
const ZOOM_KEYS = { 1: 'week', 2: 'fortnight', 3: 'month' };
const KEYS = [
  ['/', 'find a member, a pairing or a flight'], ['b o e m i', 'board, open pairings, exceedances, members, import'],
  ['← → ↑ ↓', 'on the board: from duty to duty'], ['Enter', 'open the duty'], ['Esc', 'close the message, then the panel; stop dragging'],
  ['Page Up, Page Down', 'on the board: earlier, later'], ['1 2 3', 'on the board: week, two weeks, month'], ['t', 'on the board: today'],
  ['u', 'UTC, or the time of a base'], ['r', 'read the book again'], ['?', 'this help'],
];

export function help() {
  const dialog = h('dialog', { label: 'Keys', onclose: () => dialog.remove() }, h('h2', 'Keys'),
    h('dl.keys', KEYS.map(([key, text]) => [h('dt', h('kbd', key)), h('dd', text)])),
    h('h3', 'What this desk sent last'),
    h('ul.small', journal().slice(0, SENT).map(it => h('li', `${it.words}: ${it.result} `, h('span.soft.num', it.number)))),
    h('form', { method: 'dialog' }, h('button', 'Close')));
  document.body.append(dialog);
  dialog.showModal();
}

function press(key, nextClock) {
  if (SCREEN_KEYS[key]) go(SCREEN_KEYS[key]);
  else if (ZOOM_KEYS[key] && isOnBoard()) zoomTo(ZOOM_KEYS[key]);
  else if (key === 't' && isOnBoard()) goTo(now());
  else if (key === 'u') nextClock();
  else if (key === 'r') readAgain();
  else if (key === '?') help();
  else return false;
  return true;
}
export function listenToKeys(nextClock) {
  addEventListener('keydown', e => {
    if (e.ctrlKey || e.metaKey || e.altKey || document.querySelector('dialog[open]')) return;
    if (e.key === 'Escape' && !closeMessages() && !$('panel').hidden) return leavePanel();
    if (e.target.matches('input, select, textarea')) return;
    if (isOnBoard() && e.key.startsWith('Arrow') && e.target.matches('body, main, h1')) {
      e.preventDefault();
      return enterGrid();
    }
    if (e.key === '/') { e.preventDefault(); $('find').focus(); } else press(e.key, nextClock);
  });
}
