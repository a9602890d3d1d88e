// The beginning: the head of the page, what the page listens to, and the first reading of the book.

import { sendAgain } from './acting.js';
import { beside, go } from './address.js';
import { chooseClock, clock, zones } from './clock.js';
import { $, fill, h } from './dom.js';
import { drawDrag, isDragged } from './drag.js';
import { pairingsWith } from './flights.js';
import { focusOn } from './gridkeys.js';
import { help, listenToKeys } from './keys.js';
import { UNSENT, known, memberOf, openPairings, pairingOf, readAgain } from './known.js';
import { marks } from './marks.js';
import { tell } from './messages.js';
import { drawMark, drawRow } from './rows.js';
import { boardWindow, drawMine, redraw, show } from './screens.js';
import { view } from './view.js';
import { watchBook } from './watching.js';

const FOUND = 3000;  // pairings that the field offers

function drawHead() {
  if (known.isListed) {
    $('openCount').textContent = openPairings().length;
    $('exceededCount').textContent = known.exceedances.length;
  }
  fill($('clock'), ['UTC', ...zones.keys()].map(base => h('option', { value: base, selected: base === clock.base },
    base === 'UTC' ? 'UTC' : `${base} time`)));
  fill($('ids'), known.members.map(it => h('option', { value: it.crew }, it.name)),
    known.pairings.slice(-FOUND).map(it => h('option', { value: it.pairing }, 'pairing')));
  drawMine();
}
function setClock(base) {
  chooseClock(base);
  drawHead();
  show(true, UNSENT);
}
function nextClock() {
  const all = ['UTC', ...zones.keys()];
  setClock(all[(all.indexOf(clock.base) + 1) % all.length]);
}
function find(text) {
  const word = text.trim().toUpperCase(), flights = pairingsWith(word), named = word && known.members.find(it => it.name.toUpperCase().includes(word));
  if (memberOf(word)) go('member/' + word);
  else if (pairingOf(word)) go('pairing/' + word);
  else if (flights.length === 1) go('pairing/' + flights[0].pairing);
  else if (flights.length) location.hash = beside('flight/' + word);
  else if (named) go('member/' + named.crew);
  else if (!known.isListed) go('pairing/' + word);
  else tell(false, `Nothing is named ${word}.`, h('p', 'Type the id of a member or of a pairing, a part of a name, or a flight of the days on the board.'));
}

function listen() {
  addEventListener('click', e => {
    const bar = e.target.closest('.duty');
    if (!bar) return;
    focusOn(bar);
    location.hash = beside(bar.dataset.to);
  });
  // What is typed stays when the book is read again, until it is sent.
  addEventListener('input', e => {
    if (!e.target.matches('form select, textarea, input:not([type=search], [type=checkbox], [type=radio], [type=file])')) return;
    e.target.dataset.typed = '1';
    e.target.closest('form')?.removeAttribute('data-sent');
  });
  addEventListener('submit', e => { e.preventDefault(); e.target.dataset.sent = '1'; }, true);  // (the form's part sends it)
  addEventListener('hashchange', () => show());
  addEventListener('beforeprint', () => { for (const [crew, row] of view.rows) if (!row.isDrawn) drawRow(crew, true); });
  $('skip').addEventListener('click', e => { e.preventDefault(); $('main').focus(); });
  $('find').addEventListener('keydown', e => { if (e.key === 'Enter') { find(e.target.value); e.target.value = ''; } });
  $('clock').addEventListener('change', e => setClock(e.target.value));
  $('help').addEventListener('click', help);
  $('again').addEventListener('click', () => readAgain());
  listenToKeys(nextClock);
}

// Once enough of the book was read for the first time.
function beginWork() {
  known.begin = () => {};
  marks.draw = crew => { drawMark(crew); if (isDragged()) drawDrag(); };
  listen();
  show();
  document.documentElement.dataset.ready = '1';
  sendAgain();
}
Object.assign(known, { recount: drawHead, window: boardWindow, begin: beginWork, redraw });
watchBook();
readAgain();
