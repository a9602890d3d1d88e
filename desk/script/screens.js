// Which screen is shown, and what stands in the panel beside it.

import { address, closePanel } from './address.js';
import { boardScreen, todayAt } from './board.js';
import { chooseClock, zones } from './clock.js';
import { $, all, fill, h, isPhone, keyed } from './dom.js';
import { exceedancesScreen } from './exceeded.js';
import { flightView } from './flights.js';
import { focusOn } from './gridkeys.js';
import { importScreen } from './importing.js';
import { keep, kept } from './kept.js';
import { IN_USE, UNSENT, detailOf, known, memberOf, pairingOf, rosterOf } from './known.js';
import { clearMarks } from './marks.js';
import { memberView } from './member.js';
import { membersScreen } from './members.js';
import { openScreen } from './open.js';
import { otherDuty } from './otherduty.js';
import { pairingView } from './pairing.js';
import { pending } from './pieces.js';
import { markPanel } from './rows.js';
import { around, chooseView } from './view.js';

const MOMENTS = 30;  // a tenth of a second apart
const SCREENS = {
  board: boardScreen, open: openScreen, exceedances: exceedancesScreen, members: membersScreen, import: importScreen,
  member: ([crew], stop) => memberView(crew, stop, true, takeMine), pairing: ([id], stop) => pairingView(id, stop, true),
};
const PANELS = {
  pairing: ([id], stop) => pairingView(id, stop), member: ([crew], stop) => memberView(crew, stop), flight: ([flight]) => flightView(flight),
  ground: ([crew, id], stop) => otherDuty('ground', crew, id, stop), outside: ([crew, id], stop) => otherDuty('outside', crew, id, stop),
};
// What can be drawn before the lists are read; all else waits for them.
const isReady = ([name]) => known.isListed || name === 'board' || name === 'members';  // (no panel)
const notYet = () => h('h1.waiting', { tabindex: -1 }, 'Reading the book…');
// What each part of the page shows, and whether that was read anew since it was drawn.
const shown = { main: {}, panel: {}, from: null };
export const isOnBoard = () => shown.main.to.startsWith('board');

// The link to the member who sits here.
export function drawMine() {
  const me = kept('me');
  $('mine').hidden = !me;
  $('mine').href = `#/member/${me}`;
}

// Who sits here sees times by the clock of their base, until another one is chosen.
function takeMine(crew) {
  keep('me', crew);
  const { base } = memberOf(crew) ?? {};
  if (zones.get(base)) chooseClock(base);
  known.recount();
  show(true, UNSENT);
}

// (A phone begins with the page of the member whose phone it is.)
function current() {
  const { screen, panel } = address(), home = isPhone() && kept('me') ? ['member', kept('me')] : ['board'];
  return { screen: Object.hasOwn(SCREENS, screen[0]) ? screen : home, panel: panel && Object.hasOwn(PANELS, panel[0]) ? panel : null };
}
// The days to read for the board, if it is what the address says.
export function boardWindow() {
  const [name, day, zoom] = current().screen;
  if (name !== 'board') return null;
  chooseView(day, zoom);
  return around();
}

function drawScreen([name, ...words], isAnew, stop, hasWaited) {
  const grid = $('grid'), scrolled = grid ? [grid.scrollLeft, grid.scrollTop] : [0, 0], top = scrollY, main = $('main');
  const isFirst = !document.body.className || hasWaited;
  document.body.className = name;
  fill(main, isReady([name]) ? SCREENS[name](words, stop) : notYet());
  const heading = main.querySelector('h1');
  document.title = `${heading.textContent} – Roster book`;
  for (const it of all('nav a')) it.ariaCurrent = it.hash.slice(2).split('/')[0] === name ? 'page' : null;
  if ($('grid')) requestAnimationFrame(() => $('grid')?.scrollTo(isAnew ? scrolled[0] : todayAt(), scrolled[1]));
  if (isAnew) setTimeout(() => scrollTo(0, top));
  else if (!$('grid') || !grid) {
    scrollTo(0, 0);
    if (!isFirst) heading.focus();
  }
}
// What is drawn anew may have parts that must be read first: what is to be done to them is tried until it is done.
function again(isDone, otherwise, tries = MOMENTS) {
  if (isDone()) return;
  if (tries) setTimeout(again, 100, isDone, otherwise, tries - 1);
  else otherwise?.();
}
// Scrolls as far as before, unless somebody has scrolled meanwhile.
function scrollBack(box, top) {
  let last = box.scrollTop;
  again(() => {
    if (last !== box.scrollTop) return true;
    box.scrollTop = top;
    last = box.scrollTop;
    return last >= top;
  });
}
function drawPanel(panel, isAnew, stop, hasWaited) {
  const box = $('panel'), top = isAnew ? box.scrollTop : 0;
  box.hidden = !panel;
  if (!isAnew) clearMarks();
  if (panel) {
    const close = h('button.close', { onclick: leavePanel, label: 'Close the panel', key: 'close' }, '✕');
    fill(box, close, isReady(panel) ? PANELS[panel[0]](panel.slice(1), stop) : h('div.waiting', pending()));
  } else fill(box);
  setTimeout(scrollBack, 0, box, top);
  if (panel && !isAnew && !hasWaited) box.focus({ preventScroll: true });
  markPanel();
  for (const it of all('tr.go')) it.setAttribute('aria-selected', !!panel && it.querySelector('a').hash.endsWith('+' + panel.join('/')));
}

// Draws what the address says, and a part that was read anew once nothing `held` stands in it. The focus stays.
export function show(isAnew, held = IN_USE) {
  const { screen, panel } = current(), { activeElement: focus, body } = document, { key } = focus.dataset, box = focus.closest('#panel');
  const alike = () => all(focus.tagName).filter(it => it.isEqualNode(focus)), n = alike().indexOf(focus);
  if (panel && panel.join('/') !== shown.panel.to) shown.from = key;
  for (const [id, words, draw] of [['main', screen, drawScreen], ['panel', panel, drawPanel]]) {
    const part = shown[id], to = words?.join('/'), isOther = to !== part.to, hasWaited = !isOther && !!$(id).querySelector('.waiting');
    part.isStale ||= isAnew || hasWaited;
    if (!isOther && (!part.isStale || $(id).querySelector(held))) continue;
    part.stop?.abort();
    Object.assign(part, { to, isStale: false, stop: new AbortController() });
    draw(words, !isOther && !hasWaited, part.stop.signal, hasWaited);
  }
  if (focus === body) return;
  again(() => document.activeElement !== body || (key ? keyed(key) : alike()[n])?.focus({ preventScroll: true }), () => box?.focus());
}
// Draws it anew, since the book was read again. What the screen or the panel is of is read before, so that it is there at once.
export async function redraw(held, isAnew) {
  const { screen, panel } = current();
  await Promise.all([screen, panel ?? []].map(([kind, id]) => kind === 'pairing' ? pairingOf(id) && detailOf(id) : memberOf(id) && rosterOf(id)));
  show(isAnew, held);
}
// Closes the panel, and brings the focus back to where it was opened.
export function leavePanel() {
  closePanel();
  setTimeout(() => {
    const back = shown.from && keyed(shown.from);
    if (back?.closest('#grid')) focusOn(back);
    else back?.focus();
  });
}
