// The board: a row for each member over a week, two weeks or a month, and below it the pairings with a free seat.

import { unlessLost } from './asking.js';
import { addDays, clock, clockName, date, dayOf, local, monthName, weekday, weekdayName } from './clock.js';
import { h } from './dom.js';
import { boardKeys, setTabStop } from './gridkeys.js';
import { now } from './instants.js';
import { known, readBoard } from './known.js';
import { link } from './pieces.js';
import { drawAll, drawRow, filterRows, memberRow, openLanes } from './rows.js';
import { ZOOMS, chooseView, goTo, place, step, view, zoomTo } from './view.js';

const QUARTERS = [360, 720, 1080];  // minutes of a day, where a week has lines
const LEGEND = [['plan', 'planned'], ['flown', 'flown'], ['ground', 'ground duty'], ['outside', 'for another airline'], ['open', 'free seats'],
  ['open half', 'one seat free']];

const column = m => ({ left: `${place(m)}%`, width: `${place(addDays(m, 1)) - place(m)}%` });
const isWeekend = m => weekday(m) % 6 === 0;
function dayHead(m) {
  const classes = ['dayname', isWeekend(m) && 'weekend', m === dayOf(now()) && 'today'].filter(Boolean).join(' ');
  return h('div', { class: classes, style: column(m) }, h('b', local(m).getUTCDate()),
    view.zoom === 'month' ? weekdayName(m).slice(0, 2) : weekdayName(m));
}
function columns() {
  const days = view.days.map(m => h('i', { class: isWeekend(m) && 'weekend', style: column(m) }));
  const quarters = view.zoom !== 'month' && view.days.flatMap(m => QUARTERS.map(q => h('i.quarter', { style: { left: `${place(m + q)}%` } })));
  return h('div.columns', days, quarters, now() > view.from && now() < view.to && h('i.now', { style: { left: `${place(now())}%` } }));
}
function titleOf() {
  const last = view.to - 1;
  return view.zoom === 'month' ? monthName(view.from) : `${date(view.from)} – ${date(last)} ${local(last).getUTCFullYear()}`;
}

// One of several, as radio buttons side by side.
function choice(name, options, value, choose) {
  return h('span.choice', { role: 'radiogroup', label: name },
    options.map(([key, text]) => h('label', h('input', { type: 'radio', name, value: key, checked: key === value, onchange: () => choose(key) }),
      h('span', text))));
}
function controls(title) {
  const filter = h('input', { type: 'search', placeholder: 'Name, id or base', label: 'Filter members', value: view.word,
    oninput: e => { view.word = e.target.value; filterRows(); } });
  return h('div.line.noprint', h('h1', { tabindex: -1, class: 'month' }, title),
    h('span.line', h('button', { label: 'Earlier', title: 'Earlier (Page Up)', key: 'earlier', onclick: () => step(-1) }, '‹'),
      h('button', { key: 'today', onclick: () => goTo(now()) }, 'Today'),
      h('button', { label: 'Later', title: 'Later (Page Down)', key: 'later', onclick: () => step(1) }, '›')),
    choice('Zoom', Object.entries(ZOOMS).map(([key, [name]]) => [key, name]), view.zoom, zoomTo),
    choice('Seats', [['', 'All'], ['captain', 'Captains'], ['first officer', 'First officers']], view.seat,
      seat => { view.seat = seat; filterRows(); }), filter);
}

// Rows are drawn when they come near the window, and anew when its width changes.
function watch(grid, track, stop) {
  const measure = () => { view.width = track.clientWidth || 1000; grid.classList.toggle('slim', view.isSlim()); };
  const near = new IntersectionObserver(list => {
    for (const { target, isIntersecting } of list) {
      const row = view.rows.get(target.dataset.crew);
      if (!row) continue;
      row.isNear = isIntersecting;
      if (isIntersecting && !row.isDrawn) drawRow(target.dataset.crew);
    }
  }, { root: grid, rootMargin: '500px 0px' });
  const sized = new ResizeObserver(() => {
    const before = view.width;
    measure();
    if (before !== view.width) drawAll();
  });
  measure();
  for (const { row } of view.rows.values()) near.observe(row);
  sized.observe(track);
  stop.addEventListener('abort', () => { near.disconnect(); sized.disconnect(); });
}

// How far today is from the first day shown, in pixels.
export const todayAt = () => now() > view.from && now() < view.to ? place(dayOf(now())) / 100 * view.width : 0;

export function boardScreen([day, zoom], stop) {
  chooseView(day, zoom);
  view.rows.clear();
  const title = titleOf(), days = h('div.track', { role: 'columnheader', label: title }, view.days.map(dayHead));
  const head = h('div.days', { role: 'row' }, h('div', { role: 'columnheader', class: 'small soft' }, h('span', { id: 'shown' }), h('br'),
    h('div.line.end', clock.base === 'UTC' ? 'UTC' : `${clock.base} time`, h('span', 'flight'))), days);
  const sheet = h('div.sheet', { style: { '--days': view.days.length } }, head, columns(), known.members.map(memberRow),
    !known.members.length && h('p.empty', 'The book has no members yet. ', link('members', 'Add the first one'), ', then ',
      link('import', 'import a schedule, or write a pairing by hand'), '.'));
  const grid = h('div', { class: `gantt ${view.zoom}`, role: 'grid', id: 'grid',
    label: `Duties, ${title}, ${clockName()}. Arrow keys move from duty to duty.`, onkeydown: boardKeys }, sheet);
  queueMicrotask(() => {  // (once it has its place in the page)
    filterRows();
    watch(grid, days, stop);
    if (known.members.length) sheet.append(openLanes());
    readBoard(view, stop).then(() => { if (!stop.aborted) drawAll(); }).catch(unlessLost);
    setTabStop();
  });
  return [controls(title), h('p.printonly', `Roster, ${title}, ${clockName()}`, h('b', { id: 'chosen' })), grid,
    h('div.legend', LEGEND.map(([kind, text]) => h('span', { class: kind }, h('i'), text)), h('span.bad', '▲ exceeded a limit'),
      h('span', h('b.good', '✓ '), 'may fly the pairing that is chosen'))];
}
