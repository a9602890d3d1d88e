// A member: the month in words, with the rest before each duty; the limits; ground duty, and flying for another airline.

import { beside, dutyPanel } from './address.js';
import { unlessLost } from './asking.js';
import { addMonths, bestMonth, clockName, date, monthName, monthOf, span } from './clock.js';
import { fill, h, isPhone } from './dom.js';
import { ifWithin } from './exceeded.js';
import { DAY, hm, now, sum } from './instants.js';
import { kept } from './kept.js';
import { exceededBy, memberOf, rosterOf } from './known.js';
import { limitsOf } from './limits.js';
import { groundForm, outsideForm } from './otherduty.js';
import { empty, link, pending, routeOf, table, tag } from './pieces.js';
import { inWords } from './refusals.js';

const LONG_REST = 99 * 60;  // is no longer told

const kindName = { pairing: 'Pairing', ground: 'Ground', outside: 'Outside' };
function kindTag(duty) {
  if (duty.kind === 'pairing') return tag(duty.flown);
  return duty.kind === 'ground' ? h('span.soft', h('bdi', duty.task)) : h('span.tag', 'other airline');
}

function dutyRow(duty, duties, stop) {
  const before = Math.max(...duties.slice(0, duties.indexOf(duty)).map(it => it.end)), rest = duty.begin - before;
  const sections = exceededBy(duty), cell = (label, text) => h('td', { column: label, class: 'num' }, text);
  const exceeded = h('span.bad', `▲ exceeded ${sections.join(', ')}`), classes = [sections.length > 0 && 'bad', duty.end > now() && 'coming'];
  const row = h('tr', { class: classes.filter(Boolean).join(' ') }, h('td.num', date(duty.begin)),
    h('td', { column: kindName[duty.kind] }, h('span', h('a', { href: beside(dutyPanel(duty)) }, duty.kind === 'pairing' ? duty.name : duty.id),
      ' ', kindTag(duty), duty.plan && h('span.soft.small.below', routeOf([duty.plan])))),
    cell(duty.kind === 'ground' ? 'From – to' : 'Report – release', span(duty)), cell('FDP', duty.fdp != null && hm(duty.fdp)),
    cell('Flight', duty.flight != null && hm(duty.flight)), cell('Rest before', rest < LONG_REST && hm(Math.max(0, rest))),
    h('td', sections.length > 0 && exceeded));
  ifWithin(duty, sections, stop, () => {
    for (const it of [row, exceeded]) it.classList.remove('bad');
    exceeded.append(': within now');
  });
  return row;
}
function monthTable(name, month, duties, stop) {
  const list = duties.filter(it => it.end > month && it.begin < addMonths(month, 1));
  if (!list.length) return empty(`No duty in ${monthName(month)}.`);
  return table('.cards.duties', `Roster of ${name}, ${monthName(month)}`, ['Day', 'Duty', 'Times', 'FDP', 'Flight', 'Rest before', 'Limits'],
    list.map(it => dutyRow(it, duties, stop)));
}

const months = new Map();  // which one is shown of a member
function rosterTable({ crew, name }, duties, stop) {
  const box = h('div.stack');
  function draw() {
    const month = months.get(crew), list = duties.filter(it => it.begin >= month && it.begin < addMonths(month, 1));
    const step = (n, text, label) => h('button', { label, key: `month ${n}`,
      onclick: () => { months.set(crew, addMonths(month, n)); draw(); } }, text);
    fill(box, h('div.line', h('span.noprint', step(-1, '‹', 'The month before')), h('h3', monthName(month)),
      h('span.noprint', step(1, '›', 'The next month')),
      h('span.soft.num.push', `flight ${hm(sum(list, 'flight'))} · FDP ${hm(sum(list, 'fdp'))} · ${clockName()}`)), monthTable(name, month, duties, stop));
  }
  if (!months.has(crew)) months.set(crew, bestMonth(duties.map(it => it.begin), now()));
  months.set(crew, monthOf(months.get(crew) + DAY));  // (of the clock that is chosen now)
  draw();
  return box;
}

function screenButtons(crew, mine) {
  const box = h('input', { type: 'checkbox', checked: kept('me') === crew, onchange: () => mine(box.checked ? crew : null) });
  return h('span.line.push.noprint', h('label.small', box, ' This is me'), h('button', { onclick: () => print() }, 'Print'));
}

// A whole screen, or the panel beside one. `mine` is called when somebody says who sits here.
export function memberView(crew, stop, isScreen, mine) {
  const it = memberOf(crew), heading = isScreen ? 'h1' : 'h2';
  if (!it) return h('div.stack', h(heading, { tabindex: -1 }, crew), inWords(2));
  const roster = h('div.stack', pending());
  rosterOf(crew, 0, stop).then(duties => {
    const isFirst = !months.has(crew);
    fill(roster, rosterTable(it, duties, stop));
    if (isFirst && isPhone()) roster.querySelector('tr:not(.coming) + .coming')?.scrollIntoView();
  }).catch(unlessLost);
  const head = h('div.line', h(heading, { tabindex: -1 }, h('bdi', it.name)), h('span.soft', `${crew} · ${it.seat} · ${it.base}`),
    isScreen && screenButtons(crew, mine));
  const more = [limitsOf(crew, stop), h('details.card.noprint', h('summary', 'Add a ground duty'), groundForm(crew)),
    h('details.card.noprint', h('summary', 'Record flying for another airline'), outsideForm(crew))];
  if (isScreen) return h('div.stack', head, h('div.two', roster, h('div.stack', more)));
  return h('div.stack', head, link('member/' + crew, 'Open the whole page'), roster, more);
}
