// The exceedances on record, for an inspector: by member, section and month, and by how much; sorted; printed with repeated headings.

import { recorded } from './acting.js';
import { unlessLost } from './asking.js';
import { clockName, dated, monthName, monthOf } from './clock.js';
import { all, fill, h } from './dom.js';
import { at, hm, now } from './instants.js';
import { known, nameOf, pairingOf, rosterOf } from './known.js';
import { phrases } from './phrases.js';
import { empty, memberLink, select } from './pieces.js';
import { reading } from './reading.js';
import { SECTIONS, excess, isRest, limitName, meets, nearestRest } from './sections.js';
import { enteredAt } from './sending.js';
import { sumsOf } from './timesform.js';

const chosen = { crew: '', section: '', month: '', order: 'number' };  // (it stays so from screen to screen)

// The duty as it stands now: that of a pairing is in the list of pairings, one for another airline in the member's roster.
function standing(it) {
  if (it.kind === 'pairing') return pairingOf(it.pairing)?.periods.find(p => p.period === it.period);
  return known.rosters.get(it.crew)?.find(duty => duty.key === it.key);
}
const beginOf = it => standing(it)?.begin ?? 0;
const ORDERS = { number: it => Number(it.number), crew: it => it.crew, section: it => SECTIONS.indexOf(it.section), begin: beginOf };
function inOrder(list) {
  const of = ORDERS[chosen.order];
  return [...list].sort((a, b) => of(a) < of(b) ? -1 : of(a) > of(b) ? 1 : 0);
}
const isChosen = it => (!chosen.crew || it.crew === chosen.crew) && (!chosen.section || it.section === chosen.section) &&
  (!chosen.month || monthOf(beginOf(it)) === +chosen.month);

// By how much the limit is exceeded by the times now, if that can be told: a report has what is nearest of a pairing's periods, or of all
// that the member has done.
async function amountOf(it, stop) {
  const of = list => list.find(one => one.section === it.section), limit = of(await reading.limits(it.crew, it.pairing, 2, stop));
  if (it.pairing) return isRest(it.section) || !limit.duty || limit.duty === it.name ? excess(limit, it.name) : { text: '' };
  const duties = await rosterOf(it.crew, 2, stop), duty = duties.find(other => other.key === it.key);
  if (isRest(it.section)) return excess(nearestRest(limit, duties, duty), it.name);
  return meets(limit, duty) ? excess(limit) : { text: `limit ${hm(limit.limit)}` };
}
// Calls `then` if all that a duty exceeded is within its limit now.
export function ifWithin(duty, sections, stop, then) {
  const { crew, kind, key, id, name } = duty, of = section => amountOf({ crew, kind, key, name, section, pairing: kind === 'pairing' && id }, stop);
  Promise.all(sections.map(of)).then(list => { if (list.length && list.every(it => it.isWithin)) then(); }).catch(unlessLost);
}
// A note of what stands on record, once all of it is within now.
export function calm(note) {
  note.classList.remove('bad');
  note.append(h('p.soft', 'On record; by the times now it is within.'));
}

// A number, and once it is pressed what is kept under it.
function entry({ number, part }) {
  const box = h('div');
  const read = ({ command, reply }) => fill(box, `${phrases(command).words}. Handed in: report ${dated(at(command.report))}, `, sumsOf(command), recorded(reply));
  return h('details', { ontoggle: () => reading.request(number, part).then(read).catch(unlessLost) }, h('summary', number), box);
}
function exceedanceRow(it, amount) {
  const duty = standing(it), entered = enteredAt(it.number), much = h('td.num', { column: 'By how much' });
  const name = it.pairing ? h('a', { href: `#/exceedances+pairing/${it.pairing}` }, it.name)
    : h('span', h('a', { href: `#/exceedances+outside/${it.crew}/${it.id}` }, it.id), ' (other airline)');
  const cell = (label, text) => h('td.num', { column: label }, text);
  amount(it).then(({ text, isWithin }) => {
    fill(much, text);
    if (isWithin != null) much.classList.add(isWithin ? 'soft' : 'bad');
  }).catch(unlessLost);
  return h('tr', h('td', memberLink(it.crew)), h('td', { column: 'Limit' }, h('span', h('b', it.section), ` ${limitName(it.section)}`)), much,
    h('td', { column: 'Duty' }, name),
    cell('Report', duty && dated(duty.begin)), cell('Times now', duty && `FDP ${hm(duty.fdp)}, flight ${hm(duty.flight)}`),
    cell('Entry no.', h('span', entry(it), entered && h('span.soft.small.below', `entered ${dated(entered)}`))));
}

// A head of the table by which its rows are sorted.
function sorter(order, text, draw) {
  const press = e => {
    chosen.order = order;
    for (const it of all('[aria-sort]', e.target.closest('tr'))) it.removeAttribute('aria-sort');
    e.target.parentNode.setAttribute('aria-sort', 'ascending');
    draw();
  };
  return h('th', { scope: 'col', 'aria-sort': chosen.order === order && 'ascending' }, h('button', { onclick: press }, text));
}
// A choice of which rows there are.
function picker(key, options, label, draw) {
  return select([['', `all ${label}`], ...options], chosen[key], { label, onchange: e => { chosen[key] = e.target.value; draw(); } });
}
// The choice, for a print.
const choiceInWords = () => [chosen.crew && `member ${chosen.crew} ${nameOf(chosen.crew)}`, chosen.section && `section ${chosen.section}`,
  chosen.month && monthName(+chosen.month)].filter(Boolean).join(', ');
function filters(draw) {
  const crews = [...new Set(known.exceedances.map(it => it.crew))].sort(), sections = SECTIONS.filter(s => known.exceedances.some(it => it.section === s));
  const months = [...new Set(known.exceedances.map(beginOf).filter(Boolean).map(monthOf))].sort((a, b) => a - b);
  return [picker('crew', crews.map(it => [it, `${it} ${nameOf(it)}`]), 'members', draw), picker('section', sections.map(it => [it, it]), 'sections', draw),
    picker('month', months.map(m => [String(m), monthName(m)]), 'months', draw)];
}
function exceedanceTable(body, draw) {
  const head = text => h('th', { scope: 'col' }, text);
  return h('div.scroll.card.flat', h('table.cards', h('caption.sr', 'Exceedances on record'), h('thead', h('tr',
    sorter('crew', 'Member', draw), sorter('section', 'Limit', draw), head('By how much'), head('Duty'), sorter('begin', 'Report', draw),
    head('Times now'), sorter('number', 'Entry no.', draw))), body));
}

export function exceedancesScreen(_, stop) {
  const body = h('tbody'), told = h('span.soft', { role: 'status' }), choices = h('span.line'), amounts = new Map(), choice = h('b');
  const amount = it => amounts.get(it) ?? amounts.set(it, amountOf(it, stop)).get(it);
  function draw() {
    const list = inOrder(known.exceedances.filter(isChosen));
    choice.textContent = choiceInWords() && `Only ${choiceInWords()}. `;
    told.textContent = `${list.length} of ${known.exceedances.length} on record · ${clockName()}`;
    fill(body, list.map(it => exceedanceRow(it, amount)));
  }
  const drawAll = () => { fill(choices, filters(draw)); draw(); };
  const others = new Set(known.exceedances.filter(it => it.kind === 'outside').map(it => it.crew));
  Promise.all([...others].map(crew => rosterOf(crew, 1, stop))).then(drawAll).catch(unlessLost);
  drawAll();
  return [
    h('div.line', h('h1', { tabindex: -1 }, 'Exceedances'), told, h('span.line.push.noprint', choices, h('button', { onclick: () => print() }, 'Print'))),
    h('p.soft.small', 'Limits of 14 CFR Part 117 that flown times, or flying for another airline, exceeded when they were entered. ',
      'A record stays, also if the times are corrected; by how much is told of the times now.'),
    h('p.printonly', choice, `Printed ${dated(now(), 'UTC')} UTC, from the roster book at ${location.host}`),
    known.exceedances.length ? exceedanceTable(body, draw) : empty('No exceedance is on record.'),
  ];
}
