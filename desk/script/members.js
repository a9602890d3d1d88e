// The members, and the bases with their zones; forms that add one.

import { act } from './acting.js';
import { $, h } from './dom.js';
import { known } from './known.js';
import { tell } from './messages.js';
import { ID_RULE, empty, link, select, table, upper } from './pieces.js';
import { RULES, shownAt17, zoneOf } from './zones.js';

const OTHER = '?', RULE_EXAMPLE = 'CET-1CEST,M3.5.0,M10.5.0/3';
const clocks = zone => `at 17:00 UTC a clock there shows ${shownAt17(zone, 0)} on 15 January and ${shownAt17(zone, 6)} on 15 July`;
const textField = most => h('input', { required: true, maxlength: most, spellcheck: 'false', autocomplete: 'off' });

function memberForm() {
  const id = textField(12), name = textField(60), seat = select([['captain', 'captain'],
    ['first officer', 'first officer']]), base = select(known.bases.map(it => [it.base, it.base]), 'HOME');
  function add() {
    const command = { do: 'add-crew', crew: upper(id), seat: seat.value, name: name.value, ...(base.value === 'HOME' ? {} : { base: base.value }) };
    act(command).then(isDone => isDone && $('main').querySelector('form input')?.focus());
  }
  return h('form.card', { onsubmit: add }, h('h2', 'Add a member'),
    h('div.fields', h('label', 'Id', id), h('label', 'Name', name), h('label', 'Seat', seat), h('label', 'Base', base)),
    h('p.soft.small', ID_RULE, ' Id, seat, name and base can’t be changed. Tables A and B go by the clock of the base.'),
    h('div', h('button.main', 'Add member')));
}

function baseForm() {
  const id = textField(12), rule = textField(64), hint = h('p.hint'), isOther = () => place.value === OTHER;
  const place = select([['', 'choose'], ...RULES, [OTHER, 'another']], '', { required: true });
  const typed = h('label', 'POSIX rule', rule, h('span.hint', `such as ${RULE_EXAMPLE}: hours west of UTC, and when clocks change`));
  const chosen = () => isOther() ? rule.value.trim() : place.value;
  function draw() {
    const zone = zoneOf(chosen());
    typed.hidden = rule.disabled = !isOther();
    hint.textContent = zone ? `Check it: ${clocks(zone)}.` : isOther() && rule.value ? 'not a rule yet' : '';
  }
  function add() {
    if (!zoneOf(chosen())) return tell(false, 'This is no POSIX rule.', h('p', `Take one such as ${RULE_EXAMPLE}.`));
    act({ do: 'add-base', base: upper(id), zone: chosen() });
  }
  draw();
  return h('form.card', { onsubmit: add, oninput: draw, onchange: draw }, h('h2', 'Add a base'),
    h('div.fields', h('label', 'Id', id), h('label', 'Zone', place), typed), hint,
    h('p.soft.small', 'A base stays as it is: check its zone first.'), h('div', h('button.main', 'Add base')));
}
function baseRow({ base, zone }) {
  const read = zoneOf(zone);
  return h('tr', h('td', base), h('td', h('code', zone), read && h('span.soft.small.below', clocks(read))));
}
const memberLine = it => h('tr', h('td', link('member/' + it.crew, it.crew)), h('td', h('bdi', it.name)), h('td', it.seat), h('td', it.base));
const list = (...parts) => h('div.scroll.card.flat', table('', ...parts));

export function membersScreen() {
  const members = list('Members', ['Id', 'Name', 'Seat', 'Base'], known.members.map(memberLine));
  const bases = list('Bases', ['Base', 'Zone'], known.bases.map(baseRow));
  return [h('h1', { tabindex: -1 }, 'Members'), h('div.two', h('div.stack', known.members.length ? members : empty('The book has no members yet.')),
    h('div.stack', memberForm(), baseForm(), bases))];
}
