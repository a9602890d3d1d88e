// Small pieces that many screens have.

import { h } from './dom.js';
import { nameOf } from './known.js';

export const link = (to, ...parts) => h('a', { href: '#/' + to }, parts);
export const memberLink = crew => h('span', link('member/' + crew, h('bdi', nameOf(crew) || crew)), h('span.soft.small', ` ${crew}`));
export const tag = isFlown => h('span', { class: isFlown ? 'tag flown' : 'tag plan' }, isFlown ? 'flown' : 'planned');
// What a member does by a duty, behind the member's name.
export const dutyText = it => it.kind === 'outside' ? `flies for another airline (${it.id})`
  : it.kind === 'ground' ? `has ${it.task} (${it.id})` : `has ${it.name}`;
export const routeOf = plans => plans.flatMap((p, n) => p.segments.flatMap((s, k) => n || k ? [s.to] : [s.from, s.to])).join('–');
export const seatName = seat => seat === 'captain' ? 'Captain' : 'First officer';
export const cellsOf = (...cells) => h('tr', cells.map(cell => h('td', cell)));
// A table, by its classes, what it has, the names of its columns, and its rows.
export const table = (css, title, names, ...rows) => h('table' + css, h('caption.sr', title),
  h('thead', h('tr', names.map(name => h('th', { scope: 'col' }, name)))), h('tbody', rows));
// What is in a field of an id, a flight or an airport: all have capital letters.
export const upper = field => field.value.trim().toUpperCase();
export const ID_RULE = 'An id has only A-Z, 0-9 and -, at most 12 of them.';
export const pending = () => h('p.soft', 'Reading…');
export const empty = (...parts) => h('p.empty.card', parts);

export function select(options, value, attributes) {
  return h('select', attributes, options.map(([key, text]) => h('option', { value: key, selected: key === value }, text)));
}

// A button that has to be pressed twice within five seconds.
export function twice(text, question, then, attributes) {
  let timer = 0;
  const calm = () => { timer = 0; button.textContent = text; };
  const press = () => {
    if (timer) { clearTimeout(timer); calm(); return then(); }
    button.textContent = question;
    timer = setTimeout(calm, 5000);
  };
  const button = h('button.danger', { type: 'button', ...attributes, onclick: press }, text);
  return button;
}

// A part of a form that comes once or more: `make` makes a value with its fields (`box`), from the values before it.
export function repeated(word, make, count = 1) {
  const list = [], rows = h('div.stack');
  const less = h('button', { type: 'button', onclick: () => { list.pop().box.remove(); less.hidden = list.length < 2; } }, `Remove the last ${word}`);
  const more = () => {
    const it = make(list, list.length);
    list.push(it);
    rows.append(it.box);
    less.hidden = list.length < 2;
  };
  while (list.length < count) more();
  return { list, box: h('div.stack', rows, h('div.line', h('button', { type: 'button', onclick: more }, `One more ${word}`), less)) };
}
