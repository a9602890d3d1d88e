// The pairings with a free seat, as a list. Who may fly one stands in the panel.

import { address } from './address.js';
import { byHand } from './byhand.js';
import { clockName, when } from './clock.js';
import { h } from './dom.js';
import { SEATS, openPairings } from './known.js';
import { empty, memberLink, seatName, table } from './pieces.js';

function openRow(it) {
  const to = `#/open+pairing/${it.pairing}`, isShown = address().panel?.[1] === it.pairing;
  const seat = name => h('td', { column: seatName(name) }, it.seats[name] ? memberLink(it.seats[name]) : h('span.tag.red', 'free'));
  return h('tr.go', { 'aria-selected': isShown && 'true' }, h('td', h('a', { href: to, key: `open ${it.pairing}` }, it.pairing)),
    h('td.num', { column: 'Report' }, when(it.begin)), h('td.num', { column: 'Release' }, when(it.end)), SEATS.map(seat),
    h('td', h('a', { href: to, label: `Who may fly ${it.pairing}?` }, 'Who may fly it?')));
}
export function openScreen() {
  const list = openPairings();
  return [h('div.line', h('h1', { tabindex: -1 }, 'Open pairings'), h('span.soft', `${list.length} with a free seat · ${clockName()}`)), byHand(),
    list.length ? h('div.scroll.card.flat', table('.cards', 'Open pairings',
      ['Pairing', 'Report', 'Release', 'Captain', 'First officer', 'Who may fly it'], list.map(openRow))) : empty('No pairing has a free seat.')];
}
