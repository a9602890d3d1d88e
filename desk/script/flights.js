// The pairings with a flight, as far as the page has read them: it knows flights of the duties on the board, and of what else was opened.

import { beside } from './address.js';
import { days } from './clock.js';
import { h } from './dom.js';
import { known } from './known.js';
import { routeOf } from './pieces.js';

// The periods that have segments, each with the id of its pairing.
function periods() {
  const duties = [known.board.duties, known.rosters].flatMap(it => [...it?.values() ?? []].flat()).filter(it => it.kind === 'pairing');
  return [...duties.map(it => [it.id, it]), ...[...known.details.values()].flatMap(it => it.periods.map(p => [it.pairing, p]))];
}
// The pairings in the order of time.
export function pairingsWith(flight) {
  const ids = new Set(periods().filter(([, { plan }]) => plan.segments.some(it => it.flight === flight)).map(([id]) => id));
  return known.pairings.filter(it => ids.has(it.pairing));
}
export function flightView(flight) {
  const plans = new Map(periods().map(([id, { plan }]) => [id, plan]));
  const line = it => h('li.candidate', h('a', { href: beside('pairing/' + it.pairing) }, it.pairing), h('span.num', days(it)),
    h('p.soft.small', routeOf([plans.get(it.pairing)])));
  return h('div.stack', h('h2', { tabindex: -1 }, `Flight ${flight}`),
    h('p.soft.small', 'Of the duties that were read: those on the board, and what else was opened. A pairing with both seats free is found by its id.'),
    h('ul.plain', pairingsWith(flight).map(line)));
}
