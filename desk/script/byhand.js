// A pairing that is written by hand.

import { act } from './acting.js';
import { go } from './address.js';
import { h } from './dom.js';
import { iso } from './instants.js';
import { tell } from './messages.js';
import { ID_RULE, repeated, upper } from './pieces.js';
import { UNREAD, areRead, timeField } from './timefield.js';

const REST = 10 * 60;  // before a period's report, as it is guessed

const port = (value, most = 4) => h('input', { required: true, maxlength: most, size: 5, value, autocomplete: 'off' });
function segmentFields(before, n, period, periodBefore) {
  const last = before[n - 1] ?? periodBefore?.segments.list.at(-1), flight = port('', 8), from = port(last?.to.value), to = port();
  const out = timeField('Out', { near: () => before[n - 1]?.in.at ?? period.report.at }), arrival = timeField('In', { near: () => out.at });
  const box = h('div.fields', h('label', 'Flight', flight), h('label', 'From', from), out, h('label', 'To', to), arrival);
  return { flight, from, to, out, in: arrival, box };
}
function periodFields(before, n) {
  const it = {};
  it.report = timeField('Report', { near: () => before[n - 1]?.release.at == null ? null : before[n - 1].release.at + REST });
  it.segments = repeated('segment', (list, k) => segmentFields(list, k, it, before[n - 1]));
  it.release = timeField('Release', { near: () => it.segments.list.at(-1).in.at ?? it.report.at });
  it.box = h('fieldset.stack', h('legend', `Period ${n + 1}`), h('div.fields', it.report), it.segments.box, h('div.fields', it.release));
  return it;
}
const planOf = p => ({
  report: iso(p.report.at), release: iso(p.release.at),
  segments: p.segments.list.map(s => ({ flight: upper(s.flight), from: upper(s.from), out: iso(s.out.at), to: upper(s.to), in: iso(s.in.at) })),
});

export function byHand() {
  const id = h('input', { required: true, maxlength: 12, autocomplete: 'off' }), periods = repeated('period', periodFields);
  const times = () => periods.list.flatMap(p => [p.report, ...p.segments.list.flatMap(s => [s.out, s.in]), p.release]);
  const read = () => times().forEach(it => it.read());  // (what one means may depend on those before it)
  async function add() {
    read();
    if (!areRead(times())) return tell(false, UNREAD);
    const pairing = upper(id);
    if (await act({ do: 'add-pairing', pairing, periods: periods.list.map(planOf) })) go('pairing/' + pairing);
  }
  const form = h('form.stack', { onsubmit: add, oninput: read }, h('div.fields', h('label', 'Pairing', id)),
    h('p.soft.small', ID_RULE), periods.box, h('div', h('button.main', 'Add pairing')));
  return h('details.card', h('summary', 'Write one pairing by hand'), form);
}
