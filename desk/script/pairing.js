// A pairing: its seats, with who may fly it; its periods, as planned and as flown; cancelling it.

import { act, release } from './acting.js';
import { closePanel } from './address.js';
import { unlessLost } from './asking.js';
import { candidates } from './candidates.js';
import { clockName, days, until, when } from './clock.js';
import { fill, h } from './dom.js';
import { calm, ifWithin } from './exceeded.js';
import { flownForm } from './flown.js';
import { hm, signed } from './instants.js';
import { SEATS, detailOf, exceededBy, freeSeats, nameOf, pairingOf } from './known.js';
import { startMarks } from './marks.js';
import { cellsOf, memberLink, pending, routeOf, seatName, table, tag, twice } from './pieces.js';
import { inWords } from './refusals.js';
import { limitName } from './sections.js';
import { swaps } from './swaps.js';

// A time in force; behind one that isn't as planned, by how much.
const held = (text, m, plan) => [text, m !== plan && h('span.soft.late', ` ${signed(m - plan)}`)];

function periodTable(it, period) {
  const { plan } = period, now = period.flown ?? plan;
  const row = (segment, n) => {
    const { out, in: end } = now.segments[n], cells = [segment.flight, segment.from, held(until(now.report, out), out, segment.out), segment.to,
      held(until(now.report, end), end, segment.in), hm(end - out)];
    return cellsOf(...cells);
  };
  const edge = (name, m, planned) => h('tr', h('td.soft', { colspan: 2 }, name), h('td', { colspan: 4 }, held(when(m), m, planned)));
  return h('div.scroll', table('.segments.num.small', `Period ${period.period} of ${it.pairing}`,
    ['Flight', 'From', 'Out', 'To', 'In', 'Block'], edge('Report', now.report, plan.report), plan.segments.map(row), edge('Release', now.release, plan.release)));
}

function recordedOf(it, period, stop) {
  const name = `${it.pairing}/${period.period}`, duty = { kind: 'pairing', id: it.pairing, name, key: `pairing ${name}` };
  return SEATS.map(seat => {
    const crew = it.seats[seat], sections = exceededBy({ ...duty, crew });
    const note = h('div.note.bad', sections.map(section => h('p', h('b', section), ` ${limitName(section)}: `, h('bdi', nameOf(crew)), ` (${crew})`)));
    ifWithin({ ...duty, crew }, sections, stop, () => calm(note));
    return sections.length > 0 && note;
  });
}

function periodCard(it, period, stop) {
  const isCrewed = !freeSeats(it).length;
  const toggle = () => {
    const old = card.querySelector('form'), form = old ? null : flownForm(it, period);
    old?.remove();
    if (form) { card.append(form); form.querySelector('input').focus(); }
  };
  const card = h('section.card', { label: `Period ${period.period}` },
    h('div.line.end', h('h3', `Period ${period.period} `, tag(period.flown)), h('span.num', `FDP ${hm(period.fdp)} · flight ${hm(period.flight)}`)),
    recordedOf(it, period, stop), periodTable(it, period),
    h('div.line.noprint',
      h('button', { key: `fly ${period.period}`, disabled: !isCrewed, onclick: toggle },
        period.flown ? 'Correct flown times' : 'Enter flown times'),
      !isCrewed && h('span.soft.small', 'needs both seats')));
  return card;
}

function seatLine(it, seat, open) {
  const crew = it.seats[seat], name = nameOf(crew);
  const button = (verb, sign, press) => h('button', { key: `${verb} ${seat}`, label: `${verb} ${name}`, onclick: press }, verb + sign);
  const buttons = () => h('span.line.noprint', button('Release', '', () => release(crew, it.pairing)),
    button('Replace', '…', () => open(stop => candidates(it.pairing, seat, stop, crew))), button('Swap', '…', () => open(stop => swaps(it, seat, stop))));
  return h('li.candidate', h('span', h('span.soft', seatName(seat) + ' '), crew ? memberLink(crew) : h('b.bad', 'free')), crew && !it.isFlown && buttons());
}

function cancelling(it) {
  const isHeld = freeSeats(it).length < SEATS.length;
  const cancel = () => act({ do: 'cancel-pairing', pairing: it.pairing }).then(isDone => isDone && closePanel());
  return h('div.line.noprint', twice('Cancel pairing', `Cancel ${it.pairing} for good?`, cancel, { disabled: isHeld }),
    isHeld && h('span.soft.small', 'free its seats first'));
}

function parts(it, stop, heading) {
  const extra = h('div.stack.extra'), mark = () => startMarks(heading === 'h2' && it.pairing);  // (its own page has no board behind it)
  let inner = new AbortController();
  const open = make => {
    inner.abort();
    inner = new AbortController();
    mark();
    fill(extra, make(AbortSignal.any([stop, inner.signal])));
    extra.querySelector('button, input')?.focus();
  };
  mark();
  return [
    h('div.line.end', h(heading, { tabindex: -1 }, `Pairing ${it.pairing} `, tag(it.isFlown)),
      h('span.soft.num', `${days(it)} · ${clockName()}`)),
    h('p.num', routeOf(it.periods.map(p => p.plan))), h('ul.plain', SEATS.map(seat => seatLine(it, seat, open))), extra,
    !it.isFlown && freeSeats(it).map(seat => candidates(it.pairing, seat, stop)), it.periods.map(p => periodCard(it, p, stop)),
    !it.isFlown && cancelling(it),
  ];
}

// A whole screen, or the panel beside one.
export function pairingView(id, stop, isScreen) {
  const heading = isScreen ? 'h1' : 'h2', title = h(heading, { tabindex: -1 }, `Pairing ${id}`), isThere = pairingOf(id);
  const box = h('div.stack.pairing', title, isThere ? pending() : inWords(4));
  if (isThere) detailOf(id, stop).then(it => fill(box, parts(it, stop, heading))).catch(unlessLost);
  return box;
}
