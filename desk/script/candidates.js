// Who may fly a pairing: each member of the seat's kind is looked at, and who may not is told by how much.

import { assign, replace } from './acting.js';
import { unlessLost } from './asking.js';
import { fill, h } from './dom.js';
import { hm, plural } from './instants.js';
import { clashOf, detailOf, known, memberOf } from './known.js';
import { setMark } from './marks.js';
import { dutyText, link } from './pieces.js';
import { reading } from './reading.js';
import { wrongOf } from './refusals.js';
import { limitName, limitText, restText } from './sections.js';
import { checks } from './sending.js';

const FILTERED = 8;  // from so many members on there is a filter

const clashWith = async (crew, pairing, signal) => clashOf(crew, (await detailOf(pairing, signal)).periods, null, signal);
const overlap = clash => ({ ok: false, tag: 'overlap', text: `${clash ? dutyText(clash) : 'has another duty'} then` });

// How near a member would be to the limits.
function nearness(limits) {
  const of = section => limits.find(it => it.section === section), used = ({ minutes, limit }) => `${hm(minutes ?? 0)} of ${hm(limit)}`;
  const month = of('117.23(b)(1)'), rest = of('117.25(e)').minutes, least = rest == null ? '' : `, least rest ${restText(rest)}`;
  const text = `With it: flight in 28 days ${used(month)}, flight duty in 7 days ${used(of('117.23(c)(1)'))}${least}`;
  return { ok: true, month: month.minutes ?? 0, text };
}
const beyond = limits => ({ ok: false, tag: limits.map(it => it.section).join(' '), text: limits.map(limitText).join('; ') });

// The verdict on a member by what the book would answer: `ok`, a tag and a text.
function verdictOf(answer) {
  if (answer.result === 'accepted') return { ok: true, month: 0, text: '…' };
  if (answer.refusal === 11) return overlap();
  if (answer.refusal !== 12) return { ok: false, tag: 'refused', text: wrongOf(answer) };
  const sections = answer.limits.map(it => it.section);
  return { ok: false, tag: sections.join(' '), text: sections.map(limitName).join('; ') };
}
// The figures of it: which duty overlaps, by how much it would break limits; `month`, the flight time in 28 days, if it is allowed. While
// somebody has the seat there is no verdict, as the book would only say that it is taken: so overlaps and limits are looked at instead.
async function figured({ ok, tag }, crew, pairing, signal) {
  const isTaken = ok == null, clash = (isTaken || tag === 'overlap') && await clashWith(crew, pairing, signal);
  if (clash || tag === 'overlap') return overlap(clash);
  if (tag === 'refused') return null;
  const limits = await reading.limits(crew, pairing, 1, signal);
  const broken = limits.filter(it => it.exceeds && (isTaken || tag?.includes(it.section)));
  return ok || isTaken && !broken.length ? nearness(limits) : broken.length && beyond(broken);
}

// A list of all: first the verdicts, then the figures, by which those who may are sorted; until then none can be chosen. `holder` is who has the seat now, and would be replaced.
export function candidates(pairing, seat, signal, holder) {
  const people = known.members.filter(it => it.seat === seat && it.crew !== holder).map(it => ({ ...it }));
  const yes = h('ul.plain'), no = h('ul.plain'), summary = h('summary');
  const others = h('details', { open: true }, summary, no), progress = h('span.soft.small.num', { role: 'status' });
  const filter = h('input', { type: 'search', placeholder: 'Filter by name or id', label: `Filter the ${seat}s`, oninput: draw });
  const title = holder ? `Who may replace ${memberOf(holder)?.name ?? holder}?` : `Who may fly as ${seat}?`;

  function draw() {
    const word = filter.value.toLowerCase(), found = people.filter(it => it.row), focus = document.activeElement;
    const all = found.filter(it => `${it.crew} ${it.name}`.toLowerCase().includes(word)), refused = all.filter(it => !it.ok);
    const allowed = all.filter(it => it.ok).sort((a, b) => a.month - b.month || (a.crew < b.crew ? -1 : 1));
    fill(yes, allowed.map(it => it.row));
    fill(no, refused.map(it => it.row));
    if (yes.contains(focus)) focus.focus({ preventScroll: true });
    others.hidden = !refused.length;
    summary.textContent = `${plural(refused.length, 'member')} may not`;
    progress.textContent = found.length < people.length ? `${found.length} of ${people.length} looked at` : `${allowed.length} of ${all.length} may`;
    if (!people.length) fill(yes, h('li.soft', holder ? `The book has no other ${seat}.` : `The book has no ${seat} yet: add one under `,
      !holder && link('members', 'Members')));
  }
  function row(it) {
    const press = e => {
      e.target.disabled = true;
      (holder ? replace(holder, it.crew, pairing) : assign(it.crew, pairing)).finally(() => { e.target.disabled = false; });
    };
    const verb = holder ? 'Replace' : 'Assign', label = `${verb === 'Assign' ? 'Assign' : 'Replace by'} ${it.name}, ${it.crew}`;
    return h('li.candidate',
      h('span', link('member/' + it.crew, h('bdi', it.name)), h('span.soft.small', ` ${it.crew} · ${it.base}`)),
      it.ok ? h('button.main', { key: `assign ${it.crew}`, label, onclick: press }, verb) : h('span.tag.red', it.tag),
      h('p', { class: it.ok ? 'small soft num' : 'small num' }));
  }
  // What is known of a member now.
  function take(it, verdict) {
    Object.assign(it, verdict);
    it.row ??= row(it);
    it.row.lastChild.textContent = it.text;
    setMark(pairing, it.crew, it);
  }
  async function lookAt(list) {
    for (const it of list) {
      if (signal.aborted) return;
      take(it, await figured(it, it.crew, pairing, signal));
      if (holder) draw();
    }
    draw();
  }
  async function look() {
    if (holder) return lookAt(people);
    (await checks(people.map(({ crew }) => ({ do: 'assign', pairing, crew })), signal)).forEach((answer, n) => take(people[n], verdictOf(answer)));
    draw();
    for (const ok of [true, false]) {
      await lookAt(people.filter(it => it.ok === ok));
      yes.inert = false;
    }
  }
  yes.inert = !holder && people.length;
  if (people.length) look().catch(unlessLost);
  draw();
  return h('section.card', { label: title }, h('div.line.end', h('h3', title), progress), people.length > FILTERED && filter, yes, others);
}
