// Duties that are no pairing: ground duty, and flying for another airline. Forms that add them, and what stands in the panel of each.

import { act } from './acting.js';
import { closePanel } from './address.js';
import { unlessLost } from './asking.js';
import { clockName, until, when } from './clock.js';
import { fill, h } from './dom.js';
import { calm, ifWithin } from './exceeded.js';
import { hm, iso } from './instants.js';
import { exceededBy, rosterOf } from './known.js';
import { tell } from './messages.js';
import { cellsOf, memberLink, pending, repeated, table, twice } from './pieces.js';
import { limitName } from './sections.js';
import { UNREAD, areRead, timeField } from './timefield.js';
import { timesForm } from './timesform.js';

const WHOLE_DAY = 8 * 60;  // of a ground duty, as it is guessed
const idField = value => h('input', { maxlength: 12, required: true, value, readonly: value != null,
  oninput: e => { e.target.dataset.typed = '1'; } });

// An id of the member's and of the day, until another one is typed.
function suggest(field, letter, crew, m) {
  if (m != null && !field.dataset.typed && !field.readOnly) field.value = `${letter}${crew}-${iso(m).slice(5, 10).replace('-', '')}`.slice(0, 12);
}

export function groundForm(crew) {
  const id = idField(), task = h('input', { maxlength: 60, required: true, list: 'tasks' });
  const begin = timeField('Begin', { changed: () => { suggest(id, 'G', crew, begin.at); end.read(); } });
  const end = timeField('End', { near: () => begin.at == null ? null : begin.at + WHOLE_DAY });
  function add() {
    if (!areRead([begin, end])) return tell(false, UNREAD);
    act({ do: 'add-ground', ground: id.value, crew, begin: iso(begin.at), end: iso(end.at), task: task.value },
      { do: 'cancel-ground', ground: id.value, crew });
  }
  return h('form.stack', { onsubmit: add }, h('div.fields', h('label', 'Task', task), begin, end, h('label', 'Id', id)),
    h('div', h('button.main', 'Add ground duty')));
}

// A duty that is given is corrected: its id stays, and its times are filled in.
export function outsideForm(crew, duty) {
  const id = idField(duty?.id), report = timeField('Report', { value: duty?.begin, changed: () => suggest(id, 'X', crew, report.at) });
  const segments = repeated('segment', (before, n) => {
    const out = timeField(`Out ${n + 1}`, { value: duty?.segments[n]?.out, near: () => before[n - 1]?.in.at ?? report.at });
    const arrival = timeField(`In ${n + 1}`, { value: duty?.segments[n]?.in, near: () => out.at });
    return { out, in: arrival, box: h('div.fields', out, arrival) };
  }, duty?.segments.length);
  const release = timeField('Release', { value: duty?.end, near: () => segments.list.at(-1).in.at ?? report.at });
  const head = () => ({ do: 'record-outside', outside: id.value, crew });
  return timesForm('form.stack', { head, report, release, segments: segments.list, verb: 'Record', isCorrection: duty }, [
    h('p.small.soft', 'It counts in all limits but Tables A and B (117.23(a)). It and each limit that it exceeds stay for good; recorded again under its id, it has the new times.'),
    h('div.fields', report), segments.box, h('div.fields', release, h('label', 'Id', id)),
  ]);
}

function cancellingOf({ id, crew, begin, end, task }) {
  const add = { do: 'add-ground', ground: id, crew, begin: iso(begin), end: iso(end), task };
  const cancel = () => act({ do: 'cancel-ground', ground: id, crew }, add).then(isDone => isDone && closePanel());
  return h('div', twice('Cancel this duty', `Cancel ${id}?`, cancel));
}
const segmentTable = duty => table('.small.num', `Segments of ${duty.id}`, ['Segment', 'Out', 'In', 'Block'],
  duty.segments.map((s, n) => cellsOf(n + 1, until(duty.begin, s.out), until(duty.begin, s.in), hm(s.in - s.out))));

function partsOf(duty, stop) {
  const isGround = duty.kind === 'ground', sections = exceededBy(duty);
  const note = h('div.note.bad', sections.map(it => h('p', h('b', it), ` ${limitName(it)}`)));
  ifWithin(duty, sections, stop, () => calm(note));
  return [
    h('h2', { tabindex: -1 }, isGround ? h('bdi', duty.task) : 'Flying for another airline'), h('p', duty.id, ' · ', memberLink(duty.crew)),
    h('p.num', `${when(duty.begin)} – ${when(duty.end)}`, !isGround && ` · FDP ${hm(duty.fdp)} · flight ${hm(duty.flight)}`, ` · ${clockName()}`),
    sections.length > 0 && note,
    isGround ? cancellingOf(duty) : [segmentTable(duty), h('p.soft.small', 'Nothing removes it.'),
      h('details.card', h('summary', 'Correct its times'), outsideForm(duty.crew, duty))],
  ];
}
export function otherDuty(kind, crew, id, stop) {
  const box = h('div.stack', pending());
  rosterOf(crew, 0, stop).then(duties => {
    const duty = duties.find(it => it.kind === kind && it.id === id);
    fill(box, duty ? partsOf(duty, stop) : [h('h2', id), h('p', 'It is not in the book.')]);
  }).catch(unlessLost);
  return box;
}
