// Import: a schedule is dropped, chosen or pasted, shown, and handed in; each pairing's answer stands in its row.

import { byHand } from './byhand.js';
import { when } from './clock.js';
import { fill, h } from './dom.js';
import { plural } from './instants.js';
import { pairingOf, readAgain } from './known.js';
import { tell } from './messages.js';
import { ID_RULE, table } from './pieces.js';
import { explained, wrongOf } from './refusals.js';
import { EXAMPLE, HEADER, commandOf, faultOf, readSchedule, sheetsOf } from './schedule.js';
import { checks, sendSchedule } from './sending.js';

const PAIRINGS_SHOWN = 2000, FAULTS_SHOWN = 20;  // rows
const OF_A_PAIRING = [16, 17, 19];  // refusals

const recordName = record => `Record ${record.line}${record[0].trim() && ` (${record[0]})`}`;

// Why the book doesn't read a record of a pairing: a text, or what it answers to the pairing alone.
async function whyNot(record, pairing) {
  const fault = faultOf(record);
  if (fault) return fault;
  const [answer] = await checks([commandOf(pairing)]);
  return OF_A_PAIRING.includes(answer.refusal) ? `${wrongOf(answer)} Period ${answer.period}`
    : 'its period, report or release doesn’t go with the records around it';
}

// Whether the book has a pairing of this id, and of other times: one that is flown may have them.
function stateOf({ id, begin, end }) {
  const it = pairingOf(id);
  if (!it) return h('span.soft', 'new');
  return it.isFlown || it.begin === begin && it.end === end ? h('span.tag', 'already there')
    : h('span.bad', 'there with other times: cancel it first');
}

// What was read, with a button that hands it in.
function preview({ pairings, faults }) {
  const cells = new Map(pairings.map(it => [it, h('td', stateOf(it))]));
  const skip = h('input', { type: 'checkbox', checked: true, onchange: count }), button = h('button.main', { onclick: handIn }), whyNone = h('span.soft.small');
  const chosen = () => pairings.filter(it => !(skip.checked && pairingOf(it.id)));
  function count() {
    button.textContent = `Import ${plural(chosen().length, 'pairing')}`;
    whyNone.textContent = faults.length ? 'correct first what can’t be read' : chosen().length ? '' : 'the book has them all already';
    button.disabled = whyNone.textContent !== '';
  }
  function mark(it, isGood, text) {
    fill(cells.get(it), h('span', { class: isGood ? 'good' : 'bad' }, text));
    cells.get(it).parentNode.classList.toggle('wrong', !isGood);
  }
  function answered(it, part) {
    const isGood = part.result === 'accepted';
    mark(it, isGood, isGood ? '✓ in the book' : `✗ ${wrongOf(part)}`);
    return isGood;
  }
  // The whole of a part was refused, for a record of it.
  async function refuse(part, answer, done) {
    const record = part.flatMap(it => it.records)[answer.line - 2], it = part.find(one => one.records.includes(record));
    const why = it && `${recordName(record)}: ${await whyNot(record, it)}.`;
    if (it) mark(it, false, `✗ ${why}`);
    cells.get(it)?.scrollIntoView({ block: 'center' });
    tell(false, done ? 'The rest was not imported.' : 'Nothing was imported.', why && h('p.bad', why), await explained(answer));
  }
  async function handIn() {
    button.disabled = true;
    const all = chosen().length;
    let done = 0;
    for (const { pairings: part, csv } of sheetsOf(chosen())) {
      const answer = await sendSchedule(csv, `Import of ${plural(part.length, 'pairing')}`);
      if (!answer.parts) { await refuse(part, answer, done); break; }
      done += part.filter((it, n) => answered(it, answer.parts[n])).length;
    }
    if (done) tell(done === all, `${done < all ? `${done} of ` : ''}${plural(all, 'pairing')} imported.`);
    await readAgain();
    count();
  }
  const row = it => h('tr', h('td', it.id), h('td.num', { column: 'Report' }, when(it.begin)),
    h('td.num', { column: 'Release' }, when(it.end)),
    h('td.num', { column: 'Periods' }, it.periods.size), h('td.small', { column: 'Route' }, it.ports.join('–')), cells.get(it));
  count();
  return [
    h('div.line', h('h2', `${plural(pairings.length, 'pairing')} read`), button, whyNone,
      pairings.some(it => pairingOf(it.id)) && h('label.small', skip, ' leave out those that the book has already')),
    faults.length > 0 && h('div.note.bad', { role: 'alert' }, h('b', `${plural(faults.length, 'record')} can’t be read`),
      faults.slice(0, FAULTS_SHOWN).map(([record, text]) => h('p', `${recordName(record)}: ${text}.`))),
    h('div.scroll.card.flat.tall', table('.cards', 'The schedule', ['Pairing', 'Report', 'Release', 'Periods', 'Route', 'State'],
      pairings.slice(0, PAIRINGS_SHOWN).map(row))),
  ];
}
const unread = text => h('div.note.bad', { role: 'alert' }, h('b', 'This is no schedule. '),
  /^[^\n]*[;\t]/.test(text) && 'Its fields are not between commas: save it as comma separated values. ',
  'Its first line must be', h('p', h('code', HEADER)));

const example = () => h('details.card', h('summary', 'What a schedule looks like'), h('pre', `${HEADER}\n${EXAMPLE}`),
  h('p.small', `The first line is as above; then a line for each segment, with the times in UTC. Lines of one pairing follow one another. ${ID_RULE} `,
    'Flights and airports have only A-Z and 0-9.'));

export function importScreen() {
  const out = h('div.stack');
  const show = text => {
    const read = readSchedule(text);
    fill(out, text.trim() && (read ? preview(read) : unread(text)));
  };
  const area = h('textarea', { rows: 6, spellcheck: 'false', label: 'The schedule as text', placeholder: HEADER,
    oninput: () => show(area.value) });
  const read = async file => {
    if (!file) return;
    show(area.value = await file.text());
    area.dataset.typed = '1';
  };
  const file = h('input', { type: 'file', accept: '.csv,text/csv', label: 'A schedule file',
    onclick: () => { file.value = ''; }, onchange: () => read(file.files[0]) });  // (so that a corrected file can be chosen anew)
  const over = isOver => e => { e.preventDefault(); drop.classList.toggle('over', isOver); };
  const drop = h('div.drop', { ondragover: over(true), ondragleave: over(false), ondrop: e => { over(false)(e); read(e.dataTransfer.files[0]); } },
    h('p', 'Drop a schedule here, a CSV file with a line for each segment, or choose it: ', file), h('details', h('summary', 'or paste it'), area));
  return [h('h1', { tabindex: -1 }, 'Import a schedule'), drop, example(), out, byHand()];
}
