// A form for the times that a period was flown at. Each change is checked by the book, so that it says, before anything is sent, what would
// be refused, and which exceedances would stay on record.

import { act } from './acting.js';
import { unlessLost } from './asking.js';
import { fill, h } from './dom.js';
import { at, hm, iso } from './instants.js';
import { exceededBy, nameOf } from './known.js';
import { explained } from './refusals.js';
import { limitName } from './sections.js';
import { checks } from './sending.js';
import { UNREAD, areRead } from './timefield.js';

const DELAY = 250, LATER = 2000;  // milliseconds after a key; after a check without an answer

const keyOf = it => it.do === 'actual' ? `pairing ${it.pairing}/${it.period}` : `outside outside ${it.outside}`;
export function sumsOf({ report, segments }) {
  const flight = segments.reduce((total, s) => total + at(s.in) - at(s.out), 0);
  return `FDP ${hm(at(segments.at(-1).in) - at(report))} · flight ${hm(flight)}. `;
}

// What the form says of an answer: of exceedances only those that aren't on record yet.
async function verdictOn(answer, command) {
  if (answer.result !== 'accepted') return h('div.note.bad', await explained(answer, command));
  const isNew = it => !exceededBy({ crew: it.crew, key: keyOf(command) }).includes(it.section), list = answer.exceedances.filter(isNew);
  if (!list.length) {
    const isWithin = !answer.exceedances.length, words = isWithin ? 'Within all limits.' : 'It exceeds only what is on record already.';
    return h('p', { class: isWithin ? 'note good' : 'note' }, sumsOf(command), words);
  }
  return h('div.note.bad', h('b', sumsOf(command), 'These exceedances would stay on record for good:'),
    list.map(it => h('p', `${nameOf(it.crew)} (${it.crew}): ${limitName(it.section)}, ${it.section}`)));
}

// `head` gives what it sends beside the times. If it corrects times, those that stand in the book aren't sent again.
export function timesForm(css, { head, report, release, segments, verb, isCorrection }, parts, ...buttons) {
  const fields = () => [report, ...segments.flatMap(s => [s.out, s.in]), release], ends = s => ({ out: iso(s.out.at), in: iso(s.in.at) });
  const command = () => ({ ...head(), report: iso(report.at), release: iso(release.at), segments: segments.map(ends) });
  const verdict = h('div', { role: 'status' }), button = h('button.main', { disabled: true }, verb), say = (...it) => fill(verdict, it);
  let timer = 0, asked = new AbortController();
  const form = h(css, { onsubmit: record, oninput: later, onclick: e => e.target.type === 'button' && later() }, parts, verdict,
    h('div.line', button, buttons));
  const written = () => JSON.stringify(command()), first = isCorrection && written();
  function later() {
    clearTimeout(timer);
    asked.abort();
    button.disabled = true;
    for (const it of fields()) it.read();
    timer = setTimeout(judge, DELAY);
  }
  async function judge() {
    asked = new AbortController();
    if (!areRead(fields())) return say(h('p.soft.small', UNREAD));
    if (written() === first) return say(h('p.soft.small', 'These times are in the book.'));
    const what = command(), { signal } = asked, [answer] = await checks([what], signal).catch(unlessLost) ?? [];
    const told = answer && await verdictOn(answer, what);
    if (signal.aborted) return;
    if (!answer) { timer = form.isConnected && setTimeout(judge, LATER); return; }
    button.disabled = answer.result !== 'accepted';
    say(told);
  }
  function record() {
    button.disabled = true;
    act(command()).finally(() => { button.disabled = false; });
  }
  judge();
  return form;
}
