// What the book refuses, in plain words: what is wrong, and what to do. docs/REFUSALS.md has the same words, and tests/desk.py compares
// the two.

import { unlessLost } from './asking.js';
import { clockName, when } from './clock.js';
import { all, h } from './dom.js';
import { at } from './instants.js';
import { clashOf, detailOf, nameOf, rosterOf } from './known.js';
import { dutyText } from './pieces.js';
import { reading } from './reading.js';
import { wrongText } from './schedule.js';
import { limitName, limitText, nearestRest } from './sections.js';

export const REFUSALS = {
  1: ['Another command has this number.', 'Nothing was done. Try again.'],
  2: ['There is no such member.', 'Look under Members: the id may be misspelt.'],
  3: ['A member has this id already.', 'For the same person there is nothing to do. For another choose another id.'],
  4: ['There is no such pairing.', 'It may have been cancelled, or its id is misspelt.'],
  5: ['A pairing has this id already.', 'For the same plan there is nothing to do. For new times free its seats, cancel the pairing, and add it again. For another pairing choose another id.'],
  6: ['The seat is taken.', 'Release the member who has it, or swap.'],
  7: ['A captain and a first officer can’t swap.', 'Swap two captains, or two first officers.'],
  8: ['Nobody has that seat.', 'Flown times need both seats: assign those who flew first.'],
  9: ['Somebody still has a seat.', 'Free its seats first.'],
  10: ['The pairing is flown.', 'It stays. Other flown times correct it.'],
  11: ['The member has another duty at that time.', 'Take another member, or free this one.'],
  12: ['It would break a limit.', 'Take another member, or other times.'],
  13: ['The pairing has no such period.', 'Periods count from 1.'],
  14: ['A ground duty has this id already.', 'Choose another id.'],
  15: ['There is no such ground duty.', 'It may have been cancelled already.'],
  16: ['The times are out of order.', 'Report, Out and In of each segment, and Release follow one another, as do Begin and End. After midnight the date is another one.'],
  17: ['A segment doesn’t depart from where the one before arrived.', 'Correct From and To.'],
  18: ['A text has a sign that it may not have, or it is empty or too long.', 'Ids are of A-Z, 0-9 and -, up to 12. Flights and airports have no -. Names and tasks may have any letters, up to 60 bytes.'],
  19: ['The number of segments or periods is wrong.', 'A pairing has 1 to 10 periods, a period 1 to 12 segments. Flown times have as many segments as the plan.'],
  20: ['There is no such base.', 'Add the base under Members first.'],
  21: ['A base has this id already.', 'If it has the zone that you mean, there is nothing to do. Else choose another id.'],
  22: ['Another member’s flying has this id.', 'Choose another id, such as one that begins with the member’s.'],
  30: ['The schedule can’t be read.', 'Correct the record, and hand in the schedule again.'],
  31: ['Something is missing, or has a value that it may not have.', 'Correct it, and send it again.'],
  90: ['The book’s file failed.', 'Start the server anew. The command is kept here, and sent again.'],
  91: ['The machine has no memory left.', 'The command is kept here, and sent again.'],
};
export const wrongOf = answer => REFUSALS[answer.refusal]?.[0] ?? `The server’s answer is ${answer.status}.`;
export const inWords = number => h('p', REFUSALS[number].join(' '));

// The name that a member of the JSON has on the screen.
const SHOWN = { crew: 'Id', base: 'Id', ground: 'Id', outside: 'Id', segments: 'Out or In', periods: 'Flight, From, To or a time' };
const TAKEN = { 3: 'crew', 5: 'pairing', 14: 'ground', 21: 'base', 22: 'outside' };  // whose id the refusal of each number is about
// The name of a field on the screen, and what was typed there, if that can be told.
function typedIn(field, command) {
  const isText = typeof command[field] === 'string', name = SHOWN[field] ?? field[0].toUpperCase() + field.slice(1);
  return field === 'periods' && wrongText(command.periods) || [name, isText ? command[field] : null];
}
function fieldName(field, command) {
  const [name, text] = typedIn(field, command);
  return name + (text == null ? '' : ` “${text}”`);
}
// The field of a form that a refusal is about.
export function wrongField(answer, command, form) {
  const field = answer.field ?? TAKEN[answer.refusal], [name, text] = field ? typedIn(field, command) : [];
  return all('input', form).find(it => it.value.trim().toUpperCase() === text?.trim().toUpperCase() && it.labels[0]?.textContent.startsWith(name));
}
const limitLine = (text, section) => h('p.bad', text, h('span.soft', ` (${section})`));

const groundDuty = ({ begin, end }) => ({ begin: at(begin), end: at(end) });
// What a member's limits would be with the duties of a command; of a ground duty, whose limits no report has, only those of rests.
async function limitsWith(command, crew, sections) {
  if (command.do === 'assign') return (await reading.limits(crew, command.pairing)).filter(it => it.exceeds);
  if (command.do !== 'add-ground') return [];
  const duty = groundDuty(command), limits = await reading.limits(crew);
  const duties = [...await rosterOf(crew), duty].sort((a, b) => a.begin - b.begin);
  return limits.filter(it => sections.includes(it.section)).map(it => nearestRest(it, duties, duty)).filter(it => it?.minutes < it.limit);
}
// By how much a member would break limits; if that can't be told, which.
async function broken(command, crew, sections) {
  const limits = await limitsWith(command, crew, sections).catch(unlessLost);
  return limits?.length ? limits.map(it => limitLine(limitText(it), it.section)) : sections.map(it => limitLine(limitName(it), it));
}

// Which duties are in the way of those that a command gives to members.
async function inTheWay({ do: verb, crew, pairing, other_crew, other_pairing, ...ground }) {
  const line = async (who, gained, given) => {
    const duty = await clashOf(who, gained ? (await detailOf(gained)).periods : [groundDuty(ground)], given);
    return duty && h('p.bad', h('bdi', nameOf(who)), ` (${who}) ${dutyText(duty)}, ${when(duty.begin)} to ${when(duty.end)}, ${clockName()}.`);
  };
  const lines = verb === 'swap' ? [line(crew, other_pairing, pairing), line(other_crew, pairing, other_pairing)] : [line(crew, pairing)];
  return (await Promise.all(lines)).filter(Boolean);
}

// A refusal of a command for people: also which field, period or record, which duty is in the way, and by how much limits would be broken.
export async function explained(answer, command = {}) {
  const more = [answer.field && `It is about ${fieldName(answer.field, command)}.`, answer.period && `Period ${answer.period}.`];
  const box = h('div', h('p', [wrongOf(answer), ...more.filter(Boolean)].join(' ')));
  for (const crew of new Set(answer.limits?.map(it => it.crew))) {
    const sections = answer.limits.filter(it => it.crew === crew).map(it => it.section);
    box.append(h('p', h('bdi', nameOf(crew)), ` (${crew}):`), ...await broken(command, crew, sections));
  }
  if (answer.refusal === 11) box.append(...await inTheWay(command).catch(unlessLost) ?? []);
  const advice = REFUSALS[answer.refusal]?.[1];
  if (advice) box.append(h('p.soft', advice));
  return box;
}
