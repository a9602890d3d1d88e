// A command as a person gives it: sent, its answer told in words, and what it changed read again.

import { h } from './dom.js';
import { UNSENT, nameOf, pairingOf, readAgain } from './known.js';
import { tell, tellAlso } from './messages.js';
import { phrases } from './phrases.js';
import { explained, wrongField, wrongOf } from './refusals.js';
import { limitName } from './sections.js';
import { send, sendLeft } from './sending.js';

// Whose rosters and which pairings a command may have changed.
function touchedBy({ pairing, other_pairing, crew, other_crew }, answer) {
  const ids = [pairing, other_pairing];
  return [...ids, crew, other_crew, ...(answer.exceedances ?? []).map(it => it.crew),
    ...ids.flatMap(id => Object.values(pairingOf(id)?.seats ?? {}))];
}
export const recorded = answer => answer.exceedances?.length > 0 &&
  h('p.bad', 'On record: ', answer.exceedances.map(it => `${it.crew} exceeds ${it.section}, ${limitName(it.section)}`).join('; '), '.');
const tellRefused = async (answer, command) => tell(false, `${phrases(command).refused}:`, await explained(answer, command));

// A button of a message that takes back what it tells.
const undoing = undo => h('button', { onclick: e => { e.target.closest('.told').remove(); undo(); } }, 'Undo');

// `undo`, if there is an opposite, is a command too. It comes to whether it was done.
export async function act(command, undo) {
  const form = document.activeElement.closest('form'), answer = await send(command);
  if (isDone(answer)) tell(true, phrases(command).words + '.', recorded(answer), undo && undoing(() => act(undo, command)));
  else if (answer.result !== 'forgotten') {
    await tellRefused(answer, command);
    if (form) wrongField(answer, command, form)?.focus();
  }
  await readAgain({ held: isDone(answer) ? UNSENT : undefined, own: +isDone(answer), touched: touchedBy(command, answer) });
  return isDone(answer);
}
const isDone = answer => answer.result === 'accepted';

// Assigning and releasing are each other's opposite; two who have swapped swap back.
export const assign = (crew, pairing) => act({ do: 'assign', pairing, crew }, { do: 'release', pairing, crew });
export const release = (crew, pairing) => act({ do: 'release', pairing, crew }, { do: 'assign', pairing, crew });
export const swap = command => act(command, { ...command, crew: command.other_crew, other_crew: command.crew });

// Gives the seat of one member to another, in two steps; if the second is refused, the first is undone.
export async function replace(holder, crew, pairing) {
  const first = { do: 'release', pairing, crew: holder }, command = { do: 'assign', pairing, crew }, answer = await send(first);
  const second = isDone(answer) && await send(command), { words, refused } = phrases(command), name = `${nameOf(holder)} (${holder})`;
  if (!second) await tellRefused(answer, first);
  else if (isDone(second)) tell(true, `${words}, in place of ${name}.`, undoing(() => replace(crew, holder, pairing)));
  else {
    const back = await send({ do: 'assign', pairing, crew: holder });
    tell(false, `${refused}:`, await explained(second, command), h('p', isDone(back) ? `${name} has the seat as before.` : 'The seat is free now.'));
  }
  return readAgain({ held: UNSENT });
}

// Commands of an earlier visit: nobody waits for them, so their answers are told by themselves.
export function sendAgain() {
  sendLeft((it, answer) => {
    if (answer.result === 'forgotten') return;
    const isGood = answer.parts || isDone(answer);
    tellAlso(isGood, isGood ? `${it.words}.` : `${it.refused ?? it.words}:`, !isGood && h('p', wrongOf(answer)),
      h('p', `It was sent again under its number ${it.number}${isGood ? ', so it was done once' : ''}.`));
    readAgain();
  });
}
