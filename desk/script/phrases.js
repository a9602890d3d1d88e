// What is so once a command is done, and what is not so if it is refused.

import { nameOf } from './known.js';

const who = crew => `${nameOf(crew)} (${crew})`;
const PHRASES = {
  'add-base': it => [`The base ${it.base}`, 'is there', 'was not added'],
  'add-crew': it => [`${it.name} (${it.crew})`, 'is a member', 'was not added'],
  'add-pairing': it => [`Pairing ${it.pairing}`, 'is in the book', 'was not added'],
  'cancel-pairing': it => [it.pairing, 'is cancelled', 'was not cancelled'],
  assign: it => [who(it.crew), `flies ${it.pairing}`, `was not assigned to ${it.pairing}`],
  release: it => [who(it.crew), `doesn’t fly ${it.pairing}`, `was not released from ${it.pairing}`],
  swap: it => [who(it.crew), `flies ${it.other_pairing}, ${who(it.other_crew)} flies ${it.pairing}`,
    `and ${who(it.other_crew)} didn’t swap ${it.pairing} and ${it.other_pairing}`],
  'add-ground': it => [who(it.crew), `has ${it.task} (${it.ground})`, `was not given ${it.task} (${it.ground})`],
  'cancel-ground': it => [it.ground, 'is cancelled', 'was not cancelled'],
  actual: it => [`Flown times of ${it.pairing}/${it.period}`, 'are recorded', 'were not recorded'],
  'record-outside': it => [`Flying ${it.outside} of ${who(it.crew)} for another airline`, 'is recorded', 'was not recorded'],
};

export function phrases(command) {
  const [what, done, refused] = PHRASES[command.do](command);
  return { words: `${what} ${done}`, refused: `${what} ${refused}` };
}
