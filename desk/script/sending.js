// Commands on their way. Each has a number, made of the time and of a random part, so nobody has to be asked for one. It is kept in the
// browser before it is sent, and until it is answered; sent again, also after a reload, it has the same number, and so is done once.

import { NoAnswer, ask } from './asking.js';
import { $, fill, h } from './dom.js';
import { plural } from './instants.js';
import { keep, kept } from './kept.js';
import { phrases } from './phrases.js';

const TRIES = 4, SLOWEST = 30;  // fresh numbers for a command; seconds between two tries
const JOURNAL = 100;  // answered commands that are remembered

// (In microseconds it stays exact as a number of JavaScript until the year 2255.)
export function freshNumber() {
  const [random] = crypto.getRandomValues(new Uint32Array(1));
  return Date.now() * 1000 + random % 1000;
}
// When a request with such a number was made, by the clock of the desk that sent it; null for a number of another kind.
export function enteredAt(number) {
  const ms = Number(number) / 1000;
  return ms > 1.7e12 && ms < 4e12 ? ms / 60000 : null;
}

const outbox = () => kept('outbox', []);
function setOutbox(list) {
  keep('outbox', list);
  drawOutbox();
}
const isWaiting = it => outbox().some(other => other.number === it.number);
const done = it => setOutbox(outbox().filter(other => other.number !== it.number));
export const journal = () => kept('journal', []);

let pause = 0, wake = () => {};
const slept = seconds => new Promise(awake => { wake = awake; setTimeout(awake, seconds * 1000); });

// Sends a kept command until it is answered, or forgotten.
async function delivered(it) {
  while (isWaiting(it)) {
    try {
      const { status, text } = await ask(it.path, { body: it.body });
      const answer = { status, ...JSON.parse(text) };
      pause = 0;
      done(it);
      const words = answer.result === 'refused' ? it.refused : it.words;
      keep('journal', [{ number: it.number, words, result: answer.result ?? 'answered' }, ...journal()].slice(0, JOURNAL));
      return answer;
    } catch (why) {
      if (!(why instanceof NoAnswer)) throw why;
      pause = Math.min(SLOWEST, pause * 2 || 1);
      drawOutbox();
      await slept(pause);
    }
  }
  return { result: 'forgotten' };
}

// Sends what `make` makes of a number. If another command has the number, nothing of this one was done: it gets a fresh one.
async function post(make, words) {
  let answer;
  for (let tries = 0; tries < TRIES; tries++) {
    const number = freshNumber(), it = { number, ...words, at: Date.now(), ...make(number) };
    setOutbox([...outbox(), it]);
    answer = await delivered(it);
    if (answer.refusal !== 1) break;
  }
  return answer;
}
export const send = command => post(number => ({ path: '/requests', body: JSON.stringify({ number, ...command }) }), phrases(command));
export const sendSchedule = (csv, words) => post(number => ({ path: `/imports/${number}`, body: csv }), { words, refused: words });

// How the book would answer each of these commands now, as if it were alone; it keeps nothing of them.
export async function checks(commands, signal) {
  const body = commands.map(it => JSON.stringify({ number: freshNumber(), ...it })).join('\n');
  return JSON.parse((await ask('/lines/checks', { body, signal })).text).answers;
}

// Sends what an earlier visit left without an answer; `hear(it, answer)` is called for each.
export function sendLeft(hear) {
  for (const it of outbox()) delivered(it).then(answer => hear(it, answer));
}

// The line above the screen: which commands have no answer yet.
const WARNING = 'Forget these commands? They may have been done all the same: look at the roster before you enter them anew.';
function forget() {
  if (!confirm(WARNING)) return;
  setOutbox([]);
  wake();
}
let later = 0;
function drawOutbox() {
  const list = outbox().filter(it => pause || Date.now() - it.at > 400), box = $('outbox');
  clearTimeout(later);
  if (!list.length && outbox().length) later = setTimeout(drawOutbox, 500);
  box.hidden = !list.length;
  if (!list.length) return fill(box);
  fill(box, h('div.line', h('b', `${plural(list.length, 'command')} without an answer yet.`),
    h('span', `${list.map(it => it.words).join('; ')}. Kept here, also over a reload, and sent again under the same number: it is done once.`),
    h('button', { onclick: () => wake() }, 'Send now'), h('button.danger', { onclick: forget }, 'Forget')));
}
