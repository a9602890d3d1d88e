// With whom a member may swap a pairing: those who have the same seat of another one that isn't flown, of the days around.

import { swap } from './acting.js';
import { unlessLost } from './asking.js';
import { when } from './clock.js';
import { fill, h } from './dom.js';
import { DAY } from './instants.js';
import { known, nameOf } from './known.js';
import { phrases } from './phrases.js';
import { wrongOf } from './refusals.js';
import { checks } from './sending.js';

const DAYS = 10, MOST_PLANS = 60;  // how far from the pairing, and how many

function others(it, seat) {
  const far = p => Math.abs(p.begin - it.begin), crew = it.seats[seat];
  return known.pairings
    .filter(p => p.pairing !== it.pairing && !p.isFlown && p.seats[seat] && p.seats[seat] !== crew && far(p) < DAYS * DAY)
    .sort((a, b) => far(a) - far(b)).slice(0, MOST_PLANS);
}
const isAllowed = answer => answer.result === 'accepted';
const why = answer => answer.refusal === 11 ? 'overlap' : answer.limits?.map(it => `${it.crew} ${it.section}`).join(' ') ?? wrongOf(answer);

export function swaps(it, seat, signal) {
  const crew = it.seats[seat], plans = others(it, seat), list = h('ul.plain'), progress = h('span.soft.small', { role: 'status' });
  const commands = plans.map(p => ({ do: 'swap', pairing: it.pairing, crew, other_pairing: p.pairing, other_crew: p.seats[seat] }));
  function row(answer, n) {
    const command = commands[n], { other_crew: otherCrew, other_pairing: other } = command;
    const button = h('button.main', { label: `Swap: ${phrases(command).words}`, onclick: () => swap(command) }, 'Swap');
    return h('li.candidate', h('span', h('bdi', nameOf(otherCrew)), h('span.soft.small', ` ${otherCrew} · ${other} · ${when(plans[n].begin)}`)),
      isAllowed(answer) ? button : h('span.tag.red', why(answer)));
  }
  if (plans.length) {
    checks(commands, signal).then(answers => {
      const rows = answers.map(row), [yes, no] = [true, false].map(ok => rows.filter((_, n) => isAllowed(answers[n]) === ok));
      fill(list, yes, no);
      progress.textContent = `${yes.length} of ${plans.length} may`;
    }).catch(unlessLost);
  } else list.append(h('li.soft', `No other planned pairing within ${DAYS} days has a ${seat}.`));
  const title = `With whom may ${nameOf(crew)} swap?`;
  return h('section.card', { label: title }, h('div.line.end', h('h3', title), progress), list);
}
