// A field for an instant. Times are typed in UTC: 1105 or 11:05; 11 0105, with a day of the month; 2025-06-11 01:05; or +35, minutes after
// the plan. What was read stands below, with the clock of the base.

import { clock, date, when, zones } from './clock.js';
import { h } from './dom.js';
import { DAY, iso, signed } from './instants.js';

const WHOLE = /^(\d{4})-(\d\d)-(\d\d)[T ]+(\d\d):?(\d\d)$/;
const SHIFT = /^([+-])(?:(\d+):(\d\d)|(\d{1,4}))$/;
const OF_A_DAY = /^(?:(\d\d?)[ ./]+)?(\d\d?):?(\d\d)$/;
const FAR = 30;  // days
const DATED = '2025-06-12 08:00';

// The instant that a text means beside another one; null if it means none.
export function readTime(text, near) {
  const typed = text.trim().replace(/Z$/i, ''), whole = WHOLE.exec(typed);
  if (whole) {
    const [, y, mo, d, hours, mins] = whole, m = Date.UTC(y, mo - 1, d, hours, mins) / 60000;
    return iso(m) === `${y}-${mo}-${d}T${hours}:${mins}Z` ? m : null;
  }
  if (near == null) return null;
  const later = SHIFT.exec(typed);
  if (later) return near + (later[1] === '-' ? -1 : 1) * (later[2] ? later[2] * 60 + +later[3] : +later[4]);
  const [, day, hours, mins] = OF_A_DAY.exec(typed) ?? [];
  if (hours === undefined || hours > 23 || mins > 59) return null;
  const first = Math.floor(near / DAY), ofDay = hours * 60 + +mins;
  if (!day) return nearest(first * DAY + ofDay, near);
  for (let far = 0; far <= FAR; far++)
    for (const n of [first + far, first - far]) if (new Date(n * 864e5).getUTCDate() === +day) return n * DAY + ofDay;
  return null;
}
const nearest = (m, near) => m + DAY * Math.round((near - m) / DAY);

// What was read: the day, unless it is that of the plan; day and time by the clock of the base; how much later than the plan.
function readText(m, plan) {
  const base = clock.base !== 'UTC' ? clock.base : zones.has('HOME') ? 'HOME' : null;
  const isSameDay = plan != null && Math.floor(m / DAY) === Math.floor(plan / DAY);
  return [isSameDay ? '' : `${date(m, 'UTC')} UTC`, base && `${when(m, base)} ${base}`,
    plan != null && m !== plan && signed(m - plan)].filter(Boolean).join(' · ');
}

let count = 0;
// `value` is what it has at first; `near` an instant, or a function that gives one, near which a time of day is meant; `plan` what it is
// held against; `changed` is called after each key. Its element has `at`, the instant or null.
export function timeField(name, { value = null, near = () => null, plan = null, changed = () => {}, isShort = false } = {}) {
  const shown = m => m == null ? '' : isShort ? iso(m).slice(11, 16) : iso(m).slice(0, 16).replace('T', ' ');
  const hint = h('span.hint', { id: `hint${++count}` });
  const input = h('input', {
    value: shown(value), 'aria-describedby': hint.id, label: isShort ? `${name}, UTC` : null, spellcheck: 'false', autocomplete: 'off',
    placeholder: isShort ? 'hh:mm' : DATED, oninput: () => { field.read(); changed(); },
  });
  const field = isShort ? h('div', input, hint) : h('label', `${name} `, h('b.utc', 'UTC'), input, hint);
  field.read = () => {
    const typed = input.value.trim();
    field.at = !typed ? null : typed === shown(value) ? value : readTime(typed, near());
    const isWrong = typed !== '' && field.at == null, like = near() == null ? DATED : '11:05, +35 or 11 01:05';
    input.setAttribute('aria-invalid', isWrong);
    hint.textContent = isWrong ? `write it as ${like}` : field.at == null ? '' : readText(field.at, plan);
  };
  field.read();
  return field;
}
export const areRead = fields => fields.every(it => it.at != null);
export const UNREAD = 'A time is missing, or isn’t read.';
