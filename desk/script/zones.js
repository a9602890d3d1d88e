// The zone of a base: a POSIX rule such as EST5EDT,M3.2.0,M11.1.0, as the book reads it.

import { DAY, two } from './instants.js';

const TIME = '[+-]?\\d{1,3}(?::\\d\\d){0,2}';
const NAME = '(?:[A-Za-z]{3,15}|<[A-Za-z0-9+-]{3,15}>)';
const DATE = `(M\\d\\d?\\.\\d\\.\\d|J?\\d{1,3})(?:/(${TIME}))?`;
const RULE = new RegExp(`^${NAME}(${TIME})(?:${NAME}(${TIME})?,${DATE},${DATE})?$`);

function minutesOf(text) {
  const [hours, minutes = 0] = text.replace(/^[+-]/, '').split(':');
  return (text[0] === '-' ? -1 : 1) * (hours * 60 + +minutes);
}

// The day of a year on which a rule says that clocks change, counted from 1970: `M3.2.0` (the second Sunday of March), `J60` or `59`.
function changeDay(year, text) {
  const first = Date.UTC(year, 0, 1) / 864e5;
  if (text[0] === 'J') return first + +text.slice(1) - 1 + (Date.UTC(year, 1, 29) < Date.UTC(year, 2, 1) && +text.slice(1) > 59);
  if (text[0] !== 'M') return first + +text;
  const [month, week, weekday] = text.slice(1).split('.').map(Number);
  const begin = Date.UTC(year, month - 1, 1) / 864e5, last = Date.UTC(year, month, 0) / 864e5;
  const found = begin + (weekday - new Date(begin * 864e5).getUTCDay() + 7) % 7 + 7 * (week - 1);
  return found > last ? found - 7 : found;
}

// A zone: `offset(m)` is how many minutes its clocks are ahead of UTC at an instant. Null if the text is no rule.
export function zoneOf(rule) {
  const found = RULE.exec(rule);
  if (!found) return null;
  const [, west, summerWest, beginDate, beginTime = '2', endDate, endTime = '2'] = found;
  const standard = -minutesOf(west), summer = summerWest ? -minutesOf(summerWest) : standard + 60;
  if (!beginDate) return { rule, offset: () => standard };
  const offset = m => {
    const year = new Date((m + standard) * 60000).getUTCFullYear();
    const begin = changeDay(year, beginDate) * DAY + minutesOf(beginTime) - standard;
    const end = changeDay(year, endDate) * DAY + minutesOf(endTime) - summer;
    return (begin < end ? m >= begin && m < end : m < end || m >= begin) ? summer : standard;
  };
  return { rule, offset };
}

// The zones that docs/REFUSALS.md has too.
export const RULES = [
  ['EST5EDT,M3.2.0,M11.1.0', 'Eastern'], ['CST6CDT,M3.2.0,M11.1.0', 'Central'], ['MST7MDT,M3.2.0,M11.1.0', 'Mountain'],
  ['MST7', 'Arizona'], ['PST8PDT,M3.2.0,M11.1.0', 'Pacific'], ['AKST9AKDT,M3.2.0,M11.1.0', 'Alaska'], ['HST10', 'Hawaii'],
  ['AST4', 'Puerto Rico'], ['UTC0', 'UTC'],
];

// What a clock there shows at 17:00 UTC on the 15th of a month, counted from 0, of this year.
export function shownAt17(zone, month) {
  const m = Date.UTC(new Date().getUTCFullYear(), month, 15, 17) / 60000, there = (m + zone.offset(m)) % DAY;
  return `${two(Math.floor(there / 60))}:${two(there % 60)}`;
}
