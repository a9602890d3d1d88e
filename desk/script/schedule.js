// A schedule in CSV: read for a preview, and cut where one is too large for the server. The book judges it; here only what can't be cut
// or shown is a fault. What it refuses is looked for here, to say which text it is.

import { at, iso, plural } from './instants.js';

export const HEADER = 'pairing,period,report,release,flight,from,out,to,in';
const MOST_BYTES = 1_000_000, MOST_PAIRINGS = 9_999;  // of one request, with some room left

// The records of a text: fields between commas, which may be quoted; empty lines don't count.
function recordsOf(text) {
  const records = [], whole = text.replace(/^\ufeff/, '').replace(/\r\n?/g, '\n') + '\n';
  let record = [], field = '', isQuoted = false, isThere = false;
  for (let k = 0; k < whole.length; k++) {
    const sign = whole[k];
    if (isQuoted) {
      if (sign !== '"') field += sign;
      else if (whole[k + 1] === '"') field += whole[k++];
      else isQuoted = false;
    } else if (sign === '"' && !field) isQuoted = isThere = true;
    else if (sign !== ',' && sign !== '\n') field += sign;
    else {
      if (sign === ',' || field || isThere) record.push(field);
      isThere = sign === ',';
      field = '';
      if (sign === '\n' && record.length) records.push(record.splice(0));
    }
  }
  return records;
}

// The shapes of the fields, with an example of each.
const INSTANT = /^\d{4}-\d\d-\d\dT\d\d:\d\d(:00)?Z$/, FLIGHT = /^[A-Z0-9]{1,8}$/, PORT = /^[A-Z0-9]{3,4}$/;
const WHEN = { test: text => INSTANT.test(text) && !isNaN(at(text)) && iso(at(text)).slice(0, 16) === text.slice(0, 16) };
const SHAPES = [/^[A-Z0-9-]{1,12}$/, /^([1-9]|10)$/, WHEN, WHEN, FLIGHT, PORT, WHEN, PORT, WHEN];
export const EXAMPLE = 'P1,1,2025-06-10T11:00Z,2025-06-10T20:00Z,RB1,BOS,2025-06-10T12:00Z,IAD,2025-06-10T19:30Z';

// What is wrong with the texts of a record, or null; if it is only to be shown, with its times.
export function faultOf(record, isShown) {
  if (!record.join('').trim()) return 'it is an empty line: take it out';
  if (record.length !== 9) return `it has ${plural(record.length, 'field')}, not nine`;
  const n = record.findIndex((text, k) => (!isShown || SHAPES[k] === WHEN) && !SHAPES[k].test(text));
  return n < 0 ? null : `${HEADER.split(',')[n]} “${record[n]}” isn’t one such as ${EXAMPLE.split(',')[n]}`;
}
// The flight or airport of a pairing's periods that isn't one: the name of its field, and its text.
export function wrongText(periods) {
  for (const { flight, from, to } of periods.flatMap(p => p.segments))
    for (const [name, text, shape] of [['Flight', flight, FLIGHT], ['From', from, PORT], ['To', to, PORT]])
      if (!shape.test(text)) return [name, text];
}
const startOf = record => ({ id: record[0], records: [], begin: at(record[2]), end: 0, ports: [record[5]], periods: new Set() });

// The pairings of a schedule, and its faults: the number of a record, its pairing, and what is wrong with it. If it doesn't begin with the
// header, nothing of it is read.
export function readSchedule(text) {
  const [header, ...records] = recordsOf(text), pairings = [], faults = [];
  if (header?.join() !== HEADER) return null;
  records.forEach((record, n) => {
    const fault = faultOf(record, true);
    record.line = n + 2;
    if (fault) return faults.push([record, fault]);
    if (pairings.at(-1)?.id !== record[0]) pairings.push(startOf(record));
    const it = pairings.at(-1);
    it.records.push(record);
    it.end = Math.max(it.end, at(record[3]));
    it.ports.push(record[7]);
    it.periods.add(record[1]);
  });
  return { pairings, faults };
}

// The command that adds a pairing of a schedule.
export function commandOf({ id, records }) {
  const periods = [];
  records.forEach(([, period, report, release, flight, from, out, to, end], n) => {
    if (period !== records[n - 1]?.[1]) periods.push({ report, release, segments: [] });
    periods.at(-1).segments.push({ flight, from, out, to, in: end });
  });
  return { do: 'add-pairing', pairing: id, periods };
}

const quoted = field => /[",\n]/.test(field) ? `"${field.replaceAll('"', '""')}"` : field;
const linesOf = pairing => pairing.records.map(record => record.map(quoted).join() + '\n').join('');

// Schedules of these pairings, each small enough for one request.
export function sheetsOf(pairings) {
  const sheets = [];
  for (const pairing of pairings) {
    const lines = linesOf(pairing), bytes = new TextEncoder().encode(lines).length, last = sheets.at(-1);
    if (last && last.bytes + bytes <= MOST_BYTES && last.pairings.length < MOST_PAIRINGS) {
      last.pairings.push(pairing);
      last.bytes += bytes;
      last.csv += lines;
    } else sheets.push({ pairings: [pairing], bytes: bytes + HEADER.length + 1, csv: `${HEADER}\n${lines}` });
  }
  return sheets;
}
