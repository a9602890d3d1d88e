// The form for flown times of a period. It begins with the plan, or with the times that are corrected.

import { h } from './dom.js';
import { cellsOf, table } from './pieces.js';
import { timeField } from './timefield.js';
import { timesForm } from './timesform.js';

// The fields, each held against its time in the plan.
function fieldsOf(period) {
  const { plan } = period, now = period.flown ?? plan;
  const field = (name, value, planned) => timeField(name, { value, near: () => planned, plan: planned, isShort: true });
  const segments = plan.segments.map((it, n) => ({
    out: field(`${it.flight} out`, now.segments[n].out, it.out), in: field(`${it.flight} in`, now.segments[n].in, it.in),
  }));
  return { report: field('Report', now.report, plan.report), segments, release: field('Release', now.release, plan.release) };
}

export function flownForm(it, period) {
  const { report, segments, release } = fieldsOf(period);
  const rows = period.plan.segments.map((s, n) => cellsOf([s.flight, h('span.soft.below', `${s.from}–${s.to}`)], segments[n].out, segments[n].in));
  const warning = !it.isFlown && ' Once a period is flown, the pairing can’t be released, swapped or cancelled any more.';
  const form = timesForm('form.flown-form.card', {
    head: () => ({ do: 'actual', pairing: it.pairing, period: period.period }), report, release, segments,
    verb: 'Record flown times', isCorrection: period.flown,
  }, [
    h('p.small.soft', h('b.utc', 'UTC'), '. Type 1105, +35 for minutes after the plan, or 11 0105 for the 11th.', warning),
    table('.small.num', 'Flown times', ['Segment', 'Out', 'In'], cellsOf('Report', report, ''), rows, cellsOf('Release', '', release)),
  ], h('button', { type: 'button', onclick: () => form.remove() }, 'Close'));
  return form;
}
