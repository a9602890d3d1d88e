// Messages in the head of the page: what was done, and what was refused. The newest of either stands, until it is closed.

import { $, all, h } from './dom.js';

const READABLE = 12_000;  // milliseconds of what was done
const COMMON = '.told:not(#lost)';

// One more message, which takes no other away.
export function tellAlso(isGood, title, ...parts) {
  const close = h('button.link.push', { label: 'Close the message', title: 'Close (Esc)', onclick: () => box.remove() }, '✕');
  const isButton = it => it?.tagName === 'BUTTON', box = h('div', { class: isGood ? 'told' : 'told no', role: isGood ? 'status' : 'alert' },
    h('div.line', h('b', title), parts.filter(isButton), close), parts.filter(it => !isButton(it)));
  $('told').append(box);
  if (isGood) setTimeout(() => box.remove(), READABLE);
}
export function tell(isGood, ...parts) {
  closeMessages(isGood ? COMMON : COMMON + '.no');
  tellAlso(isGood, ...parts);
}
// Whether there were any.
export function closeMessages(css = COMMON) {
  const list = all(css);
  for (const it of list) it.remove();
  return list.length > 0;
}
