// Whether another desk has changed the book, and whether the book answers. While the page is seen, it is asked every few seconds how many
// requests it keeps; if that isn't what it was, what is shown is read again.

import { howMany, line, unlessLost } from './asking.js';
import { $ } from './dom.js';
import { isDragged } from './drag.js';
import { IN_USE, known, readAgain } from './known.js';
import { reading } from './reading.js';
import { show } from './screens.js';

const TURN = 2000, TURNS = 3;  // milliseconds; a book that answers is asked each third turn
let turn = 0;

// While something else is asked, nothing is: so a command of this desk is never taken for another's before it was read.
async function look() {
  if (document.hidden || howMany() || isDragged()) return;
  try {
    if (await reading.count(2) !== known.count) await readAgain({ held: IN_USE });
    else show();  // (what somebody was at is drawn once nobody is)
  } catch (why) { unlessLost(why); }
}
export function watchBook() {
  // Behind a gap all is read again.
  line.hear = isLost => { $('lost').hidden = !isLost; known.count = NaN; };
  setInterval(() => { if (line.isLost || ++turn % TURNS === 0) look(); }, TURN);
  addEventListener('visibilitychange', look);
}
