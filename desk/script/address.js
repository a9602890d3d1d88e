// Addresses in the page. `#/board/2025-06-01/month+pairing/B101` is a screen, and what stands in the panel beside it: so each can be a
// bookmark, and the browser's *back* closes the panel.

export function address() {
  let text;
  try { text = decodeURIComponent(location.hash.slice(2)); } catch { text = ''; }
  const [screen, panel] = text.split('+');
  return { screen: screen.split('/'), panel: panel ? panel.split('/') : null };
}
export const go = to => { location.hash = '#/' + to; };
export const beside = panel => `#/${address().screen.join('/')}+${panel}`;
export const dutyPanel = it => it.kind === 'pairing' ? `pairing/${it.id}` : `${it.kind}/${it.crew}/${it.id}`;
export const closePanel = () => go(address().screen.join('/'));
