// Who may fly a pairing, as far as that is known by now: the board shows it beside the rows, and while a pairing is dragged.

export const marks = { pairing: null, verdicts: new Map(), draw() {} };

export function startMarks(pairing) {
  clearMarks();
  marks.pairing = pairing;
}
export function setMark(pairing, crew, verdict) {
  if (pairing !== marks.pairing) return;
  marks.verdicts.set(crew, verdict);
  marks.draw(crew);
}
export function clearMarks() {
  const crews = [...marks.verdicts.keys()];
  marks.pairing = null;
  marks.verdicts.clear();
  crews.forEach(marks.draw);
}
