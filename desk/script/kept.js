// What this browser keeps from one visit to the next: the clock, the zoom, who the visitor is, commands that have no answer yet.

const here = new Map();  // (where the browser keeps nothing)

export function kept(key, otherwise = null) {
  try {
    return JSON.parse(localStorage.getItem('rosterbook.' + key)) ?? otherwise;
  } catch {
    return here.get(key) ?? otherwise;
  }
}

export function keep(key, value) {
  here.set(key, value);
  try {
    localStorage.setItem('rosterbook.' + key, JSON.stringify(value));
  } catch { /* it is kept until the page is left */ }
}
