// Instants, and lengths of time: minutes. An instant counts from 1970-01-01T00:00Z.

export const DAY = 1440;
export const at = text => Date.parse(text) / 60000;
export const iso = m => new Date(m * 60000).toISOString().slice(0, 16) + 'Z';
export const now = () => Math.floor(Date.now() / 60000);
export const two = n => String(n).padStart(2, '0');
export const hm = m => `${m < 0 ? '-' : ''}${Math.floor(Math.abs(m) / 60)}:${two(Math.abs(m) % 60)}`;
export const signed = m => (m > 0 ? '+' : '') + hm(m);
export const plural = (n, one, many = one + 's') => `${n} ${n === 1 ? one : many}`;
export const sum = (list, key) => list.reduce((total, it) => total + (it[key] ?? 0), 0);
