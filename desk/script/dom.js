// Elements. What a book says enters the page as texts and attributes alone, never as markup: `h` makes each element of the page.

export const $ = id => document.getElementById(id);
export const isPhone = () => innerWidth <= 760;  // (as in narrow.css)
export const all = (css, within = document) => [...within.querySelectorAll(css)];

const LONG = { label: 'aria-label', key: 'data-key', column: 'data-label' };
function set(el, name, value) {
  if (value == null || value === false) return;
  if (name === 'style') for (const [key, text] of Object.entries(value)) el.style.setProperty(key, text);
  else if (name.startsWith('on')) el.addEventListener(name.slice(2), value);
  else if (name === 'value' || name === 'checked') el[name] = value;
  else el.setAttribute(LONG[name] ?? name, value === true ? '' : value);
}

// An element, by its tag and classes, as `p.soft`. Its parts are attributes (as an object, with short names for long ones), elements, texts,
// and lists of parts; null, false and '' are left out.
export function h(name, ...parts) {
  const [tag, ...classes] = name.split('.'), el = document.createElement(tag);
  if (classes.length) el.className = classes.join(' ');
  for (const part of parts.flat(9)) {
    if (part == null || part === false || part === '') continue;
    if (typeof part !== 'object' || part instanceof Node) el.append(part);
    else for (const [key, value] of Object.entries(part)) set(el, key, value);
  }
  return el;
}

// Gives an element other parts.
export const fill = (el, ...parts) => el.replaceChildren(...h('p', parts).childNodes);

// What is drawn anew has the same `data-key`: so the focus finds its way back.
export const keyed = (key, within = document) => within.querySelector(`[data-key="${CSS.escape(key)}"]`);
