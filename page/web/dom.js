// Elements made by hand: text is always text, never markup.
const SVG = 'http://www.w3.org/2000/svg';

function fill(node, attributes, children) {
  for (const [name, value] of Object.entries(attributes ?? {})) {
    if (value === undefined || value === null || value === false) continue;
    if (name.startsWith('on')) node.addEventListener(name.slice(2), value);
    else node.setAttribute(name, value === true ? '' : String(value));
  }
  node.append(...children.flat(Infinity).filter((child) => child !== null && child !== undefined && child !== false));
  return node;
}

export const el = (tag, attributes, ...children) => fill(document.createElement(tag), attributes, children);
export const svg = (tag, attributes, ...children) => fill(document.createElementNS(SVG, tag), attributes, children);

// Changes a text only where it is another, so that a screen reader is not told the same again and a selection stays.
export function setText(node, text) {
  if (node.textContent !== text) node.textContent = text;
}

export function setClass(node, name, on) {
  node.classList.toggle(name, Boolean(on));
}

let ids = 0;
export const id = (word) => `${word}-${++ids}`;

// A labelled field: [label, input] in a block.
export function field(label, input, hint) {
  input.id ||= id('field');
  const hintId = hint ? id('hint') : undefined;
  if (hintId) input.setAttribute('aria-describedby', hintId);
  return el('div', { class: 'field' }, el('label', { for: input.id }, label), input, hint ? el('p', { class: 'hint', id: hintId }, hint) : null);
}

export function table(headings, rows, attributes) {
  return el('table', attributes,
    el('thead', null, el('tr', null, headings.map((heading) => el('th', { scope: 'col' }, heading)))),
    el('tbody', null, rows.map((row) => tableRow(headings, row))));
}

// A row whose cells carry their heading, which a narrow screen shows in front of them.
export function tableRow(headings, cells, attributes) {
  return el('tr', attributes, cells.map((cell, i) => el('td', { 'data-label': headings[i] }, cell)));
}

export function message(kind, ...children) {
  return el('p', { class: `message ${kind}` }, ...children);
}
