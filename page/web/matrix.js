// From × To: what each pair lets through, and what came of it.
import { el, setClass, setText } from './dom.js';
import { listOf, pairOf, portLabel, ports, stoppedOf } from './live.js';
import { NAMES_MAX } from './pgn.js';
import { number, t } from './words.js';

function heading(port) {
  const label = portLabel(port);
  return [el('span', { class: 'portnumber' }, String(port)), label ? el('span', { class: 'portname' }, label) : null];
}

function cell(from, to) {
  const mode = el('span', { class: 'pill' });
  const entries = el('span', { class: 'entries' });
  const counts = ['crossed', 'stopped', 'lost'].map((what) => ({ what, value: el('b'), word: el('span', null, t(what)) }));
  const link = el('a', { href: `#/list/${from}/${to}`, class: 'pair' },
    el('span', { class: 'narrow' }, `${t('from', from)} ${t('to', to)}`), el('span', { class: 'head' }, mode, entries),
    el('span', { class: 'counts' }, counts.map(({ value, word }) => el('span', null, value, ' ', word))));
  return {
    node: el('td', null, link),
    update() {
      const list = listOf(from, to);
      const pair = pairOf(from, to);
      setText(mode, t(`mode_${list.mode}`));
      mode.className = `pill mode-${list.mode}`;
      const words = [list.mode === 'cleared' ? t('noList') : t('entriesOf', list.pgns.length)];
      if (list.names.length > 0) words.push(t('namesOf', `${list.names.length}/${NAMES_MAX}`));
      setText(entries, words.join(', '));
      const values = { crossed: pair.crossed, stopped: stoppedOf(pair), lost: pair.lost };
      for (const { what, value } of counts) {
        setText(value, number(values[what]));
        setClass(value.parentElement, 'bad', what === 'lost' && pair.lost > 0);
        setClass(value.parentElement, 'zero', values[what] === 0);
      }
    },
  };
}

export function open(root) {
  const all = ports();
  const cells = [];
  const make = (from, to) => {
    if (from === to) return el('td', { class: 'self' }, el('span', { 'aria-hidden': 'true' }, '·'));
    if (!listOf(from, to)) return el('td', { class: 'foreign' }, t('notYours'));
    const made = cell(from, to);
    cells.push(made);
    return made.node;
  };
  const rows = all.map((from) => el('tr', null, el('th', { scope: 'row' }, heading(from)), all.map((to) => make(from, to))));
  const table = el('table', { class: 'matrix' },
    el('thead', null, el('tr', null, el('th', { scope: 'col' }, t('fromTo')), all.map((port) => el('th', { scope: 'col' }, heading(port))))),
    el('tbody', null, rows));
  table.style.minWidth = `${8 + 9.5 * all.length}rem`; // with many ports it scrolls sideways
  root.replaceChildren(el('h1', null, t('matrix')), el('p', { class: 'lead' }, t('matrixLead')), el('div', { class: 'scroll' }, table));
  return { update() { for (const one of cells) one.update(); } };
}

export const title = () => t('matrix');
