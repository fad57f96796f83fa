// Who has which address, and what its NAME says.
import { el, tableRow } from './dom.js';
import { live, portLabel } from './live.js';
import { FIELDS } from './name.js';
import { clock, number, t } from './words.js';

const HEADINGS = () => [t('address'), t('name'), t('fields'), t('since'), t('conflicts')];

function fieldWords(one) {
  return el('ul', { class: 'namefields' }, FIELDS.map(({ key }) => {
    const value = one[key];
    const text = value === null ? t('unknown') : typeof value === 'boolean' ? t(value ? 'yes' : 'no') : String(value);
    return el('li', null, el('span', { class: 'muted' }, `${t(key)} `), text);
  }));
}

function conflictWords(one) {
  if (!one.conflicts) return t('never');
  return el('span', { class: 'bad' }, t('rival', number(one.conflicts), clock(one.last_conflict.time), one.last_conflict.name));
}

function row(headings, one) {
  if (!one.name) return tableRow(headings, [String(one.address), t('unknown'), '', '', conflictWords(one)]);
  return tableRow(headings, [el('b', null, String(one.address)), el('span', { class: 'mono' }, one.name), fieldWords(one), one.since ? clock(one.since.time) : '', conflictWords(one)]);
}

function section(port) {
  const headings = HEADINGS();
  const label = portLabel(port.port);
  return el('section', { class: 'card' }, el('h2', null, t('port', port.port), label ? el('span', { class: 'muted' }, ` · ${label}`) : null),
    port.addresses.length === 0 ? el('p', { class: 'muted' }, t('addressesNone'))
      : el('table', { class: 'stack' }, el('thead', null, el('tr', null, headings.map((word) => el('th', { scope: 'col' }, word)))), el('tbody', null, port.addresses.map((one) => row(headings, one)))));
}

function unitLine() {
  const { unit } = live.status;
  return el('section', { class: 'card' }, el('h2', null, t('thisUnit')),
    el('dl', { class: 'facts' }, el('div', null, el('dt', null, t('address')), el('dd', null, unit.address === null ? t('noAddress') : String(unit.address))),
      el('div', null, el('dt', null, t('name')), el('dd', { class: 'mono' }, unit.name)), el('div', null, el('dt', null, t('conflicts')), el('dd', null, conflictWords(unit)))));
}

export function open(root) {
  const body = el('div');
  root.replaceChildren(el('h1', null, t('addresses')), el('p', { class: 'lead' }, t('addressesLead')), body);
  let drawn = '';
  return {
    update() {
      const { addresses, unit } = live.status;
      const text = JSON.stringify([addresses, unit.address, unit.conflicts]).replace(/"time":"[^"]*"/g, '');
      if (text === drawn) return;
      drawn = text;
      body.replaceChildren(unitLine(), ...(addresses ? addresses.map(section) : [el('p', { class: 'card' }, t('addressesUnknown'))]));
    },
  };
}

export const title = () => t('addresses');
