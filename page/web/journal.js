// Who did what, and what came of it; and the file for whoever helps.
import { el, tableRow } from './dom.js';
import { readStatus } from './api.js';
import { live } from './live.js';
import { clock, commandWord, refusal, t } from './words.js';

// Whoever gave a command: a user of this page, another program, or a tool on a bus.
export function whoWords(one) {
  if (one.by === 'bus') return t('byBus', one.requester);
  return one.who ? t('byPage', one.who) : t('byProcess', one.pid, one.uid);
}

const ALL = 'F';
const UNIT_FUNCTIONS = [128, 130];

function what(one) {
  if (UNIT_FUNCTIONS.includes(one.function)) return commandWord(one.function);
  const [from, to] = one.pair;
  return `${commandWord(one.function)}, ${from}\u00a0→\u00a0${to === ALL ? '*' : to}`;
}

function result(one) {
  if (one.number === 0) return el('span', { class: 'pill good' }, t('commandDone'));
  const words = [t('refused', one.number, refusal(one.number))];
  if (one.absent !== undefined) words.push(t('absentAt', one.absent, one.to));
  else if (one.entry) words.push(t('entryAt', one.entry));
  return el('span', { class: 'bad' }, words.join(' '));
}

export function open(root) {
  const headings = [t('time'), t('who'), t('port', '').trim(), t('what'), t('result')];
  const only = el('input', { type: 'checkbox', id: 'only-refused' });
  const body = el('tbody');
  const none = el('p', { class: 'muted' }, t('journalNone'));
  let commands = live.status.commands;
  let newest = null;
  const draw = () => {
    const shown = commands.filter((one) => !only.checked || one.number !== 0);
    none.hidden = shown.length > 0;
    body.replaceChildren(...shown.map((one) => tableRow(headings, [clock(one.time), whoWords(one), String(one.port), what(one), result(one)])));
  };
  only.addEventListener('change', draw);
  root.replaceChildren(el('h1', null, t('journal')), el('section', { class: 'card' },
    el('header', null, el('p', { class: 'lead' }, t('journalLead')), el('label', { for: 'only-refused', class: 'tick' }, only, el('span', null, t('onlyRefused')))), none,
    el('table', { class: 'stack' }, el('thead', null, el('tr', null, headings.map((word) => el('th', { scope: 'col' }, word)))), body)),
  el('section', { class: 'card' }, el('h2', null, t('bundle')), el('p', { class: 'lead' }, t('bundleLead')),
    el('a', { class: 'button', href: '/api/bundle', download: true, id: 'bundle' }, t('bundleGet'))));
  return {
    update() {
      const first = live.status.commands[0];
      const text = first ? `${first.seconds} ${first.function} ${first.number}` : '';
      if (text === newest) return;
      newest = text;
      readStatus().then(({ status }) => { if (status) { commands = status.commands; draw(); } });
    },
  };
}

export const title = () => t('journal');
