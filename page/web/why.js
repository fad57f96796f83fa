// Why a frame would cross, or not; and what was stopped and lost a moment ago.
import { el, field, message, tableRow } from './dom.js';
import { command } from './api.js';
import { answerWords } from './list.js';
import { listOf, live, portLabel, ports } from './live.js';
import { hex, isPgn, readNumber } from './pgn.js';
import { matches } from './name.js';
import { clock, reasonWord, refusal, t } from './words.js';

const LISTED = ['listed in pass', 'stopped as listed'];

const optionText = (port) => (portLabel(port) ? `${port} · ${portLabel(port)}` : String(port));

// The entry that decided, by the list that is shown.
function entryWords(reason, from, to, pgn, source) {
  const list = listOf(from, to);
  if (!list || !LISTED.includes(reason)) return '';
  const place = list.pgns.indexOf(pgn);
  if (place >= 0) return t('entryNumber', place + 1, list.pgns.length);
  const sender = (live.status.addresses ?? []).flatMap((port) => port.addresses).find((one) => one.address === source)?.name;
  const named = list.names.findIndex((entry) => matches(entry, pgn, sender ? BigInt(`0x${sender}`) : null));
  return named >= 0 ? t('entryByName', named + 1, list.names.length) : '';
}

function answerRow(headings, one, from, pgn, source) {
  if (one.number !== undefined) return tableRow(headings, [optionText(one.port), t('notYours'), refusal(one.number), ''], { class: 'muted' });
  const stops = one.reason.startsWith('stopped');
  return tableRow(headings, [optionText(one.port), el('span', { class: `pill ${stops ? 'bad' : 'good'}` }, t(stops ? 'stops' : 'crosses')), reasonWord(one.reason),
    [entryWords(one.reason, from, one.port, pgn, source), ' ', el('a', { href: `#/list/${from}/${one.port}` }, t('openList'))]]);
}

function fate(frame) {
  if (frame.number !== undefined) return t('frameRefused', frame.number, refusal(frame.number));
  const words = frame.stopped.map((port) => t('stoppedAt', port, reasonWord(frame.reasons[port - 1])));
  if (frame.lost.length > 0) words.push(t('lostAt', frame.lost.join(', ')));
  return words.join(' · ');
}

function questions() {
  const port = el('select', { id: 'why-port' }, ports().map((one) => el('option', { value: one }, optionText(one))));
  const pgn = el('input', { id: 'why-pgn', autocomplete: 'off', spellcheck: 'false', inputmode: 'text', maxlength: 10, placeholder: '65265 / 0xFEF1' });
  const source = el('input', { id: 'why-source', autocomplete: 'off', inputmode: 'text', maxlength: 5, placeholder: '0 – 253' });
  const told = el('div', { role: 'status', id: 'why-told' });
  const headings = [t('toPort'), t('verdict'), t('reason'), t('entry')];
  const form = el('form', { class: 'ask', novalidate: true }, field(t('arrivesAt'), port), field(t('pgn'), pgn), field(t('senderAddress'), source),
    el('button', { class: 'primary', type: 'submit' }, t('ask')));
  form.addEventListener('submit', async (event) => {
    event.preventDefault();
    const number = readNumber(pgn.value.trim());
    const address = readNumber(source.value.trim());
    if (number === null || !isPgn(number)) { told.replaceChildren(message('bad', t('wrongPgn'))); pgn.focus(); return; }
    if (address === null || address > 253) { told.replaceChildren(message('bad', t('wrongAddress'))); source.focus(); return; }
    const from = Number(port.value);
    const answer = await command({ do: 'ask', from, pgn: number, source: address });
    if (answer.error || answer.number !== 0) { const { kind, words } = answerWords(answer); told.replaceChildren(message(kind, words.join(' '))); return; }
    told.replaceChildren(el('table', { class: 'stack', id: 'why-answer' },
      el('thead', null, el('tr', null, headings.map((word) => el('th', { scope: 'col' }, word)))),
      el('tbody', null, answer.ports.map((one) => answerRow(headings, one, from, number, address)))));
  });
  return { form, told, ask(frame) { port.value = String(frame.port); pgn.value = String(frame.pgn); source.value = String(frame.source); form.requestSubmit(); } };
}

export function open(root) {
  const question = questions();
  const headings = [t('time'), t('port', '').trim(), t('pgn'), t('senderAddress'), t('frame'), t('whatHappened'), ''];
  const body = el('tbody');
  const none = el('p', { class: 'muted' }, t('tailNone'));
  const hold = el('input', { type: 'checkbox', id: 'hold' });
  const tail = el('table', { class: 'stack tail' }, el('thead', null, el('tr', null, headings.map((word) => el('th', { scope: 'col' }, word)))), body);
  root.replaceChildren(el('h1', null, t('why')), el('section', { class: 'card' }, el('p', { class: 'lead' }, t('whyLead')), question.form, question.told),
    el('section', { class: 'card' }, el('header', null, el('h2', null, t('tail')), el('label', { for: 'hold', class: 'tick' }, hold, el('span', null, t('pause')))), none, tail));
  let drawn = '';
  return {
    update() {
      const { frames } = live.status;
      const text = JSON.stringify(frames.slice(0, 2));
      none.hidden = frames.length > 0;
      tail.hidden = frames.length === 0;
      if (hold.checked || text === drawn) return;
      drawn = text;
      const again = document.activeElement?.closest('.tail') ? document.activeElement.dataset.row : null;
      body.replaceChildren(...frames.map((frame, i) => tableRow(headings, [clock(frame.time), String(frame.port), `${frame.pgn} (${hex(frame.pgn)})`, String(frame.source),
        el('span', { class: 'mono' }, frame.id), fate(frame),
        frame.number === undefined ? el('button', { type: 'button', class: 'link', 'data-row': i, onclick: () => question.ask(frame) }, t('askThis')) : ''])));
      if (again !== null) body.querySelector(`[data-row="${Number(again)}"]`)?.focus();
    },
  };
}

export const title = () => t('why');
