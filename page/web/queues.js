// What waited in the last ten minutes, what was lost, and the counters of it.
import { el, message, setText, tableRow } from './dom.js';
import { command, mayChange, readHistory, readStatus, session } from './api.js';
import { answerWords } from './list.js';
import { live, portLabel, portOf, ports, samples } from './live.js';
import { RANKS, queueChart } from './charts.js';
import { whoWords } from './journal.js';
import { clock, number, t } from './words.js';

const KEPT = 600;
const PAIR_RESET = 133;
const UNIT_RESET = 130;

// The program's memory, and what came since: samples of a port, the oldest first.
function samplesOf(history, port) {
  const place = history.ports.indexOf(port);
  const known = history.samples.at(-1)?.[0] ?? 0;
  return [...history.samples, ...samples.filter(([time]) => time > known)].slice(-KEPT)
    .map(([time, waiting, lost, most]) => ({ time, waiting: waiting?.[place] ?? null, lost: lost?.[place] ?? 0, most: most?.[place] ?? 0 }));
}

function legend() {
  return el('ul', { class: 'legend' }, Array.from({ length: RANKS }, (unused, rank) => el('li', null, el('span', { class: `swatch rank${rank}` }), t('priority', rank))),
    el('li', null, el('span', { class: 'swatch peak' }), t('mostAtOnce')), el('li', null, el('span', { class: 'swatch loss' }), t('lost')));
}

// The last reset of each counter that the journal has: "12" for a pair, "" for the unit.
function resetsOf(commands) {
  const resets = new Map();
  for (const one of commands) {
    if (one.number !== 0 || (one.function !== PAIR_RESET && one.function !== UNIT_RESET)) continue;
    const key = one.function === PAIR_RESET ? one.pair : '';
    if (!resets.has(key)) resets.set(key, one);
  }
  return resets;
}

function counters() {
  const headings = [t('pair'), t('count'), t('lastReset'), ...(mayChange() ? [''] : [])];
  const told = el('div', { role: 'status', id: 'reset-told' });
  let resets = new Map();
  const rowFor = (key, words, request, label, valueOf) => {
    const value = el('span');
    const reset = el('span', { class: 'muted' });
    const button = mayChange() ? el('button', { type: 'button', 'aria-label': label, 'data-reset': key }, t('reset')) : null;
    button?.addEventListener('click', async () => {
      button.disabled = true;
      const outcome = answerWords(await command(request));
      button.disabled = false;
      told.replaceChildren(message(outcome.kind, `${words}: ${outcome.words.join(' ')}`));
      refresh();
    });
    return {
      node: tableRow(headings, [words, value, reset, ...(button ? [button] : [])]),
      update() {
        const count = valueOf();
        setText(value, count === null ? '–' : number(count));
        value.className = count > 0 ? 'bad' : '';
        const last = resets.get(key);
        setText(reset, last ? t('byAt', whoWords(last), clock(last.time)) : t('notReset'));
      },
    };
  };
  const rows = live.status.pairs.map(({ from, to }) => rowFor(`${from}${to}`, `${from} → ${to}`, { do: 'reset', from, to }, t('resetPair', from, to),
    () => live.status.pairs.find((pair) => pair.from === from && pair.to === to)?.losses ?? null));
  if (session.role !== 'fitter') rows.unshift(rowFor('', t('wholeUnit'), { do: 'reset' }, t('resetAll'), () => live.status.unit.losses));
  const refresh = async () => {
    const { status } = await readStatus();
    if (status) resets = resetsOf(status.commands);
    for (const row of rows) row.update();
  };
  refresh();
  let newest = '';
  return {
    node: el('section', { class: 'card' }, el('h2', null, t('counters')), el('p', { class: 'lead' }, t('countersLead')), told,
      el('table', { class: 'stack counters' }, el('thead', null, el('tr', null, headings.map((word) => el('th', { scope: 'col' }, word)))), el('tbody', null, rows.map((row) => row.node)))),
    update() {
      const last = live.status.commands[0];
      const text = last ? `${last.seconds} ${last.function}` : '';
      if (text !== newest) { newest = text; refresh(); }
      for (const row of rows) row.update();
    },
  };
}

export function open(root) {
  const charts = ports().filter((port) => 'in' in portOf(port)).map((port) => ({ port, chart: queueChart(port) }));
  const table = counters();
  let history = { ports: charts.map(({ port }) => port), samples: [] };
  root.replaceChildren(el('h1', null, t('queues')), el('p', { class: 'lead' }, t('queuesLead')), legend(),
    el('div', { class: 'charts' }, charts.map(({ port, chart }) => el('section', { class: 'card' },
      el('h2', null, t('port', port), portLabel(port) ? el('span', { class: 'muted' }, ` · ${portLabel(port)}`) : null), chart.node))), table.node);
  // The newest sample is now: the box and the browser need not agree on the time.
  const draw = () => {
    for (const { port, chart } of charts) {
      const known = samplesOf(history, port);
      chart.update(known, known.at(-1)?.time ?? 0);
    }
  };
  readHistory().then((answer) => { if (answer.samples) { history = answer; draw(); } });
  return { update() { draw(); table.update(); } };
}

export const title = () => t('queues');
