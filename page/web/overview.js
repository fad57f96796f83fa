// What an owner wants to know first: is it well, what flows, what was lost.
import { el, setClass, setText } from './dom.js';
import { session } from './api.js';
import { live, portOf, ports, rate } from './live.js';
import { queueBar } from './charts.js';
import { clock, duration, has, number, t } from './words.js';

const showRate = (value) => (value === null ? '–' : number(value < 9.95 ? Math.round(value * 10) / 10 : Math.round(value)));

function definition(list, word) {
  const value = el('dd');
  list.append(el('div', null, el('dt', null, word), value));
  return value;
}

function unitCard() {
  const list = el('dl', { class: 'facts' });
  const address = definition(list, t('address'));
  const name = definition(list, t('name'));
  const running = definition(list, t('running'));
  const lost = definition(list, t('lostInAll'));
  const contended = definition(list, t('contended'));
  const turn = definition(list, t('worstTurn'));
  return {
    node: el('section', { class: 'card' }, el('h2', null, t('unit')), list),
    update() {
      const { unit, loop } = live.status;
      setText(address, unit.address === null ? t('noAddress') : String(unit.address));
      setText(name, unit.name);
      setText(running, duration(unit.seconds));
      setText(lost, unit.losses === null ? '–' : number(unit.losses));
      setClass(lost, 'bad', unit.losses > 0);
      setText(contended, unit.conflicts ? t('times', number(unit.conflicts), clock(unit.last_conflict.time)) : t('never'));
      setText(turn, loop ? `${number(Math.round(loop.worst_us / 100) / 10)} ms` : '–');
      lost.parentElement.hidden = unit.losses === null && session.role === 'fitter';
      turn.parentElement.hidden = !loop;
    },
  };
}

const stateWord = (state) => { const key = `interface_${state.replaceAll('-', '')}`; return has(key) ? t(key) : state; };

function portCard(port) {
  const state = el('span', { class: 'pill' });
  const label = el('p', { class: 'interface' });
  const flows = ['in', 'out'].map((what) => {
    const value = el('span', { class: 'big' }, '–');
    return { what, value, node: el('div', { class: 'flow' }, el('span', { class: 'word' }, t(what)), value, el('span', { class: 'unit' }, t('perSecond'))) };
  });
  const bar = queueBar();
  const waiting = el('span');
  const most = el('span', { class: 'muted' });
  const losses = el('p', { class: 'losses' });
  return {
    node: el('section', { class: 'card port' },
      el('header', null, el('h2', null, t('port', port), port === 1 ? el('span', { class: 'muted' }, ` · ${t('servicePort')}`) : null), state),
      label, el('div', { class: 'flows' }, flows.map((flow) => flow.node)),
      el('div', { class: 'queue' }, bar.node, el('p', null, waiting, el('span', { class: 'muted' }, ' · '), most)), losses),
    update() {
      const now = portOf(port);
      setText(label, now.interface);
      setText(state, stateWord(now.state));
      state.className = `pill ${now.state === 'up' ? 'good' : 'bad'}`;
      for (const { what, value } of flows) setText(value, showRate(rate(port, what)));
      bar.update(now.queue.waiting_by_priority);
      setText(waiting, t('queueWaiting', now.queue.waiting_by_priority.reduce((sum, count) => sum + count, 0)));
      setText(most, t('queueMost', now.queue.high_water));
      const lost = now.lost + now.own_lost;
      const words = [];
      if (lost > 0) words.push(`${number(lost)} ${t('lost')}`);
      if (now.missed > 0) words.push(`${number(now.missed)} ${t('missed')}`);
      if (now.queue.last_loss) words.push(t('lastLoss', clock(now.queue.last_loss.time)));
      setText(losses, words.length > 0 ? words.join(' · ') : t('nothingLost'));
      setClass(losses, 'bad', lost + now.missed > 0);
    },
  };
}

export function open(root) {
  const shown = ports().filter((port) => 'in' in portOf(port));
  const unit = unitCard();
  const cards = shown.map(portCard);
  root.replaceChildren(el('h1', null, t('overview')),
    session.role === 'fitter' ? el('p', { class: 'lead' }, t('otherPorts')) : '',
    el('div', { class: 'cards' }, cards.map((card) => card.node)), unit.node, el('p', { class: 'note' }, t('busNote')));
  return { update() { unit.update(); for (const card of cards) card.update(); } };
}

export const title = () => t('overview');
