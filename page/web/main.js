// The frame of the page: who is signed in, which screen is open, how the bridge is.
import { el, setText } from './dom.js';
import { readSession, session, signOut } from './api.js';
import { age, listen, live, stop, subscribe } from './live.js';
import { openLogin } from './login.js';
import { has, language, t, toggleLanguage } from './words.js';
import * as overview from './overview.js';
import * as matrix from './matrix.js';
import * as list from './list.js';
import * as why from './why.js';
import * as queues from './queues.js';
import * as addresses from './addresses.js';
import * as journal from './journal.js';

const SCREENS = { overview, matrix, list, why, queues, addresses, journal };
const MENU = ['overview', 'matrix', 'why', 'queues', 'addresses', 'journal'];

let screen = null;
let opened = '';
let shell = null;

const route = () => {
  const [name, ...rest] = location.hash.replace(/^#\//, '').split('/');
  return name in SCREENS ? { name, rest } : { name: 'overview', rest: [] };
};

function languageButton() {
  return el('button', { type: 'button', class: 'plain', lang: language() === 'en' ? 'de' : 'en', 'aria-label': t('languageLabel'),
    onclick: () => { toggleLanguage(); start(); } }, t('language'));
}

function makeShell() {
  const claim = el('span', { class: 'pill', id: 'claim' });
  const beat = el('span', { class: 'beat', id: 'beat' });
  const banners = el('div', { id: 'banners', role: 'status' });
  const main = el('main', { id: 'main', tabindex: '-1' });
  const links = MENU.map((name) => el('a', { href: `#/${name}`, 'data-screen': name }, t(name)));
  const role = session.role === 'fitter' ? t('role_fitter', session.port) : t(`role_${session.role}`);
  const header = el('header', { class: 'top' }, el('span', { class: 'brand' }, t('brand')), claim, beat, el('span', { class: 'space' }),
    el('span', { class: 'user' }, el('b', null, session.user), ` · ${role}`), languageButton(),
    el('button', { type: 'button', class: 'plain', id: 'sign-out', onclick: async () => { await signOut(); start(); } }, t('signOut')));
  document.body.replaceChildren(el('a', { class: 'skip', href: '#main', onclick: (event) => { event.preventDefault(); main.focus(); } }, t('skip')),
    header, el('nav', { 'aria-label': t('screens') }, links), banners, main);
  return { claim, beat, banners, main, links };
}

// What has to be said above everything.
function bannerWords() {
  const said = [];
  if (live.stale && live.linked) said.push(['bad', live.status ? t('deadGateway', age()) : t('deadGatewayNever')]);
  if (live.stale && !live.linked) said.push(['bad', t('deadPage', age())]);
  if (!live.status) return said;
  if (live.status.unit.state === 'Lost') said.push(['bad', t('lostBanner')]);
  if (live.status.lists_edited) said.push(['warn', t('editedBanner')]);
  else if (live.status.lists_saved === false) said.push(['warn', t('unsavedBanner')]);
  else if (live.status.lists_saved === null) said.push(['warn', t('nofileBanner')]);
  return said;
}

function showBanners() {
  const said = bannerWords();
  const { children } = shell.banners;
  if (children.length === said.length && said.every(([kind], i) => children[i].className === `banner ${kind}`)) {
    said.forEach(([, words], i) => setText(children[i], words));
    return;
  }
  shell.banners.replaceChildren(...said.map(([kind, words]) => el('p', { class: `banner ${kind}` }, words)));
}

function showState() {
  const state = live.status?.unit.state;
  setText(shell.claim, state ? t(has(`state_${state}`) ? `state_${state}` : 'waiting') : t('waiting'));
  shell.claim.className = `pill ${live.stale ? '' : state === 'Claimed' ? 'good' : state === 'Lost' ? 'bad' : 'warn'}`;
  setText(shell.beat, live.stale ? '' : t('live'));
  document.body.classList.toggle('stale', live.stale);
  showBanners();
}

function openScreen() {
  const { name, rest } = route();
  const key = `${name}/${rest.join('/')}`;
  if (key === opened && screen) return;
  const moved = opened !== '';
  opened = key;
  for (const link of shell.links) {
    const current = link.dataset.screen === name || (name === 'list' && link.dataset.screen === 'matrix');
    if (current) link.setAttribute('aria-current', 'page'); else link.removeAttribute('aria-current');
  }
  document.title = `${SCREENS[name].title()} · ${t('brand')}`;
  screen = SCREENS[name].open(shell.main, rest);
  screen.update();
  if (moved) { window.scrollTo(0, 0); shell.main.focus({ preventScroll: true }); }
}

function update() {
  if (!shell) return;
  showState();
  if (!live.status) {
    if (!screen) shell.main.replaceChildren(el('p', { class: 'lead' }, t('waitingForBridge')));
    return;
  }
  if (!screen) openScreen();
  screen.update();
}

async function start() {
  document.documentElement.lang = language();
  screen = null;
  opened = '';
  const answer = await readSession();
  if (!session.user) {
    stop();
    shell = null;
    document.body.classList.remove('stale');
    document.title = `${t('signIn')} · ${t('brand')}`;
    const main = el('main', { id: 'main', class: 'center' });
    document.body.replaceChildren(el('header', { class: 'top' }, el('span', { class: 'brand' }, t('brand')), el('span', { class: 'space' }), languageButton()), main);
    if (answer.error) { main.append(el('p', { class: 'banner bad' }, t('errorNetwork'))); setTimeout(start, 2000); } else openLogin(main, start);
    return;
  }
  shell = makeShell();
  listen();
  update();
}

subscribe(update);
addEventListener('hashchange', () => { if (shell && live.status) openScreen(); });
addEventListener('signedout', () => { if (session.user) { session.user = null; start(); } });
addEventListener('reconnect', async () => { const answer = await readSession(); if (shell && !answer.error && !session.user) start(); });
start();
