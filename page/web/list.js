// One pair's list: what stands, what a change would make of it, and the change itself.
import { el, field, message, setText } from './dom.js';
import { command, mayChange } from './api.js';
import { errorWords } from './login.js';
import { listOf, live, portLabel } from './live.js';
import { LIST_MAX, NAMES_MAX, hex, isPgn, listAfter, readNumber, readPaste, sameList, unique } from './pgn.js';
import { FIELDS, fieldOf, fieldsOf, maskFor, nameText, readName } from './name.js';
import { ordinal, refusal, t } from './words.js';

const ACTIONS = ['add', 'delete', 'block', 'pass', 'clear'];
const ACTION_WORDS = { add: 'doAdd', delete: 'doDelete', block: 'doBlock', pass: 'doPass', clear: 'doClear' };
const guardOf = (list) => ({ mode: list.mode, pgns: list.pgns });

const portName = (port) => (portLabel(port) ? `${port} (${portLabel(port)})` : String(port));

// What is wrong or notable with what was typed: { words, bad }, the first that matters first.
function judge(words, action, list) {
  const told = [];
  const numbers = words.map((word) => word.number);
  words.forEach((word, i) => {
    if (word.number === null) told.push({ words: t('judgedNoNumber', ordinal(i + 1), word.word), bad: true });
    else if (!word.good) told.push({ words: t('judgedNoPgn', ordinal(i + 1), word.word), bad: true });
  });
  const after = listAfter(list, action, words.filter((word) => word.good).map((word) => word.number));
  if (action !== 'clear' && words.length > 0) {
    const twice = unique(numbers.filter((number, i) => number !== null && numbers.indexOf(number) !== i));
    for (const number of twice) told.push({ words: t('judgedTwice', number) });
    if (action === 'delete') for (const number of unique(numbers)) if (number !== null && !list.pgns.includes(number)) told.push({ words: t('judgedAbsent', number), bad: true });
    if (action === 'add') for (const number of unique(numbers)) if (list.pgns.includes(number)) told.push({ words: t('judgedThere', number) });
    told.push(after.pgns.length > LIST_MAX ? { words: t('judgedFull', after.pgns.length), bad: true } : { words: t('judgedCount', after.pgns.length) });
  }
  if (['clear', 'block', 'pass'].includes(action) && list.names.length > 0) told.push({ words: t('namesGo', list.names.length) });
  return { told, after, same: sameList(after, list) && !(list.names.length > 0 && ['clear', 'block', 'pass'].includes(action)) };
}

// The command of an action on the list that is shown.
function requestFor(pair, action, numbers, list) {
  const base = { ...pair, if_list_is: guardOf(list) };
  if (action === 'add' || action === 'delete') return { do: action, ...base, pgns: numbers };
  if (action === 'clear') return { do: 'clear', ...base };
  return { do: list.mode === 'cleared' ? 'create' : 'replace', ...base, mode: action, pgns: numbers };
}

// What brings the list `before` back, where `after` stands. A change of PGNs alone leaves the entries by NAME as they are.
function undoFor(pair, action, before, after) {
  const base = { ...pair, if_list_is: guardOf(after) };
  const back = before.names.map((entry) => ({ do: 'name', ...pair, pgn: entry.pgn, name: entry.name, mask: entry.mask }));
  if (action === 'add') return [{ do: 'delete', ...base, pgns: after.pgns.filter((pgn) => !before.pgns.includes(pgn)) }];
  if (action === 'delete') return [{ do: 'add', ...base, pgns: before.pgns.filter((pgn) => !after.pgns.includes(pgn)) }];
  return [{ do: 'replace', ...base, mode: before.mode, pgns: before.pgns }, ...back];
}

// An answer in words: done, refused, or not done.
export function answerWords(answer, typed) {
  if (answer.error?.startsWith('the list is not the one')) return { kind: 'bad', words: [t('changedMeanwhile')] };
  if (answer.error) return { kind: 'bad', words: [errorWords(answer)] };
  if (answer.number === 0) return { kind: 'good', words: [t('done')] };
  const words = [t('refused', answer.number, refusal(answer.number))];
  if (answer.entry && typed?.[answer.entry - 1] !== undefined) words.push(t('refusedEntry', ordinal(answer.entry), typed[answer.entry - 1]));
  if (answer.absent !== undefined) words.push(t('refusedAbsent', answer.absent, answer.to));
  return { kind: 'bad', words, entry: answer.entry };
}

function tell(place, { kind, words }) {
  place.replaceChildren(message(kind, words.join(' ')));
}

// The chips of a list; with `take` each has a button to take it out.
function chips(list, compare, take) {
  if (list.mode === 'cleared') return [];
  return [...list.pgns.map((pgn) => ({ pgn, mark: compare && !compare.pgns.includes(pgn) ? 'added' : '' })),
    ...(compare?.pgns ?? []).filter((pgn) => !list.pgns.includes(pgn)).map((pgn) => ({ pgn, mark: 'removed' }))]
    .map(({ pgn, mark }) => el('li', { class: `chip ${mark}` }, el('span', null, String(pgn)), el('span', { class: 'muted' }, hex(pgn)),
      mark ? el('span', { class: 'sr' }, ` ${t(mark)}`) : null,
      take ? el('button', { type: 'button', class: 'x', 'aria-label': t('takeOut', pgn), onclick: () => take(pgn) }, '×') : null));
}

function listWords(list) {
  if (list.mode !== 'cleared' && list.pgns.length === 0 && list.names.length === 0) return t(list.mode === 'block' ? 'emptyBlock' : 'emptyPass');
  return t(`modeLong_${list.mode}`);
}

// The list as it stands, or as it would.
function panel(word, id) {
  const count = el('span', { class: 'muted' });
  const words = el('p');
  const items = el('ul', { class: 'chips' });
  return {
    node: el('section', { class: 'panel', id }, el('h3', null, word, ' ', count), words, items),
    update(list, compare, take) {
      setText(count, list.mode === 'cleared' ? '' : t('entriesOf', list.pgns.length));
      setText(words, listWords({ names: [], ...list }));
      items.replaceChildren(...chips(list, compare, take));
    },
  };
}

function fieldsText(mask) {
  const { keys, more } = fieldsOf(mask);
  if (mask === 0n) return t('everySender');
  return t('agreesIn', [...keys.map((key) => t(key)), ...(more ? [`${t('mask')} ${nameText(mask)}`] : [])].join(', '));
}

// The form for an entry by NAME: a sender is picked or typed, and fields are ticked.
function nameForm(pair, current, told) {
  const pgn = el('input', { inputmode: 'text', autocomplete: 'off', spellcheck: 'false', maxlength: 10 });
  const picker = el('select', null, el('option', { value: '' }, t('pickSender')));
  const typed = el('input', { autocomplete: 'off', spellcheck: 'false', maxlength: 18, class: 'mono' });
  const boxes = FIELDS.map((one) => {
    const box = el('input', { type: 'checkbox', id: `name-${one.key}`, value: one.key, checked: ['function', 'function_instance', 'manufacturer'].includes(one.key) });
    const value = el('span', { class: 'muted' });
    return { one, box, value, node: el('label', { for: box.id, class: 'tick' }, box, el('span', null, t(one.key)), value) };
  });
  const mask = el('output', { class: 'mono muted' });
  const known = (live.status.addresses ?? []).flatMap((port) => port.addresses.filter((one) => one.name).map((one) => ({ ...one, port: port.port })));
  for (const one of known) picker.append(el('option', { value: one.name }, `${t('port', one.port)} · ${t('address')} ${one.address} · ${one.name}`));
  const show = () => {
    const name = readName(typed.value);
    for (const { one, value } of boxes) setText(value, name === null ? '' : String(fieldOf(name, one)));
    setText(mask, `${t('mask')} ${nameText(maskFor(boxes.filter(({ box }) => box.checked).map(({ one }) => one.key)))}`);
  };
  picker.addEventListener('change', () => { if (picker.value) typed.value = picker.value; show(); });
  typed.addEventListener('input', show);
  for (const { box } of boxes) box.addEventListener('change', show);
  const form = el('form', { class: 'nameform', novalidate: true },
    el('div', { class: 'row' }, field(t('pgn'), pgn), field(t('sender'), picker), field(t('typedName'), typed)),
    el('fieldset', null, el('legend', null, t('agreeIn')), el('div', { class: 'ticks' }, boxes.map(({ node }) => node)), mask),
    el('button', { type: 'submit' }, t('addByName')));
  form.addEventListener('submit', (event) => {
    event.preventDefault();
    const number = readNumber(pgn.value.trim());
    const name = readName(typed.value);
    if (number === null || !isPgn(number)) { tell(told, { kind: 'bad', words: [t('wrongPgn')] }); pgn.focus(); return; }
    if (name === null) { tell(told, { kind: 'bad', words: [t('wrongName')] }); typed.focus(); return; }
    const chosen = maskFor(boxes.filter(({ box }) => box.checked).map(({ one }) => one.key));
    current.send({ do: 'name', ...pair, pgn: number, name: nameText(name), mask: nameText(chosen), if_list_is: guardOf(current.list) }, 'name', [pgn.value]);
  });
  show();
  return form;
}

function namesSection(pair, current, told) {
  const items = el('ul', { class: 'names' });
  const needs = el('p', { class: 'hint' }, t('byNameNeedsList'));
  const form = mayChange() ? nameForm(pair, current, told) : null;
  let before = '';
  return {
    node: el('section', { class: 'card' }, el('h2', null, t('byName')), el('p', { class: 'lead' }, t('byNameLead')), items, needs, form),
    update(list) {
      needs.hidden = !mayChange() || list.mode !== 'cleared';
      if (form) form.hidden = list.mode === 'cleared' || list.names.length >= NAMES_MAX;
      const text = JSON.stringify(list.names);
      if (text === before) return;
      before = text;
      items.replaceChildren(...(list.names.length === 0 ? [el('li', { class: 'muted' }, t('byNameNone'))] : list.names.map((entry) => el('li', null,
        el('b', null, `${t('pgn')} ${entry.pgn}`), ` ${hex(entry.pgn)} · `, el('span', { class: 'mono' }, entry.name), ` · ${fieldsText(BigInt(`0x${entry.mask}`))}`))));
    },
  };
}

// The form of a change. `current` has the list that is shown and sends commands.
function changeForm(pair, current) {
  const radios = ACTIONS.map((action) => {
    const box = el('input', { type: 'radio', name: 'action', value: action, id: `action-${action}` });
    return { action, box, node: el('label', { for: box.id, class: 'tick' }, box, el('span', null, t(ACTION_WORDS[action]))) };
  });
  const text = el('textarea', { rows: 4, spellcheck: 'false', autocomplete: 'off', maxlength: 8000, id: 'paste' });
  const typed = el('ol', { class: 'chips typed', 'aria-hidden': 'true' });
  const judged = el('ul', { class: 'judged', 'aria-live': 'polite' });
  const after = panel(t('afterwards'), 'after');
  const send = el('button', { class: 'primary', type: 'submit', id: 'send' }, t('send'));
  const undo = el('button', { type: 'button', id: 'undo', hidden: true }, t('undo'));
  const told = el('div', { role: 'status', id: 'told' });
  const pasteField = field(t('pasteLabel'), text, t('pasteHint'));
  const form = el('form', { class: 'change', novalidate: true },
    el('fieldset', null, el('legend', null, t('change')), el('div', { class: 'ticks column' }, radios.map(({ node }) => node))),
    el('div', { class: 'paste' }, pasteField, typed, judged, el('div', { class: 'buttons' }, send, undo), told));
  const chosen = () => radios.find(({ box }) => box.checked)?.action ?? 'add';
  let marked = 0;
  let choice = false;
  const show = () => {
    const { list } = current;
    const cleared = list.mode === 'cleared';
    for (const { action, box } of radios) box.disabled = cleared ? ['add', 'delete', 'clear'].includes(action) : false;
    if (radios.some(({ box }) => box.checked && box.disabled) || !choice) radios[cleared ? 2 : 0].box.checked = true;
    const action = chosen();
    const words = action === 'clear' ? [] : readPaste(text.value);
    const result = judge(words, action, list);
    pasteField.hidden = action === 'clear';
    typed.replaceChildren(...words.map((word, i) => el('li', { class: `chip ${word.good ? '' : 'wrong'} ${marked === i + 1 ? 'marked' : ''}` }, word.word)));
    const nothing = words.length === 0 && action !== 'clear' && action !== 'block' && action !== 'pass';
    const lines = nothing ? [{ words: t('judgedNothing') }] : [...result.told, ...(result.same ? [{ words: t('judgedSame') }] : [])];
    if (lines.some((line) => line.bad)) lines.push({ words: t('unitRefuses'), bad: true });
    judged.replaceChildren(...lines.map((line) => el('li', { class: line.bad ? 'bad' : '' }, line.words)));
    after.update(result.after, list);
    send.disabled = nothing || words.some((word) => !word.sendable) || current.busy;
    return { action, words };
  };
  const input = () => { marked = 0; show(); };
  text.addEventListener('input', input);
  for (const { box } of radios) box.addEventListener('change', () => { choice = true; input(); });
  form.addEventListener('submit', (event) => {
    event.preventDefault();
    const { action, words } = show();
    if (send.disabled) return;
    const numbers = words.map((word) => word.number);
    current.send(requestFor(pair, action, numbers, current.list), action, words.map((word) => word.word), (outcome) => {
      marked = outcome.entry ?? 0;
      if (outcome.kind === 'good') text.value = '';
      show();
    });
  });
  undo.addEventListener('click', () => current.undo());
  return {
    form, after, told, undo, show,
    take(pgn) {
      choice = true;
      radios[1].box.checked = true;
      text.value = [...text.value.split(/\s+/).filter(Boolean), pgn].join(' ');
      input();
      text.focus();
    },
  };
}

// Who sends the commands of this screen, and how the last one is undone.
function sender(pair, redraw) {
  const current = { list: null, busy: false, told: null, undoButton: null, undoing: null, expected: null };
  const run = async (requests) => {
    let answer = { number: 0 };
    for (const request of requests) {
      answer = await command(request);
      if (answer.error || answer.number !== 0) break;
    }
    return answer;
  };
  const finish = (answer) => {
    const mine = answer.lists?.find((list) => list.from === pair.from && list.to === pair.to);
    if (mine) { current.expected = mine; current.list = mine; }
    current.busy = false;
    redraw();
  };
  current.send = async (request, action, typed, then) => {
    const before = current.list;
    current.busy = true;
    redraw();
    const answer = await run([request]);
    finish(answer);
    const outcome = answerWords(answer, typed);
    tell(current.told, outcome);
    if (outcome.kind === 'good') {
      current.undoing = sameList(before, current.list) && before.names.length === current.list.names.length ? null : undoFor(pair, action, before, current.list);
      current.undoButton.hidden = !current.undoing;
    }
    then?.(outcome);
  };
  current.undo = async () => {
    const requests = current.undoing;
    current.undoing = null;
    current.undoButton.hidden = true;
    const answer = await run(requests);
    finish(answer);
    const outcome = answerWords(answer, requests[0].pgns);
    tell(current.told, outcome.kind === 'good' ? { kind: 'good', words: [t('undone')] } : outcome);
  };
  return current;
}

function heading(from, to) {
  const back = listOf(to, from) ? el('a', { href: `#/list/${to}/${from}` }, t('otherWay', portName(to), portName(from))) : null;
  return [el('p', { class: 'crumbs' }, el('a', { href: '#/matrix' }, `‹ ${t('allLists')}`), back), el('h1', null, t('listTitle', portName(from), portName(to)))];
}

// A pair that the user is not shown: the unit itself says why.
async function openForeign(root, from, to) {
  const told = el('div', { role: 'status', id: 'told' });
  root.replaceChildren(...heading(from, to), el('p', null, t('cannotRead')), told);
  tell(told, answerWords(await command({ do: 'read', from, to })));
}

export function open(root, [fromText, toText]) {
  const from = Number(fromText);
  const to = Number(toText);
  if (!listOf(from, to)) {
    openForeign(root, Number.isInteger(from) && from >= 0 && from < 16 ? from : 0, Number.isInteger(to) && to >= 0 && to < 16 ? to : 0);
    return { update() {} };
  }
  const pair = { from, to };
  const now = panel(t('standsNow'), 'now');
  const notice = el('div', { role: 'status' });
  let change = null;
  let drawn = '';
  const redraw = () => {
    const { list } = current;
    now.update(list, null, mayChange() && list.mode !== 'cleared' ? (pgn) => change.take(pgn) : null);
    change?.show();
    names.update(list);
  };
  const current = sender(pair, redraw);
  current.list = listOf(from, to);
  change = mayChange() ? changeForm(pair, current) : null;
  current.told = change?.told ?? el('div');
  current.undoButton = change?.undo;
  const names = namesSection(pair, current, current.told);
  root.replaceChildren(...heading(from, to), notice,
    el('div', { class: 'card' }, el('div', { class: 'beside' }, now.node, change?.after.node), change?.form ?? message('', t('errorViewer'))), names.node);
  return {
    update() {
      const list = listOf(from, to);
      if (!list || current.busy) return;
      const text = JSON.stringify(list);
      if (text === drawn) return;
      // Another's change, unless it is what this page's own command was answered with.
      const own = drawn === '' || (current.expected && sameList(current.expected, list));
      notice.replaceChildren(...(own ? [] : [message('warn', t('changedNotice'))]));
      drawn = text;
      current.list = list;
      redraw();
    },
  };
}

export const title = () => t('matrix');
