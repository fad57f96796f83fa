// Signing in.
import { el, field, message } from './dom.js';
import { signIn } from './api.js';
import { t } from './words.js';

export const errorWords = (answer) => ({
  password: () => t('errorPassword'), wait: () => t('errorWait', answer.seconds), busy: () => t('errorBusy'), network: () => t('errorNetwork'),
  gateway: () => t('errorGateway'), viewer: () => t('errorViewer'), session: () => t('errorSession'),
}[answer.error]?.() ?? t('errorOther', answer.error));

export function openLogin(root, done) {
  const user = el('input', { name: 'user', autocomplete: 'username', autocapitalize: 'none', spellcheck: 'false', required: true, maxlength: 32 });
  const password = el('input', { name: 'password', type: 'password', autocomplete: 'current-password', required: true, maxlength: 256 });
  const button = el('button', { class: 'primary', type: 'submit' }, t('signIn'));
  const told = el('div', { role: 'alert' });
  const form = el('form', { class: 'card login', novalidate: true },
    el('h1', null, t('signIn')), el('p', { class: 'lead' }, t('signInLead')),
    field(t('userName'), user), field(t('password'), password), told, button,
    el('p', { class: 'note' }, t('busNote')));
  form.addEventListener('submit', async (event) => {
    event.preventDefault();
    button.disabled = true;
    const answer = await signIn(user.value, password.value);
    button.disabled = false;
    if (!answer.error) { done(); return; }
    told.replaceChildren(message('bad', errorWords(answer)));
    password.value = '';
    password.focus();
  });
  root.replaceChildren(form);
  user.focus();
}
