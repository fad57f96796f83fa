// What the page asks its own program for. An answer is { ok, error, seconds, ... }; `error` is a word of the program or 'network'.
export const session = { user: null, role: null, port: 0, token: null, version: '' };

async function ask(method, path, body) {
  const headers = {};
  if (body !== undefined) headers['Content-Type'] = 'application/json';
  if (session.token) headers['X-Token'] = session.token;
  let response;
  try {
    response = await fetch(path, { method, headers, body: body === undefined ? undefined : JSON.stringify(body), cache: 'no-store', redirect: 'error' });
  } catch {
    return { error: 'network' };
  }
  let answer;
  try { answer = await response.json(); } catch { answer = {}; }
  if (response.status === 401) dispatchEvent(new Event('signedout'));
  if (!response.ok && !answer.error) answer.error = `HTTP ${response.status}`;
  return answer;
}

function become(answer) {
  if (!answer.error) Object.assign(session, { user: null, role: null, port: 0, token: null }, answer);
  return answer;
}

export const mayChange = () => session.role === 'owner' || session.role === 'fitter';
export const readSession = async () => become(await ask('GET', '/api/session'));
export const signIn = async (user, password) => {
  const answer = await ask('POST', '/api/login', { user, password });
  return become(answer);
};
export const signOut = async () => become(await ask('POST', '/api/logout', {}));
export const command = (request) => ask('POST', '/api/command', request);
export const readStatus = () => ask('GET', '/api/status');
export const readHistory = () => ask('GET', '/api/history');
