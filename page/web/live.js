// The state of the bridge, a document a second, and how old it is.
const SILENCE = 2500; // ms without a document: the page's program, or the way to it, is gone
const RATE_OVER = 5;  // documents

const listeners = new Set();
let source = null;
let lastEvent = 0;
let retry = 0;
const past = []; // { seconds, ports: Map port -> { in, out } }

const SAMPLES = 600;
export const samples = []; // [time in ms, then of each port: waiting by rank, lost, most at once; or the time alone], the last ten minutes at most

export const live = { status: null, alive: false, age: 0, received: 0, linked: false, stale: true };

export function subscribe(listener) {
  listeners.add(listener);
  return () => listeners.delete(listener);
}

function tell() {
  for (const listener of listeners) listener();
}

// Frames a second at a port, over the last documents.
export function rate(port, what) {
  if (past.length < 2) return null;
  const first = past[0];
  const last = past[past.length - 1];
  const span = last.seconds - first.seconds;
  const from = first.ports.get(port)?.[what];
  const to = last.ports.get(port)?.[what];
  return span > 0 && from !== undefined && to !== undefined ? (to - from) / span : null;
}

function remember(status) {
  const { seconds } = status.unit;
  const last = past[past.length - 1];
  if (last && seconds < last.seconds) past.length = 0; // the bridge was started anew
  if (last && seconds === last.seconds) return;
  past.push({ seconds, ports: new Map(status.ports.filter((port) => 'in' in port).map((port) => [port.port, { in: port.in, out: port.out }])) });
  if (past.length > RATE_OVER + 1) past.shift();
}

function judge() {
  const silent = performance.now() - lastEvent > SILENCE;
  live.linked = !silent;
  const stale = silent || !live.alive;
  if (stale !== live.stale || stale) {
    live.stale = stale;
    tell();
  }
}

function received(event) {
  const document = JSON.parse(event.data);
  lastEvent = performance.now();
  live.alive = document.alive;
  live.age = document.age;
  live.received = lastEvent;
  if (document.sample) samples.push(document.sample);
  if (samples.length > SAMPLES) samples.shift();
  if (document.status) {
    live.status = document.status;
    if (document.alive) remember(document.status);
  }
  live.linked = true;
  live.stale = !document.alive;
  tell();
}

// Seconds since the bridge was heard.
export const age = () => Math.round(live.age + (performance.now() - live.received) / 1000);

function open() {
  clearTimeout(retry);
  source = new EventSource('/api/events');
  source.addEventListener('state', received);
  source.addEventListener('error', () => {
    if (source?.readyState !== EventSource.CLOSED) return;
    source = null;
    retry = setTimeout(async () => {
      dispatchEvent(new Event('reconnect'));
      open();
    }, 1000);
  });
}

let timer = 0;
export function listen() {
  if (source) return;
  lastEvent = performance.now();
  open();
  timer = setInterval(judge, 500);
}

export function stop() {
  clearTimeout(retry);
  clearInterval(timer);
  source?.close();
  source = null;
  past.length = 0;
  samples.length = 0;
  Object.assign(live, { status: null, alive: false, stale: true });
}

export const portOf = (number) => live.status?.ports.find((port) => port.port === number);
export const ports = () => live.status?.ports.map((port) => port.port) ?? [];
export const pairOf = (from, to) => live.status?.pairs.find((pair) => pair.from === from && pair.to === to);
export const listOf = (from, to) => live.status?.lists.find((list) => list.from === from && list.to === to);
export const stoppedOf = (pair) => pair.reasons['stopped as listed'] + pair.reasons['stopped as not listed'];

// unix:/run/buses/baler is told as baler, can0 as can0.
export function portLabel(number) {
  const name = portOf(number)?.interface;
  return name ? name.replace(/^unix:(?:.*\/)?/, '') : null;
}
