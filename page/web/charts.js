// Charts in SVG, drawn here: a queue as a bar of 32 places, and the last ten minutes of it.
import { svg } from './dom.js';
import { number, t } from './words.js';

export const PLACES = 32;
export const RANKS = 8;
const SPAN = 600; // seconds

// The bar of a queue: a block for each rank, as wide as frames wait.
export function queueBar() {
  const blocks = Array.from({ length: RANKS }, (unused, rank) => svg('rect', { class: `rank${rank}`, y: 0, height: 10, width: 0 }));
  const node = svg('svg', { class: 'bar', viewBox: '0 0 320 10', preserveAspectRatio: 'none', role: 'img' }, svg('rect', { class: 'room', width: 320, height: 10 }), blocks);
  return {
    node,
    update(waiting) {
      let x = 0;
      waiting.forEach((count, rank) => {
        blocks[rank].setAttribute('x', x * 320 / PLACES);
        blocks[rank].setAttribute('width', count * 320 / PLACES);
        x += count;
      });
      node.setAttribute('aria-label', t('queueByRank', waiting.join(' ')));
    },
  };
}

const WIDTH = 640;
const HEIGHT = 150;
const FRAME = { left: 30, right: 8, top: 12, bottom: 22 };
const across = WIDTH - FRAME.left - FRAME.right;
const down = HEIGHT - FRAME.top - FRAME.bottom;
const xAt = (secondsAgo) => FRAME.left + across * (1 - secondsAgo / SPAN);
const sum = (counts) => counts.reduce((all, count) => all + count, 0);
const yAt = (frames) => FRAME.top + down * (1 - frames / PLACES);

// Runs of seconds that follow each other; gaps where the bridge was not heard.
function runs(samples, now, height) {
  const all = [[]];
  for (const sample of samples) {
    if (!sample.waiting) all.push([]);
    else all.at(-1).push(`${xAt((now - sample.time) / 1000 + 1).toFixed(1)} ${yAt(height(sample)).toFixed(1)}`);
  }
  return all.filter((run) => run.length > 0);
}

const STEP = `h${(across / SPAN).toFixed(2)}`;

// The area of the ranks from 0 to `rank`, as a step for each second.
function areaPath(samples, now, rank) {
  return runs(samples, now, (sample) => sum(sample.waiting.slice(0, rank + 1)))
    .map((run) => `${run.map((point, i) => `${i === 0 ? 'M' : 'L'}${point}${STEP}`).join('')}V${yAt(0)}H${run[0].split(' ')[0]}Z`).join('');
}

// The line of the most that waited at once.
function peakPath(samples, now) {
  return runs(samples, now, (sample) => Math.max(sample.most, sum(sample.waiting))).map((run) => run.map((point, i) => `${i === 0 ? 'M' : 'L'}${point}${STEP}`).join('')).join('');
}

function axes() {
  const lines = [0, 8, 16, 24, 32].map((frames) => [
    svg('line', { class: 'grid', x1: FRAME.left, x2: WIDTH - FRAME.right, y1: yAt(frames), y2: yAt(frames) }),
    svg('text', { class: 'tick', x: FRAME.left - 5, y: yAt(frames) + 4, 'text-anchor': 'end' }, String(frames)),
  ]);
  const times = [10, 8, 6, 4, 2, 0].map((minutes) => svg('text', {
    class: 'tick', x: xAt(minutes * 60), y: HEIGHT - 5, 'text-anchor': minutes === 10 ? 'start' : minutes === 0 ? 'end' : 'middle',
  }, minutes === 0 ? t('now') : t('minutesAgo', minutes)));
  return [lines, times];
}

// Samples are { time in ms, waiting by rank or null, lost, most at once }.
export function queueChart(port) {
  const areas = Array.from({ length: RANKS }, (unused, rank) => svg('path', { class: `rank${rank}` })).reverse();
  const peak = svg('path', { class: 'peak' });
  const marks = svg('path', { class: 'loss' });
  const node = svg('svg', { class: 'chart', viewBox: `0 0 ${WIDTH} ${HEIGHT}`, role: 'img' }, axes(), areas, peak, marks);
  return {
    node,
    update(samples, now) {
      const recent = samples.filter((sample) => now - sample.time < SPAN * 1000);
      areas.forEach((area, i) => area.setAttribute('d', areaPath(recent, now, RANKS - 1 - i)));
      peak.setAttribute('d', peakPath(recent, now));
      marks.setAttribute('d', recent.filter((sample) => sample.lost > 0)
        .map((sample) => `M${xAt((now - sample.time) / 1000 + 0.5).toFixed(1)} ${FRAME.top - 9}v8`).join(''));
      const most = Math.max(0, ...recent.map((sample) => (sample.waiting ? Math.max(sample.most, sum(sample.waiting)) : 0)));
      const lost = sum(recent.map((sample) => sample.lost));
      node.setAttribute('aria-label', t('chartAlt', port, most, number(lost)));
    },
  };
}
