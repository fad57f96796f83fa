// PGNs as people paste them: decimal or hex, with any separators; and what a PGN is.
const LIMIT = 2 ** 18;
const ENTRY_MAX = 0xFFFFFE; // three bytes; FF FF FF is filling

export const LIST_MAX = 32;
export const NAMES_MAX = 8;

export const hex = (number) => `0x${number.toString(16).toUpperCase()}`;

// Below 2^18, and with a low byte of 0 where the second byte, PF, is below 240.
export const isPgn = (number) => number < LIMIT && ((number >> 8 & 0xFF) >= 240 || (number & 0xFF) === 0);

// A word as a number, or null. 0x, $ and h say hex, and so does a letter; a leading 0 in front of digits alone may be either, so it is none.
export function readNumber(word) {
  const marked = /^(?:0x|\$)([0-9a-f]+)$/i.exec(word) ?? /^([0-9a-f]+)h$/i.exec(word) ?? (/[a-f]/i.test(word) ? /^([0-9a-f]+)$/i.exec(word) : null);
  if (marked) return marked[1].length > 8 ? Infinity : parseInt(marked[1], 16);
  if (!/^(?:0|[1-9]\d*)$/.test(word)) return null;
  return word.length > 10 ? Infinity : parseInt(word, 10);
}

// The words of a text: { word, number, good }, where number is null for what is none.
export function readPaste(text) {
  return text.split(/[^0-9A-Za-z$_.-]+/).filter((word) => word !== '').map((word) => {
    const number = readNumber(word);
    return { word, number, good: number !== null && isPgn(number), sendable: number !== null && number <= ENTRY_MAX };
  });
}

export const unique = (numbers) => [...new Set(numbers)];

// The list that a change makes, by the unit's rules: what is listed stays in its order, what is new comes behind.
export function listAfter(list, action, pgns) {
  const wanted = unique(pgns);
  if (action === 'clear') return { mode: 'cleared', pgns: [] };
  if (action === 'add') return { mode: list.mode, pgns: unique([...list.pgns, ...wanted]) };
  if (action === 'delete') return { mode: list.mode, pgns: list.pgns.filter((pgn) => !wanted.includes(pgn)) };
  return { mode: action, pgns: wanted };
}

export const sameList = (a, b) => a.mode === b.mode && a.pgns.length === b.pgns.length && a.pgns.every((pgn, i) => pgn === b.pgns[i]);
