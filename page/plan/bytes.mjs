// A text as bytes, a letter for each, and as it is shown.
const toBytes = shown => Array.from(new TextEncoder().encode(shown), byte => String.fromCharCode(byte)).join("");
const arrayOf = bytes => Uint8Array.from(bytes, letter => letter.charCodeAt(0));
const fromBytes = bytes => new TextDecoder().decode(arrayOf(bytes));

// Letters for a document of tags; what it may not hold is shown as unknown.
const ENTITIES = { "&": "&amp;", "<": "&lt;", ">": "&gt;", '"': "&quot;" };
const UNKNOWN = /[\x00-\x08\x0B\x0C\x0E-\x1F\x7F\uFFFE\uFFFF]/g;
const escaped = shown => shown.replace(/[&<>"]/g, letter => ENTITIES[letter]).replace(UNKNOWN, "\uFFFD");

// How many columns a text takes.
const WIDE = /[\u1100-\u115F\u2E80-\uA4CF\uAC00-\uD7A3\uF900-\uFAFF\uFF00-\uFF60\u{1F300}-\u{1FAFF}]/u;
const columns = shown => [...shown].reduce((sum, letter) => sum + (WIDE.test(letter) ? 2 : 1), 0);

export { arrayOf, columns, escaped, fromBytes, toBytes };
