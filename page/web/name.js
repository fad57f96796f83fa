// The fields of a NAME (ISO 11783-5, 5.1.2), the highest bits first, and masks of them.
export const FIELDS = [
  { key: 'self_configurable', low: 63, bits: 1 }, { key: 'industry_group', low: 60, bits: 3 }, { key: 'device_class_instance', low: 56, bits: 4 },
  { key: 'device_class', low: 49, bits: 7 }, { key: 'function', low: 40, bits: 8 }, { key: 'function_instance', low: 35, bits: 5 },
  { key: 'ecu_instance', low: 32, bits: 3 }, { key: 'manufacturer', low: 21, bits: 11 }, { key: 'identity', low: 0, bits: 21 },
];

const maskOf = (field) => ((1n << BigInt(field.bits)) - 1n) << BigInt(field.low);

// Up to 16 hex digits as a number, or null.
export function readName(text) {
  const digits = text.trim().replace(/^0x/i, '');
  return /^[0-9a-f]{1,16}$/i.test(digits) ? BigInt(`0x${digits}`) : null;
}

export const nameText = (name) => name.toString(16).toUpperCase().padStart(16, '0');
export const fieldOf = (name, field) => Number(name >> BigInt(field.low) & ((1n << BigInt(field.bits)) - 1n));
export const maskFor = (keys) => FIELDS.filter((field) => keys.includes(field.key)).reduce((mask, field) => mask | maskOf(field), 0n);

// The fields that a mask has whole, and whether it has other bits too.
export function fieldsOf(mask) {
  const whole = FIELDS.filter((field) => (mask & maskOf(field)) === maskOf(field));
  return { keys: whole.map((field) => field.key), more: mask !== maskFor(whole.map((field) => field.key)) };
}

export const matches = (entry, pgn, name) => name !== null && entry.pgn === pgn
  && ((BigInt(`0x${entry.name}`) ^ name) & BigInt(`0x${entry.mask}`)) === 0n;
