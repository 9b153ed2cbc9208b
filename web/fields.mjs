// Elements, and the names of an item's bytes.

export const $ = (id) => document.getElementById(id);

/** Makes an element with properties and children. */
export function make(tag, properties = {}, ...children) {
  const it = Object.assign(document.createElement(tag), properties);
  it.append(...children);
  return it;
}

export function tell(id, text) {
  $(id).textContent = text;
  $(id).hidden = !text;
}

export const hex = (bytes) => [...bytes].map((it) => it.toString(16).padStart(2, '0')).join('');
export const bytesOfHex = (digits) =>
  Uint8Array.from(digits.match(/../g) ?? [], (it) => parseInt(it, 16));
export const printable = (bytes) =>
  [...bytes].map((it) => it >= 32 && it < 127 ? String.fromCharCode(it) : '·').join('');

export function save(name, blob) {
  const link = make('a', { href: URL.createObjectURL(blob), download: name });
  link.click();
  setTimeout(() => URL.revokeObjectURL(link.href), 60000);
}

const STARTS = {
  0x81: 'SOH: a data message', 0x90: 'DLE: a maintenance message', 0x05: 'ENQ: a control message',
};
const TYPES = { 1: 'ACK', 2: 'NAK', 3: 'REP', 6: 'STRT', 7: 'STACK' };
const flags = (it) => `q=${it >> 6 & 1} s=${it >> 7}`;

/** How many bytes an item has; of one that isn't a whole frame, those of its header. */
export function lengthOf({ discarded, have, item, of, count }) {
  const hasData = ['DATA', 'MAINT', 'data check'].includes(item);
  return discarded ?? have ?? 8 + (hasData ? count + 2 : 0);
}

/** The fields of an item's bytes: the name of each, its bytes, what they mean. */
export function fieldsOf(row, bytes) {
  if (row.discarded !== undefined) return [['discarded', bytes, 'no frame begins in them']];
  const fields = [], rest = () => fields.reduce((sum, it) => sum + it[1].length, 0);
  const put = (name, size, meaning) => {
    const part = bytes.subarray(rest(), rest() + size);
    if (part.length) fields.push([name, part, part.length < size && size < 3 ? '' : meaning(part)]);
  };
  const checked = { 'header check': 'wrong' }[row.item] ?? 'right';
  put('start', 1, ([it]) => STARTS[it] ?? 'no start byte');
  if (bytes[0] === 5) {
    put('type', 1, ([it]) => TYPES[it] ?? `${it}: no control message`);
    const reason = row.reason ? ` (${row.reason})` : '';
    put('sub, flags', 1, ([it]) => `sub=${it & 63}${reason} ${flags(it)}`);
  } else {
    put('count', 1, ([it]) => `the low 8 bits: ${it}`);
    put('count, flags', 1, ([it]) => `count=${bytes[1] + 256 * (it & 63)} ${flags(it)}`);
  }
  for (const name of ['resp', 'num', 'addr']) put(name, 1, ([it]) => String(it));
  put('header CRC', 2, () => checked);
  if (bytes.length > 8) {
    put('data', bytes.length - 10, (it) => printable(it).replace(/(.{8})/g, '$1\n'));
    put('data CRC', 2, () => row.item === 'data check' ? 'wrong' : 'right');
  }
  return fields;
}
