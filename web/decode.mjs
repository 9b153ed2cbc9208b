// Decode: an input or two, in a worker, and the items as a table or a ladder.
import { $, bytesOfHex, fieldsOf, hex, lengthOf, make, printable, save, tell } from './fields.mjs';

const ROW = 26, AROUND = 15;  // the height of a row; rows drawn beyond those in sight
const LADDER = 5000;  // lines of a ladder that are shown
const HINT = 'Choose an item to see its bytes.';
const KINDS = ['DATA', 'MAINT', 'ACK', 'NAK', 'REP', 'STRT', 'STACK'];
const ERRORS = ['header check', 'data check', 'too long', 'format'];
const REST = ['discarded', 'unfinished'];
const SAMPLE = `# a startup, noise, a message and its ACK
05 06 c0 00 00 01 75 95  05 07 c0 00 00 01 48 55  05 01 00 00 00 01 fc 55
ff ff  81 0c 00 00 01 01 ce 40  48 65 6c 6c 6f 2c 20 44 44 43 4d 50  bd 23
05 01 00 01 00 01 ad 95
# a message with a wrong bit, its NAK, and the message again; a REP of which the end is missing
81 05 00 00 02 01 12 b1  6c 6f 73 74 3b  1b d6    05 02 02 01 00 01 e8 2d
81 05 00 00 02 01 12 b1  6c 6f 73 74 3f  1b d6    05 01 00 02 00 01 5d 95  05 03 00 00 02`;
const COLUMNS = [
  '#', 'end', 'offset', 'item', 'count', 'resp', 'num', 'flags', 'addr', 'data or why',
];
const NUMBERS = ['#', 'offset', 'count', 'resp', 'num', 'addr'];

let worker = null, id = 0, rows = [], seen = [], raws = [], chosen = -1, drawn = 0, totals = [];
let whole = '';  // the text of the ladder

const kindOf = (it) => it.item ?? (it.discarded === undefined ? 'unfinished' : 'discarded');
const isError = (it) => ERRORS.includes(it.item) || it.item === undefined;

const classOf = (column) => NUMBERS.includes(column) ? 'number' : '';

function whyOf(it) {
  if (it.discarded !== undefined) return `${it.discarded} bytes`;
  if (it.unfinished) return `${it.unfinished}, ${it.have} of ${it.of}`;
  if (it.item === 'NAK') return it.reason;
  if (it.item === 'format') return it.type === undefined ? 'count=0' : `type=${it.type}`;
  if (it.of) return `of ${it.of}`;
  if (it.data === undefined) return '';
  const more = it.count * 2 > it.data.length ? '…' : '';
  return `${it.data}${more}  ${printable(bytesOfHex(it.data))}`;
}

function cells(it, i) {
  const flags = it.q === undefined ? '' : `${it.q ? 'Q' : ''}${it.s ? 'S' : ''}`;
  const { offset, count, resp, num, addr } = it;
  return [i + 1, 'AB'[it.end], offset, kindOf(it), count, resp, num, flags, addr, whyOf(it)];
}

function drawRow(it, index, place) {
  const texts = cells(it, index).map((text, column) =>
    make('td', { textContent: text ?? '', role: 'gridcell', className: classOf(COLUMNS[column]) }));
  const row = make('tr', { id: `row-${place}`, className: isError(it) ? 'bad' : 'good' }, ...texts);
  row.role = 'row';
  row.ariaRowIndex = place + 2;
  row.ariaSelected = place === chosen;
  return row;
}

/** Draws the rows around those in sight; rows that are there already stay as they are. */
function draw(isNew = true) {
  const box = $('rows'), body = box.querySelector('tbody');
  const first = AROUND * Math.max(0, Math.floor(box.scrollTop / ROW / AROUND) - 1);
  const last = Math.min(seen.length, first + Math.ceil(box.clientHeight / ROW) + 3 * AROUND);
  if (!isNew && first === drawn) return;
  drawn = first;
  const space = (count) => {
    const cell = make('td');
    cell.style.cssText = `height: ${count * ROW}px; padding: 0`;
    return make('tr', { ariaHidden: 'true' }, cell);
  };
  const shown = seen.slice(first, last).map((index, i) => drawRow(rows[index], index, first + i));
  body.replaceChildren(space(first), ...shown, space(seen.length - last));
  box.setAttribute('aria-rowcount', seen.length + 1);
}

function filter() {
  const kind = $('kind').value, end = $('end').value, errors = $('errors').checked;
  seen = [];
  rows.forEach((it, i) => {
    const isOne = (!kind || kindOf(it) === kind) && (!end || it.end === Number(end));
    if (isOne && (!errors || isError(it))) seen.push(i);
  });
  chosen = -1;
  $('rows').scrollTop = 0;
  draw();
}

function showTotals() {
  const count = {}, reasons = {};
  for (const it of rows) {
    count[kindOf(it)] = (count[kindOf(it)] ?? 0) + 1;
    if (it.reason) reasons[it.reason] = (reasons[it.reason] ?? 0) + 1;
  }
  const skipped = rows.reduce((sum, it) => sum + (it.discarded ?? 0), 0);
  const sum = (name) => totals.reduce((all, it) => all + it[name], 0);
  const chips = [[`${sum('items')} items`], [`${sum('bytes')} bytes`]];
  for (const it of KINDS) if (count[it]) chips.push([`${count[it]} ${it}`]);
  for (const [name, n] of Object.entries(reasons)) chips.push([`NAK, ${name}: ${n}`, 'bad']);
  for (const it of ERRORS) if (count[it]) chips.push([`${count[it]} ${it}`, 'bad']);
  if (skipped) chips.push([`${skipped} bytes discarded`, 'bad']);
  if (sum('open')) chips.push([`${sum('open')} bytes unfinished`, 'bad']);
  $('totals').replaceChildren(...chips.map(([textContent, className = '']) =>
    make('span', { textContent, className })));
}

async function showItem() {
  const it = rows[seen[chosen]], raw = raws[it?.end];
  if (!raw) return;
  const part = raw.slice(it.offset, it.offset + lengthOf(it));
  const bytes = new Uint8Array(await part.arrayBuffer());
  const lines = fieldsOf(it, bytes).map(([name, field, meaning]) => {
    const digits = hex(field).replace(/../g, '$& ').replace(/(.{24})/g, '$1\n');
    return make('tr', {}, make('th', { textContent: name, scope: 'row' }),
      make('td', { textContent: digits }), make('td', { textContent: meaning }));
  });
  const direction = raws.length > 1 ? `, ${it.end ? 'B to A' : 'A to B'}` : '';
  $('item').replaceChildren(make('h2', { textContent: `${kindOf(it)} at ${it.offset}` }),
    make('p', { className: 'hint', textContent: `${bytes.length} bytes${direction}` }),
    make('table', {}, make('tbody', {}, ...lines)));
}

function choose(i) {
  if (!seen.length) return;
  chosen = Math.max(0, Math.min(seen.length - 1, i));
  const box = $('rows'), top = chosen * ROW, least = top + 2 * ROW - box.clientHeight;
  box.scrollTop = Math.max(Math.min(box.scrollTop, top), least);
  draw(false);
  for (const row of box.querySelectorAll('tbody tr[id]')) {
    row.ariaSelected = row.id === `row-${chosen}`;
  }
  box.setAttribute('aria-activedescendant', `row-${chosen}`);
  showItem();
}

function takeRows({ rows: more, end, part }) {
  for (const it of more) {
    if (it.items !== undefined) totals.push(it);
    else rows.push({ ...it, end });
  }
  $('progress').value = part;
}

function finish(found) {
  raws = found;
  begins(false);
  $('found').hidden = false;
  $('of-end').hidden = raws.length < 2;
  if (raws.length < 2) $('end').value = '';
  $('rows').classList.toggle('one', raws.length < 2);
  showTotals();
  filter();
  if ($('as-ladder').checked) ask({ ladder: true });
}

function ask(what) {
  worker.postMessage({ id: ++id, ...what });
}

/** Shows how far it is, and has nothing else asked meanwhile. */
function begins(isBusy) {
  $('progress').hidden = !isBusy;
  $('progress').value = 0;
  for (const it of ['save-text', 'save-json', 'as-ladder']) $(it).disabled = isBusy;
}

function decode(blobs) {
  [rows, totals, raws, whole] = [[], [], [], ''];
  tell('decode-fault', '');
  $('found').hidden = !blobs.length;
  $('item').replaceChildren(make('p', { className: 'hint', textContent: HINT }));
  id++;
  begins(false);
  if (!blobs.length) return;
  const max = $('longest').valueAsNumber;
  if (!(Number.isInteger(max) && max >= 1 && max <= 16383)) {
    return tell('decode-fault', "the longest data aren't 1 to 16383 bytes");
  }
  begins(true);
  ask({ blobs, form: $('form').value, max });
}

function inputs() {
  const files = [$('first'), $('second')].flatMap((it) => [...it.files]);
  if (files.length) return files;
  return $('bytes').value.trim() ? [new Blob([$('bytes').value])] : [];
}

/** Takes files that are dropped anywhere on the page, which would open them otherwise. */
function drop(event) {
  event.preventDefault();
  $('drop').classList.remove('over');
  const files = [...event.dataTransfer.files];
  if ($('decode').hidden || !files.length) return;
  for (const [i, name] of ['first', 'second'].entries()) {
    const list = new DataTransfer();
    if (files[i]) list.items.add(files[i]);
    $(name).files = list.files;
  }
  decode(inputs());
  if (files.length > 2) tell('decode-fault', 'of more than two files these are the first two');
}

function answered({ data }) {
  if (data.id !== id) return;
  if (data.rows) takeRows(data);
  if (data.raws) finish(data.raws);
  if (data.fault) {
    begins(false);
    tell('decode-fault', data.fault);
  }
  if (data.saved) save(data.name, data.saved);
  if (data.ladder !== undefined) {
    whole = data.ladder;
    const lines = whole.split('\n'), more = lines.length - LADDER;
    const shown = [...lines.slice(0, LADDER), `… and ${more} lines`].join('\n');
    $('ladder').textContent = more > 0 ? shown : whole;
  }
}

function asLadder() {
  $('rows').hidden = $('as-ladder').checked;
  $('ladder').hidden = !$('as-ladder').checked;
  if ($('as-ladder').checked && raws.length) ask({ ladder: true });
}

const KEYS = {
  ArrowDown: 1, ArrowUp: -1, PageDown: 15, PageUp: -15, Home: -Infinity, End: Infinity,
};

export function beginDecode(ddcmp) {
  const text = $('worker').textContent;
  worker = new Worker(URL.createObjectURL(new Blob([text], { type: 'text/javascript' })));
  worker.onmessage = answered;
  worker.onerror = (fault) => tell('decode-fault', fault.message);
  worker.postMessage({ id: 0, module: ddcmp.module, blobs: [], form: 'raw', max: 1 });
  $('rows').querySelector('thead tr').append(...COLUMNS.map((it) =>
    make('th', { textContent: it, role: 'columnheader', className: classOf(it) })));
  $('kind').append(new Option('all items', ''),
    ...[...KINDS, ...ERRORS, ...REST].map((it) => new Option(it, it)));
  for (const it of ['first', 'second', 'form', 'longest']) {
    $(it).addEventListener('change', () => decode(inputs()));
  }
  $('bytes').addEventListener('input', () => {
    $('first').value = $('second').value = '';
    decode(inputs());
  });
  for (const it of ['kind', 'end', 'errors']) $(it).addEventListener('change', filter);
  $('as-ladder').addEventListener('change', asLadder);
  $('rows').addEventListener('scroll', () => draw(false));
  $('rows').addEventListener('click', ({ target }) => {
    const row = target.closest('tr[id]');
    if (row) choose(Number(row.id.slice(4)));
  });
  $('rows').addEventListener('keydown', (event) => {
    if (KEYS[event.key] === undefined) return;
    event.preventDefault();
    choose(chosen + KEYS[event.key]);
  });
  $('save-text').addEventListener('click', () => {
    if ($('as-ladder').checked) save('ladder.txt', new Blob([whole]));
    else ask({ json: false });
  });
  $('save-json').addEventListener('click', () => ask({ json: true }));
  $('sample').addEventListener('click', () => fill(SAMPLE));
  $('forget').addEventListener('click', () => fill(''));
  for (const it of ['dragover', 'dragenter']) {
    addEventListener(it, (event) => {
      event.preventDefault();
      $('drop').classList.add('over');
    });
  }
  addEventListener('dragleave', () => $('drop').classList.remove('over'));
  addEventListener('drop', drop);
}

function fill(text) {
  $('bytes').value = text;
  $('bytes').dispatchEvent(new Event('input'));
}
