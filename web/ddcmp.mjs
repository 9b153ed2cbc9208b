// The proved code of ddcmp for browsers and node: `const ddcmp = await load(bytes)`. Pointers and
// lengths are BigInts, since the memory of the module is addressed by 64 bits. Every number is
// checked here before it is narrowed: a size that doesn't fit becomes the largest, which the module
// refuses.

const TEXTS = {
  1: "the window isn't 1 to 255",
  2: "the inbox isn't 1 to 255",
  3: "the largest message isn't 1 to 16383",
  4: 'the SYN fill is above 16',
  5: 'memory',
  6: 'the handle has no station or reader',
  8: "the station isn't halted",
  9: "the inbox isn't empty",
  10: "the station doesn't run",
  11: 'the message is empty',
  12: 'the message is too long',
  13: 'the window is full',
  15: 'the line has 2^64 bytes',
  16: 'there is no such message',
  32: 'odd number of digits',
  33: 'not hexadecimal at {}',
  34: 'line {}: not a line of a dump',
  35: 'line {}: repeated lines left out (*): dump with -v',
  36: 'line {}: not a command',
  37: 'line {}: not hexadecimal',
};
const MEMORY = 5, CLOSED = 6, ROOM = 14;
const FORMS = { detect: 0, hex: 1, text: 2, raw: 3, dump: 4 };
const VIEWS = { text: 0, ladder: 1, svg: 2 };
export const STATES = ['Halted', 'IStart', 'AStart', 'Running', 'Maintenance'];
export const NOTICES = [
  '', 'Running', 'RunningAndHandedUp', 'Acknowledged', 'HandedUp', 'HandedUpAndAcknowledged',
  'PeerStarts', 'PeerRestarted', 'Restarted', 'MaintenanceSeen', 'MaintenanceHandedUp',
  'MaintenanceDropped',
];
const NAKS = [
  'headerCheck', 'dataCheck', 'replyToRep', 'noBuffer', 'overrun', 'tooLong', 'format', 'other',
];
const COUNTERS = [
  'repSent', 'repReceived', 'messagesSent', 'bytesSent', 'messagesAgain', 'bytesAgain',
  'messagesUp', 'bytesUp', 'expiries', 'headerChecks', 'dataChecks', 'tooLongs', 'formats',
];

/** A refused call, or a fault of an input: its `code`, its place `at`, the `output` before it. */
export class DdcmpError extends Error {
  constructor(code, at = 0, output = '') {
    super((TEXTS[code] ?? `code ${code}`).replace('{}', at));
    Object.assign(this, { name: 'DdcmpError', code, at, output });
  }
}

const textOf = (bytes) => new TextDecoder().decode(bytes);

/** The bytes of an argument: text as UTF-8, or a buffer or view of one. */
function bytesOf(it) {
  if (typeof it === 'string') return new TextEncoder().encode(it);
  if (it instanceof ArrayBuffer) return new Uint8Array(it);
  if (ArrayBuffer.isView(it)) return new Uint8Array(it.buffer, it.byteOffset, it.byteLength);
  throw new TypeError('bytes are a string, an ArrayBuffer or a view of one');
}

function fit(number, bits) {
  const most = 2 ** bits - 1;
  return Number.isInteger(number) && number >= 0 && number <= most ? number : most;
}

/** The sizes of a station as the module takes them, at the front of so many bytes. */
function sizesOf(size, { window = 7, inbox = 8, max = 1500, syn = 0, restart = false } = {}) {
  const bytes = new Uint8Array(size), fields = new DataView(bytes.buffer);
  [window, inbox, max].forEach((it, i) => fields.setUint16(2 * i, fit(it, 16), true));
  bytes.set([fit(syn, 8), restart ? 1 : 0], 6);
  return bytes;
}

function chosen(names, name) {
  if (!Object.hasOwn(names, name)) {
    throw new TypeError(`${name} is none of ${Object.keys(names).join(', ')}`);
  }
  return names[name];
}

/** Loads the module from its bytes, or from a WebAssembly.Module. */
export async function load(source) {
  let module = source;
  if (!(source instanceof WebAssembly.Module)) {
    try {
      module = await WebAssembly.compile(bytesOf(source));
    } catch (fault) {
      if (fault instanceof TypeError) throw fault;
      throw new Error(`WebAssembly with memory of 64 bits is needed (memory64): ${fault.message}`);
    }
  }
  return new Ddcmp((await WebAssembly.instantiate(module)).exports, module);
}

class Memory {
  constructor(calls) {
    this.calls = calls;
  }

  hold(size) {
    const at = BigInt.asUintN(64, this.calls.page_alloc(BigInt(size)));
    if (at === 0n) throw new DdcmpError(MEMORY);
    return at;
  }

  free(at) {
    this.calls.page_free(at);
  }

  bytes(at, size) {
    return new Uint8Array(this.calls.memory.buffer, Number(at), size);
  }

  view(at, size) {
    return new DataView(this.calls.memory.buffer, Number(at), size);
  }

  /** Calls `use` with an address and a length for each of these inputs, and frees them. */
  lend(inputs, use) {
    const held = [];
    try {
      const lent = inputs.flatMap((it) => {
        const at = this.hold(it.length);
        held.push(at);
        this.bytes(at, it.length).set(it);
        return [at, BigInt(it.length)];
      });
      return use(...lent);
    } finally {
      held.forEach((at) => this.free(at));
    }
  }
}

class Ddcmp {
  #memory;
  #calls;

  constructor(calls, module) {
    this.#memory = new Memory(calls);
    this.#calls = calls;
    this.module = module;
    const memory = this.#memory;
    /** A station, as the C library has it. */
    this.Station = class extends Station {
      constructor(sizes) {
        super(memory, sizes);
      }
    };
    Object.freeze(this);
  }

  /** Runs a call over inputs, whose output may need more room than was guessed. */
  #run(inputs, call) {
    const memory = this.#memory;
    return memory.lend([...inputs, new Uint8Array(24)], (...lent) => {
      const told = lent.at(-2), given = lent.slice(0, -2);
      for (let room = 65536 + 3 * inputs.reduce((sum, it) => sum + it.length, 0); ;) {
        const out = memory.hold(room);
        try {
          const code = call(given, [out, BigInt(room), told, told + 8n], told + 16n);
          const view = memory.view(told, 24);
          const [written, at] = [0, 8].map((it) => Number(view.getBigUint64(it, true)));
          if (code !== ROOM) {
            return { code, at, of: view.getUint8(16), output: memory.bytes(out, written).slice() };
          }
          room = written;
        } finally {
          memory.free(out);
        }
      }
    });
  }

  #text(inputs, call) {
    const { code, at, of, output } = this.#run(inputs, call);
    if (code) throw Object.assign(new DdcmpError(code, at, textOf(output)), { of });
    return textOf(output);
  }

  /** What `ddcmp explain` prints of an input. */
  explain(input, { form = 'detect', json = false, discarded = false, max = 16383 } = {}) {
    const number = chosen(FORMS, form), most = fit(max, 16);
    return this.#text([bytesOf(input)], (given, out) =>
      this.#calls.page_explain(number, json ? 1 : 0, discarded ? 1 : 0, most, ...given, ...out));
  }

  /** What `ddcmp explain --ladder` prints; a fault of the second input has 1 as `of`. */
  ladder(first, second, { form = 'detect', discarded = false, max = 16383 } = {}) {
    const number = chosen(FORMS, form), most = fit(max, 16);
    return this.#text([bytesOf(first), bytesOf(second)], (given, out, of) =>
      this.#calls.page_ladder(number, discarded ? 1 : 0, most, ...given, ...out, of));
  }

  /** The bytes that an input encodes. The `output` of a fault has those before it. */
  bytes(input, form = 'detect') {
    const number = chosen(FORMS, form);
    const { code, at, output } = this.#run([bytesOf(input)], (given, out) =>
      this.#calls.page_bytes(number, ...given, ...out));
    if (code) throw new DdcmpError(code, at, output);
    return output;
  }

  /** What `ddcmp simulate` prints of a script. */
  simulate(script, how = {}) {
    const { view = 'text', counters = false, begun = false } = how;
    const asked = sizesOf(12, how);
    asked.set([begun ? 1 : 0, counters ? 1 : 0, chosen(VIEWS, view)], 8);
    return this.#text([asked, bytesOf(script)], ([at, , ...given], out) =>
      this.#calls.page_simulate(at, ...given, ...out));
  }

  /** Explains raw bytes in chunks. */
  explainer(how) {
    return new Explainer(this, how);
  }
}

// The line of a good frame: its offset, and its count if it has data. Lines that are no items.
const CONTROL = 'ACK|NAK|REP|STRT|STACK', COUNTED = '(?:DATA|MAINT)"?[ ,]"?count"?[=:](\\d+)';
const GOOD = new RegExp(`^(?:{"offset":)?(\\d+)(?: |,"item":")(?:${CONTROL}|${COUNTED})`);
const NO_ITEM = /^(?:\{"offset":)?\d+(?:,"| )(?:discarded|unfinished)/;
const TOTALS = /(items"?[=:])(\d+)(.*bytes"?[=:])(\d+)/;

/** Explains raw bytes in chunks: `push` and `end` return together what `explain` does of all. */
class Explainer {
  #ddcmp;
  #how;
  #pieces = [];
  #size = 0;
  #due = 1;
  #base = 0;
  #items = 0;
  #found = false;

  constructor(ddcmp, { json = false, discarded = false, max = 16383 } = {}) {
    this.#ddcmp = ddcmp;
    this.#how = { form: 'raw', json, discarded, max };
  }

  #rest() {
    const all = new Uint8Array(this.#size);
    let at = 0;
    for (const it of this.#pieces) {
      all.set(it, at);
      at += it.length;
    }
    return all;
  }

  #moved(line) {
    return line.replace(/^(\{"offset":)?(\d+)/, (_, front = '', offset) =>
      front + (Number(offset) + this.#base));
  }

  /** Takes a chunk. What follows its last good frame, which leaves nothing open, is kept. */
  push(piece) {
    const bytes = bytesOf(piece);
    this.#pieces.push(bytes.slice());
    this.#size += bytes.length;
    if (this.#size < this.#due) return '';
    const rest = this.#rest(), lines = this.#ddcmp.explain(rest, this.#how).split('\n');
    let last = lines.length - 1, good = null;
    while (last >= 0 && !(good = GOOD.exec(lines[last]))) last--;
    if (!good) {
      this.#pieces = [rest];
      this.#due = 2 * this.#size;
      return '';
    }
    const end = Number(good[1]) + 8 + (good[2] ? Number(good[2]) + 2 : 0);
    const done = lines.slice(0, last + 1);
    const text = done.map((it) => `${this.#moved(it)}\n`).join('');
    this.#items += done.filter((it) => !NO_ITEM.test(it)).length;
    this.#found = true;
    this.#base += end;
    this.#pieces = [rest.slice(end)];
    this.#size = rest.length - end;
    this.#due = 1;
    return text;
  }

  /** Returns the lines of what is left, and the totals. */
  end() {
    const lines = this.#ddcmp.explain(this.#rest(), this.#how).split('\n');
    const totals = lines.splice(-2, 1)[0].replace(TOTALS, (_, items, n, bytes, size) =>
      items + (Number(n) + this.#items) + bytes + (Number(size) + this.#base));
    const kept = lines.slice(0, -1)
      .filter((it) => !(this.#found && it === 'no good frame was found'));
    return [...kept.map((it) => this.#moved(it)), totals, ''].join('\n');
  }
}

/** A station over a byte stream: `start`; then `poll` until it returns null, after each `feed`,
    `send` and `expire`. If `takeArm` returns true, set a deadline for the reply timer; when it
    comes and `timerOn` is true, call `expire`. Don't feed while `waiting` is as many as
    `config.inbox`. `close` frees it: every later call throws. */
class Station {
  #memory;
  #at;
  #told;

  constructor(memory, how) {
    const sizes = sizesOf(8, how);
    this.#memory = memory;
    this.#at = memory.hold(8);
    memory.bytes(this.#at, 8).fill(0);
    this.#told = memory.hold(128);
    const code = memory.lend([sizes], (at) => memory.calls.ddcmp_new(at, this.#at));
    if (code) {
      this.#free();
      throw new DdcmpError(code);
    }
  }

  #free() {
    this.#memory.free(this.#at);
    this.#memory.free(this.#told);
    this.#at = 0n;
  }

  close() {
    if (this.#at === 0n) return;
    this.#memory.calls.ddcmp_free(this.#at);
    this.#free();
  }

  #call(name, ...given) {
    if (this.#at === 0n) throw new DdcmpError(CLOSED);
    return this.#memory.calls[`ddcmp_${name}`](this.#at, ...given);
  }

  #must(name, ...given) {
    const code = this.#call(name, ...given);
    if (code) throw new DdcmpError(code);
  }

  /** Makes a call that stores what it returns, and reads so many bytes of that. */
  #stored(size, name, ...given) {
    this.#must(name, ...given, this.#told);
    return this.#memory.view(this.#told, size);
  }

  #number(name) {
    return Number(BigInt.asUintN(64, BigInt(this.#call(name))));
  }

  #filled(room, name, ...given) {
    return this.#memory.lend([new Uint8Array(room)], (out, size) => {
      const written = Number(this.#stored(8, name, ...given, out, size).getBigUint64(0, true));
      return written ? this.#memory.bytes(out, written).slice() : null;
    });
  }

  start() { return this.#stored(1, 'start').getUint8(0); }
  enterMaintenance() { return this.#stored(1, 'enter_maintenance').getUint8(0); }
  /** Chooses when messages are acknowledged, if the station is halted and its inbox empty: when
      `take` takes them (then poll), or when they are received, as at first. It stays so over
      starts. */
  acknowledgeOnTake(onTake = true) { this.#must('acknowledge_on_take', onTake ? 1 : 0); }
  halt() { this.#must('halt'); }
  clearLine() { return !!(this.#call('clear_line') & 1); }
  get state() { return STATES[this.#call('state')]; }

  /** Queues a message; returns its number. */
  send(message) {
    return this.#memory.lend([bytesOf(message)], (at, size) =>
      this.#stored(1, 'send', at, size).getUint8(0));
  }

  sendMaintenance(message) {
    this.#memory.lend([bytesOf(message)], (at, size) => this.#must('send_maintenance', at, size));
  }

  /** Why `send` would refuse a message; null if it wouldn't. */
  sendRefusal(message) {
    const code = this.#memory.lend([bytesOf(message)], (at, size) =>
      this.#call('send_refusal', at, size));
    return code ? new DdcmpError(code) : null;
  }

  take() { return this.#filled(this.config.max, 'take'); }
  waitingAt(i) { return this.#filled(this.config.max, 'waiting_at', fit(i, 8)); }
  /** The next frame for the line, or null. */
  poll() { return this.#filled(this.#number('frame_room'), 'poll'); }

  /** Handles received bytes, up to the first that yields a notice: feed the rest again. */
  feed(piece) {
    return this.#memory.lend([bytesOf(piece)], (at, size) => {
      this.#must('feed', at, size, this.#told, this.#told + 8n);
      const view = this.#memory.view(this.#told, 16), kind = view.getUint8(8);
      const notice = kind ? { kind: NOTICES[kind], count: view.getUint8(9) } : null;
      return { used: Number(view.getBigUint64(0, true)), notice };
    });
  }

  takeArm() { return !!(this.#call('take_arm') & 1); }
  expire() { return !!(this.#call('expire') & 1); }
  get timerOn() { return !!(this.#call('timer_on') & 1); }
  get room() { return !!(this.#call('room') & 1); }
  get outgoing() { return this.#call('outgoing') & 255; }
  get waiting() { return this.#call('waiting') & 255; }
  get offset() { return this.#number('offset'); }
  get open() { return this.#number('open'); }
  get held() { return this.#number('held'); }

  get config() {
    const it = this.#stored(8, 'config');
    const [window, inbox, max] = [0, 2, 4].map((at) => it.getUint16(at, true));
    return { window, inbox, max, syn: it.getUint8(6), restart: !!it.getUint8(7) };
  }

  get numbers() {
    const it = this.#stored(4, 'numbers');
    return Object.fromEntries(['r', 'n', 'a', 't'].map((name, i) => [name, it.getUint8(i)]));
  }

  get counters() {
    const it = this.#stored(124, 'counters');
    const named = (names, from) =>
      Object.fromEntries(names.map((name, i) => [name, it.getUint32(from + 4 * i, true)]));
    return { nakSent: named(NAKS, 0), nakReceived: named(NAKS, 32), ...named(COUNTERS, 64) };
  }
}
