// Decodes in a worker, so that the page stays usable: files are read in chunks, and a newer request
// ends an older one.
import { DdcmpError, load } from './ddcmp.mjs';

const CHUNK = 1 << 20, SHOWN = 48;  // bytes at once; digits of data in a row
const MAGICS = [0xd4c3b2a1, 0xa1b2c3d4, 0x4d3cb2a1, 0xa1b23c4d, 0x0a0d0d0a];  // of pcap, pcapng
const PACKETS = 'packets (pcap): take the bytes of each direction out of them first, as by tcpflow';
let ddcmp = null, asked = 0, raws = [], how = {};

const isText = (it) => it >= 32 && it < 127 || it === 9 || it === 10 || it === 13;
const readAt = async (blob, from, to) => new Uint8Array(await blob.slice(from, to).arrayBuffer());

/** The bytes of a line that an input encodes, and its fault. */
async function rawOf(blob, form) {
  const first = await readAt(blob, 0, 64);
  if (first.length >= 4 && MAGICS.includes(new DataView(first.buffer).getUint32(0))) {
    return { raw: new Blob(), fault: PACKETS };
  }
  if (form === 'raw' || form === 'detect' && !first.every(isText)) return { raw: blob };
  try {
    return { raw: new Blob([ddcmp.bytes(await readAt(blob, 0, blob.size), form)]) };
  } catch (fault) {
    if (!(fault instanceof DdcmpError)) throw fault;
    return { raw: new Blob([fault.output]), fault: fault.message };
  }
}

/** Explains bytes in chunks, and passes the text of each to `use`; stops at a newer request. */
async function explain(id, raw, options, use) {
  const explainer = ddcmp.explainer(options);
  for (let at = 0; at < raw.size; at += CHUNK) {
    const piece = await readAt(raw, at, at + CHUNK);
    if (id !== asked) return false;
    use(explainer.push(piece), Math.min(at + CHUNK, raw.size));
  }
  use(explainer.end(), raw.size);
  return true;
}

async function decode(id, { blobs, form, max }) {
  const found = [];
  for (const [end, blob] of blobs.entries()) {
    const { raw, fault } = await rawOf(blob, form);
    found.push(raw);
    const isWhole = await explain(id, raw, { json: true, discarded: true, max }, (text, at) => {
      const rows = text.split('\n').filter((it) => it).map((it) => JSON.parse(it));
      for (const it of rows) it.data = it.data?.slice(0, SHOWN);
      postMessage({ id, rows, end, part: (end + (at || 1) / (raw.size || 1)) / blobs.length });
    });
    if (!isWhole) return;
    if (fault) postMessage({ id, fault: blobs.length > 1 ? `${'AB'[end]}: ${fault}` : fault });
  }
  [raws, how] = [found, { max }];
  postMessage({ id, raws });
}

/** All items in one file; those of two inputs say from which they are. */
async function saved(id, json) {
  const parts = [];
  for (const [end, raw] of raws.entries()) {
    const from = raws.length > 1 && 'AB'[end];
    const marked = (text) => !from ? text
      : json ? text.replace(/^\{/gm, `{"from":"${from}",`) : text.replace(/^(?=.)/gm, `${from} `);
    const style = { json, discarded: true, ...how };
    if (!await explain(id, raw, style, (text) => parts.push(marked(text)))) return;
  }
  postMessage({ id, saved: new Blob(parts), name: `items.${json ? 'json' : 'txt'}` });
}

async function ladder(id) {
  const [first, second] = await Promise.all([0, 1].map((i) =>
    readAt(raws[i] ?? new Blob(), 0, raws[i]?.size)));
  if (id !== asked) return;
  const text = ddcmp.ladder(first, second, { form: 'raw', discarded: true, ...how });
  postMessage({ id, ladder: text });
}

onmessage = async ({ data }) => {
  asked = data.id;
  try {
    ddcmp ??= await load(data.module);
    if (data.blobs) await decode(data.id, data);
    else if (data.ladder) await ladder(data.id);
    else await saved(data.id, data.json);
  } catch (fault) {
    postMessage({ id: data.id, fault: fault.message });
  }
};
