// Calls of web/ddcmp.mjs for tests/test_page.py: a name with arguments, and the reply.
const stations = [];
const hex = (it) => [...it].map((byte) => byte.toString(16).padStart(2, '0')).join('');
const shown = (it) => it instanceof Uint8Array ? hex(it) : it;
const given = (it) => typeof it?.hex === 'string'
  ? Uint8Array.from(it.hex.match(/../g) ?? [], (digits) => parseInt(digits, 16)) : it;

const CALLS = {
  pieces: (input, sizes, how) => {
    const explainer = ddcmp.explainer(how);
    let text = '';
    for (let at = 0, i = 0; at < input.length; at += sizes[i++ % sizes.length]) {
      text += explainer.push(input.subarray(at, at + sizes[i % sizes.length]));
    }
    return text + explainer.end();
  },
  station: (sizes) => stations.push(new ddcmp.Station(sizes)) - 1,
  call: (i, name, ...more) => stations[i][name](...more),
  of: (i, name) => stations[i][name],
};

window.answer = (name, ...more) => {
  try {
    const call = CALLS[name] ?? ((...it) => ddcmp[name](...it));
    return { is: shown(call(...more.map(given))) ?? null };
  } catch (fault) {
    return { fault: fault.message, name: fault.name, output: shown(fault.output), of: fault.of };
  }
};
