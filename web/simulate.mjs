// Simulate: a script beside its picture.
import { $, make, save, tell } from './fields.mjs';

const SIZES = [
  ['window', 7, 1, 255], ['inbox', 8, 1, 255], ['max', 1500, 1, 16383], ['syn', 0, 0, 16],
];
const FLAGS = ['restart', 'begun', 'counters'];
let ddcmp = null, address = '';

/** Shows an SVG document as an image: what is in it can't run. */
export function showPicture(image, svg) {
  URL.revokeObjectURL(image.src);
  image.src = URL.createObjectURL(new Blob([svg], { type: 'image/svg+xml' }));
}

/** What a script shows, and the fault that ended it. */
export function played(ddcmp, script, how) {
  try {
    return { output: ddcmp.simulate(script, how), fault: null };
  } catch (fault) {
    if (fault.code === undefined) throw fault;
    return { output: fault.output, fault };
  }
}

function options() {
  const sizes = SIZES.map(([name]) => [name, $(`size-${name}`).valueAsNumber]);
  return Object.fromEntries([...sizes, ...FLAGS.map((name) => [name, $(name).checked])]);
}

function markLine(line) {
  const count = $('script').value.split('\n').length;
  $('gutter').replaceChildren(...Array.from({ length: count }, (_, i) =>
    make(i + 1 === line ? 'b' : 'span', { textContent: `${i + 1}\n` })));
  $('gutter').scrollTop = $('script').scrollTop;
}

function run() {
  const script = $('script').value, view = $('view').value;
  const { output, fault } = played(ddcmp, script, { ...options(), view });
  tell('script-fault', fault ? fault.message : '');
  $('script').setAttribute('aria-invalid', !!fault);
  markLine(fault?.at);
  $('picture').hidden = view !== 'svg' || !output;
  $('shown').hidden = view === 'svg';
  if (view === 'svg') {
    if (output) showPicture($('picture'), output);
    const ladder = played(ddcmp, script, { ...options(), view: 'ladder' }).output;
    $('picture').alt = `Time-sequence diagram: ${ladder}`;
  } else {
    $('shown').textContent = output;
  }
  address = `#simulate=${encodeURIComponent(script)}`;
  history.replaceState(null, '', address);
}

/** Opens a script here. */
export function openScript(script) {
  $('script').value = script;
  run();
}

function sizeField([name, value, min, max]) {
  const input = make('input', { type: 'number', id: `size-${name}`, min, max, value });
  return make('label', { textContent: `${name} ` }, input);
}

export function beginSimulate(module) {
  ddcmp = module;
  $('sizes').append(...SIZES.map(sizeField),
    make('label', {}, make('input', { type: 'checkbox', id: 'restart' }), ' restart'));
  const examples = JSON.parse($('examples').textContent);
  $('example').append(...Object.keys(examples).map((it) => new Option(it)));
  $('example').addEventListener('change', ({ target }) => {
    if (target.value) openScript(examples[target.value]);
  });
  $('script').addEventListener('input', run);
  $('script').addEventListener('scroll', () => {
    $('gutter').scrollTop = $('script').scrollTop;
  });
  for (const it of ['view', ...FLAGS]) $(it).addEventListener('change', run);
  for (const [name] of SIZES) $(`size-${name}`).addEventListener('input', run);
  $('copy-link').addEventListener('click', async () => {
    try {
      await navigator.clipboard.writeText(location.href);
      $('copied').textContent = 'Copied.';
    } catch {
      $('copied').textContent = 'The address of this page is the link.';
    }
  });
  $('save-picture').addEventListener('click', () => {
    const view = $('view').value, how = { ...options(), view };
    const { output } = played(ddcmp, $('script').value, how);
    save(view === 'svg' ? 'script.svg' : 'script.txt', new Blob([output]));
  });
  return { example: examples.lost ?? '', address: () => address };
}
