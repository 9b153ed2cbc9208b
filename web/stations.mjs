// Two stations: buttons that make a script, and its picture.
import { $, hex, make } from './fields.mjs';
import { openScript, played, showPicture } from './simulate.mjs';

const OF_EACH = {
  start: 'start it',
  send: 'give it the message to send',
  poll: 'put its next frame on its line',
  pass: 'deliver the first frame of its line',
  lose: 'drop the first frame of its line',
  damage: 'change a bit of the first frame of its line',
  expire: 'let its reply timer expire',
  take: 'take a received message',
  halt: 'halt it',
  state: 'print its state and numbers',
};
const OF_BOTH = {
  settle: 'exchange frames until neither has one',
  recover: 'settle, then twice: both timers expire, and settle',
  clear: 'clear the line, if both are halted',
};
let ddcmp = null, script = [];

const textOf = (lines) => lines.map((it) => `${it}\n`).join('');

/** The replies to some lines, without the last line of a run. */
const repliesTo = (lines) => played(ddcmp, textOf(lines), {}).output.split('\n').slice(0, -2);

function run(line) {
  const before = repliesTo(script).length;
  if (line) script.push(line);
  const text = textOf(script);
  const reply = repliesTo(script).slice(before).join('\n') || 'nothing to report';
  $('reply').textContent = line ? reply : '';
  for (const state of repliesTo([...script, 'state A', 'state B']).slice(-2)) {
    $(`state-${state[0]}`).textContent = state.slice(2);
  }
  $('made').textContent = text;
  $('made').scrollTop = $('made').scrollHeight;
  showPicture($('stations-picture'), played(ddcmp, text, { view: 'svg' }).output);
  $('undo').disabled = $('reset').disabled = !script.length;
}

function lineOf(end, word) {
  // A bit of the first byte of data, or of the CRC of a header.
  if (word === 'damage') {
    const line = `damage ${end} 8 01`, reply = repliesTo([...script, line]).at(-1);
    return reply === `${end} no byte` ? `damage ${end} 6 01` : line;
  }
  if (word !== 'send') return `${word} ${end}`;
  return `send ${end} ${hex(new TextEncoder().encode($(`message-${end}`).value || ' '))}`;
}

function button(id, word, title, line) {
  const it = make('button', { textContent: word, title, id });
  it.addEventListener('click', () => run(line()));
  return it;
}

function station(end) {
  const buttons = Object.entries(OF_EACH).map(([word, title]) =>
    button(`${word}-${end}`, word, title, () => lineOf(end, word)));
  const value = end === 'A' ? 'hello' : 'yes';
  const message = make('input', { id: `message-${end}`, value, className: 'wide' });
  const label = make('label', { textContent: 'Message', htmlFor: message.id });
  return make('section', { ariaLabel: `Station ${end}` },
    make('h2', { textContent: `Station ${end}` }),
    make('p', { className: 'state', id: `state-${end}` }),
    make('p', { className: 'row' }, label, message),
    make('div', { className: 'buttons' }, ...buttons));
}

export function beginStations(module, show) {
  ddcmp = module;
  $('ends').append(station('A'), station('B'));
  $('both').append(...Object.entries(OF_BOTH).map(([word, title]) =>
    button(`both-${word}`, word, title, () => word)));
  $('undo').addEventListener('click', () => {
    script.pop();
    run();
  });
  $('reset').addEventListener('click', () => {
    script = [];
    run();
  });
  $('take-over').addEventListener('click', () => {
    openScript($('made').textContent);
    show('simulate');
  });
  run();
}
