// The page: its parts, one at a time, and the module under them.
import { load } from './ddcmp.mjs';
import { beginDecode } from './decode.mjs';
import { $, tell } from './fields.mjs';
import { beginPort } from './port.mjs';
import { beginSimulate, openScript } from './simulate.mjs';
import { beginStations } from './stations.mjs';

const PARTS = ['decode', 'simulate', 'stations', 'port'];
let simulated = null;

function show(part) {
  for (const it of PARTS) {
    $(it).hidden = it !== part;
    $(`tab-${it}`).setAttribute('aria-selected', it === part);
    $(`tab-${it}`).tabIndex = it === part ? 0 : -1;
  }
  history.replaceState(null, '', part === 'simulate' ? simulated.address() : `#${part}`);
}

/** Shows what the address names; a script in it is opened. */
function follow() {
  const [part, script] = location.hash.slice(1).split(/=(.*)/s);
  if (part === 'simulate' && script !== undefined) {
    try {
      openScript(decodeURIComponent(script));
    } catch {
      // what isn't a text isn't a script
    }
  }
  show(PARTS.includes(part) ? part : 'decode');
}

function beginTabs() {
  PARTS.forEach((it, i) => {
    $(`tab-${it}`).addEventListener('click', () => show(it));
    $(`tab-${it}`).addEventListener('keydown', ({ key }) => {
      const step = { ArrowRight: 1, ArrowLeft: 3 }[key];
      if (!step) return;
      const next = PARTS[(i + step) % 4];
      show(next);
      $(`tab-${next}`).focus();
    });
  });
}

async function begin() {
  const digits = atob($('module').textContent);
  const ddcmp = await load(Uint8Array.from(digits, (it) => it.charCodeAt(0)));
  const address = location.hash;
  beginDecode(ddcmp);
  simulated = beginSimulate(ddcmp);
  openScript(simulated.example);
  beginStations(ddcmp, show);
  beginPort(ddcmp);
  beginTabs();
  history.replaceState(null, '', address || '#decode');
  follow();
  tell('broken', '');
  addEventListener('hashchange', follow);
}

begin().catch((fault) => {
  $('broken').className = 'fault';
  tell('broken', `This page can't run here. ${fault.message}`);
});
