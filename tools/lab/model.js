
/* ---- what the page shows ---- */
const CHECKS = ['agreement', 'validity', 'final', 'termination'];
const MOST = { n: 16, t: 15, r: 64 };
const LEAST = { n: 1, t: 0, r: 1 };
const MAX_TEXT = 65536;
/* All that a link keeps. An omission is "receiver,round,sender", and `crash` has the round in which
   a node crashes. */
let lab = {
  text: '', n: 3, t: 1, r: 2, inputs: [0, 1, 1], omits: new Set(), crash: {}, title: '', story: '',
  ask: { faults: 'none', clear: '', hears: '', any: true, check: CHECKS.slice(0, 3), always: '' },
};
/* What `check` says of the program. */
let program = { values: 2, period: 1, variables: 1 };

const nodes = () => range(lab.n);
const isOmitted = (i, r, j) => lab.omits.has(`${i},${r},${j}`);
/* The five lines of a header. */
const header = (rounds = lab.r) => [`nodes ${lab.n}`, `faults ${lab.t}`,
  `inputs ${lab.inputs.join(' ')}`, `rounds ${rounds}`, 'plan known 1', ''].join('\n');
/* The omission file of a run, without one message that is to arrive, and without the crash of one
   node. */
function omissions(arrives = null, rounds = lab.r, alive = null) {
  const lines = [], isLost = (i, r, j) => isOmitted(i, r, j) && `${i},${r},${j}` !== arrives;
  for (const j of nodes()) {
    const r = lab.crash[j];
    if (!r || r > rounds || j === alive) continue;
    const reached = nodes().filter(i => i !== j && !isLost(i, r, j));
    lines.push(`crash ${j} ${r} ${reached.join(',') || '-'}`);
  }
  for (const one of lab.omits) {
    const [i, r, j] = one.split(',').map(Number);
    if (i < lab.n && j < lab.n && r <= rounds && !(r >= lab.crash[j]) && isLost(i, r, j))
      lines.push(`omit ${i} ${r} ${j}`);
  }
  return lines.map(line => line + '\n').join('');
}
const files = () => ({
  'program.rounds': lab.text, 'run.header': header(), 'run.omissions': omissions(),
});

/* ---- undo and redo ---- */
const kept = () => {
  const { text, n, t, r, inputs, omits, crash, title, story, ask } = lab;
  const { faults, clear, hears, any, check, always } = ask;
  return JSON.stringify({ text, n, t, r, inputs, omits: [...omits], crash, title, story,
    ask: { faults, clear, hears, any, check, always } });
};
let past = [], future = [];
/* Makes a change that can be undone. */
function change(edit) {
  const before = kept();
  edit();
  if (kept() === before) return;
  past = [...past.slice(-499), before];
  future = [];
  show();
}
function goBack(from, to) {
  if (!from.length) return;
  to.push(kept());
  take(JSON.parse(from.pop()));
  show();
}
const undo = () => goBack(past, future);
const redo = () => goBack(future, past);

/* ---- links ---- */
const number = (it, least, most, other) =>
  Number.isInteger(it) && it >= least && it <= most ? it : other;
/* Takes over what a link says. Anybody can write a link, so each part is made what it has to be. */
function take(it) {
  const text = (value, most) => typeof value === 'string' ? value.slice(0, most) : '';
  const limit = value => /^\d{1,4}$/.test(value) ? String(Number(value)) : '';
  const list = value => Array.isArray(value) ? value : [];
  const ask = it.ask || {}, n = number(it.n, 1, MOST.n, 3), crash = {};
  for (const j of range(n)) if (number(it.crash?.[j], 1, MOST.r, 0)) crash[j] = it.crash[j];
  lab = {
    text: text(it.text, MAX_TEXT), n, t: number(it.t, 0, MOST.t, 1), r: number(it.r, 1, MOST.r, 2),
    inputs: range(n).map(i => number(it.inputs?.[i], 0, 63, 0)), crash,
    omits: new Set(list(it.omits).filter(one => /^\d{1,2},\d{1,2},\d{1,2}$/.test(one))),
    title: text(it.title, 200), story: text(it.story, 500),
    ask: {
      faults: ['crash', 'omission'].includes(ask.faults) ? ask.faults : 'none',
      clear: limit(ask.clear), hears: limit(ask.hears), any: ask.any !== false,
      check: CHECKS.filter(name => list(ask.check).includes(name)),
      always: text(ask.always, 4096).replace(/[\x00-\x1f\x7f]/g, ' '),
    },
  };
}
async function through(bytes, stream) {
  const made = new Response(new Blob([bytes]).stream().pipeThrough(stream));
  return new Uint8Array(await made.arrayBuffer());
}
async function toFragment() {
  const bytes = await through(kept(), new CompressionStream('deflate-raw'));
  const text = btoa(Array.from(bytes, byte => String.fromCharCode(byte)).join(''));
  return text.replace(/\+/g, '-').replace(/\//g, '_').replace(/=/g, '');
}
/* Reads a fragment, and returns whether it was one. */
async function fromFragment(fragment) {
  try {
    const text = atob(fragment.replace(/-/g, '+').replace(/_/g, '/'));
    const bytes = Uint8Array.from(text, one => one.charCodeAt(0));
    const read = JSON.parse(new TextDecoder().decode(
      await through(bytes, new DecompressionStream('deflate-raw'))));
    if (typeof read?.text !== 'string') return false;
    take(read);
    return true;
  } catch { return false; }
}
/* Keeps all in the page's address, a tenth of a second after a change: browsers put up with only so
   many changes of it. */
let linkTimer = 0;
function keepLink() {
  linkTimer ||= setTimeout(async () => {
    linkTimer = 0;
    history.replaceState(null, '', '#' + await toFragment());
  }, 100);
}
