
/* ---- the run is computed anew after each change ---- */
const RUN = ['program.rounds', '--header', 'run.header', '--omissions', 'run.omissions'];
let busy = false, again = false, checked = null;
/* How many ms after the page had come its first grid was there. */
let firstGrid = null;
const sinceThePage = () =>
  performance.now() - performance.getEntriesByType('navigation')[0].responseEnd;

async function check() {
  const { text } = lab;
  const told = await command(['why', 'check', 'program.rounds'], { 'program.rounds': text });
  const ok = /^ok values (\d+) period (\d+) variables (\d+)/.exec(told.out);
  if (ok) program = { values: +ok[1], period: +ok[2], variables: +ok[3] };
  checked = { text, isGood: !!ok, out: told.out || told.err };
  if (text !== lab.text) return;
  paint(ok ? [] : readFaults(told.out));
  if (ok) $('faults').replaceChildren();
  else tell($('faults'), checked.out);
  if (ok && lab.inputs.some(value => value >= program.values)) {
    lab.inputs = lab.inputs.map(value => Math.min(value, program.values - 1));
    showSettings();
  }
}
/* Asks for the run that is to be shown. */
let asked = { key: null, told: null };
function askForRun() {
  const given = files(), key = JSON.stringify(given);
  if (asked.key !== key) {
    asked = { key, told: command(['rounds', ...RUN, '--format', 'json', '--decided'], given) };
    asked.told.catch(() => { asked.key = null; });
  }
  return asked.told;
}
async function computeRun() {
  const [told, start, holds] = await Promise.all([askForRun(), startStates(), alwaysRows()]);
  if (told.stopped || told.status !== 0) {
    const why = told.stopped ? told : await command(['why', 'rounds', ...RUN], files());
    $('run').classList.add('stale');
    $('verdict').replaceChildren();
    tell($('trouble'), told.stopped ? told.err : why.out || why.err || told.err);
    return;
  }
  const rows = {};
  let decided = null;
  for (const line of jsonLines(told.out)) {
    if (line.round) rows[`${line.round},${line.node}`] = line;
    if ('decided' in line) decided = line.decided;
  }
  run = { rows, start, holds, decided };
  $('trouble').replaceChildren();
  $('run').classList.remove('stale');
  showRun();
  firstGrid ??= sinceThePage();
  await showVerdict(decided);
  $('time').textContent = `computed by roundc in ${told.ms.toFixed(0)} ms`;
}
async function showVerdict(decided) {
  const isSplit = decided === 'split';
  $('verdict').className = isSplit ? 'split' : decided === null ? '' : 'agreed';
  $('verdict').textContent = isSplit ? '✗ decisions differ'
    : decided === null ? 'no node decides' : `✓ all decisions are ${decided}`;
  if (!isSplit) return;
  const why = await command(['why', 'rounds', ...RUN, '--decided'], files());
  $('verdict').append(': ', h('small', {}, decisionWords(why.out).join('; ')));
}
/* The lines that say which decisions differ or are taken back. */
const decisionWords = out => (out.split(/^decided .*\n/m)[1] || '').split('\n')
  .filter(line => line.startsWith('    ')).map(line => line.trim());
async function showAlwaysFault() {
  const fault = await alwaysFault();
  if (fault) tell($('alwaysFault'), fault);
  else $('alwaysFault').replaceChildren();
}

/* One computation at a time; a change meanwhile asks for another. */
async function refresh() {
  if (busy) { again = true; return; }
  busy = true;
  try {
    do {
      again = false;
      if (checked?.text !== lab.text) {
        /* (both are on their way while the program is checked; a bad one has neither) */
        askForRun().catch(() => {});
        startStates().catch(() => {});
        await check();
      }
      if (checked.text !== lab.text) { again = true; continue; }
      if (checked.isGood) { await computeRun(); await showAlwaysFault(); }
      else { $('run').classList.add('stale'); $('verdict').replaceChildren(); }
    } while (again);
  } catch (error) {
    $('time').textContent = error instanceof Unanswered ? error.message : String(error);
    if (!(error instanceof Unanswered)) { busy = false; throw error; }
  }
  busy = false;
}
/* Shows all that has changed. */
function show() {
  hideCard();
  showSettings();
  if ($('text').value !== lab.text) $('text').value = lab.text;
  if (checked?.text !== lab.text) paint([]);
  keepLink();
  markOld();
  refresh();
}
function showSettings() {
  for (const id of ['n', 't', 'r']) if (document.activeElement !== $(id)) $(id).value = lab[id];
  for (const box of document.querySelectorAll('[data-check]'))
    box.checked = lab.ask.check.includes(box.dataset.check);
  for (const button of document.querySelectorAll('[data-step]')) {
    const [id, by] = button.dataset.step.split(',');
    button.disabled = by < 0 ? lab[id] <= LEAST[id] : lab[id] >= MOST[id];
  }
  $('faultKind').value = lab.ask.faults;
  for (const id of ['clear', 'hears', 'always'])
    if (document.activeElement !== $(id)) $(id).value = lab.ask[id];
  $('anyInputs').checked = lab.ask.any;
  $('whole').checked = showsWhole;
  $('undo').disabled = !past.length;
  $('redo').disabled = !future.length;
  $('heal').disabled = !lab.omits.size && !Object.keys(lab.crash).length;
  document.title = lab.title ? `${lab.title} · roundc lab` : 'roundc lab';
  $('story').replaceChildren(h('b', {}, lab.title), lab.title && lab.story ? '. ' : '', lab.story);
}
function setNumber(id, value) {
  if (!Number.isInteger(value) || value < LEAST[id] || value > MOST[id]) return;
  change(() => {
    lab[id] = value;
    lab.inputs = nodes().map(i => lab.inputs[i] ?? i % program.values);
    const isThere = ([j, r]) => j < lab.n && r <= lab.r;
    lab.crash = Object.fromEntries(Object.entries(lab.crash).filter(isThere));
    failing = null;
  });
}
