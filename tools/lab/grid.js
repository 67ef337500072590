
/* ---- the grid ---- */
/* The run that is shown: its rows by "round,node", the states before round 1, whether the invariant
   is true, and what all decisions come to. */
let run = { rows: {}, start: {}, holds: {}, decided: null, steps: {} };
let grid = { key: null, cells: [] };
/* The property that fails in the run which a search has put into the grid, and in which round. */
let failing = null;
let showsWhole = false;

const rowAt = (r, i) => run.rows[`${r},${i}`];
const stateBefore = (r, i) => r > 1 ? rowAt(r - 1, i)?.state : run.start[i];
/* The properties that a row is the first to break. The decisions are those that roundc printed. */
function breaksOf(r, i) {
  const row = rowAt(r, i), before = rowAt(r - 1, i)?.decision ?? null, broken = [];
  if (!row) return broken;
  const { decision } = row;
  if (decision !== null && decision !== before) {
    if (run.first !== undefined && decision !== run.first) broken.push('agreement');
    if (!lab.inputs.includes(decision)) broken.push('validity');
  }
  if (before !== null && decision !== before) broken.push('final');
  if (run.holds[`${r},${i}`] === false) broken.push('always');
  if (failing?.property === 'termination' && r === failing.round && decision === null)
    broken.push('no decision');
  return broken;
}
/* What a sender is to a receiver: heard, silent, omitted, or dead. */
function kindOf(r, i, j) {
  if (lab.crash[j] < r) return 'dead';
  const row = rowAt(r, i);
  if (row?.silent.includes(j)) return 'silent';
  return isOmitted(i, r, j) || row?.omitted.includes(j) ? 'omitted' : 'heard';
}
const IDLE = '; omitted if it were sent';
function chip(r, i, at, omit, kind, label) {
  const [to, , from] = omit.split(','), isIdle = kind === 'silent' && lab.omits.has(omit);
  return h('button', { class: isIdle ? 'silent idle' : kind, tabIndex: -1,
    disabled: kind === 'dead', data: { at: `${r},${i},${at}`, omit },
    'aria-label': `round ${r}, from node ${from} to node ${to}: ${kind}${isIdle ? IDLE : ''}` },
  String(label));
}
function crossOf(r, i) {
  const isOn = lab.crash[i] === r;
  const words = isOn ? "crashes; don't crash it" : 'is to crash';
  return h('button', { class: isOn ? 'crash on' : 'crash', tabIndex: -1, 'aria-pressed': isOn,
    data: { at: `${r},${i},${lab.n}`, crash: `${i},${r}` },
    'aria-label': `round ${r}: node ${i} ${words}` }, '✕');
}
/* A cell in which a node crashes: its chips are the receivers of its last messages. */
function crashCell(r, i) {
  const chips = nodes().filter(k => k !== i && !(lab.crash[k] < r)).map(k =>
    chip(r, i, k, `${k},${r},${i}`, isOmitted(k, r, i) ? 'omitted' : 'heard', k));
  return [h('div', { class: 'msgs' }, h('small', {}, 'crashes, reaches'), ...chips, crossOf(r, i))];
}
function varsOf(r, i) {
  const row = rowAt(r, i), before = stateBefore(r, i), shown = [];
  for (const [name, value] of Object.entries(row.state)) {
    const isNew = before && valueText(before[name]) !== valueText(value);
    if (!isNew && !showsWhole && before) continue;
    const words = ` ${valueText(value)}`;
    shown.push(h('span', { class: isNew ? 'new' : '' }, h('b', {}, name), words));
  }
  return h('div', { class: 'vars' }, ...shown);
}
function decisionOf(r, i) {
  const { decision } = rowAt(r, i), before = rowAt(r - 1, i)?.decision ?? null;
  if (decision === null)
    return before === null ? null : h('span', { class: 'dec none' }, 'undecided again');
  const isNew = decision !== before;
  return h('span', { class: `dec v${decision % 4} ${isNew ? 'fresh' : ''}` },
    isNew ? `decides ${decision}` : String(decision));
}
/* Up to so many nodes there's room for the decision beside the senders. */
const WIDE = 3;
/* The content of a cell, with its class and a key that changes whenever it looks different. */
function cellOf(r, i) {
  const crash = lab.crash[i];
  if (crash < r)
    return { kind: 'gone', key: 'gone', make: () => [h('div', { class: 'vars' }, 'crashed')] };
  if (crash === r) {
    const key = 'crash ' + nodes().map(k => `${isOmitted(k, r, i)} ${lab.crash[k] < r}`);
    return { kind: 'gone', key, make: () => crashCell(r, i) };
  }
  const row = rowAt(r, i), kinds = nodes().map(j => kindOf(r, i, j)), broken = breaksOf(r, i);
  const key = JSON.stringify([kinds, nodes().map(j => isOmitted(i, r, j)), broken, showsWhole,
    row?.state, row?.decision, stateBefore(r, i), rowAt(r - 1, i)?.decision]);
  const make = () => [
    h('div', { class: 'line' }, h('div', { class: 'msgs' },
      ...kinds.map((kind, j) => chip(r, i, j, `${i},${r},${j}`, kind, j)), crossOf(r, i)),
    row && lab.n <= WIDE && decisionOf(r, i)),
    row && h('div', { class: 'line' }, varsOf(r, i), lab.n > WIDE && decisionOf(r, i)),
    broken.length > 0 && h('div', { class: 'flags' },
      ...broken.map(name => h('span', { class: 'flag' }, `✗ ${name}`))),
  ].filter(part => part);
  return { kind: broken.length ? 'breaks' : '', key, make };
}
function makeTable(key) {
  const heads = nodes().map(i => h('th', { scope: 'col' }, `node ${i}`, h('small', {}, 'input '),
    h('button', { class: 'dec', data: { input: i } })));
  const body = range(lab.r).map(k => h('tr', {}, h('th', { class: 'r', scope: 'row' },
    `round ${k + 1}`, program.period > 1 && h('small', {}, `at ${k % program.period + 1}`)),
  ...nodes().map(() => h('td'))));
  const table = h('table', { id: 'grid', 'aria-label': 'Rounds by nodes' },
    h('thead', {}, h('tr', {}, h('th'), ...heads)), h('tbody', {}, ...body));
  table.style.minWidth = `${64 + lab.n * Math.min(224, Math.max(150, 23 * lab.n + 40))}px`;
  $('run').replaceChildren(table);
  grid = { key, cells: [], heads, rows: body };
}
function showInputs() {
  grid.heads.forEach((head, i) => {
    const pill = head.querySelector('button');
    pill.className = `dec v${lab.inputs[i] % 4}`;
    pill.textContent = lab.inputs[i];
    pill.title = `The input of node ${i}: click for the next value`;
    pill.setAttribute('aria-label', `input of node ${i}: ${lab.inputs[i]}; the next value`);
  });
}
function showRun() {
  const key = `${lab.n} ${lab.r} ${program.period}`, focused = document.activeElement?.dataset?.at;
  if (grid.key !== key) makeTable(key);
  showInputs();
  run.first = undefined;
  grid.rows.forEach((line, k) => {
    let isBroken = false;
    for (const i of nodes()) {
      const cell = cellOf(k + 1, i), at = k * lab.n + i;
      run.first ??= rowAt(k + 1, i)?.decision ?? undefined;
      isBroken ||= cell.kind === 'breaks';
      if (grid.cells[at] === cell.key + cell.kind) continue;     /* most cells stay as they are */
      grid.cells[at] = cell.key + cell.kind;
      line.cells[i + 1].className = cell.kind;
      line.cells[i + 1].replaceChildren(...cell.make());
    }
    line.className = isBroken ? 'fails' : '';
  });
  settleFocus(focused);
}

/* ---- keys in the grid: one button of it can be reached by Tab, the others by arrows ---- */
let spot = '1,0,0';
const buttonAt = at => document.querySelector(`#grid [data-at="${at}"]:not(:disabled)`);
const firstButton = cell => cell?.querySelector('button:not(:disabled)');
function settleFocus(focused) {
  const at = focused || spot, [r, i] = at.split(',').map(Number);
  const button = buttonAt(at) || firstButton(grid.rows[r - 1]?.cells[i + 1]) ||
    document.querySelector('#grid td button:not(:disabled)');
  if (!button) return;
  document.querySelectorAll('#grid td [tabindex="0"]').forEach(one => { one.tabIndex = -1; });
  button.tabIndex = 0;
  spot = button.dataset.at;
  if (focused) button.focus({ preventScroll: true });
}
/* Moves from a button by a number of places in its row of the grid, or by rounds. */
function move(rounds, places) {
  let [r, i, k] = spot.split(',').map(Number);
  const width = lab.n * (lab.n + 1);
  let place = i * (lab.n + 1) + k;
  for (let tries = 0; tries < width; tries++) {
    r += rounds;
    place += places;
    if (r < 1 || r > lab.r || place < 0 || place >= width) return;
    i = Math.floor(place / (lab.n + 1));
    const cell = grid.rows[r - 1].cells[i + 1];
    const button = buttonAt(`${r},${i},${place % (lab.n + 1)}`) || (rounds && firstButton(cell));
    if (button) { focusOn(button); return; }
  }
}
function focusOn(button) {
  if (!button) return;
  settleFocus(button.dataset.at);
  button.scrollIntoView({ block: 'nearest', inline: 'nearest' });
}
function gridKey(event) {
  const at = event.target.dataset?.at;
  if (!at || event.ctrlKey || event.metaKey || event.altKey) return;
  spot = at;
  const [r, i] = at.split(',').map(Number), cells = [...grid.rows[r - 1].cells].slice(1);
  const first = list => list.map(firstButton).find(one => one);
  const does = {
    ArrowLeft: () => move(0, -1), ArrowRight: () => move(0, 1),
    ArrowUp: () => move(-1, 0), ArrowDown: () => move(1, 0),
    Home: () => focusOn(first(cells)), End: () => focusOn(first(cells.reverse())),
    x: () => toggleCrash(i, r),
  }[event.key];
  if (!does) return;
  event.preventDefault();
  does();
}
const toggleOmit = one => change(() => { if (!lab.omits.delete(one)) lab.omits.add(one); });
const toggleCrash = (i, r) => change(() => {
  if (lab.crash[i] === r) delete lab.crash[i];
  else lab.crash = { ...lab.crash, [i]: r };
});
