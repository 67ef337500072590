
/* ---- all runs ---- */
let search = null;       /* the search that goes on, to be stopped */
let answers = null;      /* what was answered, with the question */
/* What is asked: an answer of another question is shown as old. */
const question = () =>
  JSON.stringify([lab.text, lab.n, lab.t, lab.r, lab.ask, lab.ask.any || lab.inputs]);
const markOld = () =>
  $('answers').classList.toggle('stale', !!answers && answers.asked !== question());

function searchWords(check, always) {
  const { ask } = lab;
  /* (with an invariant alone explore would ask for three properties more) */
  const words = ['explore', 'program.rounds', '--header', 'run.header',
    '--inputs', ask.any ? 'any' : 'header', '--check', check.join(',') || 'validity'];
  if (ask.faults !== 'none') words.push('--faults', ask.faults);
  if (ask.clear) words.push('--clear', ask.clear);
  if (ask.hears !== '') words.push('--hears', ask.hears);
  if (always) words.push('--always', ask.always);
  return words;
}
/* Why a command has no answer. */
async function whyNot(told, words, given) {
  if (told.stopped) return told.err;
  if (told.status === 3) return 'It needs more memory than it may have, 2 GiB.';
  if (told.status < 0 || told.status > 5) return `The command ended with status ${told.status}.`;
  const why = await command(['why', ...words], given);
  return why.out || why.err || told.err;
}
/* Searches, and shows how far it has come. Returns the answers, or null. */
async function searchFor(words, given) {
  const start = performance.now();
  let line = '';
  search = new AbortController();
  $('explore').textContent = 'Stop';
  const clock = setInterval(() => {
    const seconds = (performance.now() - start) / 1000;
    if (seconds > 0.3) $('progress').textContent = `searching, ${seconds.toFixed(0)} s  ${line}`;
  }, 100);
  try {
    const asked = [...words, '--trace', 'found.schedule', '--format', 'json', '--brief'];
    const told = await command(asked, given,
      { signal: search.signal, watch: text => { line = text; } });
    if (!told.stopped && (told.status === 0 || told.status === 5))
      return { list: jsonLines(told.out), made: told.made, ms: told.ms };
    tell($('answers'), await whyNot(told, words, given));
  } catch (error) {
    tell($('answers'), error.name === 'AbortError' ? 'The search was stopped.' : error.message);
  } finally {
    clearInterval(clock);
    search = null;
    $('explore').textContent = 'Explore';
    $('progress').replaceChildren();
  }
  return null;
}
/* What a click on Explore or on a tab does; whatever goes wrong is told where the answers are. */
const reported = asked => asked.catch(error => tell($('answers'), error.message));
async function explore() {
  if (search) { search.abort(); return; }
  const asked = question(), always = !!lab.ask.always.trim();
  answers = null;
  $('answers').replaceChildren();
  $('answers').classList.remove('stale');
  if (!lab.ask.check.length && !always) {
    tell($('answers'), 'Choose a property, or write an invariant.');
    return;
  }
  const found = await searchFor(searchWords(lab.ask.check, always), files());
  if (!found) return;
  const list = found.list.filter(({ property }) =>
    property === 'always' || lab.ask.check.includes(property));
  answers = { asked, list, ms: found.ms, open: null, runs: {} };
  const first = list.find(one => !one.holds);
  if (found.made && first && found.made.startsWith(`# ${first.property} fails`))
    answers.runs[first.property] = await readFound(found.made);
  if (first) await openTab(first.property);
  else showAnswers();
}
/* The run of a schedule that a search has written: its inputs, crashes and omissions. */
async function readFound(schedule) {
  const head = name => new RegExp(`^${name} (.*)$`, 'm').exec(schedule)[1].split(' ').map(Number);
  const given = { 'program.rounds': lab.text, 'run.schedule': schedule };
  const words = ['run', 'program.rounds', '--schedule', 'run.schedule', '--decided'];
  const [told, why] = await Promise.all([command([...words, '--format', 'json'], given),
    command(['why', ...words], given)]);
  if (told.status !== 0) throw new Unanswered("the run that was found can't be read");
  const found = { n: head('nodes')[0], r: head('rounds')[0], inputs: head('inputs'), crash: {},
    omits: [], words: decisionWords(why.out) };
  const lines = jsonLines(told.out);
  for (const line of lines)
    if ('steps' in line && line.rounds < found.r) found.crash[line.node] = line.rounds + 1;
  for (const line of lines)
    for (const j of line.round ? line.omitted : [])
      if (!(line.round > found.crash[j])) found.omits.push(`${line.node},${line.round},${j}`);
  return found;
}
/* The question for the run in which one property fails, of no more rounds than that takes. */
function oneQuestion(one) {
  const { property, round } = one, given = { ...files(), 'run.header': header(round) };
  if (property !== 'always') return [searchWords([property], false), given];
  const held = answers.list.find(other => other.holds);
  if (held) return [searchWords([held.property], true), given];
  /* A run is written of the first property that fails, so one has to hold: of a program that never
     decides, validity does. */
  const other = { ...given, 'program.rounds': undecidedProgram(lab.text) };
  return [searchWords(['validity'], true), other];
}
async function openTab(property) {
  const one = answers.list.find(other => other.property === property);
  const mine = answers;
  if (!mine.runs[property]) {
    const found = await searchFor(...oneQuestion(one));
    if (!found || answers !== mine) return;
    if (found.made) mine.runs[property] = await readFound(found.made);
  }
  mine.open = property;
  const found = mine.runs[property];
  if (found) {
    failing = { property, round: one.round };
    const old = grid.cells;
    change(() => {
      lab.n = found.n;
      lab.inputs = [...found.inputs];
      lab.crash = { ...found.crash };
      lab.omits = new Set(found.omits);
      lab.r = Math.max(lab.r, found.r);
    });
    if (old === grid.cells && !busy) showRun();
  }
  showAnswers();
}
/* A run in words: its inputs, who crashes, and who misses whom. */
function runWords(found) {
  const words = [`inputs ${found.inputs.join(' ')}`], missed = {};
  for (const one of found.omits) {
    const [i, r, j] = one.split(',').map(Number);
    (missed[`${r},${i}`] ??= []).push(j);
  }
  for (const [j, r] of Object.entries(found.crash)) words.push(`node ${j} crashes in round ${r}`);
  for (const [at, senders] of Object.entries(missed)) {
    const [r, i] = at.split(',');
    words.push(`node ${i} misses ${theNodes(senders)} in round ${r}`);
  }
  if (!found.omits.length && !Object.keys(found.crash).length) words.push('no message is missed');
  return [...words.slice(0, 100), ...(words.length > 100 ? ['…'] : []), ...found.words];
}
function notesOf(list) {
  const fails = list.some(one => !one.holds), notes = [];
  if (!fails && !list.some(one => ['termination', 'always'].includes(one.property)))
    notes.push('A program that never decides has these answers too; ask for termination.');
  if (fails && lab.ask.faults !== 'none' && !lab.ask.clear)
    notes.push('Without "clear from" the network may omit any message, whichever nodes fail.');
  return notes;
}
function showAnswers() {
  const { list, open, runs, ms } = answers;
  const tabs = list.map(({ property, holds, round, rounds }) => holds
    ? h('span', { class: 'yes' }, `✓ ${property}${rounds === 'all' ? ' in all rounds' : ''}`)
    : h('button', { role: 'tab', 'aria-selected': property === open, data: { tab: property },
      title: 'Show the run in the grid' }, `✗ ${property}, round ${round}`));
  const lines = runs[open] ? runWords(runs[open]).map(line => h('li', {}, line)) : [];
  $('answers').replaceChildren(
    h('div', { id: 'tabs', role: 'tablist', 'aria-label': 'Answers' }, ...tabs),
    ...lines.length ? [h('ul', { class: 'found', role: 'tabpanel' }, ...lines)] : [],
    ...notesOf(list).map(note => h('p', { class: 'note' }, note)),
    h('p', { class: 'note' }, `${list.every(one => one.holds) ? 'No run fails. ' : ''}Searched in ${
      ms < 1000 ? `${ms.toFixed(0)} ms` : `${(ms / 1000).toFixed(1)} s`}.`));
  markOld();
}
