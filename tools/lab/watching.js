
/* ---- programs that show more of a run ----
   The page computes no state. To show one that no report has, it writes the program with a variable
   more, or with empty rounds, and asks roundc for the run of that. */
/* The tokens of a program that is free of faults, without its comments. */
function tokensOf(text) {
  return [...text.matchAll(/#[^\n]*|[A-Za-z_]\w*|\d+|:=|<=|>=|<>|\S/g)]
    .filter(one => one[0][0] !== '#')
    .map(one => ({ word: one[0], at: one.index, end: one.index + one[0].length }));
}
/* Where the blocks of a program are: its first token, the fields of its messages, where
   `on message:` is over, and where the block ends. */
function blocksOf(text) {
  const tokens = tokensOf(text), blocks = [];
  tokens.forEach((token, k) => {
    if (token.word === 'at') {
      if (blocks.length) blocks[blocks.length - 1].end = token.at;
      blocks.push({ at: token.at, fields: [], heard: null, end: text.length });
    }
    const block = blocks[blocks.length - 1];
    if (block && token.word === 'message' && tokens[k - 1].word === 'on')
      block.heard = tokens[k + 1].end;
    else if (block && token.word === 'message')
      for (let f = k + 2; tokens[f].word !== ')'; f += tokens[f + 3].word === ',' ? 4 : 3)
        block.fields.push({ name: tokens[f].word, type: tokens[f + 2].word });
  });
  return blocks;
}
/* A name that the program doesn't have. */
function freshName(text, name) {
  while (new RegExp(`\\b${name}\\b`).test(text)) name += '_';
  return name;
}
const insert = (text, at, more) => text.slice(0, at) + more + text.slice(at);
/* The program with rounds in which nothing is sent and nothing done, whose first state is the one
   before round 1. */
function startProgram(text) {
  const tokens = tokensOf(text), first = blocksOf(text)[0].at;
  const period = tokens[tokens.findIndex(token => token.word === 'period') + 1];
  return text.slice(0, period.at) + '1' + text.slice(period.end, first) +
    '\nat 1: message () send when false: () on message: end:\n';
}
/* The program with a decision that is never made. */
function undecidedProgram(text) {
  const tokens = tokensOf(text), name = freshName(text, 'never');
  const decided = tokens[tokens.findIndex(token => token.word === 'decide') + 1];
  const made = text.slice(0, decided.at) + name + text.slice(decided.end);
  return insert(made, blocksOf(made)[0].at, `\nstate ${name}: set = empty\n`);
}
/* The program with a variable that says, after each round, whether an expression is true. */
function alwaysProgram(text, expression) {
  const name = freshName(text + expression, 'holds'), blocks = blocksOf(text);
  let made = text;
  for (const block of [...blocks].reverse())
    made = insert(made, block.end, `\n${name} := ${expression}\n;\n`);
  return { name, text: insert(made, blocks[0].at, `\nstate ${name}: bool = true\n`) };
}
/* The program with variables that keep what node j says in the rounds of a block. */
function saidProgram(text, block, sender) {
  const begins = { num: '0', bool: 'false', set: 'empty', row: 'zero' };
  const blocks = blocksOf(text), { fields, heard } = blocks[block];
  const names = fields.map((_, k) => freshName(text, `said${k}`));
  const keeps = fields.map((field, k) =>
    ` ${names[k]} := if from = ${sender} then ${field.name} else ${names[k]};`).join('');
  const declares = fields.map((field, k) =>
    `\nstate ${names[k]}: ${field.type} = ${begins[field.type]}`).join('') + '\n';
  return { fields, names, text: insert(insert(text, heard, keeps), blocks[0].at, declares) };
}

let started = { key: null, states: null };
/* The states before round 1, by the node. They're asked for once. */
function startStates() {
  const key = JSON.stringify([lab.text, lab.n, lab.t, lab.inputs]);
  if (started.key !== key) {
    started = { key, states: askForStates() };
    started.states.catch(() => { started.key = null; });
  }
  return started.states;
}
async function askForStates() {
  const answer = await command(['rounds', ...RUN, '--format', 'json'],
    { 'program.rounds': startProgram(lab.text), 'run.header': header(1), 'run.omissions': '' });
  const rows = answer.status === 0 ? jsonLines(answer.out).filter(row => row.round) : [];
  return Object.fromEntries(rows.map(row => [row.node, row.state]));
}
let judged = { key: null, fault: null };
/* What is wrong with the invariant, as roundc says it, or null. */
async function alwaysFault() {
  const expression = lab.ask.always, key = JSON.stringify([lab.text, expression]);
  if (!expression.trim()) return null;
  if (judged.key === key) return judged.fault;
  const answer = await command(['why', 'explore', 'program.rounds', '--header', '@1:0:1', '--check',
    'validity', '--always', expression], { 'program.rounds': lab.text });
  const isGood = /^always /m.test(answer.out);
  judged = { key, fault: isGood ? null : answer.out.trim() || answer.err };
  return judged.fault;
}
/* Of each row whether the invariant is true, by "round,node"; nothing if there is none. */
async function alwaysRows() {
  const holds = {};
  if (!lab.ask.always.trim() || await alwaysFault()) return holds;
  const watched = alwaysProgram(lab.text, lab.ask.always);
  const answer = await command(['rounds', ...RUN, '--format', 'json'],
    { ...files(), 'program.rounds': watched.text });
  if (answer.status === 0)
    for (const row of jsonLines(answer.out))
      if (row.round) holds[`${row.round},${row.node}`] = row.state[watched.name];
  return holds;
}
/* What node j's message to node i in round r says, as words. */
async function said(i, r, j) {
  const block = (r - 1) % program.period;
  const watched = saidProgram(lab.text, block, j);
  if (!watched.fields.length) return 'It has no fields.';
  /* (so that the report has a row of a receiver that crashes in this round) */
  const alive = lab.crash[i] === r ? i : null;
  const answer = await command(['rounds', ...RUN, '--format', 'json'], {
    'program.rounds': watched.text, 'run.header': header(r),
    'run.omissions': omissions(`${i},${r},${j}`, r, alive),
  });
  if (answer.status !== 0)
    return "What it says can't be shown: the program has too many variables.";
  const row = jsonLines(answer.out).find(one => one.round === r && one.node === i);
  if (!row?.heard.includes(j)) return null;
  return watched.fields.map((field, k) =>
    `${field.name} ${valueText(row.state[watched.names[k]])}`).join('  ');
}
const valueText = value => Array.isArray(value) ? `{${value}}` : value && typeof value === 'object'
  ? `[${Object.entries(value).map(([at, entry]) => `${at}:${entry}`)}]` : String(value);
