
/* ---- links, files and examples ---- */
const shownLink = fragment => `${location.origin}/#${fragment}`;
async function copyLink() {
  const link = shownLink(await toFragment());
  try {
    await navigator.clipboard.writeText(link);
    $('copied').textContent = `Copied: ${link.length} characters.`;
  } catch {
    $('linkText').value = link;
    $('linkText').select();
    $('copied').textContent = 'The link is below.';
  }
}
async function openLink() {
  const fragment = /#([\w-]+)\s*$/.exec($('linkText').value)?.[1], before = kept();
  if (!fragment || !await fromFragment(fragment)) {
    $('copied').textContent = "That isn't a link of a lab.";
    return;
  }
  past = [...past.slice(-499), before];
  future = [];
  forget();
  $('shareDialog').close();
  show();
}
/* An answer belongs to the program that it was asked about. */
function forget() {
  answers = null;
  failing = null;
  $('answers').replaceChildren();
}
function download(name, text) {
  const link = h('a', { href: URL.createObjectURL(new Blob([text])), download: name });
  link.click();
  URL.revokeObjectURL(link.href);
  $('saved').replaceChildren(h('div', { class: 'note' }, `${name} is saved.`));
}
/* A word of a command as a shell, and as a transcript takes it. */
const quoted = word => /^[\w.,:-]+$/.test(word) ? word : `'${word.replace(/'/g, "'\\''")}'`;
/* The question with its answers, and the files that it needs, for `roundc test`. */
async function transcript() {
  const words = [...searchWords(lab.ask.check, !!lab.ask.always.trim()), '--brief'];
  const told = await command(words, files());
  if (told.stopped || ![0, 5].includes(told.status)) {
    tell($('saved'), await whyNot(told, words, files()));
    return;
  }
  const given = (name, text) => `file ${name}\n${text.replace(/\n?$/, '\n')}----\n\n`;
  download('program.txt', given('program.rounds', lab.text) + given('run.header', header()) +
    `roundc ${words.map(quoted).join(' ')}\n----\n${told.out}${told.status ? '[5]\n' : ''}`);
}
async function save(kind) {
  const plain = { program: ['program.rounds', lab.text], omissions: ['run.omissions', omissions()],
    header: ['run.header', header()] }[kind];
  if (plain) { download(...plain); return; }
  if (kind === 'page') { download('run.html', keptPage()); return; }
  if (kind === 'transcript') { await transcript(); return; }
  const made = await command(['realise', ...RUN], files());
  if (made.status !== 0 || made.stopped) {
    tell($('saved'), await whyNot(made, ['realise', ...RUN], files()));
    return;
  }
  if (kind === 'schedule') { download('run.schedule', made.out); return; }
  const given = { ...files(), 'run.schedule': made.out };
  const words = ['draw', 'program.rounds', '--schedule', 'run.schedule'];
  const drawn = await command(words, given);
  if (drawn.status === 0 && !drawn.stopped) download('run.svg', drawn.out);
  else tell($('saved'), await whyNot(drawn, words, given));
}
function openShare() {
  $('copied').textContent = '';
  $('saved').replaceChildren();
  $('commands').textContent = 'roundc rounds program.rounds --header run.header \\\n' +
    '    --omissions run.omissions --decided\n' +
    ['roundc', ...searchWords(lab.ask.check, !!lab.ask.always.trim())].map(quoted).join(' ');
  $('shareDialog').showModal();
}
function openExample(example) {
  const { text, title, story, nodes: n, t, rounds: r, inputs, ask } = example;
  forget();
  change(() => {
    take({ text, n, t, r, inputs, omits: [], crash: {}, title, story,
      ask: { check: CHECKS.slice(0, 3), ...ask } });
  });
  $('examplesDialog').close();
  $('editor').scrollTop = 0;
}
function listExamples() {
  $('list').replaceChildren(...DATA.examples.map(example =>
    h('button', { onclick: () => openExample(example) }, h('b', {}, example.title),
      h('span', {}, example.story))));
}
