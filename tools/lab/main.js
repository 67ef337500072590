
/* ---- what the user does ---- */
document.addEventListener('click', event => {
  const it = event.target.closest('button')?.dataset;
  if (!it) return;
  if (it.omit) toggleOmit(it.omit);
  if (it.crash) toggleCrash(...it.crash.split(',').map(Number));
  if (it.input) change(() => {
    const by = event.shiftKey ? program.values - 1 : 1;
    const next = (lab.inputs[it.input] + by) % program.values;
    lab.inputs = lab.inputs.map((value, i) => i === +it.input ? next : value);
  });
  if (it.step) { const [id, by] = it.step.split(','); setNumber(id, lab[id] + Number(by)); }
  if (it.tab) reported(openTab(it.tab));
  if (it.save) save(it.save).catch(error => tell($('saved'), error.message));
});
let typing = 0, typed = null;
$('text').addEventListener('input', () => {
  typed ??= kept();
  lab.text = $('text').value.slice(0, MAX_TEXT);
  failing = null;
  paint([]);
  clearTimeout(typing);
  typing = setTimeout(() => {
    past = [...past.slice(-499), typed];
    future = [];
    typed = null;
    show();
  }, 120);
});
$('text').addEventListener('keydown', event => {
  if (event.key === 'Enter' && !event.ctrlKey && !event.shiftKey) breakLine(event);
});
for (const id of ['n', 't', 'r']) {
  $(id).addEventListener('input', () => setNumber(id, parseInt($(id).value, 10)));
  $(id).addEventListener('blur', () => { $(id).value = lab[id]; });
}
$('search').addEventListener('input', event => {
  if (event.target.id === 'linkText') return;
  change(() => {
    lab.ask = { faults: $('faultKind').value, clear: $('clear').value, hears: $('hears').value,
      any: $('anyInputs').checked, always: $('always').value.slice(0, 4096),
      check: [...document.querySelectorAll('[data-check]:checked')].map(box => box.dataset.check) };
  });
});
$('always').addEventListener('keydown', event => {
  if (event.key === 'Enter' && !event.ctrlKey && !event.metaKey) reported(explore());
});
$('whole').onchange = () => { showsWhole = $('whole').checked; showRun(); };
$('heal').onclick = () => change(() => { lab.omits = new Set(); lab.crash = {}; failing = null; });
$('undo').onclick = undo;
$('redo').onclick = redo;
$('explore').onclick = () => reported(explore());
$('share').onclick = openShare;
$('copyLink').onclick = copyLink;
$('openLink').onclick = openLink;
$('examples').onclick = () => { listExamples(); $('examplesDialog').showModal(); };
$('help').onclick = () => $('helpDialog').showModal();
$('theme').onclick = () => {
  const { documentElement: page } = document;
  const isDark = page.className === 'dark' ||
    !page.className && matchMedia('(prefers-color-scheme: dark)').matches;
  page.className = isDark ? 'light' : 'dark';
};
document.addEventListener('keydown', event => {
  const isTyping = event.target.matches('textarea, input:not([type=checkbox]), select');
  const key = event.key.toLowerCase(), isControl = event.ctrlKey || event.metaKey;
  if (event.key === 'Escape') hideCard();
  if (document.querySelector('dialog[open]')) return;
  if (isControl && event.key === 'Enter') { event.preventDefault(); reported(explore()); }
  if (!isTyping && isControl && (key === 'y' || key === 'z')) {
    event.preventDefault();
    if (key === 'y' || event.shiftKey) redo();
    else undo();
  }
  if (!isTyping && !isControl && event.key === '?') $('helpDialog').showModal();
});
$('run').addEventListener('keydown', gridKey);
$('run').addEventListener('focusin', event => {
  if (event.target.dataset.at) spot = event.target.dataset.at;
  if (event.target.matches(':focus-visible')) cardLater(event.target, 250);
});
$('run').addEventListener('focusout', hideCard);
$('run').addEventListener('pointerover', event => cardLater(event.target, 200));
$('run').addEventListener('pointerleave', hideCard);
$('pane').addEventListener('scroll', hideCard);
addEventListener('hashchange', async () => {
  if (await fromFragment(location.hash.slice(1))) { forget(); show(); }
});
/* A source of the user's own begins with two of its phases, or with three rounds. */
async function openSource({ name, text }) {
  lab.text = text;
  lab.title = name;
  await check();
  lab.r = Math.min(16, Math.max(3, 2 * program.period));
}
/* The page begins with what its link says, with the SOURCE of the command line, or with the first
   example. */
(async () => {
  const first = DATA.examples[0];
  if (!location.hash || !await fromFragment(location.hash.slice(1))) {
    const known = DATA.start && DATA.examples.find(example => example.text === DATA.start.text);
    if (known || !DATA.start && first) openExample(known || first);
    else if (DATA.start) await openSource(DATA.start);
    past = [];
  }
  show();
})();
