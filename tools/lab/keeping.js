
/* ---- a page to keep: the run as one HTML file, in which nothing is computed ---- */
/* The script of the kept page: rounds are shown one after another, by buttons or by ← and →. */
function stepThrough() {
  const rows = [...document.querySelectorAll('#grid tbody tr')];
  const at = id => document.getElementById(id);
  let shown = rows.length;
  const show = count => {
    shown = Math.min(Math.max(count, 0), rows.length);
    rows.forEach((row, k) => row.classList.toggle('later', k >= shown));
    at('shown').textContent = `${shown} of ${rows.length} rounds`;
  };
  at('less').onclick = () => show(shown - 1);
  at('more').onclick = () => show(shown + 1);
  document.onkeydown = event => {
    if (event.key === 'ArrowLeft') show(shown - 1);
    if (event.key === 'ArrowRight') show(shown + 1);
  };
  show(rows.length);
}
const KEPT_STYLE = `
body { display: block; height: auto; padding: 14px 18px; }
#grid { width: auto; }
.later { visibility: hidden; }
article > * { margin: 8px 0; }
pre { margin: 0; padding: 6px 8px; overflow: auto; background: var(--card); border-radius: 6px;
  font: 12px/1.45 var(--mono); }`;
const stateWords = state =>
  Object.entries(state).map(([name, value]) => `${name} ${valueText(value)}`).join('\n');
/* The grid without its buttons. A cell's title has the whole state. */
function keptGrid() {
  const table = $('grid').cloneNode(true);
  table.querySelectorAll('.crash:not(.on)').forEach(cross => cross.remove());
  table.querySelectorAll('button').forEach(button => button.replaceWith(
    h('b', { class: button.className, title: button.getAttribute('aria-label') || '' },
      button.textContent)));
  for (const r of range(lab.r))
    for (const i of nodes()) {
      const row = rowAt(r + 1, i);
      if (row) table.rows[r + 1].cells[i + 1].title = stateWords(row.state);
    }
  return table;
}
const folded = (name, text) =>
  text && h('details', {}, h('summary', {}, name), h('pre', {}, text));
/* The page as a text. All that comes from the program or from a link is put in as text. */
function keptPage() {
  const title = lab.title || 'A run in rounds';
  const article = h('article', {}, h('h1', {}, title), lab.story && h('p', {}, lab.story),
    $('verdict').cloneNode(true),
    h('div', { class: 'flow' }, h('button', { id: 'less' }, '← a round less'),
      h('span', { id: 'shown' }), h('button', { id: 'more' }, 'a round more →')),
    keptGrid(), folded('The program', lab.text), folded('The header', header()),
    folded('What is omitted', omissions()),
    h('p', { class: 'note' }, 'Computed by roundc rounds program.rounds --header run.header ' +
      '--omissions run.omissions. Rest on a cell to see the whole state.'));
  const script = 'script', style = 'style';
  const policy = "default-src 'none'; style-src 'unsafe-inline'; script-src 'unsafe-inline'";
  return `<!doctype html>\n<html lang="en"><head><meta charset="utf-8">
<meta http-equiv="Content-Security-Policy" content="${policy}">
${h('title', {}, title).outerHTML}
<${style}>${document.querySelector(style).textContent}${KEPT_STYLE}</${style}></head>
<body>${article.outerHTML}
<${script}>(${stepThrough})();</${script}></body></html>\n`;
}
