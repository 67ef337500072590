
/* ---- the editor ---- */
const WORDS = new Set(('all and at bool decide dest div else empty end false from has if input ' +
  'inter least me message minus mod n not num on or period phase round row send set single size ' +
  'state t then true union values when zero').split(' '));
const isOfProgram = fault => fault.file === 'program.rounds';
/* What each character of a line is: a word of the language, a number, a comment or a fault. */
function kindsOf(row, marks) {
  const kinds = Array(row.length + 1).fill('');
  for (const one of row.matchAll(/#.*|[A-Za-z_]\w*|\d+/g)) {
    const [word] = one;
    const kind = word[0] === '#' ? 'c' : /\d/.test(word[0]) ? 'd' : WORDS.has(word) ? 'k' : '';
    kinds.fill(kind, one.index, one.index + word.length);
  }
  for (const mark of marks)
    kinds.fill(mark.isFirst ? 'mark' : 'mark also', mark.column - 1, mark.column - 1 + mark.length);
  return kinds;
}
function paintLine(row, marks) {
  const kinds = kindsOf(row, marks), parts = [];
  const end = marks.some(mark => mark.column > row.length) ? row.length + 1 : row.length;
  for (let from = 0, to; from < end; from = to) {
    for (to = from; to < end && kinds[to] === kinds[from];) to++;
    const text = (row + ' ').slice(from, to), kind = kinds[from];
    parts.push(!kind ? text : kind.startsWith('mark')
      ? h('mark', { class: kind.slice(5) }, text) : h('span', { class: kind }, text));
  }
  return parts;
}
function paint(faults) {
  const rows = lab.text.split('\n');
  $('gutter').textContent = rows.map((_, k) => k + 1).join('\n');
  const marks = faults.map((fault, k) => ({ ...fault, isFirst: k === 0 })).filter(isOfProgram);
  $('paint').replaceChildren(...rows.flatMap((row, k) =>
    [...paintLine(row, marks.filter(mark => mark.line === k + 1)), '\n']));
}
function goTo(fault) {
  const rows = lab.text.split('\n');
  const from = rows.slice(0, fault.line - 1).join('').length + fault.line - 1 + fault.column - 1;
  $('text').focus();
  $('text').setSelectionRange(from, from + fault.length);
  const height = $('paint').offsetHeight / rows.length;
  $('editor').scrollTop = Math.max(0, (fault.line - 3) * height);
}
/* Shows what `why` says of something that is refused. */
function tell(box, out) {
  const faults = readFaults(out);
  box.replaceChildren(...(faults.length ? faults : [{ words: out.trim() }]).map((fault, k) => {
    const words = (fault.line && isOfProgram(fault) ? `line ${fault.line}: `
      : fault.file && fault.file !== '--always' ? `${fault.file}: ` : '') + fault.words;
    const kind = k ? 'told also' : 'told bad';
    return fault.line && isOfProgram(fault)
      ? h('button', { class: kind, onclick: () => goTo(fault), title: 'Go there' }, words)
      : h('div', { class: kind }, words);
  }));
}
/* A new line begins below the first word of the line before it. */
function breakLine(event) {
  const { selectionStart: at, value } = $('text');
  const line = value.slice(value.lastIndexOf('\n', at - 1) + 1, at);
  const blanks = /^[ \t]*/.exec(line)[0];
  if (!blanks) return;
  event.preventDefault();
  document.execCommand('insertText', false, '\n' + blanks);
}
