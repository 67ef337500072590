
/* ---- the card beside a cell: its whole state, and what a message says ---- */
let cardOf = null, cardTimer = 0;
function hideCard() {
  clearTimeout(cardTimer);
  cardOf = null;
  $('card').hidden = true;
}
function placeCard(element) {
  const box = element.getBoundingClientRect(), card = $('card').getBoundingClientRect();
  const below = box.bottom + 6 + card.height < innerHeight;
  $('card').style.top = `${Math.max(4, below ? box.bottom + 6 : box.top - 6 - card.height)}px`;
  $('card').style.left = `${Math.max(4, Math.min(box.left, innerWidth - card.width - 8))}px`;
}
function stateLines(state, before) {
  return h('div', { class: 'card-state' }, ...Object.entries(state).flatMap(([name, value]) => {
    const isNew = before && valueText(before[name]) !== valueText(value);
    return [h('b', {}, name), h('span', { class: isNew ? 'new' : '' }, valueText(value))];
  }));
}
function cellCard(r, i) {
  const row = rowAt(r, i);
  if (!row) return null;
  const who = ['heard', 'silent', 'omitted'].filter(kind => row[kind].length)
    .map(kind => `${kind} ${row[kind].join(', ')}`).join('; ');
  return [h('h4', {}, `Node ${i} after round ${r}`), stateLines(row.state, stateBefore(r, i)),
    h('p', {}, `${who}. ${row.decision === null ? 'No decision.' : `Decision ${row.decision}.`}`)];
}
function startCard(i) {
  if (!run.start[i]) return null;
  return [h('h4', {}, `Node ${i} before round 1`), stateLines(run.start[i], null)];
}
function messageCard(omit, element) {
  const [i, r, j] = omit.split(',').map(Number), kind = kindOf(r, i, j);
  const told = h('p', {}, kind === 'silent' ? `It sends nothing${isOmitted(i, r, j) ? IDLE : ''}.`
    : kind === 'dead' ? 'The sender has crashed.' : '…');
  if (kind === 'heard' || kind === 'omitted')
    said(i, r, j).then(words => {
      told.textContent = words === null ? 'It sends nothing.' : words;
      if (cardOf === element) placeCard(element);
    }, () => { told.textContent = ''; });
  const what = kind === 'silent' || kind === 'dead' ? '' : `: ${kind}`;
  return [h('h4', {}, `Round ${r}, from node ${j} to node ${i}${what}`), told];
}
function contentFor(element) {
  const { omit, crash, input } = element.dataset;
  if (omit) return messageCard(omit, element);
  if (input) return startCard(+input);
  if (crash) {
    const [i, r] = crash.split(',').map(Number);
    const [title, words] = lab.crash[i] === r
      ? [`Node ${i} crashes in round ${r}`, 'Click to let it go on.']
      : [`Crash node ${i} in round ${r}`, 'Then choose which nodes its last messages reach.'];
    return [h('h4', {}, title), h('p', {}, words)];
  }
  const r = element.parentElement.rowIndex, i = element.cellIndex - 1;
  return cellCard(r, i);
}
function showCard(element) {
  hideCard();
  const content = element && contentFor(element);
  if (!content) return;
  cardOf = element;
  $('card').replaceChildren(...content);
  $('card').hidden = false;
  placeCard(element);
}
/* What the pointer rests on, or has the keys: a button, or else the cell. */
const cardTarget = target =>
  target.closest?.('#grid [data-omit], #grid [data-crash], #grid [data-input], #grid td');
function cardLater(target, wait) {
  const element = cardTarget(target);
  if (element === cardOf) return;
  hideCard();
  if (element) cardTimer = setTimeout(() => showCard(element), wait);
}
