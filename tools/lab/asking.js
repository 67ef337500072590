
/* ---- the commands ---- */
class Unanswered extends Error {}
/* Asks for one command of roundc. With `watch` it's called with each line of progress. */
async function command(words, given, { signal, watch } = {}) {
  const start = performance.now();
  let reply;
  try {
    reply = await fetch('run', { method: 'POST', signal,
      headers: { 'Content-Type': 'application/json' },
      body: JSON.stringify({ words, files: given, watch: !!watch }) });
    $('lost').hidden = true;
  } catch (error) {
    if (error.name === 'AbortError') throw error;
    isLost();
    throw new Unanswered('the lab has ended');
  }
  if (reply.status === 403) isLost();
  if (!reply.ok) throw new Unanswered((await reply.text()).trim() || reply.statusText);
  const answer = await lastLine(reply, watch);
  answer.ms = performance.now() - start;
  if (answer.stopped === 'output')
    answer.err = `The output is longer than ${DATA.maxOutput / 1048576} MiB, and was cut.`;
  if (answer.stopped === 'time')
    answer.err = `The command was ended after ${answer.limit} seconds.`;
  return answer;
}
/* Reads an answer, whose lines may come one by one while a search goes on. */
async function lastLine(reply, watch) {
  if (!reply.headers.get('Content-Type').includes('ndjson')) return reply.json();
  const reader = reply.body.pipeThrough(new TextDecoderStream()).getReader();
  let text = '', last = null;
  for (;;) {
    const { value, done } = await reader.read();
    if (done) break;
    const lines = (text + value).split('\n');
    text = lines.pop();
    for (const line of lines) {
      last = JSON.parse(line);
      if (last.progress !== undefined) watch(last.progress);
    }
  }
  if (!last || last.progress !== undefined) throw new Unanswered('the search has ended');
  return last;
}
function isLost() {
  $('lost').hidden = false;
  $('lost').textContent = "The lab doesn't answer. Start ./lab again, and open the address that " +
    'it prints. To go on where you are, copy the link (Share) and paste it there.';
}
const jsonLines = text => text.split('\n').filter(line => line).map(line => JSON.parse(line));
/* The faults that `why` prints: "file:line:column: words", the line, and the carets below it. */
function readFaults(out) {
  const lines = out.split('\n'), found = [];
  lines.forEach((line, at) => {
    const place = /^([^\s:]\S*?):(\d+):(\d+): (.*)$/.exec(line);
    if (!place) return;
    const carets = /\^+/.exec(lines[at + 2] || '');
    found.push({ file: place[1], line: +place[2], column: +place[3], words: place[4],
      length: carets ? carets[0].length : 1 });
  });
  return found;
}
