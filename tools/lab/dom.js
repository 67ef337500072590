
/* ---- elements ---- */
const $ = id => document.getElementById(id);
/* Makes an element. Texts are only ever put in as texts, so that no link can write HTML. */
function h(tag, properties, ...children) {
  const made = document.createElement(tag);
  for (const [name, value] of Object.entries(properties || {})) {
    if (name === 'class') made.className = value;
    else if (name === 'data') Object.assign(made.dataset, value);
    else if (name.startsWith('aria-') || name === 'role') made.setAttribute(name, value);
    else made[name] = value;
  }
  made.append(...children.filter(child => child !== false && (child ?? null) !== null));
  return made;
}
const range = count => [...Array(count).keys()];
const listed = numbers => numbers.length < 2 ? numbers.join('')
  : numbers.slice(0, -1).join(', ') + ' and ' + numbers[numbers.length - 1];
const theNodes = numbers => (numbers.length === 1 ? 'node ' : 'nodes ') + listed(numbers);
