
/* What stands beside the tree, and the steps. */
const lines = Array.from(document.querySelectorAll('#lines > .step'));
const last = lines.length;
let present = 0;

/* Whether the present command stays in view when the tree is scrolled. */
const wide = matchMedia('(min-width: 760px)');

/* The answers that are drawn, and after how many steps. */
let drawn = {count: -1, answers: null};

function drawOrder({before, after}) {
  const entry = (n, name, text) => el('li', name, el('span', 'number', String(n)), text ? tag(name, text) : null);
  const items = after.order.map(n => before.order.includes(n) ? entry(n, '', '') : entry(n, 'came', 'joins'));
  const left = before.order.filter(n => !after.order.includes(n)).map(n => entry(n, 'freed', 'leaves'));
  if (items.length + left.length === 0) items.push(el('li', 'empty', 'nothing runs'));
  $('order').replaceChildren(...items, ...left);
}

function drawDefinitions({before, after, step}) {
  const fates = step.definitions ? ['', 'came', 'changed', 'changed'] : ['', '', '', ''];
  const words = ['', 'came', 'the name meant another before', 'retired'];
  const item = ([slot, name, bytes, fate]) => {
    const synths = after.flat.filter(n => after.nodes.get(n).slot === slot);
    const about = bytes === null ? 'held by ' + some(synths) : 'slot ' + slot + ', ' + bytes + ' bytes' + (synths.length ? ', held by ' + some(synths) : '');
    return el('li', fates[fate], el('span', bytes === null ? 'definition old' : 'definition', name), fates[fate] ? tag(fates[fate], words[fate]) : null, ' ', el('small', '', about));
  };
  const ghost = ([, name]) => el('li', 'freed', el('span', 'definition', name), tag('freed', 'gone'));
  const put = (id, old) => {
    const now = after.definitions.filter(definition => (definition[2] === null) === old).map(item);
    const gone = (step.gone || []).filter(definition => (definition[2] === 1) === old).map(ghost);
    const empty = now.length + gone.length === 0 ? [el('li', 'empty', 'none')] : [];
    $(id).replaceChildren(...now, ...gone, ...empty);
  };
  put('residents', false);
  put('retired', true);
}

function drawLatest({before, after, step}) {
  const means = state => state.latest === null ? 'no node' : String(state.latest);
  const node = after.nodes.get(after.latest);
  const text = '-1 means ' + means(after) + (node ? ', a ' + nameOf(node.shape) + ' synth' : '');
  $('latest').replaceChildren(text, 'latest' in step ? tag('changed', 'was ' + means(before)) : '');
}

/* The buses in runs that have one float and one mark and are not followed. */
function drawBuses({before, after, marks}) {
  const followers = new Map();
  for (const n of after.flat) {
    const node = after.nodes.get(n);
    node.bus.forEach((bus, index) => {
      if (bus >= 0) followers.set(bus, (followers.get(bus) || []).concat(n + ' ' + data.shapes[node.shape][1][index]));
    });
  }
  const shown = Array.from(new Set([...after.touched, ...followers.keys()])).sort((a, b) => a - b);
  const runs = [];
  for (const bus of shown) {
    const run = {first: bus, last: bus, float: after.buses[bus], was: marks.buses.has(bus) ? before.buses[bus] : null, by: followers.get(bus)};
    const top = runs[runs.length - 1];
    const joins = top && top.last === bus - 1 && top.float === run.float && top.was === run.was && !top.by && !run.by;
    if (joins) top.last = bus;
    else runs.push(run);
  }
  const items = runs.map(run => el('li', run.was === null ? '' : 'changed',
    el('span', 'number', run.first === run.last ? String(run.first) : run.first + ' to ' + run.last), ' ' + run.float,
    run.was === null ? null : el('i', '', ' was ' + run.was),
    run.by ? el('small', '', ' followed by ' + some(run.by)) : null));
  $('buses').replaceChildren(...(items.length ? items : [el('li', 'empty', 'none')]));
}

/* The saved settings: of each name its versions, and those that the step dropped. */
function drawSettings({before, after, step}) {
  const changed = new Map((step.settings || []).map(([name, , gone, came]) => [name, {gone, came: came.map(version => version[0])}]));
  const values = settings => settings.map(([name, float]) => name + ' ' + float).join(', ');
  const version = (name, mark, [number, settings]) => el('li', mark,
    el('span', 'definition', name), ' ', el('span', 'number', String(number)), mark ? tag(mark, mark === 'came' ? 'saved' : 'dropped') : null,
    ' ', el('small', '', values(settings)));
  const items = [];
  for (const [name, {highest, versions}] of after.settings) {
    const {gone, came} = changed.get(name) || {gone: [], came: []};
    const old = gone.length ? before.settings.get(name).versions.filter(own => gone.includes(own[0])) : [];
    items.push(...versions.map(own => version(name, came.includes(own[0]) ? 'came' : '', own)), ...old.map(own => version(name, 'freed', own)));
    if (versions.length === 0) items.push(el('li', '', el('span', 'definition', name), ' ', el('small', '', 'no version left, the highest was ' + highest)));
  }
  $('settings').replaceChildren(...(items.length ? items : [el('li', 'empty', 'none')]));
}

/* What the step did, in a few words each. */
function drawDid({after, step, marks}) {
  const items = [];
  const say = (name, text) => items.push(el('li', 'tag ' + name, text));
  const count = numbers => some(Array.from(numbers));
  if (marks.came.size) say('came', count(marks.came) + ' came');
  if (marks.moved.size) say('moved', count(marks.moved) + ' moved');
  if (marks.freed.size) say('freed', count(marks.freed) + ' freed');
  if (marks.changed.size) say('changed', count(marks.changed.keys()) + ' changed');
  const definitions = (step.definitions || []).filter(definition => definition[3] > 0);
  for (const [, name, , fate] of definitions) {
    say(fate === 1 ? 'came' : 'changed', 'definition ' + name + ['', ' came', ' is another', ' retired'][fate]);
  }
  for (const [, name, retired] of step.gone || []) say('freed', (retired ? 'retired definition ' : 'definition ') + name + ' gone');
  for (const [first, length] of step.buses || []) {
    say('changed', length === 1 ? 'bus ' + first + ' changed' : 'buses ' + first + ' to ' + (first + length - 1) + ' changed');
  }
  for (const [name, , gone, came] of step.settings || []) {
    for (const number of gone) say('freed', name + ' version ' + number + ' dropped');
    if (came.length) say('came', name + (came.length === 1 ? ' version ' : ' versions ') + some(came.map(version => version[0])) + ' saved');
  }
  if ('latest' in step) say('changed', after.latest === null ? '-1 means no node' : '-1 means ' + after.latest);
  if (step.order) say('changed', 'running order changed');
  if (items.length === 0) say('none', 'nothing changed');
  $('did').replaceChildren(...items);
}

function draw() {
  const step = present > 0 ? data.steps[present - 1] : {};
  const count = Math.max(present - 1, 0);
  const before = drawn.count === count ? drawn.answers : answers(count);
  const after = copy(before);
  advance(after, step);
  drawn = {count: present, answers: after};
  const look = {
    step, before, after, marks: marksOf(step, after),
    places: new Map(after.order.map((n, at) => [n, at + 1])),
    retired: new Set(after.definitions.filter(definition => definition[2] === null).map(definition => definition[0])),
  };
  drawTree(look);
  drawOrder(look);
  drawDefinitions(look);
  drawLatest(look);
  drawBuses(look);
  drawSettings(look);
  drawDid(look);
  const [units, synths, groups, residents] = after.status;
  $('status').textContent = units + ' units, ' + synths + ' synths, ' + groups + ' groups, ' + residents + ' definitions';
}

/* Looks at a step: the script's line, its answer, and all that is drawn. */
function go(to) {
  const from = lines[present - 1];
  if (from) {
    from.classList.remove('present');
    from.removeAttribute('aria-current');
  }
  present = Math.min(Math.max(to, Math.min(last, 1)), last);
  draw();
  const item = lines[present - 1];
  if (!item) return;
  item.classList.add('present');
  item.setAttribute('aria-current', 'step');
  const pane = $('lines');
  pane.scrollTop += item.getBoundingClientRect().top - pane.getBoundingClientRect().top - pane.clientHeight / 3;
  const marked = wide.matches && $('tree').querySelector('.came, .moved, .freed, .changed');
  if (marked) marked.scrollIntoView({block: 'nearest'});
  $('line').textContent = 'line ' + item.value;
  $('said').textContent = item.querySelector('code').firstChild.data.trim();
  $('answer').textContent = item.querySelector('samp').textContent;
  $('now').className = item.className;
  $('count').textContent = present + ' of ' + last;
  $('slider').value = present;
  $('slider').setAttribute('aria-valuetext', present + ' of ' + last + ', ' + $('said').textContent);
  for (const id of ['first', 'previous']) $(id).setAttribute('aria-disabled', String(present === 1));
  for (const id of ['next', 'last']) $(id).setAttribute('aria-disabled', String(present === last));
  try {
    history.replaceState(null, '', '#' + item.value);
  } catch (refused) { /* The address stays as it is. */ }
}

/* The step of the line that the address names, or the next one after it. */
function addressed() {
  const line = Number(location.hash.slice(1));
  const at = line > 0 ? lines.findIndex(item => item.value >= line) : 0;
  return at < 0 ? last : at + 1;
}

const ways = {first: () => 1, previous: () => present - 1, next: () => present + 1, last: () => last};
const keys = {Home: 'first', ArrowLeft: 'previous', ArrowRight: 'next', End: 'last'};
for (const id of Object.keys(ways)) $(id).addEventListener('click', () => go(ways[id]()));
$('slider').addEventListener('input', () => go(Number($('slider').value)));
lines.forEach((item, at) => item.addEventListener('click', () => getSelection().isCollapsed && go(at + 1)));
addEventListener('keydown', event => {
  const held = event.altKey || event.ctrlKey || event.metaKey || event.shiftKey;
  if (held || event.target === $('slider') || !(event.key in keys)) return;
  event.preventDefault();
  go(ways[keys[event.key]]());
});
addEventListener('hashchange', () => go(addressed()));
document.documentElement.classList.add('stepping');
$('bar').hidden = last === 0;
$('now').hidden = last === 0;
$('view').hidden = false;
go(addressed());
