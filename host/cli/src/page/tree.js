
/* The tree. All text goes in as text, never as HTML. Of what stands there already only that is touched
 * which differs. */
const $ = id => document.getElementById(id);

/* An element with a class and with children, which are elements or text. */
function el(tag, name, ...children) {
  const element = document.createElement(tag);
  if (name) element.className = name;
  element.append(...children.filter(child => child !== null && child !== ''));
  return element;
}

const tag = (name, text) => el('span', 'tag ' + name, text);
const nameOf = shape => data.shapes[shape][0];
const some = list => list.length > 8 ? list.slice(0, 8).join(', ') + ' and ' + (list.length - 8) + ' more' : list.join(', ');

/* The drawn nodes, by their numbers. */
let cards = new Map();

/* What a control reads, and where from. */
function reading(state, node, index) {
  const bus = node.bus[index];
  return bus < 0 ? node.own[index] : state.buses[bus] + ' from bus ' + bus + ', own ' + node.own[index];
}

/* Where a node was before the step. */
function earlier(look, n) {
  const up = look.before.nodes.get(n).up;
  const kids = look.before.nodes.get(up).kids;
  const at = kids.indexOf(n);
  return 'moved, was in ' + up + (at === 0 ? ' at the head' : ' after ' + kids[at - 1]);
}

/* What stands at the head of a node, as classes and texts: its place, number and definition, what the
 * step did to it, and what it is. `off` is the nearest group above that is off, if any. */
function headOf(look, node, off) {
  const {marks, after, before} = look;
  const n = node.n;
  const head = [];
  const place = look.places.get(n);
  if (!node.group) head.push(place ? ['place', String(place), 'place ' + place + ' in the running order'] : ['place none', '\u2013', 'not in the running order']);
  head.push(['number', String(n)]);
  const retired = !node.group && look.retired.has(node.slot);
  if (node.group) head.push(['kind', 'group']);
  else head.push([retired ? 'definition old' : 'definition', nameOf(node.shape)]);
  if (retired) head.push(['tag old', 'retired definition']);
  if (marks.came.has(n)) head.push(['tag came', 'came']);
  if (marks.moved.has(n)) head.push(['tag moved', earlier(look, n)]);
  if (marks.changed.has(n)) {
    const turned = before.nodes.get(n).on !== node.on;
    head.push(['tag changed', turned ? 'changed, was ' + (node.on ? 'off' : 'on') : 'changed']);
  }
  if (!node.on) head.push(['tag off', 'off']);
  if (off !== null) head.push(['tag silent', 'silent: group ' + off + ' is off']);
  if (after.latest === n) head.push(['tag latest', 'latest, -1']);
  if (node.again) {
    const [line, shape] = node.again;
    head.push(['tag again', 'number used before by a ' + (shape < 0 ? 'group' : nameOf(shape) + ' synth') + ', freed by line ' + line]);
  }
  return head;
}

/* Makes an element of descriptions, unless it is so already. */
function describe(element, pieces) {
  const key = JSON.stringify(pieces);
  if (element.key === key) return;
  element.key = key;
  element.replaceChildren(...pieces.map(([name, text, title]) => {
    const piece = el(name === 'name' ? 'b' : name === 'was' ? 'i' : 'span', name, text);
    if (title) {
      piece.title = title;
      piece.setAttribute('role', 'img');
      piece.setAttribute('aria-label', title);
    }
    return piece;
  }));
}

/* Makes these the children of an element, and moves only those that stand elsewhere. */
function settle(element, children) {
  const wanted = new Set(children);
  for (const child of Array.from(element.children)) {
    if (!wanted.has(child)) child.remove();
  }
  let at = element.firstChild;
  for (const child of children) {
    if (child === at) at = at.nextSibling;
    else element.insertBefore(child, at);
  }
}

function drawControl(cell, look, node, index) {
  const pieces = [['name', data.shapes[node.shape][1][index]], ['value', reading(look.after, node, index)]];
  const controls = look.marks.changed.get(node.n);
  const changed = controls && controls.has(index);
  if (changed) pieces.push(['was', 'was ' + reading(look.before, look.before.nodes.get(node.n), index)]);
  describe(cell, pieces);
  const name = (node.bus[index] < 0 ? '' : 'mapped ') + (changed ? 'changed' : '');
  if (cell.className !== name) cell.className = name;
}

/* A node and all below it. */
function branch(look, n, off) {
  const node = look.after.nodes.get(n);
  const key = n + ' ' + node.shape;
  let card = look.old.get(key);
  if (!card) {
    const below = el('ul', node.group ? '' : 'controls', ...node.own.map(() => el('li', '')));
    const head = el('div', 'head');
    card = {item: el('li', '', head, below), head, below};
  }
  cards.set(key, card);
  const kinds = ['came', 'moved', 'changed'].filter(kind => look.marks[kind].has(n));
  const name = [node.group ? 'group' : 'synth', ...kinds, ...(!node.on || off !== null ? ['quiet'] : [])].join(' ');
  if (card.item.className !== name) card.item.className = name;
  describe(card.head, headOf(look, node, off));
  if (node.group) settle(card.below, children(look, node, node.on ? off : n));
  else Array.from(card.below.children).forEach((cell, index) => drawControl(cell, look, node, index));
  return card.item;
}

/* A node that the step freed, and all below it. */
function ghost(look, n) {
  const node = look.before.nodes.get(n);
  const head = el('div', 'head');
  const what = node.group ? ['kind', 'group'] : ['definition', nameOf(node.shape)];
  describe(head, [['number', String(n)], what, ['tag freed', 'freed']]);
  const below = node.kids.filter(kid => look.marks.freed.has(kid)).map(kid => ghost(look, kid));
  return el('li', (node.group ? 'group' : 'synth') + ' freed', head, el('ul', '', ...below));
}

/* A group's children, and between them those that the step freed, where they were. */
function children(look, node, off) {
  const gone = new Map();
  const old = look.before.nodes.get(node.n);
  let behind = null;
  for (const n of old && look.marks.freed.size ? old.kids : []) {
    if (look.marks.freed.has(n)) gone.set(behind, (gone.get(behind) || []).concat(ghost(look, n)));
    else if (node.kids.includes(n) && !look.marks.moved.has(n)) behind = n;
  }
  const list = gone.get(null) || [];
  for (const n of node.kids) list.push(branch(look, n, off), ...(gone.get(n) || []));
  return list;
}

function drawTree(look) {
  look.old = cards;
  cards = new Map();
  settle($('tree'), [branch(look, look.after.root, null)]);
}
