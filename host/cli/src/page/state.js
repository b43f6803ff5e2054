/* The engine's answers at each step, put together from the differences in the page's data, whose form
 * data.rs describes. */
'use strict';

const data = JSON.parse(document.getElementById('data').textContent);

/* Whole answers are kept at every so many steps. */
const APART = 32;
const kept = [];

function advance(state, step) {
  const nodes = state.nodes;
  const puts = step.put || [];
  const moved = puts.filter(put => !('on' in put)).map(put => put.n);
  for (const n of moved.concat(step.freed || [])) {
    const above = nodes.get(nodes.get(n).up);
    if (above) above.kids.splice(above.kids.indexOf(n), 1);
  }
  for (const n of step.freed || []) nodes.delete(n);
  for (const put of puts) {
    if ('on' in put) nodes.set(put.n, arrived(put));
    nodes.get(put.n).up = put.in;
    if (put.in < 0) state.root = put.n;
    else nodes.get(put.in).kids.splice(put.at, 0, put.n);
  }
  state.flat = flat(state);
  for (const [places, change] of step.changed || []) {
    for (const n of numbers(state, places)) alter(nodes.get(n), change);
  }
  if (step.order) state.order = numbers(state, step.order);
  if ('latest' in step) state.latest = step.latest;
  if (step.status) state.status = step.status;
  if (step.definitions) state.definitions = step.definitions;
  for (const [name, highest, gone, came] of step.settings || []) {
    const old = state.settings.get(name) || {versions: []};
    const left = old.versions.filter(version => !gone.includes(version[0]));
    state.settings.set(name, {highest, versions: left.concat(came)});
  }
  for (const [first, count, float] of step.buses || []) {
    for (let bus = first; bus < first + count; bus++) {
      state.buses[bus] = float;
      state.touched.add(bus);
    }
  }
}

/* The lists are copied, since they change later. */
function arrived(put) {
  const own = (put.own || []).slice();
  const bus = put.bus ? put.bus.slice() : own.map(() => -1);
  return {n: put.n, up: -1, kids: [], on: put.on === 1, group: !('s' in put), shape: put.s, slot: put.slot, own, bus, again: put.again};
}

function alter(node, change) {
  if ('on' in change) node.on = change.on === 1;
  for (const [first, count, own, bus] of change.c || []) {
    for (let index = first; index < first + count; index++) {
      if (own !== null) node.own[index] = own;
      if (bus !== null) node.bus[index] = bus;
    }
  }
}

/* The numbers of all nodes, depth first. */
function flat(state) {
  const all = [];
  const walk = n => {
    all.push(n);
    state.nodes.get(n).kids.forEach(walk);
  };
  walk(state.root);
  return all;
}

/* The numbers at places that are written as runs. */
function numbers(state, runs) {
  const found = [];
  for (let at = 0; at < runs.length; at += 2) {
    found.push(...state.flat.slice(runs[at], runs[at] + runs[at + 1]));
  }
  return found;
}

function copy(state) {
  const nodes = new Map();
  for (const [n, node] of state.nodes) {
    nodes.set(n, {...node, kids: node.kids.slice(), own: node.own.slice(), bus: node.bus.slice()});
  }
  return {...state, nodes, buses: state.buses.slice(), touched: new Set(state.touched), settings: new Map(state.settings)};
}

/* The answers after so many steps. */
function answers(count) {
  if (kept.length === 0) {
    const start = {
      nodes: new Map(), root: 0, flat: [], order: [], latest: null, status: [], definitions: [],
      buses: new Array(4096).fill('0.0'), touched: new Set(), settings: new Map(),
    };
    advance(start, data.start);
    kept.push(start);
  }
  const from = Math.min(Math.floor(count / APART), kept.length - 1);
  const state = copy(kept[from]);
  for (let at = from * APART; at < count; at++) {
    if (at % APART === 0 && at / APART === kept.length) kept.push(copy(state));
    advance(state, data.steps[at]);
  }
  return state;
}

/* What a step did, by the data: numbers of nodes, and of each changed node the controls. */
function marksOf(step, after) {
  const marks = {came: new Set(), moved: new Set(), freed: new Set(step.freed || []), changed: new Map(), buses: new Set()};
  for (const put of step.put || []) ('on' in put ? marks.came : marks.moved).add(put.n);
  for (const [first, count] of step.buses || []) {
    for (let bus = first; bus < first + count; bus++) marks.buses.add(bus);
  }
  for (const [places, change] of step.changed || []) {
    for (const n of numbers(after, places)) {
      const controls = new Set();
      for (const [first, count] of change.c || []) {
        for (let index = first; index < first + count; index++) controls.add(index);
      }
      after.nodes.get(n).bus.forEach((bus, index) => marks.buses.has(bus) && controls.add(index));
      marks.changed.set(n, controls);
    }
  }
  return marks;
}
