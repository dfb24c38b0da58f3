// Where the nodes of a circuit's graph stand: inputs on the left, then each gate to the right of what it reads, and the
// outputs on the right.
const WIDE = 118, HIGH = 40, EDGE = 16;
const SWEEPS = 6;

// The nodes that some output is reached from, each with a place, and the edges between them.
export function layers(circuit) {
  const nodes = new Map(), edges = [];
  const node = (key, kind, layer, variable) => {
    if (!nodes.has(key)) nodes.set(key, { key, kind, layer, variable, x: 0, y: 0 });
    return nodes.get(key);
  };
  // Gates come after what they read, so one pass over those that are needed, lowest first, knows each layer.
  const needed = [...reached(circuit, circuit.output.values())].sort((a, b) => a - b);
  for (const literal of needed) {
    const ends = circuit.gates.get(literal);
    if (literal === 0) node(0, "constant", 0);
    else if (!ends) node(literal, "input", 0, circuit.input.get(literal));
    else {
      node(literal, "gate", 1 + Math.max(...ends.map(end => nodes.get(end & ~1).layer)));
      for (const end of ends) edges.push({ from: end & ~1, to: literal, isNegated: Boolean(end & 1) });
    }
  }
  const last = 1 + Math.max(0, ...[...nodes.values()].map(it => it.layer));
  for (const [variable, literal] of circuit.output) {
    const key = `o${variable}`;
    node(key, "output", last, variable);
    edges.push({ from: literal & ~1, to: key, isNegated: Boolean(literal & 1) });
  }
  return { nodes, edges, ...placed(nodes, edges, last) };
}

// The even literals that some literals are reached from, themselves among them.
export function reached(circuit, literals) {
  const found = new Set(), stack = [...literals];
  while (stack.length) {
    const literal = stack.pop() & ~1;
    if (found.has(literal)) continue;
    found.add(literal);
    stack.push(...(circuit.gates.get(literal) ?? []));
  }
  return found;
}

// Orders each layer by the middle of its neighbours, to and fro, so that few edges cross.
function placed(nodes, edges, last) {
  const columns = Array.from({ length: last + 1 }, () => []);
  for (const it of nodes.values()) columns[it.layer].push(it);
  const before = new Map(), behind = new Map();
  for (const key of nodes.keys()) [before, behind].forEach(map => map.set(key, []));
  for (const { from, to } of edges) {
    before.get(to).push(nodes.get(from));
    behind.get(from).push(nodes.get(to));
  }
  const tallest = Math.max(...columns.map(column => column.length));
  const height = tallest * HIGH;
  const spread = column => column.forEach((it, i) => {
    it.x = EDGE + it.layer * WIDE + WIDE / 2;
    it.y = EDGE + ((i + 0.5) * height) / column.length;
  });
  columns.forEach(spread);
  for (let sweep = 0; sweep < SWEEPS; sweep++) {
    const neighbours = sweep % 2 ? behind : before;
    const middle = it => {
      const all = neighbours.get(it.key);
      return all.length ? all.reduce((sum, other) => sum + other.y, 0) / all.length : it.y;
    };
    for (const column of sweep % 2 ? columns.toReversed() : columns) {
      const at = new Map(column.map(it => [it, middle(it)]));
      column.sort((a, b) => at.get(a) - at.get(b));
      spread(column);
    }
  }
  return { width: (last + 1) * WIDE + 2 * EDGE, height: height + 2 * EDGE };
}
