// The circuit as it stands on the page: a graph, and the outputs as functions.
import { $, count, made } from "./dom.js";
import { functionOf } from "./formula.js";
import { layers, reached } from "./layers.js";

const MOST_GATES = 200, MOST_OUTPUTS = 200;
const READING = "A gate ∧ is true where both its ends are; a dashed edge with a ring negates. " +
  "Choose an output to see what it reads.";
const UNDRAWN = `A graph is drawn of up to ${MOST_GATES} gates and ${MOST_OUTPUTS} outputs.`;
const CHOICELESS = "The winner chooses nothing.";
const SVG = "http://www.w3.org/2000/svg";
// The radius of the ring that negates, and how far apart the two edges into a gate end.
const RING = 3.5, SPREAD = 11;

export function hideCircuit() {
  $("circuit").hidden = true;
}

export function showCircuit(circuit, names) {
  const name = v => names.get(v) ?? `x${v}`;
  const graph = layers(circuit);
  const gates = [...graph.nodes.values()].filter(it => it.kind === "gate").length;
  const isDrawn = gates <= MOST_GATES && circuit.output.size <= MOST_OUTPUTS && circuit.output.size > 0;
  $("circuit").hidden = false;
  const sizes = [count(circuit.input.size, "input"), count(gates, "gate"), count(circuit.output.size, "output")];
  $("size").textContent = `${sizes.join(", ")}. ${isDrawn ? READING : circuit.output.size ? UNDRAWN : CHOICELESS}`;
  $("graph").hidden = !isDrawn;
  const marks = isDrawn ? draw(graph, name) : () => {};
  const shown = [...circuit.output.keys()].slice(0, MOST_OUTPUTS);
  $("outputs").replaceChildren(...shown.map(v => outputRow(circuit, v, name, marks, isDrawn)));
  if (shown.length < circuit.output.size) {
    $("outputs").append(made("li", "dim", `and ${count(circuit.output.size - shown.length, "more", "more")}`));
  }
}

// An output with its function, or with how many gates it reads where that is long. It marks them in the graph.
function outputRow(circuit, v, name, marks, isDrawn) {
  const gates = [...reached(circuit, [circuit.output.get(v)])].filter(literal => circuit.gates.has(literal)).length;
  const said = functionOf(circuit, v, name);
  const text = said === null ? `${name(v)} (${count(gates, "gate")})` : `${name(v)} = ${said}`;
  if (!isDrawn) return made("li", "", text);
  const button = made("button", "plain", text);
  button.setAttribute("aria-pressed", "false");
  button.onclick = () => {
    const isOn = button.getAttribute("aria-pressed") === "true";
    for (const other of $("outputs").querySelectorAll("button")) other.setAttribute("aria-pressed", "false");
    button.setAttribute("aria-pressed", String(!isOn));
    marks(isOn ? null : `o${v}`);
  };
  return made("li", "", button);
}

function shape(tag, attributes, ...children) {
  const it = document.createElementNS(SVG, tag);
  for (const [key, value] of Object.entries(attributes)) it.setAttribute(key, value);
  it.append(...children);
  return it;
}

// Half the width of a node, by its label.
const halfWidth = it => (it.kind === "gate" ? 13 : 16 + 3.6 * Math.min(it.label.length, 12));

// An edge; `shift` is how far from the middle of its end it stands.
function drawEdge({ from, to, isNegated }, shift, nodes) {
  const [start, end] = [nodes.get(from), nodes.get(to)];
  const [x1, x2] = [start.x + halfWidth(start), end.x - halfWidth(end) - (isNegated ? 2 * RING : 0)];
  const [y1, y2] = [start.y, end.y + shift];
  const bend = Math.max(24, (x2 - x1) / 2);
  const path = shape("path", { d: `M${x1},${y1} C${x1 + bend},${y1} ${x2 - bend},${y2} ${x2},${y2}` });
  const ring = isNegated ? [shape("circle", { cx: x2 + RING, cy: y2, r: RING })] : [];
  return shape("g", { class: `edge${isNegated ? " not" : ""}` }, path, ...ring);
}

// The edges into each node, those from above first, with how far from its middle they stand.
function drawEdges(edges, nodes) {
  const into = new Map();
  for (const edge of edges) into.set(edge.to, [...(into.get(edge.to) ?? []), edge]);
  return [...into.values()].flatMap(ends => ends
    .toSorted((a, b) => nodes.get(a.from).y - nodes.get(b.from).y)
    .map((edge, i) => [edge, drawEdge(edge, SPREAD * (i - (ends.length - 1) / 2), nodes)]));
}

function drawNode(it) {
  const half = halfWidth(it);
  const box = { x: it.x - half, y: it.y - 13, width: 2 * half, height: 26, rx: it.kind === "gate" ? 6 : 13 };
  return shape("g", { class: `node ${it.kind}` }, shape("title", {}, it.label), shape("rect", box),
    shape("text", { x: it.x, y: it.y + 4.5 }, it.label.length > 12 ? `${it.label.slice(0, 11)}…` : it.label));
}

// Draws a graph, and returns a function that marks what a node is reached from, or with null everything.
function draw({ nodes, edges, width, height }, name) {
  for (const it of nodes.values()) {
    it.label = it.kind === "gate" ? "∧" : it.kind === "constant" ? "0" : name(it.variable);
  }
  const drawnEdges = drawEdges(edges, nodes);
  const drawnNodes = [...nodes.values()].map(it => [it, drawNode(it)]);
  const svg = shape("svg", { width, height, viewBox: `0 0 ${width} ${height}`, role: "img",
    "aria-label": "And-inverter graph; the list of outputs says the same in words" },
    ...drawnEdges.map(it => it[1]), ...drawnNodes.map(it => it[1]));
  $("graph").replaceChildren(svg);
  const into = new Map();
  for (const { from, to } of edges) into.set(to, [...(into.get(to) ?? []), from]);
  return key => {
    const cone = new Set(), stack = key === null ? [] : [key];
    while (stack.length) {
      const at = stack.pop();
      if (cone.has(at)) continue;
      cone.add(at);
      stack.push(...(into.get(at) ?? []));
    }
    svg.classList.toggle("marked", key !== null);
    for (const [it, drawn] of drawnNodes) drawn.classList.toggle("on", cone.has(it.key));
    for (const [edge, drawn] of drawnEdges) drawn.classList.toggle("on", cone.has(edge.to));
  };
}
