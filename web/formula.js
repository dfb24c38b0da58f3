// Readers of the texts that the page shows. The solver rests on none of them: each text that they are given was read or
// written by it before.

// The kind of a text, by its first line that is no comment: "circuit" (QCIR), "script" or "formula".
export function kindOf(text) {
  for (const line of text.split("\n")) {
    const words = wordsOf(line);
    if (/^#QCIR|^(exists|forall|free|output)\s*\(/i.test(line.trim())) return "circuit";
    if (!words.length || words[0].startsWith("c")) continue;
    return words[0] === "p" && words[1] === "qscript" ? "script" : "formula";
  }
  return "formula";
}

const wordsOf = line => line.split(/[\t-\r ]+/).filter(word => word);

// A formula: its scopes, outermost first, its clauses, and the names that a comment `c names ..` gives.
export function readFormula(text) {
  const scopes = [], clauses = [], names = new Map();
  let header = 0, quantifier = null, open = [];
  for (const line of text.split("\n")) {
    const words = wordsOf(line);
    if (words[0]?.startsWith("c")) {
      if (words[0] === "c" && words[1] === "names") words.slice(2).forEach((name, i) => names.set(i + 1, name));
      continue;
    }
    for (const word of words) {
      if (header > 0) header--;
      else if (word === "p") header = 3;
      else if (word === "a" || word === "e") quantifier = word;
      else if (Number(word) !== 0) open.push(Number(word));
      else {
        if (quantifier === null) clauses.push(open);
        else bind(scopes, quantifier, open);
        quantifier = null;
        open = [];
      }
    }
  }
  const bound = new Set(scopes.flatMap(scope => scope.vars));
  const free = new Set(clauses.flat().map(Math.abs).filter(v => !bound.has(v)));
  // Free variables are existential and outermost.
  if (free.size && scopes[0]?.quantifier === "e") scopes[0].vars.push(...free);
  else if (free.size) scopes.unshift({ quantifier: "e", vars: [...free] });
  for (const scope of scopes) scope.vars.sort((a, b) => a - b);
  return { scopes, clauses, names };
}

// Neighbouring sets of one quantifier are one scope, and empty ones are none.
function bind(scopes, quantifier, vars) {
  if (!vars.length) return;
  if (scopes.at(-1)?.quantifier === quantifier) scopes.at(-1).vars.push(...vars);
  else scopes.push({ quantifier, vars });
}

// A circuit in ASCII AIGER whose symbols are variables of the formula: the variable of each input literal, the literal
// of each output variable, and the two ends of each gate. A literal is even, or the odd one above it, its negation.
export function readCircuit(text) {
  const lines = text.split("\n");
  const [inputs, , outputs, gates] = lines[0].split(" ").slice(2).map(Number);
  let at = 1;
  const next = count => lines.slice(at, (at += count)).map(line => line.split(" ").map(Number));
  const inputLiterals = next(inputs).flat();
  const outputLiterals = next(outputs).flat();
  const gateLines = next(gates);
  const input = new Map(), output = new Map();
  for (; at < lines.length && lines[at] !== "c"; at++) {
    const [, kind, place, variable] = /^([io])(\d+) (\d+)$/.exec(lines[at]) ?? [];
    if (kind === "i") input.set(inputLiterals[place], Number(variable));
    if (kind === "o") output.set(Number(variable), outputLiterals[place]);
  }
  return { input, output, gates: new Map(gateLines.map(([to, ...ends]) => [to, ends])) };
}

// The values of the circuit's outputs for some variables, where these values of inputs are known.
export function valuesOf(circuit, variables, values) {
  const known = new Map([[0, false]]);
  const valueOf = literal => known.get(literal & ~1) !== Boolean(literal & 1);
  for (const variable of variables) {
    const stack = [circuit.output.get(variable) & ~1];
    while (stack.length) {
      const literal = stack.at(-1);
      const ends = circuit.gates.get(literal);
      const open = known.has(literal) || !ends ? [] : ends.map(end => end & ~1).filter(end => !known.has(end));
      if (open.length) {
        stack.push(...open);
        continue;
      }
      if (!known.has(literal)) {
        known.set(literal, ends ? ends.every(valueOf) : values.get(circuit.input.get(literal)) === true);
      }
      stack.pop();
    }
  }
  return new Map(variables.map(variable => [variable, valueOf(circuit.output.get(variable))]));
}

// The function of an output as a text of at most `longest` characters, or null where it is longer.
export function functionOf(circuit, variable, nameOf, longest = 64) {
  let room = longest;
  const say = (literal, inside) => {
    if (--room < 0) return "";
    if (literal < 2) return String(literal);
    const ends = circuit.gates.get(literal & ~1);
    const isNegated = Boolean(literal & 1);
    if (!ends) return (isNegated ? "¬" : "") + nameOf(circuit.input.get(literal & ~1));
    // By De Morgan's laws no gate is negated.
    const sign = isNegated ? " ∨ " : " ∧ ";
    const text = ends.map(end => say(isNegated ? end ^ 1 : end, sign)).join(sign);
    return inside && inside !== sign ? `(${text})` : text;
  };
  const text = say(circuit.output.get(variable), "");
  return room < 0 || text.length > longest ? null : text;
}

// A proof in QRP: the quantifier of each variable, the steps with their literals and antecedents, and the verdict. The
// steps are clauses where it is UNSAT, and else cubes.
export function readTrace(text) {
  const quantifiers = new Map(), steps = new Map();
  let verdict = "";
  for (const line of text.split("\n")) {
    const words = line.split(" ");
    if (words[0] === "r") verdict = words[1];
    else if (words[0] === "a" || words[0] === "e") {
      for (const variable of words.slice(1, -1)) quantifiers.set(Number(variable), words[0]);
    } else if (/^\d/.test(words[0])) {
      const numbers = words.map(Number);
      const end = numbers.indexOf(0, 1);
      steps.set(numbers[0], { literals: numbers.slice(1, end), antecedents: numbers.slice(end + 1, -1) });
    }
  }
  return { quantifiers, steps, verdict };
}

// How a step of a proof comes about: as an "input", by "reduction", with the literals that it leaves out, or by
// "resolution" over a variable.
export function ruleOf(trace, number) {
  const { literals, antecedents } = trace.steps.get(number);
  if (!antecedents.length) return { rule: "input" };
  const [first, second] = antecedents.map(it => trace.steps.get(it).literals);
  if (!second) return { rule: "reduction", dropped: first.filter(it => !literals.includes(it)) };
  return { rule: "resolution", pivot: Math.abs(first.find(it => second.includes(-it) && !literals.includes(it))) };
}
