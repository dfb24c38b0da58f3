// Compares the page's module with the program: output, error output and status of every command on a hundred texts.
// Then plays 10,000 games by the page's own code against the circuits that the module writes: none may be lost.
//
// usage: node wasm.mjs PROGRAM MODULE
//
// Prints a line a case and ends with status 1 if one failed.
import { spawnSync } from "node:child_process";
import { readdirSync, readFileSync } from "node:fs";
import { call } from "../../web/call.js";
import { readCircuit, readFormula } from "../../web/formula.js";
import { Game } from "../../web/game.js";
import { layers } from "../../web/layers.js";

const [program, file] = process.argv.slice(2);
const module = await WebAssembly.compile(readFileSync(file));
const examples = new URL("../../web/examples/", import.meta.url);

const MEBI = 1 << 20;
const DRAWN = 80, GAMES = 10_000;
const FORMULA = ["solve", "solve --qdo", "trace", "cert", "cert --trim", "cert --binary", "check", "check --decide",
  "solve --budget 40 --restarts 1"];
const [SAT, UNSAT] = [10, 20];

let failures = 0;

function report(name, fault) {
  console.log(fault ? `FAILED wasm_${name}: ${fault}` : `ok wasm_${name}`);
  failures += fault ? 1 : 0;
}

const called = (words, input, room = 64 * MEBI) => call(module, Buffer.from(words), Buffer.from(input), room);
const native = (words, input) => spawnSync(program, words.split(" "), { input, maxBuffer: 1 << 28 });

// What differs between the module and the program on an input, or nothing.
async function difference(words, input) {
  const got = await called(words, input);
  const wanted = native(words, input);
  if (got.status !== wanted.status) return `${words}: status ${got.status} and not ${wanted.status}`;
  if (!wanted.stdout.equals(got.output)) return `${words}: another output`;
  if (!wanted.stderr.equals(got.error)) return `${words}: another error output`;
  return null;
}

// The first difference of several commands on an input.
async function differences(commands, input) {
  for (const words of commands) {
    const fault = await difference(words, input);
    if (fault) return fault;
  }
  return null;
}

function wordsFor(name) {
  if (name.endsWith(".qscript")) return ["script", "script --budget 0"];
  if (name.endsWith(".qcir")) return ["solve --qcir", "solve"];
  return FORMULA;
}

// Each example, and formulas that are drawn, a few of them cut so that they are malformed.
const texts = [];
for (const name of readdirSync(examples)) {
  texts.push([name, readFileSync(new URL(name, examples)), wordsFor(name)]);
}
for (let seed = 1; seed <= DRAWN; seed++) {
  const text = native(`gen ${seed} ${3 + (seed % 14)} ${6 + ((seed * 5) % 40)}`).stdout;
  texts.push([`drawn_${seed}`, seed % 8 === 0 ? text.subarray(0, text.length / 2) : text, FORMULA]);
}
for (const [name, text, commands] of texts) report(name, await differences(commands, text));
const { status: ofLatin } = await called(Buffer.from("solve \xff", "latin1"), "");
report("not_utf8", ofLatin === 7 ? null : `status ${ofLatin}`);

// Where the room is short by a byte the status is 4, and what fits is there.
const [, arbiter] = texts.find(([name]) => name === "arbiter.qdimacs");
const whole = await called("cert", arbiter);
const short = await called("cert", arbiter, whole.output.length - 1);
const exact = await called("cert", arbiter, whole.output.length);
const isShort = short.status === 4 && short.output.length === whole.output.length - 1;
report("short_room", isShort && exact.status === SAT ? null : `statuses ${short.status} and ${exact.status}`);

// Games with random moves, in turn against the circuit of each decided formula.
const games = [];
for (const [name, text] of texts.filter(([, , commands]) => commands === FORMULA)) {
  const { status, output } = await called("cert --trim", text);
  if (status !== SAT && status !== UNSAT) continue;
  const circuit = readCircuit(new TextDecoder().decode(output));
  games.push([name, new Game(readFormula(new TextDecoder().decode(text)), circuit, status === SAT ? "e" : "a")]);
  const { nodes, edges } = layers(circuit);
  const isToTheRight = ({ from, to }) => nodes.get(from).layer < nodes.get(to).layer;
  if (!edges.every(isToTheRight)) report(`layers_${name}`, "an edge leads back");
}
const lost = new Set();
for (let i = 0; i < GAMES; i++) {
  const [name, game] = games[i % games.length];
  game.restart();
  while (!game.isOver) {
    for (const v of game.scopes[game.turn].vars) if (Math.random() < 0.5) game.flip(v);
    game.play();
  }
  if (!game.isCircuitsWin) lost.add(name);
}
report("games", lost.size ? `lost: ${[...lost].join(" ")}` : null);
console.log(`${texts.length} texts, ${GAMES} games against ${games.length} circuits`);
process.exitCode = failures ? 1 : 0;
