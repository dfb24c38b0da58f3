// The page: what is asked, who answers, and what is shown.
import { hideCircuit, showCircuit } from "./circuit.js";
import { $, count } from "./dom.js";
import { EXAMPLES } from "./examples.js";
import { kindOf, readCircuit, readFormula } from "./formula.js";
import { linkTo, readLink } from "./link.js";
import { hideGame, startGame } from "./play.js";
import { hideProof, showProof } from "./proof.js";
import { run, Stopped } from "./solver.js";

const MEBI = 1 << 20;
// A longer file isn't put into the text field, and of a longer output only so much is shown.
const LONGEST_TEXT = MEBI, LONGEST_SHOWN = 200_000;

// What each kind of text is called, and what can be done with it, the first on Control and Enter.
const KINDS = {
  formula: { name: "QDIMACS", jobs: ["solve", "play", "circuit", "proof", "check"] },
  circuit: { name: "QCIR-14", jobs: ["solve"] },
  script: { name: "script", jobs: ["script"] },
};

// The words of each job, and what its output is, where it is more than a line.
const JOBS = {
  solve: { words: kind => (kind === "circuit" ? "solve --qcir" : "solve") },
  play: { words: () => "cert --trim", what: "The circuit as AIGER", file: "circuit.aag" },
  circuit: { words: () => "cert --trim", what: "The circuit as AIGER", file: "circuit.aag" },
  proof: { words: () => "trace", what: "The proof as QRP", file: "proof.qrp" },
  check: { words: () => "check --decide" },
  script: { words: () => "script", what: "The replies", file: "replies.txt" },
};

// Each status: what is said, its colour, and what it means where the error output says nothing.
const STATUSES = {
  10: ["SAT", "good", "True: ∃ has an answer to every play of ∀."],
  20: ["UNSAT", "bad", "False: ∀ has an answer to every play of ∃."],
  0: ["UNKNOWN", "warn", "The steps were spent before a verdict."],
  2: ["REFUSED", "warn", ""],
  4: ["TOO LONG", "warn", "The output is longer than this page has room for."],
  5: ["NO MEMORY", "warn", "The browser gives no more memory."],
  6: ["LIMIT", "warn", ""],
  7: ["USAGE", "warn", ""],
};
const [SAT, UNSAT] = [10, 20];

// A file that isn't in the text field, because it is long or no text: its name and its bytes.
let held = null;
// The run that is going on, and what the last one wrote.
let running = null, written = "";

const textNow = () => (held ? "" : $("text").value);
const bytesNow = () => held?.bytes ?? new TextEncoder().encode($("text").value);
const kindNow = () => kindOf(held?.head ?? $("text").value);

// Shows the kind of the text, and the buttons for what can be done now.
function describe() {
  const { name, jobs } = KINDS[kindNow()];
  $("kind").textContent = name;
  for (const button of $("actions").querySelectorAll("[data-job]")) {
    button.hidden = !jobs.includes(button.dataset.job);
    button.setAttribute("aria-disabled", String(running !== null));
  }
  $("stop").hidden = running === null;
  $("text").hidden = held !== null;
  $("held").hidden = held === null;
  $("link").disabled = held !== null;
}

function hideAnswer() {
  for (const id of ["answer", "output"]) $(id).hidden = true;
  hideGame();
  hideCircuit();
  hideProof();
}

// A new text, from wherever it comes.
function enter(text, { example = "own", story = "" } = {}) {
  held = null;
  $("text").value = text;
  $("examples").value = example;
  $("story").textContent = story;
  hideAnswer();
  describe();
}

// The words of the run that the page asks for.
function wordsOf(job, kind) {
  const words = [JOBS[job].words(kind)];
  const [budget, restarts] = [$("budget").value.trim(), Number($("restarts").value)];
  if (/^\d+$/.test(budget)) words.push(`--budget ${budget}`);
  if (restarts > 0) words.push(`--restarts ${Math.min(Math.floor(restarts), 1_000_000)}`);
  return words.join(" ");
}

async function start(job) {
  const kind = kindNow();
  if (running || !KINDS[kind].jobs.includes(job)) return;
  const [text, words] = [textNow(), wordsOf(job, kind)];
  hideAnswer();
  tell("RUNNING", "", `qbf ${words}`);
  running = run(words, bytesNow());
  const clock = startClock(running);
  describe();
  try {
    show(job, kind, text, await running.answer);
  } catch (fault) {
    if (fault instanceof Stopped) tell("STOPPED", "warn", fault.message);
    else tell("FAULT", "warn", fault.message);
  } finally {
    clearInterval(clock);
    const wasOnStop = document.activeElement === $("stop");
    running = null;
    $("clock").textContent = "";
    describe();
    if (wasOnStop) $("actions").querySelector(`[data-job=${job}]`).focus();
  }
}

// Shows the seconds of a run, and stops it after the most that it may take.
function startClock(it) {
  const [began, most] = [performance.now(), Math.max(1, Number($("seconds").value) || 60)];
  return setInterval(() => {
    const seconds = (performance.now() - began) / 1000;
    $("clock").textContent = `${seconds.toFixed(1)} s`;
    if (seconds > most) it.stop(`Stopped after ${count(most, "second")}.`);
  }, 100);
}

function tell(verdict, mood, meaning, cost = "") {
  $("answer").hidden = false;
  $("answer").className = `card ${mood}`;
  $("verdict").textContent = verdict;
  $("meaning").textContent = meaning;
  $("cost").textContent = cost;
}

// What a status says of a job on a text.
function verdictOf(job, kind, status) {
  const isDecided = status === SAT || status === UNSAT;
  if (job === "script" && status === 0) return ["DONE", "", "Each command of the script was replied to."];
  if (job === "check" && isDecided) {
    return ["WINS", "good", "The formula that says that the winner's circuit loses is false: it never loses."];
  }
  return STATUSES[status] ?? ["FAULT", "warn", `Status ${status}.`];
}

function show(job, kind, text, { status, output, error, milliseconds, memory }) {
  const [verdict, mood, meaning] = verdictOf(job, kind, status);
  const took = milliseconds < 100 ? milliseconds.toFixed(1) : Math.round(milliseconds).toLocaleString("en");
  const cost = `${took} ms · ${Math.round(memory / MEBI)} MiB`;
  tell(verdict, mood, new TextDecoder().decode(error).trim() || meaning, cost);
  const isDecided = status === SAT || status === UNSAT;
  written = new TextDecoder().decode(output);
  if (JOBS[job].what && written && (isDecided || job === "script")) showText(JOBS[job], job === "script");
  if (!isDecided) return;
  const names = held ? new Map() : readFormula(text).names;
  if (job === "circuit") showCircuit(readCircuit(written), names);
  if (job === "proof") showProof(written, names);
  if (job === "play") {
    const formula = held ? readFormula(new TextDecoder().decode(held.bytes)) : readFormula(text);
    startGame(formula, readCircuit(written), status === SAT ? "e" : "a");
  }
}

// Shows the output as a text.
function showText({ what, file }, isOpen) {
  const lines = written.split("\n").length - 1;
  const cut = written.length > LONGEST_SHOWN;
  $("output").hidden = false;
  $("output").querySelector("details").open = isOpen;
  $("what").textContent = `${what}, ${count(lines, "line")}`;
  $("written").textContent = cut ? `${written.slice(0, LONGEST_SHOWN)}\n… (save it to see the rest)` : written;
  $("saved").textContent = "";
  $("save").onclick = () => save(file);
}

function save(name) {
  const link = document.createElement("a");
  link.href = URL.createObjectURL(new Blob([written], { type: "text/plain" }));
  link.download = name;
  link.click();
  URL.revokeObjectURL(link.href);
  $("saved").textContent = `Saved as ${name}`;
}

// Puts a text on the clipboard, and says so.
async function copy(text, place) {
  try {
    await navigator.clipboard.writeText(text);
    place("Copied");
  } catch {
    place("The browser allows no copy");
  }
}

async function openExample(file, job) {
  const { story } = EXAMPLES.find(it => it.file === file);
  const answer = await fetch(new URL(`examples/${file}`, import.meta.url));
  if (!answer.ok) return enter("", { story: "The examples aren't there; `make web` puts them in place." });
  enter(await answer.text(), { example: file, story });
  if (job) start(job);
}

// Opens a file: in the text field, or beside it where it is long or no text.
async function openFile(file) {
  const bytes = new Uint8Array(await file.arrayBuffer());
  const text = bytes.length > LONGEST_TEXT ? null : textOf(bytes);
  enter(text ?? "");
  if (text === null) {
    held = { bytes, head: new TextDecoder("latin1").decode(bytes.subarray(0, LONGEST_TEXT)) };
    const said = `${file.name}, ${count(bytes.length, "byte")}. It isn't shown, and is read whole.`;
    $("held").querySelector("span").textContent = said;
    describe();
  }
  $("story").textContent = `Opened ${file.name}.`;
}

// The text that bytes are, or null if they are none.
function textOf(bytes) {
  try {
    return new TextDecoder("utf-8", { fatal: true, ignoreBOM: true }).decode(bytes);
  } catch {
    return null;
  }
}

async function copyLink() {
  const link = await linkTo($("text").value);
  const place = word => ($("linked").textContent = word);
  if (link === null) return place("The text is too long for a link.");
  history.replaceState(null, "", link);
  copy(link, word => place(`${word}; it is the address of this page now`));
}

for (const { file, name } of EXAMPLES) $("examples").add(new Option(name, file));
$("examples").add(new Option("your own text", "own"));
$("examples").onchange = () => {
  if ($("examples").value === "own") enter("");
  else openExample($("examples").value);
};
$("text").oninput = () => {
  $("examples").value = "own";
  $("story").textContent = "";
  describe();
};
$("text").onkeydown = event => {
  if (event.key === "Enter" && (event.ctrlKey || event.metaKey)) start(KINDS[kindNow()].jobs[0]);
};
$("file").onchange = async () => {
  const [file] = $("file").files;
  if (file) await openFile(file);
  $("file").value = "";
};
$("release").onclick = () => {
  enter("");
  $("text").focus();
};
$("actions").onclick = ({ target }) => target.dataset.job && start(target.dataset.job);
$("stop").onclick = () => running?.stop("You stopped it.");
$("copy").onclick = () => copy(written, word => ($("saved").textContent = word));
$("link").onclick = copyLink;

// A file may be dropped anywhere.
document.ondragover = event => {
  event.preventDefault();
  document.body.classList.add("dropping");
};
document.ondragleave = event => event.relatedTarget ?? document.body.classList.remove("dropping");
document.ondrop = event => {
  event.preventDefault();
  document.body.classList.remove("dropping");
  const [file] = event.dataTransfer.files;
  if (file) openFile(file);
};

// What the page's link asks for, and else the first example.
async function followLink() {
  const { text, example, job } = await readLink(location.hash);
  const isKnown = EXAMPLES.some(it => it.file === example);
  if (text === null) return openExample(isKnown ? example : EXAMPLES[0].file, JOBS[job] && job);
  enter(text, { story: "This text comes from a link." });
  if (JOBS[job]) start(job);
}

window.onhashchange = followLink;
describe();
followLink();
