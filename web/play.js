// The game as it stands on the page.
import { $, count, made, nameOf } from "./dom.js";
import { functionOf } from "./formula.js";
import { Game } from "./game.js";

// What is drawn of a long scope and of many clauses.
const MOST_VARIABLES = 400, MOST_CLAUSES = 600;

let game = null, name = null;

export function hideGame() {
  $("play").hidden = true;
  game = null;
}

export function startGame(formula, circuit, winner) {
  game = new Game(formula, circuit, winner);
  name = v => formula.names.get(v) ?? `x${v}`;
  $("play").hidden = false;
  $("goal").textContent = winner === "e"
    ? "You play ∀, and want a clause to be false. Choose your values, then play."
    : "You play ∃, and want every clause to be true. Choose your values, then play.";
  draw();
  focusOnTurn();
}

// The move that is due gets the focus, or at the end what starts another game.
function focusOnTurn() {
  ($("scopes").querySelector("li.now button") ?? $("again")).focus();
}

function drawVariable(v, state, isYours) {
  const value = game.value(v);
  const isOpen = state === "now";
  const shown = state === "later" ? "·" : value ? "1" : "0";
  const mood = state === "later" ? "" : value ? "t" : "f";
  const it = made(isOpen ? "button" : "span", `var ${mood}`, name(v), made("i", "", shown));
  if (isOpen) {
    it.setAttribute("aria-pressed", String(value));
    it.setAttribute("aria-label", name(v));
    it.onclick = () => {
      game.flip(v);
      draw();
      $("scopes").querySelector(`button[data-variable="${v}"]`).focus();
    };
    it.dataset.variable = v;
  } else if (!isYours && game.circuit.output.has(v)) {
    const text = functionOf(game.circuit, v, name);
    if (text) it.append(made("span", "why", `= ${text}`));
  }
  return it;
}

function drawScope(scope, i) {
  const state = i < game.turn ? "past" : i === game.turn ? "now" : "later";
  const isYours = game.isYours(scope);
  const quantifier = made("b", "", scope.quantifier === "a" ? "∀" : "∃");
  const who = made("span", "who", quantifier, isYours ? "you" : "the circuit");
  const drawn = scope.vars.slice(0, MOST_VARIABLES).map(v => drawVariable(v, state, isYours));
  const variables = made("span", "vars", ...drawn);
  if (scope.vars.length > MOST_VARIABLES) {
    variables.append(made("span", "dim", `and ${count(scope.vars.length - MOST_VARIABLES, "more", "more")}`));
  }
  const row = made("li", state, who, variables);
  if (state === "now") {
    row.setAttribute("aria-current", "step");
    const play = made("button", "main", "Play");
    play.onclick = () => {
      game.play();
      draw();
      focusOnTurn();
    };
    row.append(play);
  }
  return row;
}

function drawClause(clause) {
  const value = game.clause(clause);
  const it = made("span", `clause ${value === true ? "t" : value === false ? "f" : ""}`);
  clause.forEach((literal, i) => {
    const is = game.literal(literal);
    it.append(i ? " " : "", made("span", is === true ? "y" : is === false ? "n" : "", nameOf(literal, name)));
  });
  if (!clause.length) it.append("⊥");
  it.append(made("span", "unseen", value === true ? " true; " : value === false ? " false; " : " open; "));
  return it;
}

// False clauses stand first where not all are drawn.
function drawnClauses() {
  if (game.clauses.length <= MOST_CLAUSES) return game.clauses;
  const rank = clause => [false, undefined, true].indexOf(game.clause(clause));
  return game.clauses.toSorted((a, b) => rank(a) - rank(b)).slice(0, MOST_CLAUSES);
}

function outcome() {
  const values = game.clauses.map(clause => game.clause(clause));
  const [isTrue, isFalse] = [true, false].map(wanted => values.filter(value => value === wanted).length);
  const clauses = count(values.length, "clause");
  if (!game.isOver) {
    return `Your move. ${isTrue} of ${clauses} true so far${isFalse ? `, ${isFalse} false` : ""}.`;
  }
  const who = game.isCircuitsWin ? "The circuit wins" : "You win, which the proof excludes: please report it";
  return `${who}: ${isFalse ? `${isFalse} of ${clauses} false` : `all of ${clauses} true`}.`;
}

function draw() {
  $("scopes").replaceChildren(...game.scopes.map(drawScope));
  $("clauses").replaceChildren(...drawnClauses().map(drawClause));
  $("outcome").textContent = outcome();
  $("outcome").classList.toggle("won", game.isOver);
  $("back").disabled = !game.canTakeBack;
}

$("back").onclick = () => {
  game.takeBack();
  draw();
  focusOnTurn();
};
$("again").onclick = () => {
  game.restart();
  draw();
  focusOnTurn();
};
