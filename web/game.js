// The game of a decided formula. One player chooses the values of the existential variables, and one those of the
// universal ones, scope by scope from the outermost on. The existential player wins where all clauses are true. You
// hold the loser's scopes, and the proved circuit the winner's.
import { valuesOf } from "./formula.js";

export class Game {
  #values = new Map();

  // A game on a formula, with the circuit of its winner, "e" or "a".
  constructor(formula, circuit, winner) {
    this.scopes = formula.scopes;
    this.clauses = formula.clauses;
    this.circuit = circuit;
    this.winner = winner;
    this.turn = 0;
    this.#advance();
  }

  // Whether all values are chosen.
  get isOver() {
    return this.turn >= this.scopes.length;
  }

  // Whether you choose the values of a scope.
  isYours(scope) {
    return scope.quantifier !== this.winner;
  }

  // The value of a variable, if it is chosen; in the scope whose turn it is it may still change.
  value(variable) {
    return this.#values.get(variable);
  }

  // Changes the value of a variable of the scope whose turn it is.
  flip(variable) {
    this.#values.set(variable, !this.#values.get(variable));
  }

  // Ends your turn.
  play() {
    this.turn++;
    this.#advance();
  }

  // Whether there is a turn of yours to be taken back.
  get canTakeBack() {
    return this.scopes.slice(0, this.turn).some(scope => this.isYours(scope));
  }

  // Takes your last turn back. Its values stand as you chose them.
  takeBack() {
    const last = this.scopes.slice(0, this.turn).findLastIndex(scope => this.isYours(scope));
    for (const scope of this.scopes.slice(last + 1)) scope.vars.forEach(v => this.#values.delete(v));
    this.turn = last;
  }

  // Begins anew.
  restart() {
    this.#values.clear();
    this.turn = 0;
    this.#advance();
  }

  // Whether a literal is true, or undefined where its variable has no value.
  literal(literal) {
    const value = this.#values.get(Math.abs(literal));
    return value === undefined ? undefined : value === literal > 0;
  }

  // Whether a clause is true, or undefined where that is open.
  clause(clause) {
    const values = clause.map(literal => this.literal(literal));
    return values.includes(true) ? true : values.includes(undefined) ? undefined : false;
  }

  // Whether the circuit has won a game that is over.
  get isCircuitsWin() {
    return this.clauses.every(clause => this.clause(clause) === true) === (this.winner === "e");
  }

  // The circuit plays up to your next turn. A variable without an output is false, for it doesn't matter.
  #advance() {
    for (; !this.isOver; this.turn++) {
      const { vars } = this.scopes[this.turn];
      const isYours = this.isYours(this.scopes[this.turn]);
      const played = isYours ? [] : vars.filter(v => this.circuit.output.has(v));
      const answers = valuesOf(this.circuit, played, this.#values);
      for (const v of vars) if (!this.#values.has(v)) this.#values.set(v, answers.get(v) ?? false);
      if (isYours) return;
    }
  }
}
