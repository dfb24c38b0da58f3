// The proof as it stands on the page: a list of steps, each of which opens to the steps that it rests on.
import { $, count, made, nameOf } from "./dom.js";
import { readTrace, ruleOf } from "./formula.js";

// How many steps are listed at a time.
const LISTED = 200;

let trace = null, name = null, listed = 0;

export function hideProof() {
  $("proof").hidden = true;
  trace = null;
}

export function showProof(text, names) {
  trace = readTrace(text);
  name = v => names.get(v) ?? `x${v}`;
  listed = 0;
  $("rows").replaceChildren();
  $("proof").hidden = false;
  const inputs = [...trace.steps.values()].filter(step => !step.antecedents.length).length;
  $("rests").textContent = `${count(trace.steps.size, "step")} from ${count(inputs, kind())} to the verdict. ` +
    "Choose a step to see what it rests on.";
  list(LISTED);
}

// What the literals of a step are.
const kind = () => (trace.verdict === "UNSAT" ? "clause" : "cube");

// Lists the steps up to a number.
function list(to) {
  const numbers = [...trace.steps.keys()].slice(listed, to);
  $("rows").append(...numbers.map(row));
  listed += numbers.length;
  const left = trace.steps.size - listed;
  $("more").hidden = left === 0;
  $("more").textContent = `Show ${count(Math.min(left, LISTED), "more step")} of ${left.toLocaleString("en")}`;
}

// The literals of a step; those that `marked` is true of stand out.
function literals(number, marked = () => false) {
  const all = trace.steps.get(number).literals;
  const shown = all.map(literal => {
    const quantifier = trace.quantifiers.get(Math.abs(literal)) === "a" ? "universal" : "existential";
    return made("span", `lit ${quantifier}${marked(literal) ? " out" : ""}`, nameOf(literal, name));
  });
  if (!all.length) shown.push(made("span", "lit empty", kind() === "clause" ? "⊥" : "⊤"),
    made("span", "unseen", `the empty ${kind()}`));
  return made("span", "lits", ...shown.flatMap((it, i) => (i ? [" ", it] : [it])));
}

function said(number) {
  const { antecedents } = trace.steps.get(number);
  const { rule, pivot } = ruleOf(trace, number);
  if (rule === "input") return kind() === "clause" ? "of the formula" : "an input";
  if (rule === "reduction") return `reduction of ${antecedents[0]}`;
  return `resolvent of ${antecedents.join(" and ")} over ${name(pivot)}`;
}

// What stands in the line of a step.
const line = (number, marked) =>
  [made("span", "number", String(number)), literals(number, marked), made("span", "rule", said(number))];

function row(number) {
  const isInput = !trace.steps.get(number).antecedents.length;
  const step = made(isInput ? "div" : "button", "step", ...line(number));
  const it = made("li", "", step);
  it.id = `step-${number}`;
  if (isInput) step.tabIndex = -1;
  else {
    step.setAttribute("aria-expanded", "false");
    step.onclick = () => toggle(it, step, number);
  }
  return it;
}

// Opens a step to its antecedents, or closes it.
function toggle(it, button, number) {
  const isOpen = button.getAttribute("aria-expanded") === "true";
  button.setAttribute("aria-expanded", String(!isOpen));
  if (isOpen) return it.querySelector("ul").remove();
  const { rule, pivot, dropped } = ruleOf(trace, number);
  const leaves = rule === "reduction" ? literal => dropped.includes(literal) : literal => Math.abs(literal) === pivot;
  const antecedents = trace.steps.get(number).antecedents.map(other => {
    const go = made("button", "step", ...line(other, leaves));
    go.onclick = () => visit(other);
    go.title = `Go to step ${other}`;
    return made("li", "", go);
  });
  const list = made("ul", "", ...antecedents);
  list.setAttribute("aria-label", `What step ${number} rests on`);
  it.append(list);
}

// Goes to a step in the list.
function visit(number) {
  if (number > listed) list(number);
  const step = $(`step-${number}`).querySelector(".step");
  step.focus();
  step.scrollIntoView({ block: "center" });
}

$("more").onclick = () => {
  const next = listed + 1;
  list(listed + LISTED);
  visit(next);
};
