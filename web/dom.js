// Short names for what the page does with its elements.

export const $ = id => document.getElementById(id);

// A new element with a class, which may be empty, and children: elements or texts.
export function made(tag, name, ...children) {
  const it = document.createElement(tag);
  if (name) it.className = name;
  it.append(...children);
  return it;
}

// The name of a literal.
export const nameOf = (literal, name) => (literal < 0 ? "¬" : "") + name(Math.abs(literal));

// A number with its noun.
export const count = (n, one, many = `${one}s`) => `${n.toLocaleString("en")} ${n === 1 ? one : many}`;
