// A call of the solver's module: words and an input go in, and a status and two outputs come out.

// How many bytes of the error output are kept; its lines are shorter.
const ERROR_ROOM = 4096;
// A status of 4 bytes, 4 bytes that are unused, and two lengths of 8 bytes.
const DONE_SIZE = 24;

// Carries out a command of `qbf`, whose words are UTF-8, on an input, with room for so many bytes of output. Each call
// has a memory of its own.
export async function call(module, words, input, room) {
  const { exports: solver } = await WebAssembly.instantiate(module, {});
  const place = length => {
    const at = Number(solver.room(BigInt(length)));
    if (at === 0) throw new Error("there is no memory for the text and its answer");
    return { at, length };
  };
  const put = bytes => {
    const to = place(bytes.length);
    new Uint8Array(solver.memory.buffer).set(bytes, to.at);
    return to;
  };
  const slice = ({ at, length }) => [BigInt(at), BigInt(length)];

  const done = place(DONE_SIZE);
  const lent = [put(words), put(input), place(room), place(ERROR_ROOM)];
  const start = performance.now();
  solver.qbf_run(BigInt(done.at), ...lent.flatMap(slice));
  const milliseconds = performance.now() - start;
  const memory = solver.memory.buffer;
  const ends = new DataView(memory, done.at, DONE_SIZE);
  const taken = ({ at }, length) => new Uint8Array(memory, at, Number(length)).slice();
  return {
    status: ends.getUint32(0, true),
    output: taken(lent[2], ends.getBigUint64(8, true)),
    error: taken(lent[3], ends.getBigUint64(16, true)),
    milliseconds,
    memory: memory.byteLength,
  };
}
