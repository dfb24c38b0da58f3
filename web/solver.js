// The solver as seen from the page: a run is asked for, and is answered or stopped.
const MEBI = 1 << 20;
// How long an output may be: at first, and where it is longer than that.
const ROOMS = [32 * MEBI, 512 * MEBI];
const WRITE_FAULT = 4;

let module = null;

// The solver's code is fetched and compiled once.
function compiled() {
  module ??= fetch(new URL("qbf.wasm", import.meta.url)).then(async answer => {
    if (!answer.ok) throw new Error("qbf.wasm isn't there; `make web` builds it");
    return WebAssembly.compile(await answer.arrayBuffer());
  });
  return module;
}

function ask(worker, message) {
  return new Promise((resolve, reject) => {
    worker.onmessage = ({ data }) => (data.fault ? reject(new Error(data.fault)) : resolve(data));
    worker.onerror = fault => reject(new Error(fault.message || "the solver can't be started"));
    worker.postMessage(message);
  });
}

// The error of a run that was stopped; its message says why.
export class Stopped extends Error {}

// A run of `qbf` with these words on an input. Its `answer` comes to the status, the output and the error output as
// bytes, and what the run took. `stop` ends the run, which then answers `Stopped`.
export function run(words, input) {
  const worker = new Worker(new URL("worker.js", import.meta.url), { type: "module" });
  const answered = async () => {
    const module = await compiled();
    for (const room of ROOMS) {
      const answer = await ask(worker, { module, words: new TextEncoder().encode(words), input, room });
      if (answer.status !== WRITE_FAULT || room === ROOMS.at(-1)) return answer;
    }
  };
  let stop;
  const stopped = new Promise((_, reject) => (stop = why => reject(new Stopped(why))));
  return { answer: Promise.race([answered(), stopped]).finally(() => worker.terminate()), stop };
}
