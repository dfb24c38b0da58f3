// Runs the solver in a thread of its own, so that the page stays live and a run can be stopped.
import { call } from "./call.js";

onmessage = async ({ data: { module, words, input, room } }) => {
  try {
    const answer = await call(module, words, input, room);
    postMessage(answer, [answer.output.buffer, answer.error.buffer]);
  } catch (fault) {
    postMessage({ fault: fault.message });
  }
};
