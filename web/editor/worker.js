/* A worker that runs one script on a machine of its own; it is ended where the run takes too long. It gets the module
   and the script's bytes, and answers the records, or, of a module without that call, the answers as text. */

import { Machine } from "./machine.js";

function run({ module, script, name }) {
  const machine = new Machine(module);
  if (machine.hasRecords) return { records: machine.records(script, name).bytes };
  return { answers: machine.answers(script).bytes };
}

addEventListener("message", (event) => {
  try {
    const result = run(event.data);
    postMessage(result, [(result.records || result.answers).buffer]);
  } catch (error) {
    const isTrap = error instanceof WebAssembly.RuntimeError;
    postMessage({ failure: (isTrap ? "The machine's module stopped: " : "") + error.message });
  }
});
