/* Runs scripts in a worker, one at a time. */

export class Runner {
  /* `worker` is the worker's script, and `wasm` the bytes of the machine's module. */
  constructor(worker, wasm) {
    this.address = URL.createObjectURL(new Blob([worker], { type: "text/javascript" }));
    this.module = WebAssembly.compile(wasm);
    this.module.catch(() => {});      // run() reports it
    this.worker = null;
  }

  get isRunning() { return this.worker !== null; }

  /* What the machine made of a script with this name: {records} or {answers}, each bytes, {failure} or {stopped}. */
  async run(script, name) {
    this.stop();
    let module;
    try {
      module = await this.module;
    } catch (error) {
      return { failure: "This browser can't run the machine: " + error.message };
    }
    return new Promise((resolve) => {
      const worker = this.worker = new Worker(this.address);
      const done = (result) => {
        worker.terminate();
        if (this.worker === worker) this.worker = null;
        resolve(result);
      };
      this.end = () => done({ stopped: true });
      worker.addEventListener("message", (event) => done(event.data));
      worker.addEventListener("error", (event) => {
        done({ failure: "The worker stopped: " + (event.message || "no reason was given") + "." });
      });
      worker.postMessage({ module, script, name });
    });
  }

  stop() { if (this.worker) this.end(); }
}
