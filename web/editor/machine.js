/* The machine's module: calls of its library with bytes of the page. It works in a page, in a worker and in node. */

/* The sizes and the budget that the program has where its command line names none. */
export const USUAL = { pages: 256, app: 64, rma: 16, budget: 1000000 };
/* Room that is lent first, in bytes: of answers, and of records, of which 100,000 steps take about 10 MB. */
const ROOM_FOR_ANSWERS = 1 << 20, ROOM_FOR_RECORDS = 1 << 24;
const LONGEST_SCRIPT = 1 << 20;
const NOT_RUN = 4;

export class MachineError extends Error {}

export class Machine {
  constructor(module) { this.exports = new WebAssembly.Instance(module, {}).exports; }

  get hasRecords() { return typeof this.exports.rosm_records === "function"; }

  /* Room in the module's memory. */
  take(bytes) {
    const at = this.exports.take(Math.max(1, bytes));
    if (!at) throw new MachineError(`There is no memory for ${bytes} bytes.`);
    return at;
  }

  put(bytes) {
    const at = this.take(bytes.length);
    new Uint8Array(this.exports.memory.buffer).set(bytes, at);
    return at;
  }

  read(at, length) { return new Uint8Array(this.exports.memory.buffer, at, length).slice(); }

  readCount(at) { return Number(new DataView(this.exports.memory.buffer).getBigUint64(at, true)); }

  /* Lends room to a call and answers what it wrote; where all of it doesn't fit, once more with enough.
     `call` gets the room's address, its bytes, and where it says how many all are; it answers a status. */
  withRoom(bytes, call) {
    const out = this.take(bytes), written = this.take(8);
    const status = call(out, BigInt(bytes), written), length = this.readCount(written);
    const result = length <= bytes ? { status, bytes: this.read(out, length) } : null;
    this.exports.give(out);
    this.exports.give(written);
    return result || this.withRoom(length, call);
  }

  checkLength(script) {
    if (script.length > LONGEST_SCRIPT) {
      throw new MachineError(`The script has ${script.length} bytes; the machine takes at most ${LONGEST_SCRIPT}.`);
    }
  }

  checkStatus(status) {
    if (status === NOT_RUN) throw new MachineError("The script wasn't run whole: memory ran out.");
  }

  /* What `rosm` answers to a script: {status, bytes}. */
  answers(script, { pages, app, rma, budget } = USUAL) {
    this.checkLength(script);
    const at = this.put(script);
    const result = this.withRoom(ROOM_FOR_ANSWERS, (out, room, written) =>
      this.exports.rosm_run(pages, app, rma, BigInt(budget), at, BigInt(script.length), out, room, written));
    this.checkStatus(result.status);
    return result;
  }

  /* The records of a debugging script of this name, as `rosm_debug --json` writes them: {status, bytes}. */
  records(script, name, { pages, app, rma, budget } = USUAL) {
    this.checkLength(script);
    const title = new TextEncoder().encode(name), titleAt = this.put(title), at = this.put(script);
    const result = this.withRoom(ROOM_FOR_RECORDS, (out, room, written) => this.exports.rosm_records(pages, app, rma,
      BigInt(budget), titleAt, BigInt(title.length), at, BigInt(script.length), out, room, written));
    this.checkStatus(result.status);
    return result;
  }
}
