/* Names of the machine: registers, flags, modes, and the kinds of moments. Pure. */

/* All registers by physical name: R0 to R7, then those of each bank. */
export const REGISTERS = (() => {
  const names = [];
  for (let n = 0; n < 8; n++) names.push("R" + n);
  const firstOfBank = { usr: 8, fiq: 8, irq: 13, svc: 13 };
  for (const bank in firstOfBank) for (let n = firstOfBank[bank]; n < 15; n++) names.push("R" + n + "_" + bank);
  return names;
})();
export const REGISTER_INDEX = new Map(REGISTERS.map((name, index) => [name, index]));
export const FLAGS = "NZCVIF";
export const MODES = ["USR", "FIQ", "IRQ", "SVC"];

/* The bits of R15 that are an address; the others are flags and mode. */
export const ADDRESS_BITS = 0x3FFFFFC;
/* Module code goes back to its caller through this address. */
export const RETURN_GATE = 0x3800000;
export const MODULE_AREA = 0x1800000;
/* System memory: its first two pages are the supervisor's stack, and the third has the error block. */
export const SYSTEM_START = 0x1C00000;
export const SYSTEM_END = 0x1C03000;
export const PAGE_BYTES = 4096;

/* What a moment is and did, as bits. */
export const KIND = {
  STEP: 1, SWI: 2, HEAP: 4, PRINT: 8, FAIL: 16, ERROR: 32, STOP: 64, SKIPPED: 128,
  STORE: 256, FRAME: 512, RESET: 1024, PASS: 2048, GAP: 4096, REFUSED: 8192,
};

/* The physical name of Rn in a mode: R13 in SVC is "R13_svc". */
export function bankedName(n, mode) {
  if (n < 8) return "R" + n;
  const own = "R" + n + "_" + mode.toLowerCase();
  return REGISTER_INDEX.has(own) ? own : "R" + n + "_usr";
}

/* Flags as bits, N the lowest: those that are given, over the old ones. */
export function packFlags(given, old) {
  let bits = old;
  for (let i = 0; i < FLAGS.length; i++) {
    if (FLAGS[i] in given) bits = given[FLAGS[i]] ? bits | 1 << i : bits & ~(1 << i);
  }
  return bits;
}

export function unpackFlags(bits) {
  const flags = {};
  for (let i = 0; i < FLAGS.length; i++) flags[FLAGS[i]] = bits >> i & 1;
  return flags;
}
