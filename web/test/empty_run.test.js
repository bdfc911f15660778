/* Runs of empty memory behind a block with errors, of records that are written here by hand. */

import assert from "node:assert";
import { test } from "node:test";
import { emptyRun, emptyRunText } from "../src/empty_run.js";
import { Trace } from "../src/replay.js";
import { END, START, textFrom } from "../support/samples.js";

const BLOCK = [{ line: 1, text: "ASM p &8000", block: [" MOVE R0,R1", "END"] },
  { answer: 1, text: "asm p: line 1: Syntax", refused: true }];
const BOOT = [{ line: 4, text: "BOOT p" }, { answer: 4, text: "refused NoImage", refused: true }];
const RUN = [{ line: 5, text: "RUN" }, { step: 1, pc: 0x8000, word: 0, asm: "ANDEQ R0,R0,R0", skipped: true },
  { answer: 5, steps: 1, text: "stop Budget", stop: { reason: "Budget" } }];
const traceOf = (...records) => new Trace(textFrom([START, ...records.flat(), END]));

test("a run behind a block with errors ran empty memory", () => {
  const found = emptyRun(traceOf(BLOCK, BOOT, RUN));
  assert.deepEqual([found.block.line, found.line.line], [1, 5]);
  assert.equal(emptyRunText(found), "p has errors (line 1), so line 5 ran empty memory: correct p first.");
});

test("without a run, or without a block with errors, none did", () => {
  assert.equal(emptyRun(traceOf(BLOCK, BOOT)), null);
  assert.equal(emptyRun(traceOf(RUN)), null);
});

test("a block of the same name that was made since takes its place", () => {
  const made = [{ line: 4, text: "ASM p &8000", block: [" MOV R0,R1", "END"] },
    { answer: 4, text: "asm p: 4 bytes", image: { name: "p", length: 4, origin: 0x8000, labels: {}, lines: [[5, 0, 4]] } }];
  assert.equal(emptyRun(traceOf(BLOCK, made, RUN)), null);
});

test("where another program is, its run is none of empty memory", () => {
  const put = [{ line: 4, text: "POKE &8000 1" }, { answer: 4, text: "ok", mem: [[0x8000, 0, 1]] }];
  assert.equal(emptyRun(traceOf(BLOCK, put, RUN)), null);
});

test("a call from outside goes nowhere from the program counter", () => {
  const call = [{ line: 4, text: "CALL &1D" }, { step: 1, call: "CALL &1D" }, { answer: 4, steps: 1, text: "ok" }];
  assert.equal(emptyRun(traceOf(BLOCK, call)), null);
});
