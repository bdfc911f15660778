/* Records that are cut, changed or not records at all: each ends in a message, and none in anything else. */

import assert from "node:assert";
import { test } from "node:test";
import { sentence } from "../src/describe.js";
import { BadRecords } from "../src/records.js";
import { Trace } from "../src/replay.js";
import { END, SAMPLES, START, textFrom, textOf } from "../support/samples.js";

const isMessage = (error) => error instanceof BadRecords && /^(Record|The records) .*\.$/.test(error.message);

for (const file of ["debug-sum.jsonl", "fault.jsonl", "reset.jsonl",
  "lesson-areas.jsonl"]) test("cut at each byte: " + file, () => {
  const text = textOf(file), whole = text.trimEnd().length;
  for (let length = 0; length < whole; length++) {
    assert.throws(() => new Trace(text.slice(0, length)), isMessage, "cut at " + length);
  }
  assert.ok(new Trace(text.slice(0, whole)));
});

test("cut at some bytes of the others", () => {
  for (const file of SAMPLES) {
    const text = textOf(file);
    for (let length = 7; length < text.trimEnd().length; length += 997) assert.throws(() =>
      new Trace(text.slice(0, length)), isMessage);
  }
});

test("records in a wrong order, of another version, or of no kind", () => {
  const line = { line: 1, text: "STEP" }, step = { step: 1, pc: 0x8000, asm: "x" }, answer = { answer: 1 };
  const bad = (...records) => assert.throws(() => new Trace(textFrom(records)), isMessage);
  bad(line, answer, END);
  bad(START, START, END);
  bad(START, step, END);
  bad(START, answer, END);
  bad(START, line, line, answer, END);
  bad(START, line, { answer: 2 }, END);
  bad(START, END, line);
  bad({ ...START, start: 2 }, END);
  bad({ ...START, pc: -1 }, END);
  bad({ ...START, mode: "ABT" }, END);
  bad(START, line, { ...step, regs: { R15: 1 } }, answer, END);
  bad(START, line, { ...step, regs: { R0: 2 ** 32 } }, answer, END);
  bad(START, line, { ...step, heaps: [{ heap: 1, items: [["*", "live", 1, 1]] }] }, answer, END);
  bad(START, line, { step: 1 }, answer, END);
  bad(START, line, { ...step, unknown: 1 }, answer, END);
  bad(START, ["line"], END);
  assert.ok(new Trace(textFrom([START, line, step, answer, END])));
});

/* Random numbers that are the same each time. */
function* numbers(seed) {
  for (let state = seed; ;) {
    state ^= state << 13; state ^= state >>> 17; state ^= state << 5;
    yield state >>> 0;
  }
}

/* Whatever is read, each moment of it has a sentence, and its views answer. */
function lookAtAll(trace) {
  for (let moment = 0; moment <= trace.last; moment++) {
    sentence(trace, moment, "hex");
    for (const heap of trace.heapList()) { heap.itemsAt(moment); heap.sumsAt(moment); }
    trace.framesAt(moment);
    for (let n = 0; n < 16; n++) trace.register(n, moment);
  }
}

test("bytes that are changed at random end in a message, or in records that can be shown", () => {
  const random = numbers(2463534242), next = () => random.next().value;
  let shown = 0, refused = 0;
  for (let round = 0; round < 1500; round++) {
    const letters = textOf(SAMPLES[next() % SAMPLES.length]).slice(0, 40000).split("");
    for (let i = next() % 4; i >= 0; i--) {
      const at = next() % letters.length;
      if (next() % 3) letters[at] = String.fromCharCode(32 + next() % 95); else letters.splice(at, next() % 30);
    }
    try { lookAtAll(new Trace(letters.join(""))); shown++; } catch (error) {
      assert.ok(isMessage(error), error.stack);
      refused++;
    }
  }
  assert.ok(shown > 10 && refused > 100, `${shown} shown, ${refused} with a message`);
});

test("lines that are dropped, doubled or exchanged do likewise", () => {
  const random = numbers(88675123), next = () => random.next().value;
  for (let round = 0; round < 600; round++) {
    const lines = textOf(SAMPLES[next() % SAMPLES.length]).trimEnd().split("\n").slice(0, 400);
    const at = next() % lines.length, to = next() % lines.length;
    if (next() % 3 === 0) lines.splice(at, 1);
    else if (next() % 2) lines.splice(at, 0, lines[to]);
    else [lines[at], lines[to]] = [lines[to], lines[at]];
    try { lookAtAll(new Trace(lines.join("\n"))); } catch (error) { assert.ok(isMessage(error), error.stack); }
  }
});
