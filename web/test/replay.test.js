/* The replay against a naive one forwards, against old values that records have, and against what the machine itself
   answered to the script's own views. */

import assert from "node:assert";
import { test } from "node:test";
import { pointer } from "../src/pointers.js";
import { Trace } from "../src/replay.js";
import { VIEWS, compareMoments, compareViews } from "../support/compare.js";
import { END, SAMPLES, START, textFrom, textOf } from "../support/samples.js";

for (const file of SAMPLES) test("each moment is that of a naive replay: " + file, () => {
  const text = textOf(file), trace = new Trace(text);
  assert.equal(compareMoments(text, trace), trace.last + 1);
});

test("the machine's own views agree with the replay at their lines", () => {
  const compared = Object.fromEntries(Object.keys(VIEWS).map((name) => [name, 0]));
  for (const file of SAMPLES) compareViews(new Trace(textOf(file)), compared);
  for (const name of Object.keys(VIEWS)) assert.ok(compared[name] > 0, name + " was compared with nothing");
});

test("who wrote a word, and what became of its block", () => {
  const trace = new Trace(textOf("use-after-free.jsonl")), written = trace.words.get(0x9028);
  const step63 = trace.momentForStep(63);
  assert.equal(trace.stepOf[written.lastWrite(trace.last)], 63);
  assert.equal(trace.sourceOf[written.lastWrite(trace.last)], 33);
  const stale = pointer(trace, 0x9024, step63, trace.registers[6].lastWrite(step63));
  assert.deepEqual([stale.to, stale.was.number, stale.stay.block.number], ["stale", 2, 4]);
  assert.equal(pointer(trace, 0x9024, trace.last, trace.registers[6].lastWrite(trace.last)).to, "dead");
  const five = trace.registers[5].valueAt(step63);
  assert.deepEqual([pointer(trace, five, step63, 0).to, pointer(trace, 0x9000, step63, 0).to,
    pointer(trace, 0x90F0, step63, 0).to],
    ["block", "start", "free"]);
  assert.equal(pointer(trace, 0x8000, step63, 0), null);
});

test("a word that is loaded again with the same value counts as written", () => {
  const trace = new Trace(textOf("use-after-free.jsonl")), two = trace.registers[2];
  const same = two.at.findIndex((moment, i) => i > 0 && two.value[i] === two.value[i - 1]);
  assert.ok(same > 0);
  assert.ok(two.writtenAt(two.at[same]) && !two.changedAt(two.at[same]));
});

test("a block that is resized or moved keeps its number", () => {
  const tidy = new Trace(textOf("lesson-tidy.jsonl")).heaps.at(0x1800000);
  assert.deepEqual(tidy.blocks.map((block) => block.stays.length), [1, 2, 2, 1]);
  const churn = new Trace(textOf("churn.jsonl")).heaps.at(0x9000);
  const moved = churn.blocks.filter((block) => block.stays.some((stay) => stay.at !== block.stays[0].at));
  assert.ok(moved.length > 0);
  for (const block of churn.blocks) for (let i = 1; i < block.stays.length; i++) assert.equal(block.stays[i - 1].to, block.stays[i].from);
});

test("RESET makes a fresh machine", () => {
  const trace = new Trace(textOf("reset.jsonl")), line = trace.lines.find((each) => /^RESET/.test(each.text));
  assert.equal(trace.word(0x9000, line.last - 1), 0x12345678);
  assert.equal(trace.register(1, line.last - 1), 0xA000);
  assert.ok(trace.heaps.at(0xA000).thereAt(line.last - 1));
  assert.deepEqual([trace.register(1, line.last), trace.word(0x9000, line.last),
    trace.heaps.at(0xA000).thereAt(line.last)], [0, 0, false]);
  assert.equal(trace.heaps.at(0xA000).blocks.every((block) => block.died <= line.last), true);
});

test("the source line of each step is that of its address", () => {
  const trace = new Trace(textOf("notes.jsonl"));
  let seen = 0;
  for (let moment = 1; moment <= trace.last; moment++) {
    if (!trace.sourceOf[moment]) continue;
    const source = trace.sourceAt(trace.pcBefore[moment], moment);
    assert.equal(source.line, trace.sourceOf[moment]);
    assert.ok(trace.sources.get(source.line));
    seen++;
  }
  assert.ok(seen > 20);
  assert.equal(trace.nameOf(0x3800000, 1), "return gate");
});

const line = (number, text, ...records) => [{ line: number, text }, ...records];

test("steps that aren't listed are one moment", () => {
  const trace = new Trace(textFrom([START, ...line(1, "RUN",
    { step: 1, pc: 0x8000, word: 1, asm: "MOV R0,#1", regs: { R0: 1 } },
    { step: 9, skip: 8, regs: { R0: 7 }, next: 0x8010 }, { answer: 1, steps: 9 }), END]));
  assert.deepEqual([trace.gaps, trace.steps, trace.last], [8, 9, 2]);
  assert.deepEqual([2, 5, 9].map((step) => trace.momentForStep(step)), [2, 2, 2]);
  assert.deepEqual([trace.register(0, 2), trace.pcAfter[2]], [7, 0x8010]);
});

test("words past the 4,096 that a record lists aren't known until they are written", () => {
  const trace = new Trace(textFrom([START, ...line(1, "POKE &9000 1", { answer: 1, mem: [[0x9000, 0, 1]] }),
    ...line(2, "LOAD x", { step: 1, call: "LOAD x", mem: [[0xA000, 0, 5]], more: 9 }, { answer: 2, steps: 1 }),
    ...line(3, "POKE &9004 2", { answer: 3, mem: [[0x9004, 0, 2]] }), END]));
  assert.deepEqual([0, 1].map((moment) => trace.knows(0x9000, moment)), [true, true]);
  assert.deepEqual([trace.knows(0x9000, 2), trace.knows(0xA000, 2), trace.knows(0x9004, 2),
    trace.knows(0x9004, 3)], [false, true, false, true]);
});

test("a step that leaves a frame and enters another", () => {
  const entry = (frame, module) =>
    ({ frame, entry: "Finalise", module, instance: "Base", caller: null, mode: "SVC", sp: 0x1C02000 });
  const trace = new Trace(textFrom([START, ...line(1, "CALL &1E",
    { step: 1, call: "CALL &1E", enters: entry(1, "A"), next: 0x9000 },
    { step: 2, pc: 0x9000, asm: "MOV PC,R14", leaves: 1, enters: entry(1, "B"), next: 0x9100 },
    { step: 3, pc: 0x9100, asm: "MOV PC,R14", leaves: 1, next: 0x8000 }, { answer: 1, steps: 3 }), END]));
  assert.deepEqual([1, 2, 3].map((moment) => trace.framesAt(moment).map((frame) => frame.module)),
    [["A"], ["B"], []]);
});
