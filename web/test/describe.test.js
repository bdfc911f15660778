/* What moments are in words. */

import assert from "node:assert";
import { test } from "node:test";
import { blockLife, sentence, whenText, wordText } from "../src/describe.js";
import { FORMATS } from "../src/format.js";
import { momentNamed, nameMoment, readFragment, writeFragment } from "../src/fragment.js";
import { Trace } from "../src/replay.js";
import { SAMPLES, textOf } from "../support/samples.js";

test("each moment of each sample has a sentence, in each form", () => {
  for (const file of SAMPLES) {
    const trace = new Trace(textOf(file));
    for (let moment = 0; moment <= trace.last; moment++) for (const format of FORMATS) {
      const text = sentence(trace, moment, format);
      assert.match(text, /^(The start|Step [\d,]+ of [\d,]+|Line \d+)(\.|[.,] .*\.)$/s, file + " " + moment);
      assert.doesNotMatch(text, /undefined|NaN|null|\[object|Infinity/, file + " " + moment);
    }
  }
});

/* By hand, from the script: line 33 stores 99 to &9028, where "oooo" stood. */
test("sentences of a use after free", () => {
  const trace = new Trace(textOf("use-after-free.jsonl"));
  const at = (step) => sentence(trace, trace.momentForStep(step), "hex");
  assert.equal(at(63), "Step 63 of 108, line 33. STR R0,[R6,#4]. [9028] 00000063, was 6F6F6F6F.");
  assert.equal(at(1), "Step 1 of 108, line 5. MOV R13,#&A000. R13 0000A000, was 00000000.");
  assert.equal(at(5), "Step 5 of 108, line 9. SWI OS_Heap. Initialise; heap &9000 made, 256 bytes.");
  assert.match(at(12), /^Step 12 of 108, line 47\. SWI OS_Heap\. Get; R2 00009014, was 00000000; #1 claimed &9014, 12 bytes\.$/);
  assert.equal(sentence(trace, trace.momentForStep(63), "dec"),
    "Step 63 of 108, line 33. STR R0,[R6,#4]. [9028] 99, was 1869573999.");
  assert.equal(sentence(trace, trace.momentForLine(65), "hex").split(". ")[1], 'EXPECT OUTPUT "Helloooo\\n\\r"');
});

test("the life of a block and of a word", () => {
  const trace = new Trace(textOf("use-after-free.jsonl")), step = (n) => trace.momentForStep(n);
  const [, second] = trace.heaps.blocks;
  assert.match(blockLife(trace, second, step(30)),
    /^claimed at step \d+, line 47, will be freed at step \d+, line 25$/);
  assert.match(blockLife(trace, second, trace.last), /, freed at step \d+, line 25$/);
  assert.equal(whenText(trace, 0), "at the start");
  const text = wordText(trace, 0x9028, step(70));
  assert.match(text, /^&9028\n00000063 {2}99 {2}c···\nlast written at step 63, line 33$/);
});

test("addresses of moments", () => {
  const trace = new Trace(textOf("use-after-free.jsonl"));
  const named = (text) => momentNamed(trace, readFragment(text));
  assert.deepEqual([named("#step=63"), named("#step=0"), named("#step=99999"), named("#line=65"),
    named("#step=x"), named("")],
    [trace.momentForStep(63), 0, trace.momentForStep(108), trace.momentForLine(65), -1, -1]);
  const parts = readFragment("#script=abc_-&step=3");
  assert.equal(writeFragment(nameMoment(trace, trace.momentForStep(63), parts)), "#script=abc_-&step=63");
  assert.equal(writeFragment(nameMoment(trace, trace.momentForLine(65), new Map())), "#line=65");
  for (let moment = 0; moment <= trace.last; moment++) {
    const hash = writeFragment(nameMoment(trace, moment, new Map()));
    assert.equal(named(hash), moment, hash);
  }
});
