/* Scales, labels, bins, rows, histories. */

import assert from "node:assert";
import { test } from "node:test";
import { History, Timeline, lastAtMost } from "../src/histories.js";
import { bins, heapScale, memoryRows, placeLabels, rulerStops } from "../src/layout.js";
import { KIND, bankedName, packFlags, unpackFlags } from "../src/names.js";
import { Trace } from "../src/replay.js";
import { SAMPLES, textOf } from "../support/samples.js";

test("the scale of a heap goes up, from 0 to 1, and back to the same offset", () => {
  let heaps = 0;
  for (const file of SAMPLES) for (const heap of new Trace(textOf(file)).heapList()) {
    const scale = heapScale(heap);
    let last = -1;
    heaps++;
    for (let offset = 0; offset <= scale.end; offset += Math.max(4, scale.end >> 12)) {
      const x = scale.at(offset);
      assert.ok(x >= last - 1e-9 && x <= 1 + 1e-9, `${file} ${offset}`);
      last = x;
    }
    assert.ok(Math.abs(scale.at(scale.end) - 1) < 1e-9);
    for (let offset = 0; offset < scale.used; offset += 8) {
      assert.ok(Math.abs(scale.offset(scale.at(offset) + 1e-9) - offset) <= 1, `${file} ${offset}`);
    }
  }
  assert.ok(heaps > 20);
});

test("labels stand side by side", () => {
  const labels = Array.from({ length: 60 }, (_, i) => ({ x: i * 37 % 500, width: 20 + i % 30 }));
  const rows = placeLabels(labels, 500, 4);
  for (const one of labels) {
    assert.ok(one.left >= 0 && one.left + one.width <= 500.01 && one.row < rows);
    for (const other of labels) if (one !== other && one.row === other.row) {
      assert.ok(one.left + one.width <= other.left || other.left + other.width <= one.left);
    }
  }
});

test("bins lose no kind of moment", () => {
  const kinds = Uint16Array.from({ length: 10007 }, (_, i) => i === 5000 ? KIND.FAIL : i % 13 ? 1 : 2);
  for (const width of [10, 300, 1400, 20000]) {
    const found = bins(kinds, width);
    assert.equal(found.length, width);
    assert.ok(found.some((kind) => kind & KIND.FAIL));
    assert.equal(found.reduce((all, kind) => all | kind), 1 | 2 | KIND.FAIL);
  }
});

test("ruler and rows of memory", () => {
  assert.deepEqual(rulerStops(0x9000, 256, 8), [0, 32, 64, 96, 128, 160, 192, 224]);
  assert.deepEqual(rulerStops(0x900C, 64, 8), [4, 20, 36, 52]);
  assert.deepEqual(memoryRows(new Set([0x9004, 0x9008, 0x9010, 0xA000])),
    [{ at: 0x9000, gap: false }, { at: 0x9010, gap: false }, { at: 0xA000, gap: true }]);
});

test("a history finds the last write and the next", () => {
  const history = new History(7);
  history.put(3, 1);
  history.put(9, 2);
  history.put(9, 5);
  assert.deepEqual([0, 2, 3, 8, 9, 99].map((moment) => history.valueAt(moment)), [7, 7, 1, 1, 5, 5]);
  assert.deepEqual([history.lastWrite(2), history.lastWrite(8), history.nextWrite(3), history.nextWrite(9)],
    [0, 3, 9, -1]);
  assert.deepEqual([history.writtenAt(0), history.writtenAt(3), history.writtenAt(4), history.before(9)],
    [false, true, false, 1]);
  assert.equal(lastAtMost([], 4), -1);
  const line = new Timeline("a");
  line.put(2, "b");
  line.put(2, "c");
  assert.deepEqual([line.valueAt(1), line.valueAt(2), line.changes()], ["a", "c", 1]);
});

test("registers by mode, and flags as bits", () => {
  assert.deepEqual([bankedName(3, "SVC"), bankedName(13, "SVC"), bankedName(12, "SVC"), bankedName(8, "FIQ"),
    bankedName(14, "USR")],
    ["R3", "R13_svc", "R12_usr", "R8_fiq", "R14_usr"]);
  const flags = { N: 1, Z: 0, C: 1, V: 0, I: 0, F: 1 };
  assert.deepEqual(unpackFlags(packFlags(flags, 0)), flags);
  assert.deepEqual(unpackFlags(packFlags({ N: 0 }, packFlags(flags, 0))), { ...flags, N: 0 });
});
