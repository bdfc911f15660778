/* What a replay is compared with: a naive one, moment by moment, and what the machine itself answered to the script's own
   views. */

import assert from "node:assert";
import { REGISTERS } from "../src/names.js";
import { statesOf } from "./naive.js";
import { recordsIn } from "./samples.js";

/* So many values are compared of a run; of a longer one not each moment is. */
const MOST_VALUES = 500000;

function compareHeaps(trace, state, moment) {
  for (const [at, heap] of state.heaps) {
    const found = trace.heaps.at(at), limits = found.limitsAt(moment);
    assert.deepEqual([limits.there, limits.base, limits.end], [true, heap.base, heap.end]);
    const items = [...heap.items].map(([place, [kind, size]]) => [place, kind, size]).sort((a, b) => a[0] - b[0]);
    assert.deepEqual(found.itemsAt(moment).map((item) => [item.at, item.kind, item.size]), items,
      "heap at " + moment);
  }
  const there = trace.heapList().filter((heap) => !heap.flex && heap.thereAt(moment)).map((heap) => heap.address);
  assert.deepEqual(there.sort(), [...state.heaps.keys()].sort(), "heaps at " + moment);
}

function compareFlex(trace, state, moment) {
  const store = trace.heaps.store(), items = store ? store.itemsAt(moment) : [];
  const found = items.map((item) => [item.anchor, [store.payload(item), item.bytes]]).sort((a, b) => a[0] - b[0]);
  assert.deepEqual(found, [...state.flex].sort((a, b) => a[0] - b[0]), "flex at " + moment);
}

function compareMoment(trace, state, moment) {
  REGISTERS.forEach((name, i) =>
    assert.equal(trace.registers[i].valueAt(moment), state.regs[name] || 0, name + " at " + moment));
  assert.deepEqual(trace.flagsAt(moment), state.flags);
  assert.equal(trace.modeAt(moment), state.mode);
  assert.equal(trace.pcAfter[moment], state.pc, "pc at " + moment);
  assert.equal(trace.outputTo(moment), state.output);
  for (const [at, word] of state.mem) if (trace.knows(at, moment)) assert.equal(trace.word(at, moment), word,
    `[${at.toString(16)}] at ${moment}`);
  assert.equal(trace.framesAt(moment).length, state.frames.length);
  assert.deepEqual(trace.areas.valueAt(moment), state.areas);
  assert.equal(trace.pool.valueAt(moment), state.pool);
  assert.deepEqual(trace.modules.valueAt(moment), state.modules);
  compareHeaps(trace, state, moment);
  compareFlex(trace, state, moment);
}

/* Each moment of records against the naive replay, or in a long run some of them and the last. */
export function compareMoments(text, trace) {
  let moment = 0, compared = 0, due = 0;
  for (const state of statesOf(recordsIn(text))) {
    assert.equal(state.wrong, null, "moment " + moment);
    due += MOST_VALUES / (trace.last + 1) / (state.mem.size + state.output.length + 60);
    if (due >= 1 || compared === 0 || moment === trace.last) {
      compareMoment(trace, state, moment);
      due = Math.min(due, 1) - 1;
      compared++;
    }
    moment++;
  }
  assert.equal(moment, trace.last + 1);
  return compared;
}

const number = (digits) => parseInt(digits, 16);

/* How each view's answer is compared; each answers how many values it compared. */
export const VIEWS = {
  REGS(trace, line, moment) {
    const found = [...line.answer.matchAll(/R(\d+) +([0-9A-F]{8})/g)];
    for (const [, n, value] of found) {
      if (n === "15") assert.equal(trace.pcAfter[moment], number(value) & 0x3FFFFFC);
      else assert.equal(trace.register(Number(n), moment), number(value), `line ${line.line} R${n}`);
    }
    return found.length;
  },
  BANKS(trace, line, moment) {
    const found = [...line.answer.matchAll(/(R\d+_\w+) ([0-9A-F]{8})/g)];
    for (const [, name, value] of found) assert.equal(trace.historyOf(name).valueAt(moment), number(value), name);
    return found.length;
  },
  HEAP(trace, line, moment) {
    if (!line.answer.startsWith("heap")) return 0;
    const [, at, base, end] = /heap (\w+) base (\d+) end (\d+)/.exec(line.answer);
    const heap = trace.heaps.at(number(at));
    const items = heap.itemsAt(moment).map((item) =>
      `${item.kind} ${item.at.toString(16).toUpperCase().padStart(8, "0")} ${item.size}`);
    assert.deepEqual(items, line.answer.split("\n").slice(1));
    assert.deepEqual([heap.limitsAt(moment).base, heap.limitsAt(moment).end], [Number(base), Number(end)]);
    return 1;
  },
  FLEX(trace, line, moment) {
    const found = [...line.answer.matchAll(/anchor (\w+) at (\w+) size (\d+)/g)], store = trace.heaps.store();
    if (!found.length) return 0;
    assert.deepEqual(store.itemsAt(moment).map((item) => [item.anchor, store.payload(item), item.bytes]),
      found.map(([, anchor, at, size]) => [number(anchor), number(at), Number(size)]));
    return 1;
  },
  WORDS(trace, line, moment) {
    for (const row of line.answer.split("\n")) {
      const [at, words] = row.split(":");
      words.trim().split(" ").forEach((word, i) => {
        if (word !== "--------") assert.equal(trace.word(number(at) + 4 * i, moment), number(word));
      });
    }
    return 1;
  },
  MEM(trace, line, moment) {
    for (const row of line.answer.split("\n")) {
      const [start, bytes] = row.split(":");
      bytes.trim().split(" ").forEach((byte, i) => {
        const at = number(start) + i, word = trace.word(at - at % 4, moment);
        if (byte !== "--") assert.equal(word >>> 8 * (at % 4) & 255, number(byte));
      });
    }
    return 1;
  },
  FRAMES(trace, line, moment) {
    assert.equal(trace.framesAt(moment).length, (line.answer.match(/^frame /gm) || []).length);
    return 1;
  },
  EXPECT(trace, line, moment) {
    const found = /^EXPECT R(\d+) (&[0-9A-F]+|\d+)(?:\s|$)/i.exec(line.text.trim());
    if (!line.expect.pass || !found) return 0;
    const value = found[2][0] === "&" ? number(found[2].slice(1)) : Number(found[2]);
    assert.equal(trace.register(Number(found[1]), moment), value);
    return 1;
  },
};

/* The views of a script against the replay at their lines; `compared` counts values by the views' names. */
export function compareViews(trace, compared) {
  for (const line of trace.lines) {
    const name = line.text.trim().split(/\s+/)[0].toUpperCase();
    if (Object.hasOwn(VIEWS, name) && line.last >= 0 && line.answer && !line.refused) {
      compared[name] += VIEWS[name](trace, line, line.last);
    }
  }
}
