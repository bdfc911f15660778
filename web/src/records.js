/* Reads JSON Lines, and checks each record: what isn't a record of the format ends in a message with its line.
   Pure. */

import { FLAGS, MODES, REGISTER_INDEX } from "./names.js";

export class BadRecords extends Error {}

const isNumber = (v) => typeof v === "number" && v >= 0 && v <= 0xFFFFFFFF && Number.isInteger(v);
const isCount = (v) => typeof v === "number" && v >= 0 && Number.isSafeInteger(v);
/* A budget may have 64 bits: what it is to the last step isn't looked at here. */
const isBudget = (value) => Number.isInteger(value) && value >= 0;
const isText = (v) => typeof v === "string";
const isTrue = (v) => v === true;
const isObject = (v) => v !== null && typeof v === "object" && !Array.isArray(v);
const orNull = (test) => (v) => v === null || test(v);
const listOf = (test) => (v) => {
  if (!Array.isArray(v)) return false;
  for (const each of v) if (!test(each)) return false;
  return true;
};
const tuple = (...tests) => (v) => Array.isArray(v) && v.length === tests.length
  && tests.every((test, i) => test(v[i]));
/* An object: fields that have to be there, and fields that may. */
const fields = (needed, others = {}) => (v) => {
  if (!isObject(v)) return false;
  for (const name in needed) if (!(name in v)) return false;
  for (const name in v) {
    const test = Object.hasOwn(needed, name) ? needed[name] : Object.hasOwn(others, name) ? others[name] : null;
    if (!test || !test(v[name])) return false;
  }
  return true;
};
const mapOf = (keyTest, valueTest) => (v) => {
  if (!isObject(v)) return false;
  for (const key in v) if (!keyTest(key) || !valueTest(v[key])) return false;
  return true;
};
const either = (...tests) => (v) => tests.some((test) => test(v));
const oneOf = (...values) => (v) => values.includes(v);

const isMode = (v) => MODES.includes(v);
const isBit = oneOf(0, 1);
const isRegisters = mapOf((name) => REGISTER_INDEX.has(name), isNumber);
const isFlags = mapOf((name) => name.length === 1 && FLAGS.includes(name), isBit);
const isWritten = listOf(tuple(isNumber, isNumber, isNumber));
const isPairs = listOf(tuple(isNumber, isNumber));
const isItem = either(tuple(oneOf("+", "-"), oneOf("live", "free"), isNumber, isNumber),
  tuple(oneOf("="), oneOf("live"), isNumber, isNumber, isNumber, isNumber));
const isHeaps = listOf(fields({ heap: isNumber },
  { made: isTrue, gone: isTrue, base: isNumber, end: isNumber, items: listOf(isItem) }));
const isFlex = listOf(either(tuple(oneOf("-"), isNumber), tuple(oneOf("+"), isNumber, isNumber, isNumber),
  tuple(oneOf("="), isNumber, isNumber, isNumber, isNumber, isNumber)));
const isFlexStore = orNull(fields({ start: isNumber, end: isNumber, used: isNumber }));
const isAreas = listOf(fields({ area: isNumber, base: isNumber, size: isNumber, max: isNumber, name: isText }));
const isInstances = listOf(fields({ name: isText, word: isNumber, preferred: (v) => typeof v === "boolean" }));
const isModules = listOf(fields({ title: isText, at: isNumber, length: isNumber, instances: isInstances }));
const isPlaces = listOf(tuple(isText, orNull(isNumber)));
const isStop = fields({ reason: isText }, { error: isNumber, name: isText, pc: isNumber });
const isError = fields({ number: isNumber }, { name: isText });
const isSwi = fields({ number: isNumber }, {
  x: isTrue, name: isText, reason: isNumber, does: isText, args: listOf(isText), strings: mapOf(isText, isText) });
const isEntry = fields({ frame: isNumber, entry: isText, module: isText, instance: isText,
  caller: orNull(isNumber), mode: isMode, sp: isNumber }, { swi: isNumber });
const isImage = fields({ name: isText, origin: isNumber, length: isNumber },
  { labels: mapOf(isText, isNumber), lines: listOf(tuple(isNumber, isNumber, isNumber)) });
const isSizes = fields({ pages: isNumber, app: isNumber, rma: isNumber });

const STATE = { regs: isRegisters, flags: isFlags, mode: isMode, pc: isNumber, mapped: isPairs, mem: isWritten,
  heaps: isHeaps, areas: isAreas, pool: isNumber, flex: isFlexStore, modules: isModules };
const CHANGES = { regs: isRegisters, flags: isFlags, mode: isMode, mem: isWritten, more: isCount, heaps: isHeaps,
  flex: isFlex, flex_store: isFlexStore, areas: isAreas, pool: isNumber, modules: isModules, places: isPlaces };

/* Each kind of record: the fields that it has to have, and those that it may have. */
const KINDS = {
  start: fields({ start: isCount, name: isText, sizes: isSizes, budget: isBudget, ...STATE },
    { limit: isCount }),
  line: fields({ line: isCount, text: isText }, { block: listOf(isText), repeat: isCount }),
  step: fields({ step: isCount }, { ...CHANGES, pc: isNumber, call: isText, word: isNumber, asm: isText,
    skip: isCount, skipped: isTrue, stub: isTrue, swi: isSwi, reads: isPairs, next: isNumber, error: isError,
    enters: isEntry, leaves: isCount, out: isText, stop: isStop }),
  answer: fields({ answer: isCount }, { ...CHANGES, remark: isTrue, steps: isCount, text: isText, refused: isTrue,
    pc: isNumber, expect: fields({ pass: (v) => typeof v === "boolean" }, { is: isText }), stop: isStop,
    error: isNumber, image: isImage, reset: fields(STATE) }),
  end: fields({ end: isCount }, { passed: isCount, failed: isCount, refused: isCount, status: isCount }),
};

function firstKey(record) {
  for (const key in record) return key;
  return "";
}

function parsed(line, number) {
  let record;
  try {
    record = JSON.parse(line);
  } catch {
    throw new BadRecords(`Record ${number} isn't whole: it can't be read as JSON.`);
  }
  const kind = isObject(record) ? firstKey(record) : "";
  if (!Object.hasOwn(KINDS, kind)) throw new BadRecords(`Record ${number} is of no known kind.`);
  if (!KINDS[kind](record)) {
    throw new BadRecords(`Record ${number}, of kind ${kind}, has fields that the format doesn't have.`);
  }
  return { record, kind };
}

/* What each kind of record has to come after. */
class Order {
  constructor() { this.line = null; this.started = false; this.ended = false; }

  check(record, kind, number) {
    const bad = (why) => { throw new BadRecords(`Record ${number}, of kind ${kind}, ${why}.`); };
    if (this.ended) bad("stands after the end");
    if ((kind === "start") === this.started) bad(this.started ? "stands behind another start"
      : "stands before the start");
    const isOther = kind === "start" && record.start !== 1;
    if (isOther) bad(`is of version ${record.start} of the format; this viewer reads version 1`);
    if (kind === "line" && this.line) bad(`stands before the answer to line ${this.line.line}`);
    if (kind === "step" && !this.line) bad("belongs to no line");
    if (kind === "step" && record.pc === undefined && record.call === undefined && record.skip === undefined) {
      bad("has no address");
    }
    if (kind === "answer" && (!this.line || this.line.line !== record.answer)) bad("answers no line that was there");
    this.started = true;
    if (kind === "line") this.line = record;
    if (kind === "answer") this.line = null;
    if (kind === "end") this.ended = true;
  }
}

/* All records of a text, in order: {record, kind, from, to}, with where each stands in it. */
export function* recordsOf(text) {
  const order = new Order();
  let at = 0, number = 0;
  while (at < text.length) {
    let to = text.indexOf("\n", at);
    if (to < 0) to = text.length;
    if (to > at) {
      number++;
      const { record, kind } = parsed(text.slice(at, to), number);
      order.check(record, kind, number);
      yield { record, kind, from: at, to };
    }
    at = to + 1;
  }
  if (!order.ended) throw new BadRecords(`The records aren't whole: after record ${number} the end is missing.`);
}
