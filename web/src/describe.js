/* What a moment did, as a list of effects and as a sentence. Pure. */

import { FLAGS, KIND, MODES, bankedName, unpackFlags } from "./names.js";
import { address, count, hex, plural, quoted, readable, sourceParts, withoutComment, word } from "./format.js";

/* Words written that are listed one by one; the others are counted. */
const WORDS_LISTED = 6;
/* A line's answer is an effect of its own where it is at most so long. */
const SHORT_ANSWER = 60;

/* What was carried out: the instruction as it was typed, or the line of the script. */
function whatWasDone(trace, moment, record) {
  if (moment === 0) return "the start";
  if (!(trace.kind[moment] & KIND.STEP)) return withoutComment(readable(trace.lineAt(moment).text));
  if (record.skip !== undefined) return plural(record.skip, "step") + " not listed";
  if (record.call !== undefined) return readable(record.call);
  const source = trace.sources.get(trace.sourceOf[moment]);
  if (source === undefined) return record.asm || "";
  const parts = sourceParts(readable(source));
  return (parts.op + " " + parts.operands).trim() || record.asm || "";
}

function swiEffects(record, text) {
  const swi = record.swi;
  if (!swi || !swi.name) return [];
  const strings = swi.strings ? " " + Object.values(swi.strings).map(quoted).join(" ") : "";
  const does = swi.does ? swi.does + strings : strings.trim();
  if (text.includes(swi.name)) return does ? [{ what: does }] : [];
  return [{ what: (swi.x ? "X" : "") + swi.name + (swi.does ? " " + swi.does : "") + strings }];
}

function registerEffects(trace, moment, record, format) {
  const mode = trace.modeAt(moment), effects = [];
  for (const name in record.regs || {}) {
    const isGoingOn = name === "R14_svc" && record.swi && !record.enters;   // each SWI leaves its way back there
    if (isGoingOn) continue;
    const before = trace.historyOf(name).before(moment), now = record.regs[name];
    if (before === now && record.swi) continue;
    let what = name;
    for (let n = 8; n < 15; n++) if (bankedName(n, mode) === name) what = "R" + n;
    effects.push({ register: name, what, now: word(now, format), was: before === now ? null : word(before, format) });
  }
  return effects;
}

function flagEffects(trace, moment, record) {
  const effects = [];
  const after = trace.psr.valueAt(moment), before = moment ? trace.psr.before(moment) : after;
  const now = unpackFlags(after), was = unpackFlags(before);
  if (record.flags) for (const flag of FLAGS) if (now[flag] !== was[flag]) {
    effects.push({ what: flag, now: String(now[flag]), was: String(was[flag]) });
  }
  if (record.mode) effects.push({ what: "mode", now: record.mode, was: MODES[trace.mode.before(moment)] });
  return effects;
}

/* Words that were written. Those of a call on a heap are its own: its blocks show them. */
function wordEffects(trace, moment, record, format) {
  if (!record.mem || record.heaps || record.flex || record.error) return [];
  const effects = record.mem.slice(0, WORDS_LISTED).map(([at, old, now]) => ({
    word: at, what: "[" + (trace.nameOf(at, moment) || hex(at)) + "]", now: word(now, format),
    was: old === now ? null : word(old, format) }));
  const others = record.mem.length - effects.length + (record.more || 0);
  if (others > 0) effects.push({ what: "and " + plural(others, "word") + " more" });
  return effects;
}

function itemEffect(heap, item, moment) {
  const at = item[0] === "=" ? item[4] : item[2];
  const stay = heap.stays.find((each) => each.kind === "live" && each.at === at &&
    (item[0] === "-" ? each.to === moment : each.from === moment));
  const block = stay && stay.block ? stay.block : null, name = block ? "#" + block.number : "block";
  const bytes = (size) => plural(size - 4, "byte");
  if (item[0] === "+") return { block, what: name + " claimed", now: address(item[2] + 4) + ", " + bytes(item[3]) };
  if (item[0] === "-") return { block, what: name + " freed" };
  return item[2] === item[4]
    ? { block, what: name + " resized", now: bytes(item[5]), was: count(item[3] - 4) }
    : { block, what: name + " moved", now: address(item[4] + 4), was: address(item[2] + 4) };
}

function heapEffects(trace, moment, record) {
  const effects = [];
  for (const change of record.heaps || []) {
    const heap = trace.heaps.at(change.heap), name = "heap " + address(change.heap);
    if (change.gone) effects.push({ what: name + " gone" });
    else if (change.made) effects.push({ what: name + " made, " + plural(change.end || 0, "byte") });
    else if (change.end !== undefined) effects.push({ what: name + " resized", now: plural(change.end, "byte") });
    for (const item of change.items || []) if (item[1] === "live") effects.push(itemEffect(heap, item, moment));
  }
  return effects;
}

function flexEffects(trace, moment, record) {
  const effects = [];
  const store = record.flex_store;
  if (store) effects.push({ what: "flex store", now: plural(store.end - store.start, "byte") });
  for (const change of record.flex || []) {
    const anchor = "anchor " + (trace.nameOf(change[1], moment) || address(change[1])) + ": block ";
    if (change[0] === "-") effects.push({ what: anchor + "gone" });
    const now = address(change[2]) + ", " + plural(change[3], "byte");
    if (change[0] === "+") effects.push({ what: anchor + "made", now });
    if (change[0] === "=" && change[2] === change[4]) {
      effects.push({ what: anchor + "resized", now: plural(change[3], "byte"), was: count(change[5]) });
    } else if (change[0] === "=") {
      effects.push({ what: anchor + "slid", now: address(change[2]), was: address(change[4]) });
    }
  }
  return effects;
}

function frameEffects(record) {
  const effects = [], entry = record.enters;
  if (record.leaves !== undefined) effects.push({ what: "leaves module code" });
  if (entry) {
    const how = entry.swi !== undefined ? "SWI " + address(entry.swi) : entry.entry;
    effects.push({ what: "enters " + readable(entry.module) + "%" + readable(entry.instance) + ", " + how });
  }
  return effects;
}

/* A halt that no one asked for. */
export const isFault = (stop) => !["Exit", "Budget", "Break"].includes(stop.reason);

export function stopText(stop) {
  const number = stop.error === undefined ? "" : " " + stop.error, at = stop.pc === undefined ? "" : " " + address(stop.pc);
  return "stop " + stop.reason + number + (stop.name ? " " + stop.name : "") + at;
}

function answerEffects(trace, moment, record) {
  const line = trace.lineAt(moment), halt = trace.haltBehind(moment, record);
  if (halt) return [{ what: stopText(halt), bad: isFault(halt) }];
  if (!line || line.last !== moment) return [];
  if (line.expect && line.expect.pass) return [{ what: "pass", good: true }];
  if (line.expect) return [{ what: "fail: " + (line.expect.is || ""), bad: true }];
  const isShort = line.answer && line.answer.length < SHORT_ANSWER && !line.answer.includes("\n");
  if (trace.kind[moment] & KIND.STEP || !isShort) return [];
  return [{ what: readable(line.answer), bad: line.refused }];
}

/* What one moment did: its text, and effects {what, now, was, register, word, block, bad, good}. `was` is null
   where a cell was written with what it had. */
export function describe(trace, moment, format) {
  const record = trace.record(moment), text = whatWasDone(trace, moment, record);
  if (moment === 0) return { text, effects: [], record };
  const effects = [];
  if (record.skipped) effects.push({ what: "skipped: its condition isn't met" });
  if (record.stub) effects.push({ what: "answered by a stub" });
  effects.push(...swiEffects(record, text));
  if (record.reset) effects.push({ what: "a fresh machine" });
  effects.push(...registerEffects(trace, moment, record, format), ...flagEffects(trace, moment, record));
  if (record.next !== undefined && !record.enters && record.leaves === undefined && !record.stop) {
    effects.push({ what: "→", now: trace.nameOf(record.next, moment) || address(record.next) });
  }
  effects.push(...wordEffects(trace, moment, record, format));
  if (record.error && typeof record.error === "object") {
    const name = record.error.name ? " " + record.error.name : "";
    effects.push({ what: "error " + record.error.number + name, bad: true });
  }
  effects.push(...heapEffects(trace, moment, record), ...flexEffects(trace, moment, record), ...frameEffects(record));
  if (record.out) effects.push({ what: "prints " + quoted(record.out) });
  if (record.stop) effects.push({ what: stopText(record.stop), bad: isFault(record.stop) });
  return { text, effects: [...effects, ...answerEffects(trace, moment, record)], record };
}

function effectText(effect) {
  const now = effect.now === undefined ? "" : " " + effect.now;
  if (effect.was === undefined) return effect.what + now;
  return effect.what + now + (effect.was === null ? ", as before" : ", was " + effect.was);
}

/* One moment as a sentence, for readers of the screen and for titles. */
export function sentence(trace, moment, format) {
  if (moment === 0) return "The start.";
  const { text, effects } = describe(trace, moment, format), line = trace.lineAt(moment);
  const source = trace.sourceOf[moment], where = trace.stepOf[moment]
    ? `Step ${count(trace.stepOf[moment])} of ${count(trace.steps)}${source ? ", line " + source : ""}`
    : `Line ${line.line}`;
  return [where, text, effects.map(effectText).join("; ")].filter(Boolean).join(". ") + ".";
}

/* When a moment was, as the end of a sentence: "at step 63, line 33". */
export function whenText(trace, moment) {
  if (moment <= 0) return "at the start";
  const line = trace.lineAt(moment);
  if (!trace.stepOf[moment]) return "by line " + line.line;
  return "at step " + count(trace.stepOf[moment]) + ", line " + (trace.sourceOf[moment] || line.line);
}

/* The life of a block as a moment sees it. */
export function blockLife(trace, block, moment) {
  const changes = block.stays.length - 1;
  const born = "claimed " + whenText(trace, block.born) + (changes ? ", " + plural(changes, "change") : "");
  if (block.died === Infinity) return born + ", never freed";
  return born + (block.died <= moment ? ", freed " : ", will be freed ") + whenText(trace, block.died);
}

/* A word of memory in lines: its address, its value in three forms, who wrote it and who will. */
export function wordText(trace, at, moment) {
  const history = trace.words.get(at), value = trace.word(at, moment), name = trace.nameOf(at, moment);
  const wrote = history ? history.lastWrite(moment) : 0, next = history ? history.nextWrite(moment) : -1;
  return [
    address(at) + (name ? "  " + name : ""),
    trace.knows(at, moment) ? ["hex", "dec", "chr"].map((format) => word(value, format)).join("  ") : "not known",
    wrote ? "last written " + whenText(trace, wrote) : "not written so far",
    next > 0 ? "written next " + whenText(trace, next) : "",
  ].filter(Boolean).join("\n");
}
