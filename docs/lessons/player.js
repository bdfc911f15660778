"use strict";
(() => {
const module_src_names = (() => {
/* Names of the machine: registers, flags, modes, and the kinds of moments. Pure. */

/* All registers by physical name: R0 to R7, then those of each bank. */
const REGISTERS = (() => {
  const names = [];
  for (let n = 0; n < 8; n++) names.push("R" + n);
  const firstOfBank = { usr: 8, fiq: 8, irq: 13, svc: 13 };
  for (const bank in firstOfBank) for (let n = firstOfBank[bank]; n < 15; n++) names.push("R" + n + "_" + bank);
  return names;
})();
const REGISTER_INDEX = new Map(REGISTERS.map((name, index) => [name, index]));
const FLAGS = "NZCVIF";
const MODES = ["USR", "FIQ", "IRQ", "SVC"];

/* The bits of R15 that are an address; the others are flags and mode. */
const ADDRESS_BITS = 0x3FFFFFC;
/* Module code goes back to its caller through this address. */
const RETURN_GATE = 0x3800000;
const MODULE_AREA = 0x1800000;
/* System memory: its first two pages are the supervisor's stack, and the third has the error block. */
const SYSTEM_START = 0x1C00000;
const SYSTEM_END = 0x1C03000;
const PAGE_BYTES = 4096;

/* What a moment is and did, as bits. */
const KIND = {
  STEP: 1, SWI: 2, HEAP: 4, PRINT: 8, FAIL: 16, ERROR: 32, STOP: 64, SKIPPED: 128,
  STORE: 256, FRAME: 512, RESET: 1024, PASS: 2048, GAP: 4096, REFUSED: 8192,
};

/* The physical name of Rn in a mode: R13 in SVC is "R13_svc". */
function bankedName(n, mode) {
  if (n < 8) return "R" + n;
  const own = "R" + n + "_" + mode.toLowerCase();
  return REGISTER_INDEX.has(own) ? own : "R" + n + "_usr";
}

/* Flags as bits, N the lowest: those that are given, over the old ones. */
function packFlags(given, old) {
  let bits = old;
  for (let i = 0; i < FLAGS.length; i++) {
    if (FLAGS[i] in given) bits = given[FLAGS[i]] ? bits | 1 << i : bits & ~(1 << i);
  }
  return bits;
}

function unpackFlags(bits) {
  const flags = {};
  for (let i = 0; i < FLAGS.length; i++) flags[FLAGS[i]] = bits >> i & 1;
  return flags;
}
return { REGISTERS, REGISTER_INDEX, FLAGS, MODES, ADDRESS_BITS, RETURN_GATE, MODULE_AREA, SYSTEM_START, SYSTEM_END, PAGE_BYTES, KIND, bankedName, packFlags, unpackFlags };
})();

const module_src_format = (() => {
/* Numbers, bytes and parts of source lines as text. Pure. */

const hex = (value, digits) => (value >>> 0).toString(16).toUpperCase().padStart(digits || 1, "0");
const hex8 = (value) => hex(value, 8);
const address = (value) => "&" + hex(value);
const signed = (value) => String(value | 0);

const isPrinting = (code) => code >= 32 && code < 127;

/* The four characters of a word, the lowest byte first; a dot for each that isn't a printing one. */
function characters(value) {
  let text = "";
  for (let i = 0; i < 4; i++) {
    const code = value >>> 8 * i & 255;
    text += isPrinting(code) ? String.fromCharCode(code) : "·";
  }
  return text;
}

/* The forms of a word: hexadecimal, decimal, characters. */
const FORMATS = ["hex", "dec", "chr"];
const FORMAT_NAMES = { hex: "hexadecimal", dec: "decimal", chr: "characters" };
const word = (value, format) =>
  format === "dec" ? signed(value) : format === "chr" ? characters(value) : hex8(value);

/* Decimal with commas. */
const count = (n) => String(n).replace(/\B(?=(\d{3})+$)/g, ",");
const plural = (n, one, many) => count(n) + " " + (n === 1 ? one : many || one + "s");

/* Bytes that a script or a guest wrote as text: UTF-8 where they are, else Latin-1. */
function readable(bytes) {
  if (!/[\x80-\xff]/.test(bytes)) return bytes;
  try {
    const list = Uint8Array.from(bytes, (c) => c.charCodeAt(0));
    return new TextDecoder("utf-8", { fatal: true }).decode(list);
  } catch {
    return bytes;
  }
}

/* Text in which control characters can be seen; a return beside a line feed belongs to the line's end. */
function visible(text) {
  return text.replace(/\n\r|\r\n/g, "\n")
    .replace(/[\x00-\x09\x0b-\x1f\x7f-\x9f]/g, (c) => "⟨" + hex(c.charCodeAt(0), 2) + "⟩");
}

const ESCAPES = { "\n": "\\n", "\r": "\\r", "\t": "\\t", '"': '\\"', "\\": "\\\\" };
function quoted(bytes) {
  const escape = (c) => ESCAPES[c] || "\\x" + hex(c.charCodeAt(0), 2);
  return '"' + bytes.replace(/[\x00-\x1f"\\\x7f-\xff]/g, escape) + '"';
}

/* Where the comment of an assembler line begins, outside of quotes; its length where there is none. */
function commentAt(text) {
  let quote = false;
  for (let i = 0; i < text.length; i++) {
    if (text[i] === '"') quote = !quote;
    else if (text[i] === ";" && !quote) return i;
  }
  return text.length;
}

/* An assembler line in parts. */
function sourceParts(text) {
  const at = commentAt(text);
  const [, label, gap, op, gap2, operands] = /^(\S*)(\s*)(\S*)(\s*)(.*)$/s.exec(text.slice(0, at));
  return { label, gap, op, gap2, operands, comment: text.slice(at) };
}

/* A line of the script without its comment, and the comment without its semicolon. */
const withoutComment = (text) => text.replace(/(^|\s);.*$/s, "").trim();
function commentOf(text) {
  const found = /(?:^|\s);\s*(.*)$/s.exec(text);
  return found ? found[1] : "";
}
const isHeading = (text) => /^\s*#/.test(text);
const withoutMarks = (text) => text.trim().replace(/^#+\s*/, "");
return { hex, hex8, address, signed, characters, FORMATS, FORMAT_NAMES, word, count, plural, readable, visible, quoted, sourceParts, withoutComment, commentOf, isHeading, withoutMarks };
})();

const module_src_describe = (() => {
const { FLAGS, KIND, MODES, bankedName, unpackFlags } = module_src_names;
const { address, count, hex, plural, quoted, readable, sourceParts, withoutComment, word } = module_src_format;
/* What a moment did, as a list of effects and as a sentence. Pure. */


/* Words written that are listed one by one; the others are counted. */
const WORDS_LISTED = 6;
/* A line's answer is an effect of its own where it is at most so long. */
const SHORT_ANSWER = 60;

/* What was carried out: the instruction as it was typed, or the line of the script. */
function whatWasDone(trace, moment, record) {
  if (moment === 0) return "the start";
  if (!(trace.kind[moment] & KIND.STEP)) return withoutComment(readable(trace.lineAt(moment).text));
  if (record.skip !== undefined) return plural(record.skip, "step") + " not listed";
  if (record.call !== undefined) return readable(record.call);
  const source = trace.sources.get(trace.sourceOf[moment]);
  if (source === undefined) return record.asm || "";
  const parts = sourceParts(readable(source));
  return (parts.op + " " + parts.operands).trim() || record.asm || "";
}

function swiEffects(record, text) {
  const swi = record.swi;
  if (!swi || !swi.name) return [];
  const strings = swi.strings ? " " + Object.values(swi.strings).map(quoted).join(" ") : "";
  const does = swi.does ? swi.does + strings : strings.trim();
  if (text.includes(swi.name)) return does ? [{ what: does }] : [];
  return [{ what: (swi.x ? "X" : "") + swi.name + (swi.does ? " " + swi.does : "") + strings }];
}

function registerEffects(trace, moment, record, format) {
  const mode = trace.modeAt(moment), effects = [];
  for (const name in record.regs || {}) {
    const isGoingOn = name === "R14_svc" && record.swi && !record.enters;   // each SWI leaves its way back there
    if (isGoingOn) continue;
    const before = trace.historyOf(name).before(moment), now = record.regs[name];
    if (before === now && record.swi) continue;
    let what = name;
    for (let n = 8; n < 15; n++) if (bankedName(n, mode) === name) what = "R" + n;
    effects.push({ register: name, what, now: word(now, format), was: before === now ? null : word(before, format) });
  }
  return effects;
}

function flagEffects(trace, moment, record) {
  const effects = [];
  const after = trace.psr.valueAt(moment), before = moment ? trace.psr.before(moment) : after;
  const now = unpackFlags(after), was = unpackFlags(before);
  if (record.flags) for (const flag of FLAGS) if (now[flag] !== was[flag]) {
    effects.push({ what: flag, now: String(now[flag]), was: String(was[flag]) });
  }
  if (record.mode) effects.push({ what: "mode", now: record.mode, was: MODES[trace.mode.before(moment)] });
  return effects;
}

/* Words that were written. Those of a call on a heap are its own: its blocks show them. */
function wordEffects(trace, moment, record, format) {
  if (!record.mem || record.heaps || record.flex || record.error) return [];
  const effects = record.mem.slice(0, WORDS_LISTED).map(([at, old, now]) => ({
    word: at, what: "[" + (trace.nameOf(at, moment) || hex(at)) + "]", now: word(now, format),
    was: old === now ? null : word(old, format) }));
  const others = record.mem.length - effects.length + (record.more || 0);
  if (others > 0) effects.push({ what: "and " + plural(others, "word") + " more" });
  return effects;
}

function itemEffect(heap, item, moment) {
  const at = item[0] === "=" ? item[4] : item[2];
  const stay = heap.stays.find((each) => each.kind === "live" && each.at === at &&
    (item[0] === "-" ? each.to === moment : each.from === moment));
  const block = stay && stay.block ? stay.block : null, name = block ? "#" + block.number : "block";
  const bytes = (size) => plural(size - 4, "byte");
  if (item[0] === "+") return { block, what: name + " claimed", now: address(item[2] + 4) + ", " + bytes(item[3]) };
  if (item[0] === "-") return { block, what: name + " freed" };
  return item[2] === item[4]
    ? { block, what: name + " resized", now: bytes(item[5]), was: count(item[3] - 4) }
    : { block, what: name + " moved", now: address(item[4] + 4), was: address(item[2] + 4) };
}

function heapEffects(trace, moment, record) {
  const effects = [];
  for (const change of record.heaps || []) {
    const heap = trace.heaps.at(change.heap), name = "heap " + address(change.heap);
    if (change.gone) effects.push({ what: name + " gone" });
    else if (change.made) effects.push({ what: name + " made, " + plural(change.end || 0, "byte") });
    else if (change.end !== undefined) effects.push({ what: name + " resized", now: plural(change.end, "byte") });
    for (const item of change.items || []) if (item[1] === "live") effects.push(itemEffect(heap, item, moment));
  }
  return effects;
}

function flexEffects(trace, moment, record) {
  const effects = [];
  const store = record.flex_store;
  if (store) effects.push({ what: "flex store", now: plural(store.end - store.start, "byte") });
  for (const change of record.flex || []) {
    const anchor = "anchor " + (trace.nameOf(change[1], moment) || address(change[1])) + ": block ";
    if (change[0] === "-") effects.push({ what: anchor + "gone" });
    const now = address(change[2]) + ", " + plural(change[3], "byte");
    if (change[0] === "+") effects.push({ what: anchor + "made", now });
    if (change[0] === "=" && change[2] === change[4]) {
      effects.push({ what: anchor + "resized", now: plural(change[3], "byte"), was: count(change[5]) });
    } else if (change[0] === "=") {
      effects.push({ what: anchor + "slid", now: address(change[2]), was: address(change[4]) });
    }
  }
  return effects;
}

function frameEffects(record) {
  const effects = [], entry = record.enters;
  if (record.leaves !== undefined) effects.push({ what: "leaves module code" });
  if (entry) {
    const how = entry.swi !== undefined ? "SWI " + address(entry.swi) : entry.entry;
    effects.push({ what: "enters " + readable(entry.module) + "%" + readable(entry.instance) + ", " + how });
  }
  return effects;
}

/* A halt that no one asked for. */
const isFault = (stop) => !["Exit", "Budget", "Break"].includes(stop.reason);

function stopText(stop) {
  const number = stop.error === undefined ? "" : " " + stop.error, at = stop.pc === undefined ? "" : " " + address(stop.pc);
  return "stop " + stop.reason + number + (stop.name ? " " + stop.name : "") + at;
}

function answerEffects(trace, moment, record) {
  const line = trace.lineAt(moment), halt = trace.haltBehind(moment, record);
  if (halt) return [{ what: stopText(halt), bad: isFault(halt) }];
  if (!line || line.last !== moment) return [];
  if (line.expect && line.expect.pass) return [{ what: "pass", good: true }];
  if (line.expect) return [{ what: "fail: " + (line.expect.is || ""), bad: true }];
  const isShort = line.answer && line.answer.length < SHORT_ANSWER && !line.answer.includes("\n");
  if (trace.kind[moment] & KIND.STEP || !isShort) return [];
  return [{ what: readable(line.answer), bad: line.refused }];
}

/* What one moment did: its text, and effects {what, now, was, register, word, block, bad, good}. `was` is null
   where a cell was written with what it had. */
function describe(trace, moment, format) {
  const record = trace.record(moment), text = whatWasDone(trace, moment, record);
  if (moment === 0) return { text, effects: [], record };
  const effects = [];
  if (record.skipped) effects.push({ what: "skipped: its condition isn't met" });
  if (record.stub) effects.push({ what: "answered by a stub" });
  effects.push(...swiEffects(record, text));
  if (record.reset) effects.push({ what: "a fresh machine" });
  effects.push(...registerEffects(trace, moment, record, format), ...flagEffects(trace, moment, record));
  if (record.next !== undefined && !record.enters && record.leaves === undefined && !record.stop) {
    effects.push({ what: "→", now: trace.nameOf(record.next, moment) || address(record.next) });
  }
  effects.push(...wordEffects(trace, moment, record, format));
  if (record.error && typeof record.error === "object") {
    const name = record.error.name ? " " + record.error.name : "";
    effects.push({ what: "error " + record.error.number + name, bad: true });
  }
  effects.push(...heapEffects(trace, moment, record), ...flexEffects(trace, moment, record), ...frameEffects(record));
  if (record.out) effects.push({ what: "prints " + quoted(record.out) });
  if (record.stop) effects.push({ what: stopText(record.stop), bad: isFault(record.stop) });
  return { text, effects: [...effects, ...answerEffects(trace, moment, record)], record };
}

function effectText(effect) {
  const now = effect.now === undefined ? "" : " " + effect.now;
  if (effect.was === undefined) return effect.what + now;
  return effect.what + now + (effect.was === null ? ", as before" : ", was " + effect.was);
}

/* One moment as a sentence, for readers of the screen and for titles. */
function sentence(trace, moment, format) {
  if (moment === 0) return "The start.";
  const { text, effects } = describe(trace, moment, format), line = trace.lineAt(moment);
  const source = trace.sourceOf[moment], where = trace.stepOf[moment]
    ? `Step ${count(trace.stepOf[moment])} of ${count(trace.steps)}${source ? ", line " + source : ""}`
    : `Line ${line.line}`;
  return [where, text, effects.map(effectText).join("; ")].filter(Boolean).join(". ") + ".";
}

/* When a moment was, as the end of a sentence: "at step 63, line 33". */
function whenText(trace, moment) {
  if (moment <= 0) return "at the start";
  const line = trace.lineAt(moment);
  if (!trace.stepOf[moment]) return "by line " + line.line;
  return "at step " + count(trace.stepOf[moment]) + ", line " + (trace.sourceOf[moment] || line.line);
}

/* The life of a block as a moment sees it. */
function blockLife(trace, block, moment) {
  const changes = block.stays.length - 1;
  const born = "claimed " + whenText(trace, block.born) + (changes ? ", " + plural(changes, "change") : "");
  if (block.died === Infinity) return born + ", never freed";
  return born + (block.died <= moment ? ", freed " : ", will be freed ") + whenText(trace, block.died);
}

/* A word of memory in lines: its address, its value in three forms, who wrote it and who will. */
function wordText(trace, at, moment) {
  const history = trace.words.get(at), value = trace.word(at, moment), name = trace.nameOf(at, moment);
  const wrote = history ? history.lastWrite(moment) : 0, next = history ? history.nextWrite(moment) : -1;
  return [
    address(at) + (name ? "  " + name : ""),
    trace.knows(at, moment) ? ["hex", "dec", "chr"].map((format) => word(value, format)).join("  ") : "not known",
    wrote ? "last written " + whenText(trace, wrote) : "not written so far",
    next > 0 ? "written next " + whenText(trace, next) : "",
  ].filter(Boolean).join("\n");
}
return { isFault, stopText, describe, sentence, whenText, blockLife, wordText };
})();

const module_src_dom = (() => {
/* Small helpers of the page. Text becomes a part of it only by textContent, so what a script or a guest wrote is
   never anything but text. */

function make(tag, classes, text) {
  const element = document.createElement(tag);
  if (classes) element.className = classes;
  if (text !== undefined) element.textContent = text;
  return element;
}

function makeButton(classes, text, act) {
  const button = make("button", classes, text);
  button.type = "button";
  if (act) button.addEventListener("click", act);
  return button;
}

function makeSvg(tag, attributes = {}) {
  const element = document.createElementNS("http://www.w3.org/2000/svg", tag);
  for (const name in attributes) element.setAttribute(name, attributes[name]);
  return element;
}

/* Colours of the theme, and sizes of boxes, are asked for once: to ask in the midst of a drawing makes the browser
   lay out the page again. */
const colours = new Map(), sizes = new Map();
function colour(name) {
  if (!colours.has(name)) colours.set(name, getComputedStyle(document.documentElement).getPropertyValue(name).trim());
  return colours.get(name);
}
function sizeOf(element) {
  let size = sizes.get(element);
  if (!size) sizes.set(element, size = { width: element.clientWidth, height: element.clientHeight });
  return size;
}
const forgetColours = () => colours.clear();
const forgetSizes = () => sizes.clear();
const themeName = () => document.documentElement.dataset.theme;
const calm = typeof matchMedia === "undefined" ? { matches: true }
  : matchMedia("(prefers-reduced-motion: reduce)");

/* A still picture that a canvas shows a part of. */
function stillCanvas(width, height) {
  const canvas = document.createElement("canvas");
  canvas.width = width;
  canvas.height = height;
  return canvas;
}

/* Gives a canvas its size, where it has another: to set it clears what is drawn. */
function fitCanvas(canvas, width, height) {
  if (canvas.width === width && canvas.height === height) return;
  canvas.width = width;
  canvas.height = height;
}

/* What the pointer is over, in words. */
class Tip {
  constructor(element) { this.element = element; }

  show(text, x, y) {
    const e = this.element;
    e.textContent = text;
    e.hidden = false;
    const width = e.offsetWidth, height = e.offsetHeight;
    e.style.left = Math.max(4, Math.min(innerWidth - width - 4, x - width / 2)) + "px";
    e.style.top = (y + height + 22 > innerHeight ? y - height - 12 : y + 18) + "px";
  }

  hide() { this.element.hidden = true; }

  /* Shows, over an element, what `textOf` answers for the event; nothing where it answers nothing. */
  over(element, textOf) {
    element.addEventListener("pointermove", (event) => {
      const text = event.pointerType === "touch" ? "" : textOf(event);
      if (text) this.show(text, event.clientX, event.clientY); else this.hide();
    });
    element.addEventListener("pointerleave", () => this.hide());
  }
}

/* One Tab stop for a list: arrows go from element to element, Enter and the space bar act on one. */
function roving(box, selector, act, keys = { ArrowDown: 1, ArrowUp: -1 }) {
  const stop = (event) => { event.preventDefault(); event.stopPropagation(); };
  box.addEventListener("keydown", (event) => {
    const all = [...box.querySelectorAll(selector)], at = all.indexOf(document.activeElement);
    if (at < 0) return;
    if (event.key in keys) {
      const to = all[at + keys[event.key]];
      if (to) { all[at].tabIndex = -1; to.tabIndex = 0; to.focus(); }
      stop(event);
    } else if (act && (event.key === "Enter" || event.key === " ")) { act(all[at], event); stop(event); }
  });
}
function firstStop(box, selector) {
  if (box.querySelector(selector + '[tabindex="0"]')) return;
  const first = box.querySelector(selector);
  if (first) first.tabIndex = 0;
}

/* Scrolls a box so that a row in it stands away from its edges. */
function keepInView(box, row, share) {
  const height = box.clientHeight;
  if (!height || box.scrollHeight <= height) return;
  const top = row.offsetTop - box.offsetTop, margin = height * share;
  if (top < box.scrollTop + margin) box.scrollTop = top - margin;
  else if (top + row.offsetHeight > box.scrollTop + height - margin) {
    box.scrollTop = top + row.offsetHeight - height + margin;
  }
}

/* A choice that the browser keeps. It may keep nothing, as for a file. */
function keep(name, value) {
  try { localStorage.setItem("rosm." + name, value); } catch { /* kept nowhere */ }
}
function kept(name) {
  try { return localStorage.getItem("rosm." + name); } catch { return null; }
}
return { make, makeButton, makeSvg, colour, sizeOf, forgetColours, forgetSizes, themeName, calm, stillCanvas, fitCanvas, Tip, roving, firstStop, keepInView, keep, kept };
})();

const module_src_empty_run = (() => {
/* Whether a script ran empty memory, since the block of the program that should be there has errors. */

const BLOCK = /^\s*(?:ASM|HEX)\s+(\S+)/i;
/* The lines that go on from the program counter. */
const FROM_HERE = /^\s*((TRACE|REPEAT\s+\S+)\s+)*(RUN|STEP|TRACE\s+(\d|&|LAST))\b/i;

/* The block with errors, and the first line whose steps began where no program is; null where none did. */
function emptyRun(trace) {
  const lost = new Map();
  for (const line of trace.lines) {
    const name = line.block ? BLOCK.exec(line.text) : null;
    if (name) {
      lost.delete(name[1]);
      if (line.refused) lost.set(name[1], line);
    } else if (lost.size && line.steps && FROM_HERE.test(line.text) && beganEmpty(trace, line)) {
      return { block: [...lost.values()].at(-1), line };
    }
  }
  return null;
}

function beganEmpty(trace, line) {
  const before = line.first - 1, address = trace.pcAfter[before] & ~3;
  return trace.knows(address, before) && trace.word(address, before) === 0;
}

/* That, in words. */
function emptyRunText({ block, line }) {
  const name = BLOCK.exec(block.text)[1];
  return `${name} has errors (line ${block.line}), so line ${line.line} ran empty memory: correct ${name} first.`;
}
return { emptyRun, emptyRunText };
})();

const module_src_fragment = (() => {
/* The page's fragment: "#step=63", "#line=65", and in the editor "#script=..&step=63". Pure. */

function readFragment(text) {
  const parts = new Map();
  for (const part of text.replace(/^#/, "").split("&")) {
    const at = part.indexOf("=");
    if (at > 0) parts.set(part.slice(0, at), part.slice(at + 1));
  }
  return parts;
}

const writeFragment = (parts) => "#" + [...parts].map(([name, value]) => name + "=" + value).join("&");

/* The moment that a fragment names; -1 where it names none. */
function momentNamed(trace, parts) {
  const number = (name) => /^\d{1,9}$/.test(parts.get(name) || "") ? Number(parts.get(name)) : -1;
  if (number("step") >= 0) return trace.momentForStep(number("step"));
  return number("line") >= 0 ? trace.momentForLine(number("line")) : -1;
}

/* A fragment's parts with those that name a moment. */
function nameMoment(trace, moment, parts) {
  const named = new Map(parts), step = trace.stepOf[moment], line = trace.lineAt(moment);
  named.delete("step");
  named.delete("line");
  if (step || !line) named.set("step", String(step)); else named.set("line", String(line.line));
  return named;
}
return { readFragment, writeFragment, momentNamed, nameMoment };
})();

const module_src_histories = (() => {
/* Values over time. A *moment* is a number from 0; what is so at a moment is one binary search. Pure. */

/* The index of the last number of a sorted list that is at most n; -1 where there is none. */
function lastAtMost(list, n) {
  let low = 0, high = list.length;
  while (low < high) {
    const middle = (low + high) >>> 1;
    if (list[middle] <= n) low = middle + 1; else high = middle;
  }
  return low - 1;
}

/* The moments at which one cell (a register, a word) was written, and what was written. */
class History {
  constructor(first) { this.at = [0]; this.value = [first >>> 0]; }

  put(moment, value) { this.at.push(moment); this.value.push(value >>> 0); }

  newest() { return this.value[this.value.length - 1]; }

  find(moment) { return lastAtMost(this.at, moment); }

  valueAt(moment) { return this.value[this.find(moment)]; }

  /* The last moment at or before this one at which it was written; 0 where it never was. */
  lastWrite(moment) { return this.at[this.find(moment)]; }

  /* The first moment after this one at which it is written; -1 where there is none. */
  nextWrite(moment) {
    const next = this.find(moment) + 1;
    return next < this.at.length ? this.at[next] : -1;
  }

  writtenAt(moment) { return moment > 0 && this.lastWrite(moment) === moment; }

  /* The value before a moment. */
  before(moment) { return this.value[Math.max(0, lastAtMost(this.at, moment - 1))]; }

  changedAt(moment) { return this.writtenAt(moment) && this.valueAt(moment) !== this.before(moment); }
}

/* A whole value (a list, an object) that is another from some moments on. */
class Timeline {
  constructor(first) { this.at = [0]; this.value = [first]; }

  put(moment, value) {
    const newest = this.at.length - 1;
    if (this.at[newest] === moment) this.value[newest] = value;
    else { this.at.push(moment); this.value.push(value); }
  }

  newest() { return this.value[this.value.length - 1]; }

  valueAt(moment) { return this.value[lastAtMost(this.at, moment)]; }

  changes() { return this.at.length - 1; }
}
return { lastAtMost, History, Timeline };
})();

const module_src_heap_history = (() => {
const { Timeline, lastAtMost } = module_src_histories;
/* A heap, or the flex store, over time. Pure.

   Its *stays* are items at places: a block that is resized or moved has several stays and one number.
   Numbers of blocks go over all heaps of a trace. */


/* So many changes lie between two notes of what stood there. */
const NOTE_EVERY = 64;
const NOT_THERE = { there: false, base: 0, end: 0 };
/* A block has its length in a word before the bytes that the program has of it; a flex block has two words. */
const HEAP_HEADER = 4;
const FLEX_HEADER = 8;

class HeapHistory {
  constructor(address, isFlex, allBlocks) {
    this.allBlocks = allBlocks;
    this.address = address;
    this.flex = isFlex;
    this.events = [];          // moments at which it changed
    this.limits = new Timeline(NOT_THERE);
    this.stays = [];           // {kind, at, size, from, to, block, anchor}
    this.blocks = [];          // {number, heap, born, died, stays, asked}
    this.live = new Map();     // by address: the stay that is there at the end of what was read
    this.notes = [];           // every NOTE_EVERY events: the stays that were there
    this.extent = 0;           // the highest base that it ever has
    this.largest = 0;          // the highest end
  }

  event(moment) {
    if (this.events[this.events.length - 1] === moment) return;
    if (this.events.length % NOTE_EVERY === 0) {
      this.notes.push({ first: this.stays.length, there: [...this.live.values()] });
    }
    this.events.push(moment);
  }

  setLimits(moment, base, end) {
    this.event(moment);
    this.limits.put(moment, { there: true, base, end });
    this.extent = Math.max(this.extent, base);
    this.largest = Math.max(this.largest, end);
  }

  /* The item at an address leaves its place. Null where there is none. */
  leave(moment, at) {
    const stay = this.live.get(at);
    if (!stay) return null;
    this.event(moment);
    stay.to = moment;
    this.live.delete(at);
    return stay;
  }

  /* The item at an address is gone for good. */
  free(moment, at) {
    const stay = this.leave(moment, at);
    if (stay && stay.block) stay.block.died = moment;
  }

  /* An item comes to a place; a live one that is no known block is a new block. */
  come(moment, kind, at, size, block, anchor) {
    this.event(moment);
    if (kind === "live" && !block) block = this.newBlock(moment);
    const stay = { kind, at, size, from: moment, to: Infinity, block: block || null, anchor };
    if (block) { block.stays.push(stay); block.died = Infinity; }
    this.stays.push(stay);
    this.live.set(at, stay);
    return stay;
  }

  newBlock(moment) {
    const number = this.allBlocks.length + 1;
    const block = { number, heap: this, born: moment, died: Infinity, stays: [], asked: -1 };
    this.blocks.push(block);
    this.allBlocks.push(block);
    return block;
  }

  /* The heap is no longer there, nor anything in it. */
  end(moment) {
    for (const at of [...this.live.keys()]) this.free(moment, at);
    this.event(moment);
    this.limits.put(moment, NOT_THERE);
  }

  /* The items that stand there after a moment, by address. */
  itemsAt(moment) {
    const event = lastAtMost(this.events, moment);
    if (event < 0) return [];
    const note = this.notes[Math.floor(event / NOTE_EVERY)];
    const items = note.there.filter((stay) => stay.from <= moment && moment < stay.to);
    for (let i = note.first; i < this.stays.length && this.stays[i].from <= moment; i++) {
      if (moment < this.stays[i].to) items.push(this.stays[i]);
    }
    return items.sort((a, b) => a.at - b.at);
  }

  limitsAt(moment) { return this.limits.valueAt(moment); }

  thereAt(moment) { return this.limitsAt(moment).there; }

  /* The live item in whose bytes an address lies after a moment. */
  stayAt(address, moment) {
    for (const stay of this.itemsAt(moment)) {
      if (stay.kind === "live" && address >= this.payload(stay) && address < stay.at + stay.size) return stay;
    }
    return null;
  }

  /* The address that the program has of a block, and how many bytes. */
  payload(stay) { return stay.at + (this.flex ? FLEX_HEADER : HEAP_HEADER); }

  holds(stay) { return stay.bytes !== undefined ? stay.bytes : stay.size - HEAP_HEADER; }

  /* Bytes that are used and free after a moment, in how many pieces, and the largest free piece. */
  sumsAt(moment) {
    const limits = this.limitsAt(moment), sums = { used: 0, holes: 0, free: 0, largest: 0, blocks: 0, room: 0 };
    if (!limits.there) return sums;
    for (const stay of this.itemsAt(moment)) {
      if (stay.kind === "live") { sums.used += stay.size; sums.blocks++; continue; }
      sums.holes++;
      sums.free += stay.size;
      sums.largest = Math.max(sums.largest, stay.size);
    }
    sums.room = limits.end - limits.base;
    sums.free += sums.room;
    sums.largest = Math.max(sums.largest, this.flex ? sums.room : sums.room & ~7);
    return sums;
  }
}
return { FLEX_HEADER, HeapHistory };
})();

const module_src_layout = (() => {
const { FLEX_HEADER } = module_src_heap_history;
const { lastAtMost } = module_src_histories;
/* Where things stand in pictures, in shares of a width and a height. Pure. */


/* A heap's descriptor. */
const DESCRIPTOR_BYTES = 16;
/* Room that is never used is drawn whole where it is at most this share of what is used; else it has this
   share of the width, and a torn edge. */
const WHOLE_REST = 0.35;
const TORN_REST = 0.14;

/* Offsets at which an item ever began or ended, from 0 to `used`, in order. */
function cutsOf(heap, used) {
  const cuts = new Set([0, used]);
  if (!heap.flex) cuts.add(DESCRIPTOR_BYTES);
  for (const stay of heap.stays) {
    const at = stay.at - heap.address;
    cuts.add(at).add(at + stay.size);
    if (heap.flex) cuts.add(at + FLEX_HEADER);
  }
  return [...cuts].filter((cut) => cut >= 0 && cut <= used).sort((a, b) => a - b);
}

/* The scale of a heap: offsets to 0..1, the same at all moments. Between two cuts lies a piece; it has its true
   share of the width, but a small one is enlarged, so that it can be seen. */
function heapScale(heap) {
  const end = heap.largest, used = Math.min(end, Math.max(heap.extent, DESCRIPTOR_BYTES));
  const cuts = cutsOf(heap, used), pieces = Math.max(1, cuts.length - 1);
  const least = Math.min(0.03, 0.35 / pieces), rest = end - used, whole = rest <= used * WHOLE_REST;
  const share = whole ? (end ? used / end : 1) : 1 - TORN_REST, widths = [];
  let sum = 0, enlarged = false;
  for (let i = 0; i < pieces; i++) {
    const natural = used ? ((i + 1 < cuts.length ? cuts[i + 1] : used) - cuts[i]) / used : 1;
    if (natural < least) enlarged = true;
    widths.push(Math.max(natural, least));
    sum += widths[i];
  }
  const left = [0];
  for (let i = 0; i < pieces; i++) left.push(left[i] + widths[i] / sum * share);
  const pieceOf = (list, v) => Math.max(0, Math.min(pieces - 1, lastAtMost(list, v)));
  return {
    whole, used, end, enlarged,
    at(offset) {
      if (offset >= used) return share + (rest ? (offset - used) / rest : 0) * (1 - share);
      const i = pieceOf(cuts, offset);
      return left[i] + (offset - cuts[i]) / (cuts[i + 1] - cuts[i] || 1) * (left[i + 1] - left[i]);
    },
    /* The offset that stands at a place. */
    offset(x) {
      if (x >= share) return Math.floor(used + (x - share) / (1 - share || 1) * rest);
      const i = pieceOf(left, x);
      return Math.floor(cuts[i] + (x - left[i]) / (left[i + 1] - left[i] || 1) * (cuts[i + 1] - cuts[i]));
    },
  };
}

/* Offsets of round addresses for a ruler: about n of them. */
function rulerStops(start, used, n) {
  let step = 16;
  while (step < used / n) step *= 2;
  const stops = [];
  for (let at = Math.ceil(start / step) * step; at < start + used; at += step) stops.push(at - start);
  return stops;
}

/* Labels near the places that they belong to, side by side in as few rows as need be: each {x, width} gets
   {left, row}. All in pixels. Answers how many rows there are. */
function placeLabels(labels, width, gap) {
  const ends = [];
  for (const label of [...labels].sort((a, b) => a.x - b.x)) {
    let left = Math.max(0, Math.min(width - label.width, label.x - label.width / 2));
    let row = ends.findIndex((end) => end + gap <= left);
    if (row < 0) {
      row = ends.findIndex((end) => end + gap <= label.x && end + gap + label.width <= width);
      if (row >= 0) left = ends[row] + gap; else row = ends.length;
    }
    label.left = left;
    label.row = row;
    ends[row] = left + label.width;
  }
  return ends.length;
}

/* For each pixel of a slider the kinds of the moments that fall on it. */
function bins(kinds, width) {
  const n = Math.max(1, Math.floor(width)), found = new Uint16Array(n), last = Math.max(1, kinds.length - 1);
  for (let i = 0; i < kinds.length; i++) found[Math.min(n - 1, Math.round(i / last * (n - 1)))] |= kinds[i];
  return found;
}

/* Rows of four words of which one was touched: {at, gap}, where a gap is before a row that doesn't follow on. */
function memoryRows(touched) {
  const starts = [...new Set([...touched].map((address) => address - address % 16))].sort((a, b) => a - b);
  return starts.map((at, i) => ({ at, gap: i > 0 && at !== starts[i - 1] + 16 }));
}
return { DESCRIPTOR_BYTES, heapScale, rulerStops, placeLabels, bins, memoryRows };
})();

const module_src_heap_bar = (() => {
const { blockLife, whenText } = module_src_describe;
const { firstStop, make, makeButton, roving, sizeOf } = module_src_dom;
const { address, count, hex, plural, readable } = module_src_format;
const { FLEX_HEADER } = module_src_heap_history;
const { DESCRIPTOR_BYTES, rulerStops } = module_src_layout;
/* The bar of a heap: its items side by side, with a ruler below. A block keeps its element, so it glides when it is
   moved. */


const TINTS = 6;
/* Pixels that texts in a box need. */
const ROOM = { id: 20, size: 26, long: 78, asked: 62, character: 6.8 };
const LEAST_WIDTH = 0.15;
/* From the middle of one address of the ruler to the next. The first begins at its place, and isn't centred there. */
const RULER_STEP = 56, HALF_ADDRESS = 22;

const tintOf = (block) => (block.number - 1) % TINTS;

/* Texts of a box that have room in it: [class, text, pixels needed]. */
function fill(node, width, texts) {
  const shown = texts.filter(([, text, needed]) => text && width > needed);
  const key = shown.map(([classes, text]) => classes + text).join("|");
  if (node.shownTexts === key) return;
  node.shownTexts = key;
  node.replaceChildren(...shown.map(([classes, text]) => make("span", classes, text)));
}

class HeapBar {
  constructor(player, heap, scale, plot) {
    this.player = player;
    this.trace = player.trace;
    this.heap = heap;
    this.scale = scale;
    this.plot = plot;
    this.nodes = new Map();
    this.bar = make("div", "bar");
    this.bar.setAttribute("role", "group");
    this.bar.setAttribute("aria-label", "Blocks by address");
    this.ruler = make("div", "ruler");
    this.ruler.setAttribute("aria-hidden", "true");
    this.bar.addEventListener("click", (event) => {
      const node = event.target.closest("[data-block]");
      if (node) player.choose({ block: Number(node.dataset.block) });
    });
    roving(this.bar, "button.block", null, { ArrowRight: 1, ArrowLeft: -1 });
    player.tip.over(this.bar, (event) => {
      const node = event.target.closest(".block");
      return node ? node.tip : "";
    });
  }

  draw(moment, items, limits) {
    this.keep = new Set();
    this.width = sizeOf(this.plot).width || 600;
    this.moment = moment;
    if (limits.there && !this.heap.flex) this.drawDescriptor();
    for (const stay of items) if (stay.kind === "free") this.drawFree(stay); else this.drawBlock(stay);
    if (limits.there && limits.end > limits.base) this.drawRoom(limits);
    this.order();
    this.drawRuler();
  }

  /* The box of a key, made where it isn't there: at offsets from, to. */
  place(key, classes, from, to, isButton) {
    let node = this.nodes.get(key);
    if (!node) {
      node = isButton ? makeButton("block") : make("div", "block");
      if (isButton) node.tabIndex = -1;
      this.nodes.set(key, node);
      this.bar.append(node);
    }
    const left = this.scale.at(from), share = this.scale.at(to) - left;
    node.style.left = left * 100 + "%";
    node.style.width = Math.max(LEAST_WIDTH, share * 100) + "%";
    if (node.classNames !== classes) node.className = "block " + (node.classNames = classes);
    this.keep.add(key);
    return { node, width: share * this.width };
  }

  isFresh(stay) { return this.moment > 0 && stay.from === this.moment; }

  drawDescriptor() {
    const { node, width } = this.place("descriptor", "desc", 0, DESCRIPTOR_BYTES, false);
    node.tip = "the heap's descriptor: 16 bytes at " + address(this.heap.address);
    fill(node, width, [["id", "H", 10]]);
  }

  drawFree(stay) {
    const from = stay.at - this.heap.address;
    const { node, width } = this.place("free" + stay.at, "free" + (this.isFresh(stay) ? " fresh" : ""), from,
      from + stay.size, true);
    const since = whenText(this.trace, stay.from).replace(/^(at|by) /, "");
    node.tip = `free: ${plural(stay.size, "byte")} at ${address(stay.at)}\nsince ${since}`;
    node.setAttribute("aria-label", node.tip.replace(/\n/g, ", "));
    fill(node, width, [["sz", width > 60 ? count(stay.size) + " free" : String(stay.size), ROOM.size]]);
  }

  drawBlock(stay) {
    const { heap } = this, { block } = stay, from = stay.at - heap.address;
    const holds = this.contents(stay), bytes = heap.holds(stay);
    const chosen = this.player.isChosen("block", block.number);
    if (heap.flex) {
      const head = this.place("head" + block.number, "head", from, from + FLEX_HEADER, false);
      head.node.tip = `the header of block #${block.number}: 8 bytes`;
    }
    const classes = "t" + tintOf(block) + (this.isFresh(stay) ? " fresh" : "") + (chosen ? " chosen" : "");
    const { node, width } = this.place("block" + block.number, classes, heap.flex ? from + FLEX_HEADER : from,
      from + stay.size, true);
    node.dataset.block = block.number;
    node.tip = this.tipOf(stay, holds, bytes);
    node.setAttribute("aria-label", node.tip.replace(/\n/g, ", "));
    node.setAttribute("aria-pressed", chosen);
    const size = width > ROOM.long ? plural(bytes, "byte") : String(bytes);
    const isNamed = holds && width > holds.length * ROOM.character;
    const asked = block.asked >= 0 && block.asked !== bytes ? block.asked + " asked" : "";
    fill(node, width, [["id", "#" + block.number, ROOM.id], ["sz", isNamed ? holds : size, ROOM.size],
      ["ask", isNamed ? size : asked, ROOM.asked]]);
  }

  tipOf(stay, holds, bytes) {
    const { block } = stay, asked = block.asked >= 0 ? `, ${block.asked} asked for` : "";
    return [`block #${block.number}${holds ? ": " + holds : ""}`,
      `${address(this.heap.payload(stay))}, ${plural(bytes, "byte")}${asked}`,
      this.heap.flex ? "anchor " + address(stay.anchor) : "",
      blockLife(this.trace, block, this.moment)].filter(Boolean).join("\n");
  }

  drawRoom(limits) {
    const bytes = limits.end - limits.base;
    const { node, width } = this.place("room", "room" + (this.scale.whole ? "" : " torn"), limits.base,
      limits.end, false);
    node.tip = `room after the last block: ${plural(bytes, "byte")}${this.scale.whole ? "" : "\nnot to scale"}`;
    fill(node, width, [["sz", width > 90 ? count(bytes) + " room" : count(bytes), 30]]);
  }

  /* What a block holds, as far as modules and heaps say: an image, a workspace, a heap. */
  contents(stay) {
    const at = this.heap.payload(stay), { trace, moment } = this;
    for (const module of trace.modules.valueAt(moment)) {
      if (module.at === at) return readable(module.title) + "'s image";
      if (module.instances.some((instance) => trace.word(instance.word, moment) === at)) {
        return readable(module.title) + "'s workspace";
      }
    }
    const inner = trace.heapList().find((heap) => heap !== this.heap && heap.thereAt(moment) &&
      heap.address >= at && heap.address < stay.at + stay.size);
    return inner ? "heap " + address(inner.address) : "";
  }

  /* Boxes that are no longer there go; the others stand in the page in the order of their addresses. */
  order() {
    for (const [key, node] of this.nodes) if (!this.keep.has(key)) { node.remove(); this.nodes.delete(key); }
    let i = 0;
    for (const key of this.keep) {
      const node = this.nodes.get(key), before = this.bar.children[i++];
      if (before !== node) this.bar.insertBefore(node, before || null);
    }
    firstStop(this.bar, "button.block");
  }

  drawRuler() {
    const key = this.width + ":" + this.scale.end;
    if (this.rulerKey === key) return;
    this.rulerKey = key;
    const marks = [], { width, heap, scale } = this;
    let last = -RULER_STEP;
    for (const offset of rulerStops(heap.address, scale.used, Math.max(2, width / RULER_STEP))) {
      const x = scale.at(offset);
      if (x * width > width - RULER_STEP - 10 || x * width < last + RULER_STEP - 2) continue;
      last = x * width + (marks.length ? 0 : HALF_ADDRESS);
      const mark = make("span", "", hex(heap.address + offset));
      mark.style.left = x * 100 + "%";
      marks.push(mark);
    }
    const end = make("span", "end", hex(heap.address + scale.end));
    end.style.left = "100%";
    this.ruler.replaceChildren(...marks, end);
  }
}
return { tintOf, HeapBar };
})();

const module_src_pointers = (() => {
/* Where a value leads that may be a pointer into a heap. Pure. */

/* The innermost heap that has an address after a moment; null where none has. */
function heapAround(trace, address, moment) {
  let best = null;
  for (const heap of trace.heapList()) {
    const limits = heap.limitsAt(moment);
    const inside = limits.there && address >= heap.address && address < heap.address + limits.end;
    if (inside && (!best || heap.address > best.address)) best = heap;
  }
  return best;
}

/* Where a value leads at a moment, or null where it leads into no heap: {heap, to, ..}, with `to`
     start   the heap's own address
     block   into a block: its stay, and how many bytes in
     stale   to the place of a block that another has taken: the stay there now, and the block that was
     dead    to a block that is gone: the block that was
     free    to memory of the heap that no block has
   `since` is the moment at which the cell got the value: a pointer is judged by what stood there then. */
function pointer(trace, value, moment, since) {
  const heap = heapAround(trace, value, moment);
  if (!heap) return null;
  if (value === heap.address) return { heap, to: "start" };
  const stay = heap.stayAt(value, moment);
  const before = since === undefined ? null : heap.stayAt(value, since);
  const wasHere = before !== null && heap.payload(before) === value;
  if (stay && wasHere && stay.block.born > since && before.block !== stay.block) {
    return { heap, to: "stale", stay, was: before.block };
  }
  if (stay) return { heap, to: "block", stay, offset: value - heap.payload(stay) };
  return wasHere ? { heap, to: "dead", was: before.block } : { heap, to: "free" };
}

/* Whether a pointer leads to a block that is gone, or that another has taken the place of. */
const isLost = (found) => found !== null && (found.to === "stale" || found.to === "dead");
return { heapAround, pointer, isLost };
})();

const module_src_heap_pointers = (() => {
const { make, makeButton, makeSvg, sizeOf } = module_src_dom;
const { address, hex, plural, readable } = module_src_format;
const { placeLabels } = module_src_layout;
const { SYSTEM_END, SYSTEM_START, bankedName } = module_src_names;
const { isLost, pointer } = module_src_pointers;
/* What leads into a heap: arcs above the bar, of the free chain and of words in blocks; chips below it, of
   registers, anchors, private words and other words. A pointer to a block that is gone is marked. */


/* With more words than this the words aren't looked through for pointers at each step. */
const MOST_WORDS = 6000;
const MOST_ARCS = 120;
const ARC_HEIGHT = 30;
const CHIP = { top: 12, row: 20, character: 6.9, padding: 13, badPadding: 22, rowsOfOthers: 2 };
const COLOURS = { free: "var(--faint)", link: "var(--ink)", bad: "var(--bad)" };

function whyText(found) {
  if (found.to === "stale") {
    return `leads to where #${found.was.number} was; now #${found.stay.block.number} is there`;
  }
  if (found.to === "dead") return `leads to #${found.was.number}, which is gone`;
  if (found.to === "block") return `leads to #${found.stay.block.number}${found.offset ? "+" + found.offset : ""}`;
  return found.to === "start" ? "leads to the heap" : "leads to free memory";
}

class HeapPointers {
  constructor(player, heap, scale, plot) {
    this.player = player;
    this.trace = player.trace;
    this.heap = heap;
    this.scale = scale;
    this.plot = plot;
    this.arcs = makeSvg("svg", { class: "arcs", "aria-hidden": "true" });
    this.chips = make("div", "ptrs");
    this.tallest = 0;
  }

  get width() { return sizeOf(this.plot).width || 600; }

  x(at) { return this.scale.at(at - this.heap.address) * this.width; }

  isIn(value) { return value >= this.heap.address && value < this.heap.address + this.scale.end; }

  draw(moment, items, isThere) {
    const words = isThere && this.trace.words.size <= MOST_WORDS ? this.wordsThatLeadHere(moment) : [];
    this.drawArcs(isThere ? [...this.freeChain(items), ...this.links(words, items)] : []);
    this.drawChips(isThere ? [...this.registers(moment), ...this.otherWords(words, moment)] : []);
  }

  /* Words whose values lead to the beginning of a block of this heap, or to where one was. */
  wordsThatLeadHere(moment) {
    const found = [];
    for (const [at, history] of this.trace.words) {
      const value = history.valueAt(moment);
      if (!this.isIn(value)) continue;
      const leads = pointer(this.trace, value, moment, history.lastWrite(moment));
      if (!leads || leads.heap !== this.heap) continue;
      if (leads.to === "block" && leads.offset === 0 || isLost(leads)) found.push({ at, value, leads, history });
    }
    return found;
  }

  freeChain(items) {
    if (this.heap.flex) return [];
    const arcs = [];
    let from = this.heap.address + 6;
    for (const stay of items) if (stay.kind === "free") {
      arcs.push({ from, to: stay.at + 2, kind: "free" });
      from = stay.at + 4;
    }
    return arcs;
  }

  /* Words in this heap's blocks that lead to a block of it. */
  links(words, items) {
    const inBlock = (at) => items.some((stay) => stay.kind === "live" && at >= this.heap.payload(stay)
      && at < stay.at + stay.size);
    return words.filter(({ at }) => this.isIn(at) && inBlock(at))
      .map(({ at, value, leads }) => ({ from: at + 2, to: value + 1, kind: isLost(leads) ? "bad" : "link" }));
  }

  drawArcs(arcs) {
    const key = JSON.stringify(arcs) + this.width;
    if (key === this.arcsShown) return;
    this.arcsShown = key;
    const hasRoom = arcs.length || this.heap.stays.some((stay) => stay.kind === "free");
    if (hasRoom) this.arcs.style.height = ARC_HEIGHT + "px";
    this.arcs.replaceChildren(...arcs.slice(0, MOST_ARCS).map((arc) => this.arc(arc)));
  }

  arc({ from, to, kind }) {
    const x1 = this.x(from), x2 = this.x(to), top = Math.max(3, 26 - Math.max(8, Math.abs(x2 - x1) * 0.16));
    const group = makeSvg("g");
    const isFree = kind === "free";
    group.append(
      makeSvg("path", { d: `M${x1} 30 C${x1} ${top},${x2} ${top},${x2} 27`, fill: "none", stroke: COLOURS[kind],
        "stroke-width": isFree ? 1.1 : 1.4, "stroke-dasharray": isFree ? "4 3" : kind === "bad" ? "2 2" : "none" }),
      makeSvg("path", { d: `M${x2 - 3.2} 24 L${x2} 30 L${x2 + 3.2} 24 z`, fill: COLOURS[kind] }));
    return group;
  }

  registers(moment) {
    const chips = [], mode = this.trace.modeAt(moment);
    for (let n = 0; n < 13; n++) {
      const history = this.trace.registerHistory(n, moment), value = history.valueAt(moment);
      if (!this.isIn(value)) continue;
      const leads = pointer(this.trace, value, moment, history.lastWrite(moment));
      if (leads && leads.heap === this.heap) {
        chips.push({ kind: "register", name: "R" + n, value, leads, choice: { register: bankedName(n, mode) },
          isChanged: history.changedAt(moment) });
      }
    }
    return chips;
  }

  /* Words outside of this heap's blocks: anchors, private words, variables of a program. */
  otherWords(words, moment) {
    const privates = new Map();
    for (const module of this.trace.modules.valueAt(moment)) {
      for (const instance of module.instances) {
        privates.set(instance.word, readable(module.title) + "%" + readable(instance.name));
      }
    }
    const isSystem = (at) => at >= SYSTEM_START && at < SYSTEM_END;
    return words.filter(({ at }) => (this.heap.flex || !this.isIn(at)) && (privates.has(at) || !isSystem(at)))
      .map(({ at, value, leads, history }) => ({
        kind: "word", value, leads, choice: { word: at }, isChanged: history.changedAt(moment),
        name: privates.get(at) || (this.heap.flex ? "anchor " : "") + (this.trace.nameOf(at, moment) || hex(at)) }));
  }

  drawChips(chips) {
    const { width } = this;
    const key = chips.map((chip) => [chip.name, chip.value, chip.leads.to, chip.isChanged]).join() + width;
    if (key === this.chipsShown) return;
    this.chipsShown = key;
    if (width !== this.widthShown) { this.widthShown = width; this.tallest = 0; }
    const { shown, rows } = this.arrange(chips, width), lines = makeSvg("svg", { "aria-hidden": "true" });
    const nodes = [lines, ...shown.map((chip) => this.chip(chip, lines))], hidden = chips.length - shown.length;
    if (hidden) {
      const more = make("span", "morewords", "and " + plural(hidden, "word") + " more");
      more.style.top = CHIP.top + rows * CHIP.row - 18 + "px";
      nodes.push(more);
    }
    this.tallest = Math.max(this.tallest, rows ? CHIP.top + rows * CHIP.row : 8);
    this.chips.style.height = this.tallest + "px";
    this.chips.replaceChildren(...nodes);
  }

  /* Registers and lost pointers come first; of the other words, where there are many, two rows are shown. */
  arrange(chips, width) {
    for (const chip of chips) {
      chip.isBad = isLost(chip.leads);
      chip.x = this.x(chip.value);
      chip.width = chip.name.length * CHIP.character + (chip.isBad ? CHIP.badPadding : CHIP.padding);
    }
    const isFirst = (chip) => chips.length <= 16 || chip.kind === "register" || chip.isBad;
    const first = chips.filter(isFirst), others = chips.filter((chip) => !isFirst(chip));
    const rows = placeLabels(first, width, 4), more = placeLabels(others, width, 4);
    for (const chip of others) chip.row += rows;
    return { shown: [...first, ...others.filter((chip) => chip.row < rows + CHIP.rowsOfOthers)],
      rows: rows + Math.min(CHIP.rowsOfOthers, more) };
  }

  chip(chip, lines) {
    const y = CHIP.top + chip.row * CHIP.row, middle = chip.left + chip.width / 2;
    const stroke = chip.isBad ? COLOURS.bad : chip.isChanged ? "var(--change)" : COLOURS.free;
    lines.append(makeSvg("path",
      { d: `M${chip.x} -1 L${chip.x} 3 L${middle} ${y - 2} L${middle} ${y + 4}`, fill: "none",
      stroke, "stroke-width": chip.kind === "register" ? 1.5 : 1, "stroke-dasharray": chip.isBad ? "2 2" : "none" }));
    const state = chip.isBad ? " bad" : chip.isChanged ? " changed" : "";
    const button = makeButton(`chip of${chip.kind}${state}`, chip.name + (chip.isBad ? " !" : ""),
      () => this.player.choose(chip.choice));
    button.tabIndex = -1;
    button.style.left = chip.left + "px";
    button.style.top = y + "px";
    button.setAttribute("aria-label", chip.name + " " + whyText(chip.leads));
    this.player.tip.over(button, () => `${chip.name} = ${address(chip.value)}\n${whyText(chip.leads)}`);
    return button;
  }
}
return { HeapPointers };
})();

const module_src_heap_strip = (() => {
const { blockLife, describe, whenText } = module_src_describe;
const { colour, fitCanvas, make, sizeOf, stillCanvas, themeName } = module_src_dom;
const { address, plural } = module_src_format;
const { tintOf } = module_src_heap_bar;
const { lastAtMost } = module_src_histories;
const { DESCRIPTOR_BYTES } = module_src_layout;
/* The strip of a heap: address across over the same scale as its bar, time down, a row for each change; beside it
   the bytes that are free in all, and the largest piece. */


const TINT_NAMES = ["--b0", "--b1", "--b2", "--b3", "--b4", "--b5"];
const FUTURE = 0.3;
/* A few changes need no tall strip. */
const ROW_AT_MOST = 17, LEAST_HEIGHT = 74, ENOUGH = 200;

class HeapStrip {
  constructor(player, heap, scale, name) {
    this.player = player;
    this.trace = player.trace;
    this.heap = heap;
    this.scale = scale;
    this.element = make("div", "strip");
    this.canvas = this.addCanvas("",
      `Blocks of ${name} over ${plural(heap.events.length, "change")}: address across, time down`);
    this.curve = this.addCanvas("curve", "Free bytes in all, and the largest free piece, over time");
    const height = heap.events.length * ROW_AT_MOST;
    if (height < ENOUGH) this.element.style.maxHeight = Math.max(LEAST_HEIGHT, height) + "px";
    player.tip.over(this.canvas, (event) => this.tipAt(event));
  }

  addCanvas(classes, label) {
    const box = make("div", classes), canvas = make("canvas");
    canvas.setAttribute("role", "img");
    canvas.setAttribute("aria-label", label);
    canvas.addEventListener("click", (event) => this.player.go(this.momentAt(event)));
    box.append(canvas);
    this.element.append(box);
    return canvas;
  }

  momentAt(event) {
    const box = event.currentTarget.getBoundingClientRect(), { events } = this.heap;
    const row = Math.floor((event.clientY - box.top) / box.height * events.length);
    return events[Math.max(0, Math.min(events.length - 1, row))];
  }

  tipAt(event) {
    const { heap, trace } = this, moment = this.momentAt(event), box = this.canvas.getBoundingClientRect();
    const at = heap.address + this.scale.offset((event.clientX - box.left) / box.width);
    const stay = heap.itemsAt(moment).find((each) => at >= each.at && at < each.at + each.size);
    const isOfHeap = (effect) => effect.block || /heap|anchor/.test(effect.what);
    const effects = describe(trace, moment, this.player.format).effects.filter(isOfHeap);
    const did = effects.map((effect) => effect.what + (effect.now ? " " + effect.now : "")).join(", ");
    const what = !stay ? "" : stay.kind === "free" ? `: free, ${plural(stay.size, "byte")}`
      : `: #${stay.block.number}, ${plural(stay.size, "byte")}\n${blockLife(trace, stay.block, moment)}`;
    return `${whenText(trace, moment).replace(/^(at|by) /, "")}: ${did}\n${address(at)}${what}`;
  }

  /* Draws the picture of all time once, and then what is past in full and what is to come paler. */
  draw(moment) {
    const box = sizeOf(this.canvas.parentElement), ratio = devicePixelRatio || 1;
    const width = Math.round(box.width * ratio), height = Math.round(box.height * ratio);
    if (width < 2 || height < 2) return;
    const key = [width, height, themeName()].join();
    if (this.key !== key) { this.key = key; this.paint(width, height, ratio); }
    const rows = Math.max(1, this.heap.events.length);
    const now = (lastAtMost(this.heap.events, moment) + 1) * height / rows;
    this.show(this.canvas, this.still, now, ratio);
    this.show(this.curve, this.curveStill, now, ratio);
  }

  show(canvas, still, now, ratio) {
    if (sizeOf(canvas.parentElement).width < 2) return;
    fitCanvas(canvas, still.width, still.height);
    const c = canvas.getContext("2d");
    c.globalAlpha = 1;
    c.fillStyle = colour("--raised");
    c.fillRect(0, 0, still.width, still.height);
    c.globalAlpha = FUTURE;
    c.drawImage(still, 0, 0);
    c.globalAlpha = 1;
    if (now > 0) {
      c.save();
      c.beginPath();
      c.rect(0, 0, still.width, now);
      c.clip();
      c.fillRect(0, 0, still.width, now);
      c.drawImage(still, 0, 0);
      c.restore();
    }
    c.fillStyle = colour("--change");
    c.fillRect(0, Math.min(still.height - 2 * ratio, Math.max(0, now - ratio)), still.width, 2 * ratio);
  }

  paint(width, height, ratio) {
    this.still = stillCanvas(width, height);
    const c = this.still.getContext("2d"), { heap, scale } = this;
    const row = height / Math.max(1, heap.events.length);
    const y = (moment) => moment === Infinity ? height : Math.max(0, lastAtMost(heap.events, moment)) * row;
    const x = (at) => scale.at(at - heap.address) * width;
    c.fillStyle = colour("--paper");
    c.fillRect(0, 0, width, height);
    if (!heap.flex) this.paintDescriptor(c, y, height, width);
    const hatch = hatching(c, colour("--hatch"), ratio);
    c.lineWidth = Math.max(0.5, ratio * 0.5);
    for (const stay of heap.stays) {
      const box = { left: x(stay.at), top: y(stay.from), width: x(stay.at + stay.size) - x(stay.at),
        height: y(stay.to) - y(stay.from) };
      paintStay(c, stay, box, hatch, ratio);
    }
    this.paintCurve(ratio, height, row);
  }

  paintDescriptor(c, y, height, width) {
    const { at, value } = this.heap.limits;
    c.fillStyle = colour("--desc");
    value.forEach((limits, i) => {
      if (!limits.there) return;
      const top = y(at[i]), end = i + 1 < at.length ? y(at[i + 1]) : height;
      c.fillRect(0, top, Math.max(1, this.scale.at(DESCRIPTOR_BYTES) * width), end - top + 0.5);
    });
  }

  paintCurve(ratio, height, row) {
    if (!this.sums) this.sums = this.heap.events.map((moment) => this.heap.sumsAt(moment));
    const width = Math.max(1, Math.round(sizeOf(this.curve.parentElement).width * ratio));
    this.curveStill = stillCanvas(width, height);
    const c = this.curveStill.getContext("2d");
    const most = this.sums.reduce((top, sums) => Math.max(top, sums.free), 1);
    for (const [name, fill] of [["free", colour("--hatch")], ["largest", colour("--curve")]]) {
      c.fillStyle = fill;
      this.sums.forEach((sums, i) => c.fillRect(0, i * row, sums[name] / most * width, row + 0.6));
    }
  }
}

function paintStay(c, stay, box, hatch, ratio) {
  const height = Math.max(1, box.height);
  c.fillStyle = stay.kind === "free" ? hatch : colour(TINT_NAMES[tintOf(stay.block)]);
  c.fillRect(box.left, box.top, box.width, height);
  if (stay.kind === "free") return;
  if (box.width > 3 * ratio && box.height > 3 * ratio) {
    c.strokeStyle = colour("--edge");
    c.strokeRect(box.left + 0.25, box.top + 0.25, box.width - 0.5, box.height - 0.5);
  }
  if (box.width < 24 * ratio || box.height < 12 * ratio) return;
  c.fillStyle = colour("--ink");
  c.font = 10.5 * ratio + "px " + colour("--mono");
  c.fillText("#" + stay.block.number, box.left + 3 * ratio, box.top + 10 * ratio);
}

function hatching(c, stroke, ratio) {
  const side = Math.round(6 * ratio), tile = stillCanvas(side, side), t = tile.getContext("2d");
  t.strokeStyle = stroke;
  t.lineWidth = ratio;
  t.beginPath();
  for (const from of [-side / 2, 0, side / 2]) {
    t.moveTo(from, from === 0 ? side : from < 0 ? side / 2 : side * 1.5);
    t.lineTo(from + side, from === 0 ? 0 : from < 0 ? -side / 2 : side / 2);
  }
  t.stroke();
  return c.createPattern(tile, "repeat");
}
return { HeapStrip };
})();

const module_src_heap_view = (() => {
const { calm, make, makeButton } = module_src_dom;
const { address, count, plural } = module_src_format;
const { HeapBar } = module_src_heap_bar;
const { HeapPointers } = module_src_heap_pointers;
const { HeapStrip } = module_src_heap_strip;
const { lastAtMost } = module_src_histories;
const { heapScale } = module_src_layout;
const { MODULE_AREA } = module_src_names;
/* A heap: the map of now with what leads into it, sums, and the strip of all time. */


const heapName = (heap) =>
  (heap.flex ? "flex store " : heap.address === MODULE_AREA ? "module area " : "heap ") + address(heap.address);

class HeapView {
  constructor(player, heap) {
    this.player = player;
    this.heap = heap;
    this.scale = heapScale(heap);
    this.name = heapName(heap);
    this.plot = make("div", "plot");
    this.side = make("div", "side");
    this.bar = new HeapBar(player, heap, this.scale, this.plot);
    this.pointers = new HeapPointers(player, heap, this.scale, this.plot);
    this.strip = new HeapStrip(player, heap, this.scale, this.name);
    this.plot.append(this.pointers.arcs, this.bar.bar, this.bar.ruler, this.pointers.chips);
    const map = make("div", "map");
    map.append(this.plot, this.side);
    this.element = make("section", "heap wide");
    this.element.setAttribute("aria-label", this.name);
    this.element.append(this.head(), map, this.strip.element);
  }

  head() {
    const head = make("h2"), ways = make("span", "nav");
    this.title = make("span");
    for (const [text, by, label] of [["◂", -1, "previous change of this heap"],
      ["▸", 1, "next change of this heap"]]) {
      const button = makeButton("quiet", text, () => this.jump(by));
      button.title = label;
      button.setAttribute("aria-label", label);
      ways.append(button);
    }
    head.append(this.title, ways);
    return head;
  }

  jump(by) {
    const { events } = this.heap, now = this.player.moment;
    const to = by > 0 ? events[lastAtMost(events, now) + 1] : events[lastAtMost(events, now - 1)];
    if (to !== undefined) this.player.go(to);
  }

  draw(moment, animate) {
    const { heap } = this, limits = heap.limitsAt(moment), items = limits.there ? heap.itemsAt(moment) : [];
    this.element.classList.toggle("gone", !limits.there);
    const state = limits.there ? plural(limits.end, "byte") : heap.events[0] > moment ? "not made yet" : "gone";
    const scale = limits.there && this.scale.enlarged ? " · small pieces are enlarged" : "";
    this.title.textContent = `${this.name} · ${state}${scale}`;
    this.plot.classList.toggle("animate", animate && !calm.matches);
    this.bar.draw(moment, items, limits);
    this.pointers.draw(moment, items, limits.there);
    this.drawSums(heap.sumsAt(moment), limits.there);
    this.strip.draw(moment);
  }

  drawSums(sums, isThere) {
    const pieces = sums.holes + (sums.room ? 1 : 0);
    const lines = isThere ? [["", sums.used, " bytes in " + plural(sums.blocks, "block")],
      ["kfree", sums.free, pieces > 1 ? " free in " + count(pieces) : " free"],
        ["klargest", sums.largest, " the largest"]] : [];
    const key = lines.join();
    if (key === this.sumsShown) return;
    this.sumsShown = key;
    this.side.replaceChildren(...lines.map(([sign, bytes, text]) => {
      const line = make("div");
      if (sign) line.append(make("span", "key " + sign));
      line.append(make("b", "", count(bytes)), text);
      return line;
    }));
  }
}
return { heapName, HeapView };
})();

const module_src_heaps_panel = (() => {
const { make } = module_src_dom;
const { plural, readable } = module_src_format;
const { HeapView } = module_src_heap_view;
const { MODULE_AREA, PAGE_BYTES } = module_src_names;
/* All heaps of a trace, and the pages of areas and of the pool. */


const SYSTEM_PAGES = 3;

class HeapsPanel {
  constructor(player) {
    this.player = player;
    this.trace = player.trace;
    const box = player.find("heaps");
    if (this.trace.areas.changes()) box.append(this.pagesSection());
    const heaps = this.trace.heapList().filter((heap) => heap.blocks.length || heap.address !== MODULE_AREA);
    // by their addresses; after them those with few blocks beside the others, as the module area often has
    const most = Math.max(0, ...heaps.map((heap) => heap.blocks.length));
    const isSmall = (heap) => heap.blocks.length * 2 < most;
    heaps.sort((a, b) => isSmall(a) - isSmall(b) || a.address - b.address);
    this.views = heaps.map((heap) => new HeapView(player, heap));
    box.append(...this.views.map((view) => view.element));
    const isEmpty = !box.children.length;
    box.hidden = isEmpty;
    player.main.classList.toggle("noheap", isEmpty);
  }

  /* How many moments changed a heap. */
  changes() { return this.views.reduce((sum, view) => sum + view.heap.events.length, 0); }

  pagesSection() {
    const section = make("section", "heap");
    section.setAttribute("aria-label", "Pages");
    this.pages = make("div", "pages");
    section.append(make("h2", "", "Pages of 4,096 bytes"), this.pages);
    this.player.tip.over(this.pages, (event) => event.target.dataset.pages || "");
    return section;
  }

  draw(moment, animate) {
    if (this.pages) this.drawPages(moment);
    for (const view of this.views) view.draw(moment, animate);
  }

  drawPages(moment) {
    const areas = this.trace.areas.valueAt(moment), pool = this.trace.pool.valueAt(moment);
    const parts = [["application", this.trace.first.sizes.app, ""], ["system", SYSTEM_PAGES, "sys"],
      ...areas.map((area) => [readable(area.name), area.size / PAGE_BYTES, ""]), ["pool", pool, "pool"]];
    const key = parts.join();
    if (key === this.pagesShown) return;
    this.pagesShown = key;
    this.pages.replaceChildren(...parts.map(([name, pages, classes]) => {
      const part = make("span", classes, name + " " + pages);
      part.style.flex = pages + " 0 0";
      part.dataset.pages = name + ": " + plural(pages, "page");
      return part;
    }));
  }
}
return { HeapsPanel };
})();

const module_src_help = (() => {
const { keep, make, makeButton } = module_src_dom;
/* The dialog that says what keys do and signs mean. */


const KEYS = [
  ["← →", "one step back, on; with Shift ten"], ["Home End", "the start, the end"],
  ["PageUp PageDown", "the script's line before, after"], ["Space", "play, stop"], ["+ −", "faster, slower"],
  ["h H", "next, previous change of a heap"], ["s S", "next, previous SWI"],
  ["f F", "next, previous failure or error"], ["x", "hexadecimal, decimal, characters"], ["g", "go to a step"],
  ["Esc", "choose nothing"]];
const SIGNS = [
  ["boxes", "lines of the script"], ["short, grey", "a SWI"], ["tall, blue", "a call that changes a heap"],
  ["dot", "something is printed"], ["cross", "a call answers with an error"],
  ["triangle", "an EXPECT that fails, or a line with an error"], ["foot", "an EXPECT that passes"]];
const HEAP = [
  ["#3", "the third block of all that were claimed: it keeps number and colour over its life"],
  ["hatched", "free; dashed arcs: the free chain"], ["arc", "a word in a block that leads to a block"],
  ["R2", "what leads to a block; with ! to a block that is gone, or that another has taken the place of"],
  ["strip", "address across, time down; grey: bytes free in all, blue: the largest piece"]];
const NOTE = "A pointer is judged by what stood at its place when the register or word was written. " +
  "A register that was loaded from a word with an old pointer counts as written then.";

class Help {
  constructor(player) {
    this.player = player;
    this.dialog = player.find("keys");
    player.find("help").addEventListener("click", () => this.show());
  }

  show() {
    const title = make("h2", "", "Keys and signs");
    title.id = "h-keys";
    this.dialog.replaceChildren(makeButton("quiet close", "Close", () => this.dialog.close()), title,
      ...this.list("Keys", KEYS, true), ...this.list("Signs on the slider", SIGNS, false),
      ...this.list("In the heap", HEAP, false), make("p", "", NOTE), make("h3", "", "Choices"), this.choice());
    this.dialog.showModal();
  }

  list(title, rows, areKeys) {
    const list = make("dl");
    for (const [term, meaning] of rows) {
      const dt = make("dt", "", areKeys ? undefined : term);
      if (areKeys) for (const key of term.split(" ")) dt.append(make("kbd", "", key), " ");
      list.append(dt, make("dd", "", meaning));
    }
    return [make("h3", "", title), list];
  }

  choice() {
    const label = make("label"), box = make("input");
    box.type = "checkbox";
    box.checked = this.player.lettersAreKeys;
    box.addEventListener("change", () => {
      this.player.lettersAreKeys = box.checked;
      keep("letters", box.checked ? "1" : "0");
    });
    label.append(box, " Letters are keys");
    return label;
  }
}
return { Help };
})();

const module_src_inspector = (() => {
const { blockLife, describe, sentence, whenText } = module_src_describe;
const { make, makeButton } = module_src_dom;
const { FORMATS, address, plural, word } = module_src_format;
/* What was chosen, a register, a word or a block: who wrote it last, and ways to that moment and the next. */


const INVITATION = "Choose a register, a word or a block to see who wrote it, and when.";

class Inspector {
  constructor(player) {
    this.player = player;
    this.trace = player.trace;
    this.box = player.find("inspector");
    this.panel = player.find("chosen");
  }

  draw(moment) {
    const { chosen } = this.player;
    const parts = !chosen ? [make("span", "", INVITATION)]
      : chosen.block !== undefined ? this.block(this.trace.heaps.blocks[chosen.block - 1], moment)
        : this.cell(chosen, moment);
    if (chosen) {
      const close = makeButton("x", "×", () => this.player.choose(null));
      close.setAttribute("aria-label", "Choose nothing");
      parts.push(close);
    }
    this.box.replaceChildren(...parts);
    this.panel.classList.toggle("empty", !chosen);
  }

  /* A button to a moment; it can't be pressed where there is none, or it is now. */
  way(text, to) {
    const button = makeButton("go", text), now = this.player.moment;
    button.disabled = !(to >= 0) || to === now;
    if (!button.disabled) {
      button.addEventListener("click", () => this.player.go(to));
      this.player.tip.over(button, () => sentence(this.trace, to, this.player.format));
    }
    return button;
  }

  block(block, moment) {
    const { heap } = block;
    const stay = block.stays.find((each) => each.from <= moment && moment < each.to) || block.stays.at(-1);
    const asked = block.asked >= 0 ? `, ${block.asked} asked for` : "";
    const parts = [make("b", "", "block #" + block.number),
      make("code", "", `${address(heap.payload(stay))}, ${plural(heap.holds(stay), "byte")}${asked}`),
      make("span", "", blockLife(this.trace, block, moment)), this.way("claimed", block.born)];
    const moves = block.stays.slice(1);
    if (moves.length) {
      const last = moves.findLast((each) => each.from <= moment) || moves[0];
      parts.push(this.way(moves.length === 1 ? "moved or resized" : "last change", last.from));
    }
    parts.push(this.way("freed", block.died === Infinity ? -1 : block.died));
    return parts;
  }

  cell(chosen, moment) {
    const isWord = chosen.word !== undefined;
    const history = this.player.historyChosen();
    const value = history ? history.valueAt(moment) : 0;
    const isKnown = !isWord || this.trace.knows(chosen.word, moment);
    const parts = [make("b", "", isWord ? address(chosen.word) : chosen.register),
      make("code", "", isKnown ? FORMATS.map((format) => word(value, format)).join("  ") : "not known")];
    const label = isWord ? this.trace.nameOf(chosen.word, moment) : "";
    if (label) parts.push(make("span", "", label));
    const wrote = history ? history.lastWrite(moment) : 0;
    parts.push(make("span", "", wrote ? "last written " + whenText(this.trace, wrote) : "not written so far"));
    if (wrote) parts.push(make("code", "", describe(this.trace, wrote, this.player.format).text));
    const before = wrote ? history.lastWrite(wrote - 1) : 0;
    parts.push(wrote === moment && wrote ? this.way("← write before", before || -1)
      : this.way("← last write", wrote || -1));
    parts.push(this.way("next write →", history ? history.nextWrite(moment) : -1));
    return parts;
  }
}
return { Inspector };
})();

const module_src_keys = (() => {
const { FORMATS } = module_src_format;
const { KIND } = module_src_names;
/* Keys of the player. Letters can be switched off, for those who speak to their machine. */


const BAD = KIND.FAIL | KIND.REFUSED | KIND.ERROR;

function isTyping(element) {
  return /^(SELECT|TEXTAREA)$/.test(element.tagName) || element.isContentEditable ||
    element.tagName === "INPUT" && element.type !== "range";
}

/* What a key does, or undefined. */
function actOf(player, event) {
  const by = event.shiftKey ? 10 : 1, { key } = event;
  const move = (to) => () => { player.play(false); player.go(to); };
  const always = {
    ArrowRight: move(player.moment + by), ArrowLeft: move(player.moment - by),
    Home: move(0), End: move(player.trace.last),
    PageDown: () => player.goToLine(1), PageUp: () => player.goToLine(-1),
    " ": () => player.play(!player.isPlaying), Escape: () => player.choose(null),
  };
  const letters = {
    "+": () => player.faster(1), "=": () => player.faster(1), "-": () => player.faster(-1),
    h: () => player.goToKind(KIND.HEAP, 1), H: () => player.goToKind(KIND.HEAP, -1),
    s: () => player.goToKind(KIND.SWI, 1), S: () => player.goToKind(KIND.SWI, -1),
    f: () => player.goToKind(BAD, 1), F: () => player.goToKind(BAD, -1),
    x: () => player.setFormat(FORMATS[(FORMATS.indexOf(player.format) + 1) % FORMATS.length]),
    g: () => player.askForStep(), "?": () => player.help.show(),
  };
  if (Object.hasOwn(always, key)) return always[key];
  return player.lettersAreKeys && Object.hasOwn(letters, key) ? letters[key] : undefined;
}

function listenForKeys(player, signal) {
  document.addEventListener("keydown", (event) => {
    if (event.altKey || event.ctrlKey || event.metaKey || document.querySelector("dialog[open]")) return;
    if (isTyping(event.target)) return;
    const isButton = event.target.tagName === "BUTTON" && event.target.id !== "play";
    if (event.key === " " && isButton) return;
    const act = actOf(player, event);
    if (!act) return;
    event.preventDefault();
    act();
  }, { signal });
}
return { listenForKeys };
})();

const module_src_words = (() => {
const { makeButton } = module_src_dom;
const { word } = module_src_format;
const { wordText } = module_src_describe;
/* A word of memory as a button: a click chooses it, a double click goes to who wrote it last. */


const UNKNOWN = { hex: "????????", dec: "?", chr: "????" };

/* Words that the moment reads. */
const readBy = (record) => new Set((record.reads || []).map(([address]) => address));

function wordButton(player, address, moment, reads) {
  const { trace, format } = player, history = trace.words.get(address), value = trace.word(address, moment);
  const isKnown = trace.knows(address, moment);
  const button = makeButton("w", isKnown ? word(value, format) : UNKNOWN[format]);
  button.dataset.word = address;
  button.tabIndex = -1;
  if (isKnown && value === 0) button.classList.add("zero");
  if (history && history.writtenAt(moment)) button.classList.add("changed");
  else if (reads.has(address)) button.classList.add("read");
  if (player.isChosen("word", address)) button.classList.add("chosen");
  return button;
}

/* To the moment at which a word was last written. */
function goToWrite(player, address) {
  const history = player.trace.words.get(address), moment = history ? history.lastWrite(player.moment) : 0;
  if (moment && moment !== player.moment) player.go(moment);
}

const wordAt = (event) => {
  const button = event.target.closest("[data-word]");
  return button ? Number(button.dataset.word) : null;
};

function listenForWords(player, box) {
  box.addEventListener("click", (event) => {
    const address = wordAt(event);
    if (address !== null) player.choose({ word: address });
  });
  box.addEventListener("dblclick", (event) => {
    const address = wordAt(event);
    if (address === null) return;
    player.chosen = { word: address };
    goToWrite(player, address);
    player.draw();
  });
  player.tip.over(box, (event) => {
    const address = wordAt(event);
    return address === null ? "" : wordText(player.trace, address, player.moment);
  });
}
return { readBy, wordButton, goToWrite, listenForWords };
})();

const module_src_memory_panel = (() => {
const { make, sizeOf } = module_src_dom;
const { characters, hex, plural } = module_src_format;
const { memoryRows } = module_src_layout;
const { goToWrite, listenForWords, readBy, wordButton } = module_src_words;
/* Memory: rows of the words that were touched. Only those in view are made. */


const ROW_HEIGHT = 20;
/* Pixels that a row needs to have room for its characters too. */
const WIDE = 470, WIDE_DECIMAL = 520;
/* A record that writes more words than this is shown by its last one. */
const FEW = 3;

class MemoryPanel {
  constructor(player) {
    this.player = player;
    this.trace = player.trace;
    this.box = player.find("words");
    this.list = player.find("rows");
    this.rows = memoryRows(this.trace.touched);
    this.index = new Map(this.rows.map((row, i) => [row.at, i]));
    player.find("space").style.height = this.rows.length * ROW_HEIGHT + 8 + "px";
    player.find("memnote").textContent = this.rows.length ? plural(this.trace.touched.size, "word") + " touched" : "";
    if (!this.rows.length) this.list.append(make("p", "none", "No word was read or written."));
    listenForWords(player, this.box);
    this.box.addEventListener("scroll", () => this.drawRows(player.moment, player.record));
    this.box.addEventListener("keydown", (event) => this.key(event));
  }

  /* Arrows choose the word beside the chosen one; Enter goes to who wrote it. */
  key(event) {
    const by = { ArrowLeft: -4, ArrowRight: 4, ArrowUp: -16, ArrowDown: 16 }[event.key];
    const { chosen } = this.player;
    if (!this.rows.length || !by && event.key !== "Enter") return;
    event.preventDefault();
    event.stopPropagation();
    const hasWord = chosen !== null && chosen.word !== undefined;
    if (event.key === "Enter") {
      if (hasWord) goToWrite(this.player, chosen.word);
      return;
    }
    const at = hasWord ? this.beside(chosen.word, by) : this.rows[0].at;
    if (hasWord && chosen.word === at) return;
    this.player.chosen = { word: at };
    this.see(at);
    this.player.draw();
  }

  beside(address, by) {
    const row = this.index.get(address - address % 16);
    if (row === undefined) return this.rows[0].at;
    const place = row * 4 + address % 16 / 4 + by / 4;
    if (place < 0 || place >= this.rows.length * 4) return address;
    return this.rows[Math.floor(place / 4)].at + place % 4 * 4;
  }

  /* Scrolls to a word, where it isn't in view. */
  see(address) {
    const i = this.index.get(address - address % 16);
    if (i === undefined) return;
    const y = i * ROW_HEIGHT, height = sizeOf(this.box).height, top = this.box.scrollTop;
    if (y < top + ROW_HEIGHT || y > top + height - 2 * ROW_HEIGHT) this.box.scrollTop = y - height / 2;
  }

  draw(moment, record) {
    if (!this.rows.length) return;
    const { mem, reads } = record;
    if (mem && mem.length) this.see(mem[mem.length > FEW ? mem.length - 1 : 0][0]);
    else if (reads && reads.length) this.see(reads[0][0]);
    this.drawRows(moment, record);
  }

  drawRows(moment, record) {
    if (!this.rows.length) return;
    const { width, height } = sizeOf(this.box), reads = readBy(record), { format } = this.player;
    const first = Math.max(0, Math.floor(this.box.scrollTop / ROW_HEIGHT) - 1);
    const last = Math.min(this.rows.length, first + Math.ceil((height || 200) / ROW_HEIGHT) + 3);
    const withCharacters = format !== "chr" && width > (format === "dec" ? WIDE_DECIMAL : WIDE);
    const rows = [];
    for (let i = first; i < last; i++) rows.push(this.row(this.rows[i], moment, reads, withCharacters));
    this.list.style.top = first * ROW_HEIGHT + 4 + "px";
    this.list.replaceChildren(...rows);
  }

  row({ at, gap }, moment, reads, withCharacters) {
    const row = make("div", "mrow" + (gap ? " gap" : ""));
    row.append(make("span", "a", hex(at)));
    let text = "";
    for (let address = at; address < at + 16; address += 4) {
      row.append(wordButton(this.player, address, moment, reads));
      text += characters(this.trace.word(address, moment));
    }
    if (withCharacters) row.append(make("span", "c", text));
    return row;
  }
}
return { MemoryPanel };
})();

const module_src_now_panel = (() => {
const { describe } = module_src_describe;
const { make } = module_src_dom;
const { commentOf, count, readable, sourceParts } = module_src_format;
const { KIND } = module_src_names;
/* What the present moment did, large: step, line, label and the remark on it; the instruction; each effect. */


const MOST_EFFECTS = 9;

function effectSpan(effect) {
  const isPlain = effect.now === undefined;
  const state = effect.bad ? " bad" : effect.good ? " good" : isPlain ? " say" : "";
  const span = make("span", "effect" + state);
  span.append(make("span", isPlain ? "" : "who", effect.what));
  if (!isPlain) span.append(" ", make("span", "to", effect.now));
  if (effect.was !== undefined) span.append(" ",
    make("small", "", effect.was === null ? "as before" : "was " + effect.was));
  return span;
}

class NowPanel {
  constructor(player) {
    this.player = player;
    this.trace = player.trace;
    this.where = player.find("where");
    this.what = player.find("what");
    this.effects = player.find("effects");
  }

  /* What the script's writer remarked on the line. */
  remark(moment) {
    const { trace } = this, source = trace.sources.get(trace.sourceOf[moment]), line = trace.lineAt(moment);
    if (trace.kind[moment] & KIND.STEP) return source === undefined ? ""
      : sourceParts(readable(source)).comment.replace(/^;\s*/, "");
    return line ? commentOf(readable(line.text)) : "";
  }

  draw(moment) {
    const { trace } = this, { text, effects } = describe(trace, moment, this.player.format);
    const step = trace.stepOf[moment], line = trace.lineAt(moment), remark = this.remark(moment);
    if (step) {
      const label = trace.pcBefore[moment] >= 0 ? trace.nameOf(trace.pcBefore[moment], moment) : "";
      this.where.replaceChildren("step ", make("b", "", count(step)), " of " + count(trace.steps),
        ` · line ${trace.sourceOf[moment] || line.line}${label ? " · " + label : ""}`);
    } else this.where.replaceChildren(make("b", "", line ? "line " + line.line : "the start"));
    if (remark) this.where.append(make("i", "", remark));
    this.what.textContent = moment ? text.replace(/\s+/g, " ") : "";
    const others = effects.length - MOST_EFFECTS;
    this.effects.replaceChildren(...effects.slice(0, MOST_EFFECTS).map(effectSpan));
    if (others > 0) this.effects.append(make("span", "effect say", `and ${others} more`));
  }
}
return { NowPanel };
})();

const module_src_output_panel = (() => {
const { make } = module_src_dom;
const { readable, visible } = module_src_format;
/* What was printed so far, with what the present moment printed marked. */


class OutputPanel {
  constructor(player) {
    this.trace = player.trace;
    this.box = player.find("output");
    player.find("printed").hidden = !this.trace.output;
  }

  draw(moment) {
    if (!this.trace.output) return;
    const all = this.trace.outputTo(moment), fresh = this.trace.outputBy(moment);
    const key = all.length + ":" + fresh.length;
    if (this.shown === key) return;
    this.shown = key;
    this.box.replaceChildren(visible(readable(all.slice(0, all.length - fresh.length))));
    if (fresh) this.box.append(make("span", "new", visible(readable(fresh))));
    this.box.append(make("span", "caret"));
    this.box.scrollTop = this.box.scrollHeight;
  }
}
return { OutputPanel };
})();

const module_src_path_panel = (() => {
const { colour, fitCanvas, sizeOf, stillCanvas, themeName } = module_src_dom;
/* The path: lines of the program down, time across. Loops are seen as bands. Only where there is no heap to
   speak of. */


const LEFT = 50, MOST_ROW = 22, FUTURE = 0.35;
/* It is drawn where heaps change at most so often, and more lines and steps than these are carried out. */
const FEW_CHANGES = 4, FEW_LINES = 3, FEW_STEPS = 12;

class PathPanel {
  constructor(player) {
    this.player = player;
    this.trace = player.trace;
    const panel = player.find("pathpanel");
    this.isOn = player.heaps.changes() <= FEW_CHANGES && this.trace.hits.size > FEW_LINES
      && this.trace.steps > FEW_STEPS;
    panel.hidden = !this.isOn;
    player.main.classList.toggle("nopath", !this.isOn);
    if (!this.isOn) return;
    if (!player.main.classList.contains("noheap")) player.find("heaps").append(panel);
    this.canvas = player.find("path");
    this.rows = [...player.program.rows.values()].filter((each) => each.hits.length);
    this.canvas.addEventListener("click", (event) => {
      const box = this.canvas.getBoundingClientRect();
      player.go(Math.round((event.clientX - box.left - LEFT) / (box.width - LEFT) * this.trace.last));
    });
  }

  draw(moment) {
    if (!this.isOn) return;
    const box = sizeOf(this.canvas.parentElement), ratio = devicePixelRatio || 1;
    const width = Math.round(box.width * ratio), height = Math.round(box.height * ratio);
    if (width < 60 || height < 20) return;
    const key = [width, height, themeName()].join(), last = this.trace.last || 1;
    this.bar = Math.max(1.2 * ratio, (width - LEFT * ratio) / (last + 1));
    if (key !== this.key) { this.key = key; this.paint(width, height, ratio); }
    fitCanvas(this.canvas, width, height);
    const c = this.canvas.getContext("2d"), x = this.x(moment, width, ratio) + this.bar - 2 * ratio;
    c.globalAlpha = 1;
    c.clearRect(0, 0, width, height);
    c.globalAlpha = FUTURE;
    c.drawImage(this.still, 0, 0);
    c.globalAlpha = 1;
    c.save();
    c.beginPath();
    c.rect(0, 0, x + 2 * ratio, height);
    c.clip();
    c.clearRect(0, 0, width, height);
    c.drawImage(this.still, 0, 0);
    c.restore();
    c.fillStyle = colour("--change");
    c.fillRect(x, 0, 2 * ratio, this.rows.length * this.rowHeight);
  }

  x(moment, width, ratio) {
    return LEFT * ratio + moment / (this.trace.last || 1) * (width - LEFT * ratio - this.bar);
  }

  paint(width, height, ratio) {
    this.still = stillCanvas(width, height);
    this.rowHeight = Math.min(height / this.rows.length, MOST_ROW * ratio);
    const c = this.still.getContext("2d");
    c.font = 10.5 * ratio + "px " + colour("--mono");
    this.rows.forEach((each, i) => this.paintRow(c, each, i * this.rowHeight, width, ratio));
  }

  paintRow(c, each, y, width, ratio) {
    const label = each.row.querySelector(".label");
    if (label) {
      c.fillStyle = colour("--soft");
      c.fillText(label.textContent.slice(0, 7), 0, y + Math.min(this.rowHeight, 11 * ratio));
      c.fillStyle = colour("--line");
      c.fillRect(LEFT * ratio, y, width - LEFT * ratio, ratio);
    }
    c.fillStyle = colour("--blue");
    let last = -1;
    for (const moment of each.hits) {
      const x = Math.round(this.x(moment, width, ratio));
      if (x !== last) c.fillRect(x, y + ratio, this.bar, Math.max(ratio, this.rowHeight - 2 * ratio));
      last = x;
    }
  }
}
return { PathPanel };
})();

const module_src_program_panel = (() => {
const { isFault } = module_src_describe;
const { keepInView, make, roving, firstStop } = module_src_dom;
const { address, hex, readable, sourceParts } = module_src_format;
const { lastAtMost } = module_src_histories;
const { KIND, RETURN_GATE } = module_src_names;
/* The program: its blocks line by line, with how often each was carried out so far; and, by address, what was
   carried out without a source. */


const ROW = ".row:not(.still)";
/* Of a listing without a source so many rows are made. */
const MOST_LISTED = 4000;
/* Columns are as wide as their longest text, up to these. */
const WIDEST = { label: 10, op: 8, operands: 20 };

function columnsOf(parts) {
  const most = (length, limit) => parts.reduce((widest, part) =>
    part.op && length(part) <= limit ? Math.max(widest, length(part)) : widest, 0);
  return {
    label: Math.max(3, most((part) => part.label.length, WIDEST.label)) + 1,
    op: Math.max(4, most((part) => part.op.length, WIDEST.op)) + 1,
    operands: most((part) => part.comment ? part.operands.trimEnd().length : 0, WIDEST.operands) + 2,
  };
}

/* A source line in columns, whatever its own spaces are. */
function sourceSpan(text, columns) {
  const part = sourceParts(text), span = make("span", "src");
  if (part.label) span.append(make("span", "label", part.label));
  if (columns && part.op) {
    span.append(" ".repeat(Math.max(part.label ? 1 : 0, columns.label - part.label.length)),
      make("span", "op", part.op));
    const own = part.operands.trimEnd();
    if (own || part.comment) {
      span.append(" ".repeat(Math.max(1, columns.op - part.op.length)));
      span.append(part.comment ? own.padEnd(Math.max(own.length + 1, columns.operands)) : own);
    }
  } else span.append(part.gap, make("span", "op", part.op), part.gap2 + part.operands);
  if (part.comment) span.append(make("span", "comment", part.comment));
  return span;
}

class ProgramPanel {
  constructor(player) {
    this.player = player;
    this.trace = player.trace;
    this.box = player.find("code");
    this.rows = new Map();     // by script line number, or "pc" and the address: {row, counter, hits, shown}
    this.blocks = [];
    for (const image of this.trace.images.values()) this.addBlock(image);
    this.addListing();
    player.main.classList.toggle("noprogram", !this.rows.size);
    if (!this.rows.size) this.box.append(make("p", "none",
      "This script has no program: its lines call the machine from outside."));
    this.box.addEventListener("click", (event) => {
      const row = event.target.closest(".row");
      if (row) this.jump(row.dataset.key, event.shiftKey);
    });
    roving(this.box, ROW, (row, event) => this.jump(row.dataset.key, event.shiftKey));
    firstStop(this.box, ROW);
  }

  addBlock(image) {
    const line = image.block;
    if (!line || !line.block || !image.lines.length) return;
    const name = make("div", "blockname");
    this.box.append(name);
    this.blocks.push({ image, name });
    const withCode = new Set(image.lines.map((part) => part.line)),
      texts = line.block.map((_, i) => readable(this.trace.sources.get(line.line + 1 + i)));
    const columns = columnsOf(texts.map(sourceParts));
    texts.forEach((text, i) => {
      const number = line.line + 1 + i, isEnd = i === texts.length - 1 && /^\s*END\s*$/i.test(text);
      if (!isEnd) this.addRow(String(number), "line " + number, text, withCode.has(number),
        this.trace.hits.get(number), columns);
    });
  }

  addListing() {
    const listed = [...this.trace.listing.values()].filter((each) => each.pc !== RETURN_GATE);
    if (!listed.length) return;
    listed.sort((a, b) => a.pc - b.pc);
    this.box.append(make("div", "blockname", "code without a source"));
    for (const each of listed.slice(0, MOST_LISTED)) {
      this.addRow("pc" + each.pc, hex(each.pc), "        " + each.asm, true, each.hits, null);
    }
  }

  addRow(key, place, text, hasCode, hits, columns) {
    const row = make("div", "row" + (hasCode ? "" : " still"));
    row.dataset.key = key;
    if (hasCode) {
      row.tabIndex = -1;
      row.setAttribute("role", "button");
      row.setAttribute("aria-label", place + ": " + text.trim().replace(/\s+/g, " "));
    }
    if (!hits) row.classList.add("never");
    const counter = make("span", "hits none", "");
    row.append(counter, make("span", "no", place.replace("line ", "")), sourceSpan(text, columns));
    this.box.append(row);
    this.rows.set(key, { row, counter, hits: hits || [], shown: -1 });
  }

  /* To the next time that a line is carried out, or the last one before now; round at the end. */
  jump(key, back) {
    const found = this.rows.get(key);
    if (!found || !found.hits.length) return;
    const { hits } = found, now = this.player.moment;
    const at = back ? lastAtMost(hits, now - 1) : lastAtMost(hits, now) + 1;
    this.player.go(hits[(at + hits.length) % hits.length]);
  }

  keyOf(moment) {
    if (!(this.trace.kind[moment] & KIND.STEP)) return null;
    return this.trace.sourceOf[moment] ? String(this.trace.sourceOf[moment]) : "pc" + this.trace.pcBefore[moment];
  }

  keyOfNext(moment) {
    const source = this.trace.sourceAt(this.trace.pcAfter[moment], moment);
    return source ? String(source.line) : "pc" + this.trace.pcAfter[moment];
  }

  draw(moment, record) {
    const kind = this.trace.kind[moment];
    this.drawNames(moment);
    this.markWriter();
    const lit = this.rows.get(this.keyOf(moment));
    const next = kind & KIND.STOP ? undefined : this.rows.get(this.keyOfNext(moment));
    this.mark("lit", lit);
    this.mark("next", next);
    const isBad = kind & KIND.ERROR || record.stop && isFault(record.stop);
    const halt = this.trace.haltBehind(moment, record);
    if (lit) lit.row.classList.toggle("bad", Boolean(isBad));
    if (next && next !== lit) next.row.classList.toggle("bad", halt !== null && isFault(halt));
    for (const each of this.rows.values()) this.drawCounter(each, moment);
    const seen = lit || next;
    if (seen && seen !== this.seen) this.player.afterwards(() => keepInView(this.box, seen.row, 0.28));
    this.seen = seen;
  }

  /* Marks the line that wrote last what is chosen, and shows it once it is chosen. */
  markWriter() {
    const wrote = this.player.lastWriteOfChosen();
    const writer = wrote ? this.rows.get(this.keyOf(wrote)) : undefined, isNew = this.player.chosen !== this.choice;
    this.mark("writer", writer);
    this.choice = this.player.chosen;
    if (isNew && writer) this.player.afterwards(() => keepInView(this.box, writer.row, 0.28));
  }

  drawNames(moment) {
    for (const { image, name } of this.blocks) {
      const place = this.trace.places.valueAt(moment).find((each) => each.name === image.name);
      const text = readable(image.name) + (place ? " at " + address(place.at) : ", not in memory yet");
      if (name.textContent !== text) name.textContent = text;
    }
  }

  mark(name, found) {
    const old = this[name];
    if (old === found) return;
    if (old) old.row.classList.remove(name, "bad");
    if (found) found.row.classList.add(name);
    this[name] = found;
  }

  drawCounter(each, moment) {
    const times = lastAtMost(each.hits, moment) + 1;
    if (times === each.shown) return;
    each.shown = times;
    each.counter.textContent = times ? "×" + times : "";
    each.counter.classList.toggle("none", !times);
  }
}
return { ProgramPanel };
})();

const module_src_registers_panel = (() => {
const { make, makeButton, roving } = module_src_dom;
const { count, signed, word } = module_src_format;
const { ADDRESS_BITS, FLAGS, REGISTERS, bankedName, unpackFlags } = module_src_names;
const { isLost, pointer } = module_src_pointers;
/* Registers as the mode sees them, flags, mode, and the registers of other banks. */


/* Numbers that are given in decimal beside their hexadecimal form: above 9 and below this. */
const MOST_DECIMAL = 1e6;

/* What a pointer means, in a few characters; "" where the value leads to nothing worth a note. */
function pointerNote(found) {
  if (!found) return "";
  if (found.to === "start") return "heap";
  if (found.to === "stale") return `was #${found.was.number}, now #${found.stay.block.number}`;
  if (found.to === "dead") return `#${found.was.number} is gone`;
  return found.to === "block" ? `→ #${found.stay.block.number}${found.offset ? "+" + found.offset : ""}` : "";
}

class RegistersPanel {
  constructor(player) {
    this.player = player;
    this.trace = player.trace;
    const box = player.find("registers"), psr = player.find("psr");
    this.cells = [...Array(16).keys()].map((n) => this.cell(n, box));
    roving(box, ".reg", (button) => button.click(), { ArrowDown: 4, ArrowUp: -4, ArrowRight: 1, ArrowLeft: -1 });
    this.flags = [...FLAGS].map((flag) => make("span", "", flag));
    this.mode = make("span", "mode");
    psr.append(...this.flags, this.mode);
    this.psr = psr;
    this.banks = player.find("banks");
  }

  cell(n, box) {
    const button = makeButton("reg", undefined, () => this.choose(n));
    const value = make("span", "v"), note = make("small");
    button.append(make("span", "n", "R" + n), value, note);
    button.tabIndex = n ? -1 : 0;
    box.append(button);
    return { button, value, note, shown: "" };
  }

  choose(n) {
    this.player.choose(n === 15 ? null : { register: bankedName(n, this.trace.modeAt(this.player.moment)) });
  }

  /* What a value may mean: a block, a label, a character, a number. */
  note(n, value, moment, found) {
    const code = value & ADDRESS_BITS, name = code ? this.trace.nameOf(code, moment) : "";
    if (n === 15 || n === 14 && name) return name;
    const leads = pointerNote(found);
    if (leads) return leads;
    if (name && !(value & 3)) return name;
    if (n === 13) return "";
    if (value >= 33 && value < 127) return "'" + String.fromCharCode(value) + "'  " + value;
    if (this.player.format !== "hex") return "";
    if (value > 9 && value < MOST_DECIMAL) return count(value);
    return (value | 0) < 0 && (value | 0) > -MOST_DECIMAL ? signed(value) : "";
  }

  draw(moment, record) {
    const mode = this.trace.modeAt(moment), read = new Set(record.swi && record.swi.args || []);
    this.cells.forEach((cell, n) => this.drawCell(cell, n, moment, mode, read.has("R" + n)));
    this.drawFlags(moment, mode);
    this.drawBanks(moment, mode);
  }

  drawCell(cell, n, moment, mode, isRead) {
    const history = n < 15 ? this.trace.registerHistory(n, moment) : null;
    const value = this.trace.register(n, moment);
    const isWritten = history !== null && history.writtenAt(moment);
    const isChanged = isWritten && history.changedAt(moment);
    const found = n < 13 ? pointer(this.trace, value, moment, history.lastWrite(moment)) : null;
    const text = word(value, this.player.format);
    const isChosen = this.player.isChosen("register", bankedName(n, mode));
    let note = this.note(n, value, moment, found);
    if (isChanged && !note) note = "was " + word(history.before(moment), this.player.format);
    const classes = ["reg", isChanged && "changed", isWritten && !isChanged && "written", value === 0 && "zero",
      isRead && "used", isLost(found) && "stale", n < 15 && isChosen && "chosen"].filter(Boolean).join(" ");
    const key = text + "|" + note + "|" + classes;
    if (key === cell.shown) return;
    cell.shown = key;
    cell.value.textContent = text;
    cell.note.textContent = note;
    cell.button.className = classes;
    const name = n === 15 ? "R15, the program counter," : "R" + n;
    cell.button.setAttribute("aria-label",
      [name + " " + text, note, isChanged && "changed"].filter(Boolean).join(", "));
  }

  drawFlags(moment, mode) {
    const now = this.trace.flagsAt(moment), was = moment ? unpackFlags(this.trace.psr.before(moment)) : now;
    const isWritten = this.trace.psr.writtenAt(moment);
    [...FLAGS].forEach((flag, i) => {
      const span = this.flags[i], isChanged = isWritten && now[flag] !== was[flag];
      span.className = (now[flag] ? "set" : "") + (isChanged ? " changed" : "");
    });
    this.mode.textContent = mode;
    this.mode.className = "mode" + (this.trace.mode.writtenAt(moment) ? " changed" : "");
    const spoken = [...FLAGS].map((flag) => flag + " " + (now[flag] ? "set" : "clear"));
    this.psr.setAttribute("aria-label", spoken.join(", ") + ", mode " + mode);
  }

  /* Registers of other banks that have ever been anything but 0. */
  drawBanks(moment, mode) {
    const seen = new Set([...Array(15).keys()].map((n) => bankedName(n, mode))), parts = [];
    REGISTERS.forEach((name, i) => {
      const history = this.trace.registers[i];
      if (seen.has(name) || !history.valueAt(moment) && !history.changedAt(moment)) return;
      parts.push({ text: name + " " + word(history.valueAt(moment), this.player.format),
        isChanged: history.changedAt(moment) });
    });
    const key = JSON.stringify(parts);
    if (this.shownBanks === key) return;
    this.shownBanks = key;
    this.banks.replaceChildren(...parts.map((part) => make("span", part.isChanged ? "changed" : "", part.text)));
  }
}
return { RegistersPanel };
})();

const module_src_script_panel = (() => {
const { firstStop, keepInView, make, roving } = module_src_dom;
const { isHeading, plural, readable, visible, withoutMarks } = module_src_format;
/* The script: headings, remarks, and each line with its answer so far. */


/* The first heading is the page's title. */
const titleLine = (trace) => trace.lines.find((line) => isHeading(line.text) && withoutMarks(line.text));

class ScriptPanel {
  constructor(player) {
    this.player = player;
    this.trace = player.trace;
    this.box = player.find("lines");
    this.rows = [];            // {line, row, shown}
    this.addAll();
    this.box.addEventListener("click", (event) => {
      const row = event.target.closest(".line");
      if (row) this.jump(row);
    });
    roving(this.box, ".line", (row) => this.jump(row));
    firstStop(this.box, ".line");
  }

  addAll() {
    const title = titleLine(this.trace);
    let remark = null;
    for (const line of this.trace.lines) {
      const text = readable(line.text).trim(), isRemark = text.startsWith(";");
      if (!isRemark) remark = null;
      if (!text || line === title) continue;
      if (isHeading(text)) this.box.append(make("h3", "", withoutMarks(text)));
      else if (isRemark && remark) remark.textContent += " " + text.replace(/^;\s*/, "");
      else if (isRemark) this.box.append(remark = make("p", "", text.replace(/^;\s*/, "")));
      else this.addRow(line);
    }
  }

  addRow(line) {
    const row = make("div", "line"), mark = make("span", "mark"), body = make("span", "text");
    row.tabIndex = -1;
    row.setAttribute("role", "button");
    row.dataset.index = line.index;
    const marked = (sign, classes, name) => {
      mark.textContent = sign;
      mark.classList.add(classes);
      mark.setAttribute("role", "img");
      mark.setAttribute("aria-label", name);
    };
    if (line.expect) marked(line.expect.pass ? "✓" : "✗", line.expect.pass ? "good" : "bad", line.expect.pass
      ? "passed" : "failed");
    if (line.refused) marked("!", "bad", "error");
    const [, code, comment] = /^(.*?)((?:^|\s+);.*)?$/s.exec(readable(line.text));
    body.append(code);
    if (line.repeat) body.append(make("span", "comment", "  time " + line.repeat));
    if (line.block) body.append(make("span", "comment", "  … " + plural(line.block.length, "line")));
    else if (comment) body.append(make("span", "comment", comment));
    row.append(mark, make("span", "no", String(line.line)), body);
    if (line.answer && line.answer !== "pass") {
      row.append(make("span", "ans", visible(readable(line.answer)).replace(/^fail line \d+: /, "")));
    }
    row.classList.toggle("fail", Boolean(line.expect && !line.expect.pass || line.refused));
    this.box.append(row);
    this.rows.push({ line, row, shown: "" });
  }

  jump(row) {
    const line = this.trace.lines[row.dataset.index];
    if (line.last >= 0) this.player.go(line.last);
  }

  draw(moment) {
    const now = this.trace.lineOf[moment], isDone = now >= 0 && moment >= this.trace.lines[now].last;
    if (now === this.now && isDone === this.isDone) return;
    this.now = now;
    this.isDone = isDone;
    for (const each of this.rows) this.drawRow(each, now, isDone);
  }

  drawRow(each, now, isDone) {
    const isNow = each.line.index === now, isFuture = each.line.index > now || isNow && !isDone;
    const state = (isNow ? "current " : "") + (isFuture ? "future" : "");
    if (state !== each.shown) {
      each.shown = state;
      each.row.classList.toggle("current", isNow);
      each.row.classList.toggle("future", isFuture);
      if (isNow) each.row.setAttribute("aria-current", "step"); else each.row.removeAttribute("aria-current");
    }
    if (isNow) this.player.afterwards(() => keepInView(this.box, each.row, 0.3));
  }
}
return { titleLine, ScriptPanel };
})();

const module_src_slider = (() => {
const { describe } = module_src_describe;
const { colour, fitCanvas, sizeOf, stillCanvas, themeName } = module_src_dom;
const { count, readable, withoutComment } = module_src_format;
const { bins } = module_src_layout;
const { KIND } = module_src_names;
/* The slider: moments across; below, lines of the script as boxes; above, a sign for each thing that happens. */


const PADDING = 6;
const LINES = { top: 26, height: 13, baseline: 35.6 };

class Slider {
  constructor(player) {
    this.player = player;
    this.trace = player.trace;
    this.input = player.find("slider");
    this.canvas = player.find("ticks");
    this.input.max = this.trace.last;
    this.input.addEventListener("input", () => player.go(Number(this.input.value), { isFast: true }));
    player.tip.over(this.input, (event) => this.tipAt(event));
  }

  tipAt(event) {
    const box = this.input.getBoundingClientRect();
    const share = (event.clientX - box.left - PADDING) / (box.width - 2 * PADDING);
    const moment = Math.round(Math.max(0, Math.min(1, share)) * this.trace.last);
    const line = this.trace.lineAt(moment);
    if (!line) return "the start";
    const step = this.trace.stepOf[moment] ? "step " + count(this.trace.stepOf[moment]) + "  " : "";
    const { text } = describe(this.trace, moment, this.player.format);
    return `${step}line ${line.line}  ${readable(line.text).trim()}\n${text}`;
  }

  x(moment, width, padding) { return padding
    + (this.trace.last ? moment / this.trace.last : 0) * (width - 2 * padding); }

  draw(moment) {
    const ratio = devicePixelRatio || 1, size = sizeOf(this.canvas);
    const width = Math.round(size.width * ratio), height = Math.round(size.height * ratio);
    this.say(moment);
    if (width < 2) return;
    const key = [width, height, themeName()].join();
    if (this.key !== key) { this.key = key; this.paint(width, height, ratio); }
    fitCanvas(this.canvas, width, height);
    const c = this.canvas.getContext("2d"), x = this.x(moment, width, PADDING * ratio);
    const change = colour("--change");
    c.clearRect(0, 0, width, height);
    c.drawImage(this.still, 0, 0);
    c.fillStyle = change;
    c.globalAlpha = 0.16;
    c.fillRect(PADDING * ratio, LINES.top * ratio, x - PADDING * ratio, LINES.height * ratio);
    c.globalAlpha = 1;
    c.fillRect(x - ratio, 3 * ratio, 2 * ratio, 40 * ratio);
    disc(c, x, 32.5 * ratio, 6.5 * ratio, change);
    disc(c, x, 32.5 * ratio, 2.4 * ratio, colour("--raised"));
  }

  say(moment) {
    if (Number(this.input.value) !== moment) this.input.value = moment;
    const line = this.trace.lineAt(moment), step = this.trace.stepOf[moment];
    const where = line ? "line " + line.line : "the start";
    this.input.setAttribute("aria-valuetext", step ? `step ${step} of ${this.trace.steps}, ${where}` : where);
  }

  paint(width, height, ratio) {
    this.still = stillCanvas(width, height);
    const c = this.still.getContext("2d"), padding = PADDING * ratio;
    this.paintLines(c, width, ratio);
    const kinds = bins(this.trace.kind, (width - 2 * padding) / ratio), at = (i) => padding + i * ratio;
    const bar = (i, top, bottom, fill,
      wide) => { c.fillStyle = fill; c.fillRect(at(i) - wide / 2, top * ratio, wide, (bottom - top) * ratio); };
    kinds.forEach((kind, i) => { if (kind & KIND.SWI) bar(i, 20, 25, colour("--faint"), ratio); });
    kinds.forEach((kind, i) => { if (kind & KIND.HEAP) bar(i, 11, 25, colour("--blue"), 1.6 * ratio); });
    kinds.forEach((kind, i) => this.paintSigns(c, kind, at(i), ratio));
  }

  paintLines(c, width, ratio) {
    let isOdd = false;
    c.font = 9.5 * ratio + "px " + colour("--mono");
    for (const line of this.trace.lines) {
      if (line.first < 0) continue;
      const left = this.x(line.first - 0.5, width, PADDING * ratio);
      const wide = this.x(line.last + 0.5, width, PADDING * ratio) - left;
      c.fillStyle = colour(isOdd ? "--sunk" : "--line");
      isOdd = !isOdd;
      c.fillRect(left, LINES.top * ratio, Math.max(1, wide), LINES.height * ratio);
      const text = withoutComment(readable(line.text));
      if (!line.steps || c.measureText(text).width >= wide - 8 * ratio) continue;
      c.fillStyle = colour("--soft");
      c.fillText(text, left + 4 * ratio, LINES.baseline * ratio);
    }
  }

  /* A dot for print, a cross for an error, a triangle for what failed, a foot for what passed. */
  paintSigns(c, kind, x, u) {
    if (kind & KIND.PRINT) disc(c, x, 8 * u, 1.8 * u, colour("--read"));
    if (kind & KIND.ERROR) {
      c.strokeStyle = colour("--bad");
      c.lineWidth = 1.3 * u;
      c.beginPath();
      for (const side of [1, -1]) { c.moveTo(x - 2.5 * u * side, 6 * u); c.lineTo(x + 2.5 * u * side, 11 * u); }
      c.stroke();
    }
    if (kind & (KIND.FAIL | KIND.REFUSED)) {
      c.fillStyle = colour("--bad");
      c.beginPath();
      c.moveTo(x - 4 * u, u);
      c.lineTo(x + 4 * u, u);
      c.lineTo(x, 8 * u);
      c.fill();
      c.fillRect(x - 1.2 * u, 40 * u, 2.4 * u, 5 * u);
    } else if (kind & KIND.PASS) {
      c.fillStyle = colour("--good");
      c.fillRect(x - 1.2 * u, 40 * u, 2.4 * u, 4 * u);
    }
  }
}

function disc(c, x, y, radius, fill) {
  c.fillStyle = fill;
  c.beginPath();
  c.arc(x, y, radius, 0, 7);
  c.fill();
}
return { Slider };
})();

const module_src_stack_panel = (() => {
const { make } = module_src_dom;
const { address, hex, readable } = module_src_format;
const { ADDRESS_BITS } = module_src_names;
const { pointer } = module_src_pointers;
const { listenForWords, readBy, wordButton } = module_src_words;
/* The stack: open frames of module code, and the words from R13 on, with return addresses by name. */


const MOST_SLOTS = 7;

class StackPanel {
  constructor(player) {
    this.player = player;
    this.trace = player.trace;
    this.box = player.find("stack");
    this.frames = player.find("frames");
    player.main.classList.toggle("nostack", !this.trace.usesStack);
    player.find("stackpanel").hidden = !this.trace.usesStack;
    listenForWords(player, this.box);
  }

  draw(moment, record) {
    if (!this.trace.usesStack) return;
    this.drawFrames(moment);
    const top = this.trace.register(13, moment), isMapped = (at) => this.trace.mapped(at >>> 0, moment);
    if (!top || top & 3 || !isMapped(top - 4) && !isMapped(top)) {
      this.box.replaceChildren(make("p", "none", top ? "R13 leads to no memory."
        : "R13 is 0: there is no stack yet."));
      return;
    }
    const slots = [], reads = readBy(record);
    for (let i = 0; i < MOST_SLOTS && isMapped(top + 4 * i); i++) {
      slots.push(this.slot(top + 4 * i >>> 0, moment, reads));
      if (i > 1 && !this.trace.words.has(top + 4 * i)) break;
    }
    this.box.replaceChildren(...slots);
    if (!slots.length) this.box.append(make("p", "none", "Nothing is on the stack: R13 is " + address(top) + "."));
  }

  slot(at, moment, reads) {
    const value = this.trace.word(at, moment), code = value & ADDRESS_BITS, slot = make("div", "slot");
    const leads = pointer(this.trace, value, moment);
    const note = code && this.trace.nameOf(code, moment)
      || (leads && leads.to === "block" ? "→ #" + leads.stay.block.number : "");
    slot.append(make("span", "a", hex(at)), wordButton(this.player, at, moment, reads), make("span", "t", note));
    return slot;
  }

  drawFrames(moment) {
    const frames = this.trace.framesAt(moment), key = JSON.stringify(frames);
    if (key === this.shown) return;
    this.shown = key;
    this.frames.replaceChildren(...frames.map((frame) => {
      const row = make("div", "frame", (frame.swi !== undefined ? "SWI " + address(frame.swi) : frame.entry) + " ");
      const caller = frame.caller === null ? "from outside"
        : "at " + (this.trace.nameOf(frame.caller, moment) || address(frame.caller));
      row.append(make("span", "", `${readable(frame.module)}%${readable(frame.instance)}, called ${caller}`));
      return row;
    }));
  }
}
return { StackPanel };
})();

const module_src_player = (() => {
const { sentence } = module_src_describe;
const { Tip, forgetColours, forgetSizes, kept, make, makeButton } = module_src_dom;
const { emptyRun, emptyRunText } = module_src_empty_run;
const { FORMATS, FORMAT_NAMES, count, readable, withoutMarks } = module_src_format;
const { momentNamed, nameMoment, readFragment, writeFragment } = module_src_fragment;
const { HeapsPanel } = module_src_heaps_panel;
const { Help } = module_src_help;
const { Inspector } = module_src_inspector;
const { listenForKeys } = module_src_keys;
const { MemoryPanel } = module_src_memory_panel;
const { NowPanel } = module_src_now_panel;
const { OutputPanel } = module_src_output_panel;
const { PathPanel } = module_src_path_panel;
const { ProgramPanel } = module_src_program_panel;
const { RegistersPanel } = module_src_registers_panel;
const { ScriptPanel, titleLine } = module_src_script_panel;
const { Slider } = module_src_slider;
const { StackPanel } = module_src_stack_panel;
/* The player: it holds the present moment, and lets each part of the page draw it. */


const SPEEDS = [1, 2, 5, 10, 30, 100, 300, 1000, 3000];
/* Blocks glide where steps are slower than this. */
const GLIDING_SPEED = 10;
/* The page's address follows, and the moment is said, when the slider has rested so long, in milliseconds. */
const ADDRESS_RESTS = 250, SAY_RESTS = 180;

const usualSpeed = (moments) => moments > 20000 ? 1000 : moments > 2000 ? 100 : moments > 200 ? 10 : 2;

class Player {
  constructor(place, trace) {
    this.place = place;
    this.trace = trace;
    this.moment = 0;
    this.format = FORMATS[0];
    this.chosen = null;
    this.isPlaying = false;
    this.speed = usualSpeed(trace.last);
    this.lettersAreKeys = kept("letters") !== "0";
    this.atEnd = [];
    this.onDraw = () => {};          // for the page around it: called with the moment after each drawing
    this.ending = new AbortController();
    forgetSizes();
    place.replaceChildren(document.getElementById("player-parts").content.cloneNode(true));
    this.main = place.querySelector("main");
    this.tip = new Tip(this.find("tip"));
    this.makeParts();
    this.header();
    this.transport();
    listenForKeys(this, this.ending.signal);
    addEventListener("hashchange", () => this.goToAddress(), { signal: this.ending.signal });
    this.record = trace.record(0);
    this.watchSizes();
  }

  find(id) { return this.place.querySelector("#" + id); }

  makeParts() {
    this.program = new ProgramPanel(this);
    this.script = new ScriptPanel(this);
    this.stack = new StackPanel(this);
    this.heaps = new HeapsPanel(this);
    this.inspector = new Inspector(this);
    this.help = new Help(this);
    this.parts = [this.program, this.script, new RegistersPanel(this), this.stack, new MemoryPanel(this), this.heaps,
      new PathPanel(this), new Slider(this), new NowPanel(this), new OutputPanel(this), this.inspector];
  }

  /* Boxes that have another size are drawn anew. */
  watchSizes() {
    this.watch = new ResizeObserver(() => { forgetSizes(); this.draw(); });
    for (const id of ["code", "words", "heaps", "scrub", "path"]) this.watch.observe(this.find(id));
    for (const view of this.heaps.views) { this.watch.observe(view.plot); this.watch.observe(view.strip.canvas); }
  }

  header() {
    const { trace } = this, title = titleLine(trace);
    this.title = title ? withoutMarks(readable(title.text)) : readable(trace.name) || "A script";
    this.find("title").textContent = this.title;
    this.find("file").textContent = title ? readable(trace.name) : "";
    for (const format of FORMATS) this.find("formats").append(this.formatButton(format));
    const failed = trace.expects.filter((each) => !each.pass), passed = trace.expects.length - failed.length;
    const errors = trace.lines.filter((line) => line.refused), results = this.find("results");
    if (passed) results.append(make("span", "badge good", `✓ ${count(passed)} passed`));
    if (failed.length) results.append(this.badge(`✗ ${count(failed.length)} failed`,
      failed.map((each) => each.moment)));
    if (errors.length) {
      const text = `! ${count(errors.length)} ${errors.length === 1 ? "line" : "lines"} with an error`;
      results.append(this.badge(text, errors.map((line) => line.last)));
    }
    const empty = emptyRun(trace);
    if (empty) results.append(this.badge("! empty memory was run", [empty.block.last], emptyRunText(empty)));
    if (trace.gaps) results.append(make("span", "badge", count(trace.gaps) + " steps not listed"));
  }

  /* A badge that goes to the next of some moments, and round at the end. */
  badge(text, moments, title = "To the next of them") {
    const button = makeButton("badge bad", text, () => {
      const next = moments.find((moment) => moment > this.moment);
      this.go(next === undefined ? moments[0] : next);
    });
    button.title = title;
    return button;
  }

  formatButton(format) {
    const button = makeButton("", format, () => this.setFormat(format));
    button.dataset.format = format;
    button.setAttribute("aria-pressed", format === this.format);
    button.setAttribute("aria-label", FORMAT_NAMES[format]);
    return button;
  }

  transport() {
    const on = (id, act) => this.find(id).addEventListener("click", act);
    const move = (to) => () => { this.play(false); this.go(to()); };
    on("first", move(() => 0));
    on("back", move(() => this.moment - 1));
    on("forward", move(() => this.moment + 1));
    on("end", move(() => this.trace.last));
    on("play", () => this.play(!this.isPlaying));
    const select = this.find("speed");
    for (const speed of SPEEDS) select.append(new Option(speed + "/s", speed));
    select.value = this.speed;
    select.addEventListener("change", () => { this.speed = Number(select.value); });
  }

  // ---- moving

  go(moment, { isFast = false } = {}) {
    this.moment = Math.max(0, Math.min(this.trace.last, moment));
    this.draw(!isFast && (!this.isPlaying || this.speed <= GLIDING_SPEED));
    clearTimeout(this.addressTimer);
    clearTimeout(this.sayTimer);
    this.addressTimer = setTimeout(() => this.writeAddress(), ADDRESS_RESTS);
    if (!this.isPlaying) this.sayTimer = setTimeout(() => this.say(), SAY_RESTS);
  }

  say() { this.find("say").textContent = sentence(this.trace, this.moment, this.format); }

  writeAddress() {
    const hash = writeFragment(nameMoment(this.trace, this.moment, readFragment(location.hash)));
    if (location.hash === hash) return;
    try { history.replaceState(null, "", hash); } catch { /* a page that may not */ }
  }

  /* Goes where the page's address says; answers whether it says anything. */
  goToAddress() {
    const moment = momentNamed(this.trace, readFragment(location.hash));
    if (moment >= 0 && moment !== this.moment) this.go(moment, { isFast: true });
    return moment >= 0;
  }

  goToKind(bits, by) {
    const moment = by > 0 ? this.trace.nextOf(bits, this.moment) : this.trace.previousOf(bits, this.moment);
    if (moment >= 0) this.go(moment);
  }

  /* To the end of this line or the next, or to the beginning of this line or the one before. */
  goToLine(by) {
    const lines = this.trace.lines.filter((line) => line.last >= 0);
    const at = lines.findIndex((line) => line.index === this.trace.lineOf[this.moment]);
    const line = lines[at];
    if (by > 0) {
      const to = line && this.moment < line.last ? line : lines[at + 1];
      this.go(to ? to.last : this.trace.last);
    } else {
      const to = line && this.moment > line.first ? line : lines[at - 1];
      this.go(to ? to.first : 0);
    }
  }

  askForStep() {
    const answer = prompt(`Go to step (0 to ${this.trace.steps})`, this.trace.stepOf[this.moment]);
    if (answer !== null && /^\s*\d{1,9}\s*$/.test(answer)) this.go(this.trace.momentForStep(Number(answer)));
  }

  faster(by) {
    const at = Math.max(0, Math.min(SPEEDS.length - 1, SPEEDS.indexOf(this.speed) + by));
    this.speed = SPEEDS[at];
    this.find("speed").value = this.speed;
  }

  play(isOn) {
    if (isOn === this.isPlaying && !isOn) return;
    this.isPlaying = isOn;
    const button = this.find("play");
    button.setAttribute("aria-pressed", isOn);
    button.setAttribute("aria-label", isOn ? "Stop" : "Play");
    cancelAnimationFrame(this.frame);
    if (!isOn) { this.go(this.moment); return; }
    if (this.moment === this.trace.last) this.go(0);
    this.then = performance.now();
    this.owed = 0;
    this.frame = requestAnimationFrame((time) => this.tick(time));
  }

  tick(time) {
    this.owed += Math.min(0.25, (time - this.then) / 1000) * this.speed;
    this.then = time;
    const steps = Math.floor(this.owed);
    this.owed -= steps;
    if (steps) this.go(this.moment + steps, { isFast: steps > 1 });
    if (this.moment >= this.trace.last) { this.play(false); return; }
    this.frame = requestAnimationFrame((next) => this.tick(next));
  }

  // ---- choosing

  isChosen(kind, value) { return this.chosen !== null && this.chosen[kind] === value; }

  /* Chooses a register, a word or a block; what is chosen already is chosen no longer. */
  choose(choice) {
    const isSame = choice !== null && JSON.stringify(choice) === JSON.stringify(this.chosen);
    this.chosen = isSame ? null : choice;
    this.draw();
  }

  /* The history of the register or the word that is chosen, if one is. */
  historyChosen() {
    if (this.chosen === null || this.chosen.block !== undefined) return undefined;
    const { word, register } = this.chosen;
    return word !== undefined ? this.trace.words.get(word) : this.trace.historyOf(register);
  }

  /* The moment at which it was written last, up to now; 0 where nothing is chosen, or it wasn't written. */
  lastWriteOfChosen() {
    const history = this.historyChosen();
    return history ? history.lastWrite(this.moment) : 0;
  }

  setFormat(format) {
    this.format = format;
    for (const button of this.find("formats").children) button.setAttribute("aria-pressed",
      button.dataset.format === format);
    this.find("words").className = "body " + format;
    this.draw();
  }

  recolour() { forgetColours(); this.draw(); }

  // ---- drawing

  /* What is done when all parts have drawn: scrolling, which asks for sizes. */
  afterwards(act) { this.atEnd.push(act); }

  draw(animate = false) {
    this.tip.hide();
    this.record = this.trace.record(this.moment);
    for (const part of this.parts) part.draw(this.moment, part === this.heaps ? animate : this.record);
    const isFirst = this.moment === 0, isLast = this.moment === this.trace.last;
    for (const id of ["first", "back"]) this.find(id).disabled = isFirst;
    for (const id of ["forward", "end"]) this.find(id).disabled = isLast;
    for (const act of this.atEnd.splice(0)) act();
    this.onDraw(this.moment);
  }

  /* Takes the player off the page. */
  remove() {
    this.ending.abort();
    this.watch.disconnect();
    cancelAnimationFrame(this.frame);
    clearTimeout(this.addressTimer);
    clearTimeout(this.sayTimer);
    this.place.replaceChildren();
  }
}
return { Player };
})();

const module_src_heaps = (() => {
const { FLEX_HEADER, HeapHistory } = module_src_heap_history;
/* All heaps of a trace, and the flex store: changes of records to their histories. Pure. */


const FLEX = "flex";
/* A flex block's header and its bytes, filled up to whole words. */
const wholeBytes = (bytes) => FLEX_HEADER + ((bytes + 3) & ~3);

class Heaps {
  constructor() {
    this.byAddress = new Map();
    this.blocks = [];          // of all heaps, by number - 1
  }

  at(address) { return this.byAddress.get(address); }

  store() { return this.byAddress.get(FLEX); }

  list() { return [...this.byAddress.values()].filter((heap) => heap.address && heap.events.length); }

  made(key, address) {
    let heap = this.byAddress.get(key);
    if (!heap) this.byAddress.set(key, heap = new HeapHistory(address, key === FLEX, this.blocks));
    return heap;
  }

  endAll(moment) {
    for (const heap of this.byAddress.values()) if (heap.thereAt(moment)) heap.end(moment);
  }

  /* The changes of one record. `asked` is how many bytes a claim asked for, or -1. */
  change(changes, moment, asked) {
    for (const change of changes) {
      const heap = this.made(change.heap, change.heap);
      if (change.gone) heap.end(moment);
      if (change.gone && !change.made) continue;
      this.changeItems(heap, change.items || [], moment, asked);
      const limits = heap.limits.newest();
      heap.setLimits(moment, change.base === undefined ? limits.base : change.base,
        change.end === undefined ? limits.end : change.end);
    }
  }

  /* What goes first, so that the places are free for what comes. */
  changeItems(heap, items, moment, asked) {
    const moved = [];
    for (const item of items) {
      if (item[0] === "-") heap.free(moment, item[2]);
      else if (item[0] === "=") moved.push([heap.leave(moment, item[2]), item]);
    }
    for (const item of items) if (item[0] === "+") {
      const stay = heap.come(moment, item[1], item[2], item[3]);
      if (stay.block) stay.block.asked = asked;
    }
    for (const [stay, item] of moved) heap.come(moment, item[1], item[4], item[5], stay && stay.block);
  }

  setStore(store, moment) {
    const heap = this.made(FLEX, 0);
    if (!store) { heap.end(moment); return; }
    heap.address = store.start;
    heap.setLimits(moment, store.used, store.end - store.start);
  }

  changeFlex(changes, moment) {
    const heap = this.made(FLEX, 0), moved = [];
    const put = (block, anchor, address, bytes) => {
      heap.come(moment, "live", address - FLEX_HEADER, wholeBytes(bytes), block, anchor).bytes = bytes;
    };
    for (const change of changes) {
      const stay = [...heap.live.values()].find((each) => each.anchor === change[1]);
      if (change[0] === "-" && stay) heap.free(moment, stay.at);
      if (change[0] === "=") moved.push([stay && heap.leave(moment, stay.at), change]);
    }
    for (const change of changes) if (change[0] === "+") put(null, change[1], change[2], change[3]);
    for (const [stay, change] of moved) put(stay && stay.block, change[1], change[2], change[3]);
    let used = 0;
    for (const stay of heap.live.values()) used = Math.max(used, stay.at + stay.size - heap.address);
    if (heap.address) heap.setLimits(moment, used, heap.limits.newest().end);
  }
}
return { Heaps };
})();

const module_src_images = (() => {
const { RETURN_GATE } = module_src_names;
/* Images: which line of the script an address belongs to, and what it is called. Pure. */


/* An image as its record has it, with its labels by address and the line of each word. */
function imageOf(record, line) {
  const labels = Object.entries(record.labels || {}).map(([name, at]) => ({ name, at }));
  labels.sort((a, b) => a.at - b.at);
  const lines = (record.lines || []).map(([number, at, size]) => ({ line: number, at, size }));
  const byOffset = new Map();
  for (const part of lines) for (let k = 0; k < part.size; k += 4) byOffset.set(part.at + k, part);
  return { name: record.name, origin: record.origin, length: record.length, labels, lines, byOffset, block: line };
}

/* The line of the script at whose code an address lies, where images stand at these places: {line, image}. */
function sourceIn(images, places, address) {
  for (const place of places) {
    const image = images.get(place.name);
    if (!image || address < place.at || address >= place.at + image.length) continue;
    const part = image.byOffset.get(address - place.at);
    if (part) return { line: part.line, image };
  }
  return null;
}

const withOffset = (name, offset) => name + (offset ? "+" + offset : "");

/* "label+4" for an address in an image, "image+8" where no label stands before it, and "" elsewhere. */
function nameIn(images, places, address) {
  for (const place of places) {
    const image = images.get(place.name);
    if (!image || address < place.at || address >= place.at + image.length) continue;
    const offset = address - place.at;
    let label = null;
    for (const known of image.labels) if (known.at <= offset) label = known;
    return label ? withOffset(label.name, offset - label.at) : withOffset(image.name, offset);
  }
  return address === RETURN_GATE ? "return gate" : "";
}
return { imageOf, sourceIn, nameIn };
})();

const module_src_records = (() => {
const { FLAGS, MODES, REGISTER_INDEX } = module_src_names;
/* Reads JSON Lines, and checks each record: what isn't a record of the format ends in a message with its line.
   Pure. */


class BadRecords extends Error {}

const isNumber = (v) => typeof v === "number" && v >= 0 && v <= 0xFFFFFFFF && Number.isInteger(v);
const isCount = (v) => typeof v === "number" && v >= 0 && Number.isSafeInteger(v);
/* A budget may have 64 bits: what it is to the last step isn't looked at here. */
const isBudget = (value) => Number.isInteger(value) && value >= 0;
const isText = (v) => typeof v === "string";
const isTrue = (v) => v === true;
const isObject = (v) => v !== null && typeof v === "object" && !Array.isArray(v);
const orNull = (test) => (v) => v === null || test(v);
const listOf = (test) => (v) => {
  if (!Array.isArray(v)) return false;
  for (const each of v) if (!test(each)) return false;
  return true;
};
const tuple = (...tests) => (v) => Array.isArray(v) && v.length === tests.length
  && tests.every((test, i) => test(v[i]));
/* An object: fields that have to be there, and fields that may. */
const fields = (needed, others = {}) => (v) => {
  if (!isObject(v)) return false;
  for (const name in needed) if (!(name in v)) return false;
  for (const name in v) {
    const test = Object.hasOwn(needed, name) ? needed[name] : Object.hasOwn(others, name) ? others[name] : null;
    if (!test || !test(v[name])) return false;
  }
  return true;
};
const mapOf = (keyTest, valueTest) => (v) => {
  if (!isObject(v)) return false;
  for (const key in v) if (!keyTest(key) || !valueTest(v[key])) return false;
  return true;
};
const either = (...tests) => (v) => tests.some((test) => test(v));
const oneOf = (...values) => (v) => values.includes(v);

const isMode = (v) => MODES.includes(v);
const isBit = oneOf(0, 1);
const isRegisters = mapOf((name) => REGISTER_INDEX.has(name), isNumber);
const isFlags = mapOf((name) => name.length === 1 && FLAGS.includes(name), isBit);
const isWritten = listOf(tuple(isNumber, isNumber, isNumber));
const isPairs = listOf(tuple(isNumber, isNumber));
const isItem = either(tuple(oneOf("+", "-"), oneOf("live", "free"), isNumber, isNumber),
  tuple(oneOf("="), oneOf("live"), isNumber, isNumber, isNumber, isNumber));
const isHeaps = listOf(fields({ heap: isNumber },
  { made: isTrue, gone: isTrue, base: isNumber, end: isNumber, items: listOf(isItem) }));
const isFlex = listOf(either(tuple(oneOf("-"), isNumber), tuple(oneOf("+"), isNumber, isNumber, isNumber),
  tuple(oneOf("="), isNumber, isNumber, isNumber, isNumber, isNumber)));
const isFlexStore = orNull(fields({ start: isNumber, end: isNumber, used: isNumber }));
const isAreas = listOf(fields({ area: isNumber, base: isNumber, size: isNumber, max: isNumber, name: isText }));
const isInstances = listOf(fields({ name: isText, word: isNumber, preferred: (v) => typeof v === "boolean" }));
const isModules = listOf(fields({ title: isText, at: isNumber, length: isNumber, instances: isInstances }));
const isPlaces = listOf(tuple(isText, orNull(isNumber)));
const isStop = fields({ reason: isText }, { error: isNumber, name: isText, pc: isNumber });
const isError = fields({ number: isNumber }, { name: isText });
const isSwi = fields({ number: isNumber }, {
  x: isTrue, name: isText, reason: isNumber, does: isText, args: listOf(isText), strings: mapOf(isText, isText) });
const isEntry = fields({ frame: isNumber, entry: isText, module: isText, instance: isText,
  caller: orNull(isNumber), mode: isMode, sp: isNumber }, { swi: isNumber });
const isImage = fields({ name: isText, origin: isNumber, length: isNumber },
  { labels: mapOf(isText, isNumber), lines: listOf(tuple(isNumber, isNumber, isNumber)) });
const isSizes = fields({ pages: isNumber, app: isNumber, rma: isNumber });

const STATE = { regs: isRegisters, flags: isFlags, mode: isMode, pc: isNumber, mapped: isPairs, mem: isWritten,
  heaps: isHeaps, areas: isAreas, pool: isNumber, flex: isFlexStore, modules: isModules };
const CHANGES = { regs: isRegisters, flags: isFlags, mode: isMode, mem: isWritten, more: isCount, heaps: isHeaps,
  flex: isFlex, flex_store: isFlexStore, areas: isAreas, pool: isNumber, modules: isModules, places: isPlaces };

/* Each kind of record: the fields that it has to have, and those that it may have. */
const KINDS = {
  start: fields({ start: isCount, name: isText, sizes: isSizes, budget: isBudget, ...STATE },
    { limit: isCount }),
  line: fields({ line: isCount, text: isText }, { block: listOf(isText), repeat: isCount }),
  step: fields({ step: isCount }, { ...CHANGES, pc: isNumber, call: isText, word: isNumber, asm: isText,
    skip: isCount, skipped: isTrue, stub: isTrue, swi: isSwi, reads: isPairs, next: isNumber, error: isError,
    enters: isEntry, leaves: isCount, out: isText, stop: isStop }),
  answer: fields({ answer: isCount }, { ...CHANGES, remark: isTrue, steps: isCount, text: isText, refused: isTrue,
    pc: isNumber, expect: fields({ pass: (v) => typeof v === "boolean" }, { is: isText }), stop: isStop,
    error: isNumber, image: isImage, reset: fields(STATE) }),
  end: fields({ end: isCount }, { passed: isCount, failed: isCount, refused: isCount, status: isCount }),
};

function firstKey(record) {
  for (const key in record) return key;
  return "";
}

function parsed(line, number) {
  let record;
  try {
    record = JSON.parse(line);
  } catch {
    throw new BadRecords(`Record ${number} isn't whole: it can't be read as JSON.`);
  }
  const kind = isObject(record) ? firstKey(record) : "";
  if (!Object.hasOwn(KINDS, kind)) throw new BadRecords(`Record ${number} is of no known kind.`);
  if (!KINDS[kind](record)) {
    throw new BadRecords(`Record ${number}, of kind ${kind}, has fields that the format doesn't have.`);
  }
  return { record, kind };
}

/* What each kind of record has to come after. */
class Order {
  constructor() { this.line = null; this.started = false; this.ended = false; }

  check(record, kind, number) {
    const bad = (why) => { throw new BadRecords(`Record ${number}, of kind ${kind}, ${why}.`); };
    if (this.ended) bad("stands after the end");
    if ((kind === "start") === this.started) bad(this.started ? "stands behind another start"
      : "stands before the start");
    const isOther = kind === "start" && record.start !== 1;
    if (isOther) bad(`is of version ${record.start} of the format; this viewer reads version 1`);
    if (kind === "line" && this.line) bad(`stands before the answer to line ${this.line.line}`);
    if (kind === "step" && !this.line) bad("belongs to no line");
    if (kind === "step" && record.pc === undefined && record.call === undefined && record.skip === undefined) {
      bad("has no address");
    }
    if (kind === "answer" && (!this.line || this.line.line !== record.answer)) bad("answers no line that was there");
    this.started = true;
    if (kind === "line") this.line = record;
    if (kind === "answer") this.line = null;
    if (kind === "end") this.ended = true;
  }
}

/* All records of a text, in order: {record, kind, from, to}, with where each stands in it. */
function* recordsOf(text) {
  const order = new Order();
  let at = 0, number = 0;
  while (at < text.length) {
    let to = text.indexOf("\n", at);
    if (to < 0) to = text.length;
    if (to > at) {
      number++;
      const { record, kind } = parsed(text.slice(at, to), number);
      order.check(record, kind, number);
      yield { record, kind, from: at, to };
    }
    at = to + 1;
  }
  if (!order.ended) throw new BadRecords(`The records aren't whole: after record ${number} the end is missing.`);
}
return { BadRecords, recordsOf };
})();

const module_src_sources = (() => {
/* Lines of blocks. Those that rosm_source has made of an old source are words, bytes and labels, each with the
   source's line as a comment; that line is shown in their place. Pure. */

const DATA = /^ DC[DB] &[0-9A-F]+(?:,&[0-9A-F]+)*(?: ; (.*))?$/;
const LABEL = /^(\w+)(?: ; .*)?$/;
const NOTE = /^ ; /;
const END = /^\s*END\s*$/i;

/* Whether rosm_source has made a block: it has nothing but these lines, and a source's line among them. */
const isMade = (texts) => texts.some((text) => DATA.exec(text)?.[1]) &&
  texts.every((text) => DATA.test(text) || LABEL.test(text) || NOTE.test(text) || END.test(text));

/* The lines of a block as their source has them. Of a macro's line, with its parameters, only a comment is known. */
function sourceLines(texts) {
  if (!isMade(texts)) return texts;
  let label = "";
  return texts.map((text) => {
    const source = DATA.exec(text)?.[1];
    if (!source) {
      label = LABEL.exec(text)?.[1] ?? label;
      return text;
    }
    if (/\$\w/.test(source)) return " ; " + source;
    const first = source.split(/\s/, 1)[0];
    return first === label || /^[\d.]/.test(first) ? source : " " + source;
  });
}
return { sourceLines };
})();

const module_src_replay = (() => {
const { Heaps } = module_src_heaps;
const { History, Timeline, lastAtMost } = module_src_histories;
const { imageOf, nameIn, sourceIn } = module_src_images;
const { KIND, MODES, REGISTERS, REGISTER_INDEX, bankedName, packFlags, unpackFlags } = module_src_names;
const { recordsOf } = module_src_records;
const { sourceLines } = module_src_sources;
/* Records to a trace that can be asked for the machine at any moment. Pure.

   A *moment* is a record that can have changed something: the start, each step, and the answer to each line of
   the script that took no step. Moments are numbered from 0. Nothing is replayed step by step when the slider
   moves: of each *cell* (a register, the flags, the mode, a word of memory) the trace keeps the moments at which
   it was written, with what was written. Its value, who wrote it last and who writes it next are one search. */


/* A record that writes more words than this loads or clears memory: its words aren't worth a row each. */
const FEW_WORDS = 64;
/* In the lists of moments: no address. */
const NO_ADDRESS = -1;

class Trace {
  constructor(text) {
    this.text = text;
    this.from = []; this.to = [];            // where each moment's record stands in the text
    this.kind = []; this.lineOf = [];        // bits of KIND; the line by its place in `lines`, or -1
    this.stepOf = []; this.sourceOf = [];    // the step's number; the script line of its instruction; 0 for none
    this.pcBefore = []; this.pcAfter = [];
    this.momentOfStep = [0];
    this.words = new Map();                  // address to History
    this.touched = new Set();                // words that a step or a line of the script read or wrote
    this.lines = []; this.images = new Map();
    this.sources = new Map();                // script line number to its text, of lines in blocks
    this.hits = new Map();                   // script line number to the moments at which it was carried out
    this.listing = new Map();                // address to {pc, asm, hits}, of instructions without a source
    this.heaps = new Heaps();
    this.output = ""; this.outputAt = []; this.outputLength = [];
    this.expects = [];
    this.usesStack = false;
    this.steps = 0; this.gaps = 0;
    this.losses = [];                        // moments at which more words were written than the record lists
    this.read();
  }

  get last() { return this.kind.length - 1; }

  /* The record of a moment, parsed anew. */
  record(moment) { return JSON.parse(this.text.slice(this.from[moment], this.to[moment])); }

  // ---- reading

  read() {
    let line = null;
    for (const { record, kind, from, to } of recordsOf(this.text)) {
      if (kind === "step") this.step(record, from, to, line);
      else if (kind === "line") line = this.line(record);
      else if (kind === "answer") this.answer(record, from, to, line);
      else if (kind === "start") this.start(record, from, to);
      else this.end = record;
    }
    this.kind = Uint16Array.from(this.kind);
    this.pcBefore = Float64Array.from(this.pcBefore);
    this.pcAfter = Uint32Array.from(this.pcAfter);
    for (const name of ["stepOf", "sourceOf", "from", "to"]) this[name] = Uint32Array.from(this[name]);
    this.lineOf = Int32Array.from(this.lineOf);
  }

  moment(kind, line, step, pcBefore, pcAfter, from, to) {
    this.kind.push(kind); this.lineOf.push(line ? line.index : -1); this.stepOf.push(step);
    this.pcBefore.push(pcBefore); this.pcAfter.push(pcAfter);
    this.from.push(from); this.to.push(to); this.sourceOf.push(0);
    const moment = this.last;
    if (line) { if (line.first < 0) line.first = moment; line.last = moment; }
    return moment;
  }

  start(record, from, to) {
    this.name = record.name;
    this.first = record;
    this.moment(0, null, 0, NO_ADDRESS, record.pc, from, to);
    this.registers = REGISTERS.map((name) => new History(record.regs[name] || 0));
    this.psr = new History(packFlags(record.flags, 0));
    this.mode = new History(MODES.indexOf(record.mode));
    for (const [address, , word] of record.mem) this.words.set(address, new History(word));
    this.heaps.change(record.heaps, 0, -1);
    if (record.flex) this.heaps.setStore(record.flex, 0);
    this.frames = new Timeline(null);
    this.areas = new Timeline(record.areas);
    this.pool = new Timeline(record.pool);
    this.modules = new Timeline(record.modules);
    this.places = new Timeline([]);
    this.mappedAtFirst = new Timeline(record.mapped);
  }

  line(record) {
    const line = { index: this.lines.length, line: record.line, text: record.text, block: record.block || null,
      repeat: record.repeat || 0, first: -1, last: -1, answer: "", remark: false, expect: null, steps: 0,
      refused: false, stop: null };
    this.lines.push(line);
    if (record.block) sourceLines(record.block).forEach((text, i) => this.sources.set(record.line + 1 + i, text));
    return line;
  }

  answer(record, from, to, line) {
    line.answer = record.text === undefined ? "" : record.text;
    line.remark = record.remark === true;
    line.steps = record.steps || 0;
    line.refused = record.refused === true;
    line.expect = record.expect || null;
    line.stop = record.stop || null;
    if (line.remark) return;
    let kind = line.refused ? KIND.REFUSED : 0;
    if (record.expect) kind |= record.expect.pass ? KIND.PASS : KIND.FAIL;
    let moment = this.last;
    if (!record.steps) {
      const pc = record.reset ? record.reset.pc : record.pc === undefined ? this.pcAfter[moment] : record.pc;
      moment = this.moment(kind, line, 0, NO_ADDRESS, pc, from, to);
    } else {
      this.kind[moment] |= kind;
      if (record.pc !== undefined) this.pcAfter[moment] = record.pc;
    }
    if (record.expect) this.expects.push({ moment, line: record.answer, pass: record.expect.pass });
    if (record.reset) this.reset(record.reset, moment);
    this.change(record, moment);
    this.touchWritten(record, record.mem !== undefined && record.mem.length > 1);
    if (record.image) this.images.set(record.image.name, imageOf(record.image, line));
  }

  /* A fresh machine in place of the old one. */
  reset(state, moment) {
    this.kind[moment] |= KIND.RESET;
    REGISTERS.forEach((name, i) => {
      const value = state.regs[name] || 0;
      if (this.registers[i].newest() !== value) this.registers[i].put(moment, value);
    });
    this.psr.put(moment, packFlags(state.flags, 0));
    this.mode.put(moment, MODES.indexOf(state.mode));
    const fresh = new Map(state.mem.map(([address, , word]) => [address, word]));
    for (const [address, history] of this.words) {
      const word = fresh.get(address) || 0;
      if (history.newest() !== word) history.put(moment, word);
      fresh.delete(address);
    }
    for (const [address, word] of fresh) this.write(address, 0, word, moment);
    this.heaps.endAll(moment);
    this.heaps.change(state.heaps, moment, -1);
    if (state.flex) this.heaps.setStore(state.flex, moment);
    this.frames.put(moment, null);
    this.areas.put(moment, state.areas);
    this.pool.put(moment, state.pool);
    this.modules.put(moment, state.modules);
    this.places.put(moment, []);
    this.mappedAtFirst.put(moment, state.mapped);
    this.sourceCache = null;
  }

  step(record, from, to, line) {
    const pc = this.pcAfter[this.last];
    const isOutside = record.call !== undefined || record.skip !== undefined;
    const stays = record.stop !== undefined || isOutside;
    const after = record.next !== undefined ? record.next : stays ? pc : (record.pc + 4) >>> 0;
    const moment = this.moment(kindOfStep(record), line, record.step, isOutside ? NO_ADDRESS : record.pc, after,
      from, to);
    this.momentOfStep[record.step] = moment;
    this.steps = record.step;
    if (record.skip !== undefined) this.gaps += record.skip;
    if (!isOutside) this.hit(record, moment);
    if (record.reads) this.touch(record.reads);
    this.change(record, moment);
    this.touchWritten(record, record.places !== undefined);
    this.changeFrames(record, moment);
    this.print(record.out, moment);
  }

  touch(words) { for (const [address] of words) this.touched.add(address); }

  /* Words that a record writes. Where it puts images into memory, those of the images aren't counted. */
  touchWritten(record, isLoading) {
    if (!record.mem || record.mem.length > FEW_WORDS) return;
    const isOfImage = (address) => this.places.newest().some((place) =>
      this.images.has(place.name) && address >= place.at && address < place.at + this.images.get(place.name).length);
    this.touch(isLoading ? record.mem.filter(([address]) => !isOfImage(address)) : record.mem);
  }

  print(out, moment) {
    if (!out) return;
    this.output += out;
    this.outputAt.push(moment);
    this.outputLength.push(this.output.length);
  }

  /* Counts an instruction at its source line, or in the listing of code without one. */
  hit(record, moment) {
    const source = this.sourceNow(record.pc);
    if (source) {
      this.sourceOf[moment] = source.line;
      const hits = this.hits.get(source.line);
      if (hits) hits.push(moment); else this.hits.set(source.line, [moment]);
    } else if (record.asm !== undefined) {
      const known = this.listing.get(record.pc) || { pc: record.pc, asm: "", hits: [] };
      known.asm = record.asm;
      known.hits.push(moment);
      this.listing.set(record.pc, known);
    }
  }

  change(record, moment) {
    if (record.regs) {
      if ("R13_usr" in record.regs || "R13_svc" in record.regs) this.usesStack = true;
      for (const name in record.regs) this.registers[REGISTER_INDEX.get(name)].put(moment, record.regs[name]);
    }
    if (record.flags) this.psr.put(moment, packFlags(record.flags, this.psr.newest()));
    if (record.mode) this.mode.put(moment, MODES.indexOf(record.mode));
    if (record.mem) for (const [address, old, word] of record.mem) this.write(address, old, word, moment);
    if (record.more) this.losses.push(moment);
    if (record.areas) this.areas.put(moment, record.areas);
    if (record.pool !== undefined) this.pool.put(moment, record.pool);
    if (record.modules) this.modules.put(moment, record.modules);
    if (record.heaps) this.heaps.change(record.heaps, moment, this.askedFor(record, moment));
    if (record.flex_store !== undefined) this.heaps.setStore(record.flex_store, moment);
    if (record.flex) this.heaps.changeFlex(record.flex, moment);
    if (record.places) this.changePlaces(record.places, moment);
  }

  write(address, old, word, moment) {
    let history = this.words.get(address);
    if (!history) this.words.set(address, history = new History(old));
    history.put(moment, word);
  }

  changePlaces(changes, moment) {
    const places = this.places.newest().filter((place) => !changes.some(([name]) => name === place.name));
    for (const [name, at] of changes) if (at !== null) places.push({ name, at });
    this.places.put(moment, places);
    this.sourceCache = null;
  }

  changeFrames(record, moment) {
    if (record.leaves !== undefined) {
      let frame = this.frames.newest();
      while (frame && frame.entry.frame >= record.leaves) frame = frame.below;
      this.frames.put(moment, frame);
    }
    if (record.enters) {
      this.usesStack = true;
      this.frames.put(moment, { entry: record.enters, below: this.frames.newest() });
    }
  }

  /* How many bytes a claim asked for, by what R3 was; -1 where it isn't a claim. */
  askedFor(record, moment) {
    const swi = record.swi;
    const claims = swi && (swi.name === "OS_Heap" && swi.reason === 2 || swi.name === "OS_Module"
      && swi.reason === 6);
    return claims ? this.registers[3].valueAt(moment - 1) : -1;
  }

  /* The source of an address where images stand at the end of what was read so far. */
  sourceNow(address) {
    if (!this.sourceCache) this.sourceCache = new Map();
    let source = this.sourceCache.get(address);
    if (source === undefined) {
      this.sourceCache.set(address, source = sourceIn(this.images, this.places.newest(), address));
    }
    return source;
  }

  // ---- what is so after a moment

  sourceAt(address, moment) { return sourceIn(this.images, this.places.valueAt(moment), address); }

  nameOf(address, moment) { return nameIn(this.images, this.places.valueAt(moment), address); }

  modeAt(moment) { return MODES[this.mode.valueAt(moment)]; }

  flagsAt(moment) { return unpackFlags(this.psr.valueAt(moment)); }

  historyOf(name) { return this.registers[REGISTER_INDEX.get(name)]; }

  /* The history of Rn, 0 to 14, as the mode after a moment sees it. */
  registerHistory(n, moment) { return this.historyOf(bankedName(n, this.modeAt(moment))); }

  register(n, moment) { return n === 15 ? this.pcAfter[moment] : this.registerHistory(n, moment).valueAt(moment); }

  word(address, moment) {
    const history = this.words.get(address);
    return history ? history.valueAt(moment) : 0;
  }

  /* Whether the records say what a word is after a moment: a write of very many words lists only the first. */
  knows(address, moment) {
    const loss = lastAtMost(this.losses, moment);
    if (loss < 0) return true;
    const history = this.words.get(address);
    return history !== undefined && history.lastWrite(moment) >= this.losses[loss];
  }

  mapped(address, moment) {
    const inside = (from, bytes) => address >= from && address < from + bytes;
    return this.mappedAtFirst.valueAt(moment).some(([from, bytes]) => inside(from, bytes)) ||
      this.areas.valueAt(moment).some((area) => inside(area.base, area.size));
  }

  outputTo(moment) {
    const k = lastAtMost(this.outputAt, moment);
    return k < 0 ? "" : this.output.slice(0, this.outputLength[k]);
  }

  /* What the moment itself printed. */
  outputBy(moment) {
    const k = lastAtMost(this.outputAt, moment);
    if (k < 0 || this.outputAt[k] !== moment) return "";
    return this.output.slice(k ? this.outputLength[k - 1] : 0, this.outputLength[k]);
  }

  /* Open frames of module code, the innermost first. */
  framesAt(moment) {
    const frames = [];
    for (let frame = this.frames.valueAt(moment); frame; frame = frame.below) frames.push(frame.entry);
    return frames;
  }

  /* Why the machine was halted behind a moment, as the line's answer has it; null where it wasn't, or where the
     step itself says so. */
  haltBehind(moment, record) {
    const line = this.lineAt(moment);
    return line && line.last === moment && line.steps && !record.stop ? line.stop : null;
  }

  lineAt(moment) {
    const index = this.lineOf[moment];
    return index < 0 ? null : this.lines[index];
  }

  heapList() { return this.heaps.list(); }

  // ---- where to go

  /* The next and the previous moment of a kind; -1 where there is none. */
  nextOf(bits, moment) {
    for (let i = moment + 1; i <= this.last; i++) if (this.kind[i] & bits) return i;
    return -1;
  }

  previousOf(bits, moment) {
    for (let i = moment - 1; i >= 0; i--) if (this.kind[i] & bits) return i;
    return -1;
  }

  momentForStep(step) {
    if (step <= 0) return 0;
    for (let k = step; k <= this.steps; k++) if (this.momentOfStep[k] !== undefined) return this.momentOfStep[k];
    return this.momentOfStep[this.steps];
  }

  momentForLine(number) {
    const line = this.lines.find((each) => each.line >= number && each.last >= 0);
    return line ? line.last : -1;
  }
}

function kindOfStep(record) {
  let kind = KIND.STEP;
  if (record.swi) kind |= KIND.SWI;
  if (record.out) kind |= KIND.PRINT;
  if (record.skipped) kind |= KIND.SKIPPED;
  if (record.mem) kind |= KIND.STORE;
  if (record.error) kind |= KIND.ERROR;
  if (record.enters || record.leaves !== undefined) kind |= KIND.FRAME;
  if (record.stop) kind |= KIND.STOP;
  if (record.heaps || record.flex) kind |= KIND.HEAP;
  if (record.skip !== undefined) kind |= KIND.GAP;
  return kind;
}
return { Trace };
})();

const module_src_theme = (() => {
const { forgetColours, keep, kept } = module_src_dom;
/* Light or dark: as the address says, as it was kept, or as the reader's system has it. */


const isTheme = (name) => name === "light" || name === "dark";

/* Sets the theme, and lets `redraw` know when it changes: by a button with data-act "theme", or by the system. */
function startTheme(redraw) {
  const dark = matchMedia("(prefers-color-scheme: dark)");
  const wish = new URLSearchParams(location.search).get("theme");
  const root = document.documentElement;
  const set = (name) => { root.dataset.theme = name; forgetColours(); redraw(); };
  const usual = () => dark.matches ? "dark" : "light";
  root.dataset.theme = [wish, kept("theme"), usual()].find(isTheme);
  document.addEventListener("click", (event) => {
    if (!event.target.closest("[data-act=theme]")) return;
    const name = root.dataset.theme === "dark" ? "light" : "dark";
    keep("theme", name);
    set(name);
  });
  dark.addEventListener("change", () => { if (!isTheme(wish) && !isTheme(kept("theme"))) set(usual()); });
  let before = root.dataset.theme;
  addEventListener("beforeprint", () => { before = root.dataset.theme; set("light"); });
  addEventListener("afterprint", () => set(before));
}
return { startTheme };
})();

const module_src_page = (() => {
const { Player } = module_src_player;
const { Trace } = module_src_replay;
const { startTheme } = module_src_theme;
/* The page of one trace: reads the data that stand in it, and starts the player. */


/* The data as they stand in the page: plain, or packed by gzip and written as base64. */
async function dataOfPage() {
  const element = document.getElementById("trace"), text = element.textContent.trim();
  if (element.dataset.encoding !== "gzip") return text + "\n";
  const packed = Uint8Array.from(atob(text), (c) => c.charCodeAt(0));
  return new Response(new Blob([packed]).stream().pipeThrough(new DecompressionStream("gzip"))).text();
}

async function start() {
  let player = null;
  startTheme(() => { if (player) player.recolour(); });
  if (new URLSearchParams(location.search).has("embed")) document.body.classList.add("embed");
  const times = { begin: performance.now() }, trace = new Trace(await dataOfPage());
  times.read = performance.now();
  player = new Player(document.getElementById("player"), trace);
  document.title = player.title + " · rosm";
  document.getElementById("loading").hidden = true;
  if (!player.goToAddress()) player.go(0, { isFast: true });
  times.drawn = performance.now();
  window.rosm = { player, trace, times };
}

start().catch((error) => {
  document.getElementById("loading").textContent = "This page can't be shown. " + error.message;
});
return {  };
})();
})();
