/* Records to a trace that can be asked for the machine at any moment. Pure.

   A *moment* is a record that can have changed something: the start, each step, and the answer to each line of
   the script that took no step. Moments are numbered from 0. Nothing is replayed step by step when the slider
   moves: of each *cell* (a register, the flags, the mode, a word of memory) the trace keeps the moments at which
   it was written, with what was written. Its value, who wrote it last and who writes it next are one search. */

import { Heaps } from "./heaps.js";
import { History, Timeline, lastAtMost } from "./histories.js";
import { imageOf, nameIn, sourceIn } from "./images.js";
import { KIND, MODES, REGISTERS, REGISTER_INDEX, bankedName, packFlags, unpackFlags } from "./names.js";
import { recordsOf } from "./records.js";
import { sourceLines } from "./sources.js";

/* A record that writes more words than this loads or clears memory: its words aren't worth a row each. */
const FEW_WORDS = 64;
/* In the lists of moments: no address. */
const NO_ADDRESS = -1;

export class Trace {
  constructor(text) {
    this.text = text;
    this.from = []; this.to = [];            // where each moment's record stands in the text
    this.kind = []; this.lineOf = [];        // bits of KIND; the line by its place in `lines`, or -1
    this.stepOf = []; this.sourceOf = [];    // the step's number; the script line of its instruction; 0 for none
    this.pcBefore = []; this.pcAfter = [];
    this.momentOfStep = [0];
    this.words = new Map();                  // address to History
    this.touched = new Set();                // words that a step or a line of the script read or wrote
    this.lines = []; this.images = new Map();
    this.sources = new Map();                // script line number to its text, of lines in blocks
    this.hits = new Map();                   // script line number to the moments at which it was carried out
    this.listing = new Map();                // address to {pc, asm, hits}, of instructions without a source
    this.heaps = new Heaps();
    this.output = ""; this.outputAt = []; this.outputLength = [];
    this.expects = [];
    this.usesStack = false;
    this.steps = 0; this.gaps = 0;
    this.losses = [];                        // moments at which more words were written than the record lists
    this.read();
  }

  get last() { return this.kind.length - 1; }

  /* The record of a moment, parsed anew. */
  record(moment) { return JSON.parse(this.text.slice(this.from[moment], this.to[moment])); }

  // ---- reading

  read() {
    let line = null;
    for (const { record, kind, from, to } of recordsOf(this.text)) {
      if (kind === "step") this.step(record, from, to, line);
      else if (kind === "line") line = this.line(record);
      else if (kind === "answer") this.answer(record, from, to, line);
      else if (kind === "start") this.start(record, from, to);
      else this.end = record;
    }
    this.kind = Uint16Array.from(this.kind);
    this.pcBefore = Float64Array.from(this.pcBefore);
    this.pcAfter = Uint32Array.from(this.pcAfter);
    for (const name of ["stepOf", "sourceOf", "from", "to"]) this[name] = Uint32Array.from(this[name]);
    this.lineOf = Int32Array.from(this.lineOf);
  }

  moment(kind, line, step, pcBefore, pcAfter, from, to) {
    this.kind.push(kind); this.lineOf.push(line ? line.index : -1); this.stepOf.push(step);
    this.pcBefore.push(pcBefore); this.pcAfter.push(pcAfter);
    this.from.push(from); this.to.push(to); this.sourceOf.push(0);
    const moment = this.last;
    if (line) { if (line.first < 0) line.first = moment; line.last = moment; }
    return moment;
  }

  start(record, from, to) {
    this.name = record.name;
    this.first = record;
    this.moment(0, null, 0, NO_ADDRESS, record.pc, from, to);
    this.registers = REGISTERS.map((name) => new History(record.regs[name] || 0));
    this.psr = new History(packFlags(record.flags, 0));
    this.mode = new History(MODES.indexOf(record.mode));
    for (const [address, , word] of record.mem) this.words.set(address, new History(word));
    this.heaps.change(record.heaps, 0, -1);
    if (record.flex) this.heaps.setStore(record.flex, 0);
    this.frames = new Timeline(null);
    this.areas = new Timeline(record.areas);
    this.pool = new Timeline(record.pool);
    this.modules = new Timeline(record.modules);
    this.places = new Timeline([]);
    this.mappedAtFirst = new Timeline(record.mapped);
  }

  line(record) {
    const line = { index: this.lines.length, line: record.line, text: record.text, block: record.block || null,
      repeat: record.repeat || 0, first: -1, last: -1, answer: "", remark: false, expect: null, steps: 0,
      refused: false, stop: null };
    this.lines.push(line);
    if (record.block) sourceLines(record.block).forEach((text, i) => this.sources.set(record.line + 1 + i, text));
    return line;
  }

  answer(record, from, to, line) {
    line.answer = record.text === undefined ? "" : record.text;
    line.remark = record.remark === true;
    line.steps = record.steps || 0;
    line.refused = record.refused === true;
    line.expect = record.expect || null;
    line.stop = record.stop || null;
    if (line.remark) return;
    let kind = line.refused ? KIND.REFUSED : 0;
    if (record.expect) kind |= record.expect.pass ? KIND.PASS : KIND.FAIL;
    let moment = this.last;
    if (!record.steps) {
      const pc = record.reset ? record.reset.pc : record.pc === undefined ? this.pcAfter[moment] : record.pc;
      moment = this.moment(kind, line, 0, NO_ADDRESS, pc, from, to);
    } else {
      this.kind[moment] |= kind;
      if (record.pc !== undefined) this.pcAfter[moment] = record.pc;
    }
    if (record.expect) this.expects.push({ moment, line: record.answer, pass: record.expect.pass });
    if (record.reset) this.reset(record.reset, moment);
    this.change(record, moment);
    this.touchWritten(record, record.mem !== undefined && record.mem.length > 1);
    if (record.image) this.images.set(record.image.name, imageOf(record.image, line));
  }

  /* A fresh machine in place of the old one. */
  reset(state, moment) {
    this.kind[moment] |= KIND.RESET;
    REGISTERS.forEach((name, i) => {
      const value = state.regs[name] || 0;
      if (this.registers[i].newest() !== value) this.registers[i].put(moment, value);
    });
    this.psr.put(moment, packFlags(state.flags, 0));
    this.mode.put(moment, MODES.indexOf(state.mode));
    const fresh = new Map(state.mem.map(([address, , word]) => [address, word]));
    for (const [address, history] of this.words) {
      const word = fresh.get(address) || 0;
      if (history.newest() !== word) history.put(moment, word);
      fresh.delete(address);
    }
    for (const [address, word] of fresh) this.write(address, 0, word, moment);
    this.heaps.endAll(moment);
    this.heaps.change(state.heaps, moment, -1);
    if (state.flex) this.heaps.setStore(state.flex, moment);
    this.frames.put(moment, null);
    this.areas.put(moment, state.areas);
    this.pool.put(moment, state.pool);
    this.modules.put(moment, state.modules);
    this.places.put(moment, []);
    this.mappedAtFirst.put(moment, state.mapped);
    this.sourceCache = null;
  }

  step(record, from, to, line) {
    const pc = this.pcAfter[this.last];
    const isOutside = record.call !== undefined || record.skip !== undefined;
    const stays = record.stop !== undefined || isOutside;
    const after = record.next !== undefined ? record.next : stays ? pc : (record.pc + 4) >>> 0;
    const moment = this.moment(kindOfStep(record), line, record.step, isOutside ? NO_ADDRESS : record.pc, after,
      from, to);
    this.momentOfStep[record.step] = moment;
    this.steps = record.step;
    if (record.skip !== undefined) this.gaps += record.skip;
    if (!isOutside) this.hit(record, moment);
    if (record.reads) this.touch(record.reads);
    this.change(record, moment);
    this.touchWritten(record, record.places !== undefined);
    this.changeFrames(record, moment);
    this.print(record.out, moment);
  }

  touch(words) { for (const [address] of words) this.touched.add(address); }

  /* Words that a record writes. Where it puts images into memory, those of the images aren't counted. */
  touchWritten(record, isLoading) {
    if (!record.mem || record.mem.length > FEW_WORDS) return;
    const isOfImage = (address) => this.places.newest().some((place) =>
      this.images.has(place.name) && address >= place.at && address < place.at + this.images.get(place.name).length);
    this.touch(isLoading ? record.mem.filter(([address]) => !isOfImage(address)) : record.mem);
  }

  print(out, moment) {
    if (!out) return;
    this.output += out;
    this.outputAt.push(moment);
    this.outputLength.push(this.output.length);
  }

  /* Counts an instruction at its source line, or in the listing of code without one. */
  hit(record, moment) {
    const source = this.sourceNow(record.pc);
    if (source) {
      this.sourceOf[moment] = source.line;
      const hits = this.hits.get(source.line);
      if (hits) hits.push(moment); else this.hits.set(source.line, [moment]);
    } else if (record.asm !== undefined) {
      const known = this.listing.get(record.pc) || { pc: record.pc, asm: "", hits: [] };
      known.asm = record.asm;
      known.hits.push(moment);
      this.listing.set(record.pc, known);
    }
  }

  change(record, moment) {
    if (record.regs) {
      if ("R13_usr" in record.regs || "R13_svc" in record.regs) this.usesStack = true;
      for (const name in record.regs) this.registers[REGISTER_INDEX.get(name)].put(moment, record.regs[name]);
    }
    if (record.flags) this.psr.put(moment, packFlags(record.flags, this.psr.newest()));
    if (record.mode) this.mode.put(moment, MODES.indexOf(record.mode));
    if (record.mem) for (const [address, old, word] of record.mem) this.write(address, old, word, moment);
    if (record.more) this.losses.push(moment);
    if (record.areas) this.areas.put(moment, record.areas);
    if (record.pool !== undefined) this.pool.put(moment, record.pool);
    if (record.modules) this.modules.put(moment, record.modules);
    if (record.heaps) this.heaps.change(record.heaps, moment, this.askedFor(record, moment));
    if (record.flex_store !== undefined) this.heaps.setStore(record.flex_store, moment);
    if (record.flex) this.heaps.changeFlex(record.flex, moment);
    if (record.places) this.changePlaces(record.places, moment);
  }

  write(address, old, word, moment) {
    let history = this.words.get(address);
    if (!history) this.words.set(address, history = new History(old));
    history.put(moment, word);
  }

  changePlaces(changes, moment) {
    const places = this.places.newest().filter((place) => !changes.some(([name]) => name === place.name));
    for (const [name, at] of changes) if (at !== null) places.push({ name, at });
    this.places.put(moment, places);
    this.sourceCache = null;
  }

  changeFrames(record, moment) {
    if (record.leaves !== undefined) {
      let frame = this.frames.newest();
      while (frame && frame.entry.frame >= record.leaves) frame = frame.below;
      this.frames.put(moment, frame);
    }
    if (record.enters) {
      this.usesStack = true;
      this.frames.put(moment, { entry: record.enters, below: this.frames.newest() });
    }
  }

  /* How many bytes a claim asked for, by what R3 was; -1 where it isn't a claim. */
  askedFor(record, moment) {
    const swi = record.swi;
    const claims = swi && (swi.name === "OS_Heap" && swi.reason === 2 || swi.name === "OS_Module"
      && swi.reason === 6);
    return claims ? this.registers[3].valueAt(moment - 1) : -1;
  }

  /* The source of an address where images stand at the end of what was read so far. */
  sourceNow(address) {
    if (!this.sourceCache) this.sourceCache = new Map();
    let source = this.sourceCache.get(address);
    if (source === undefined) {
      this.sourceCache.set(address, source = sourceIn(this.images, this.places.newest(), address));
    }
    return source;
  }

  // ---- what is so after a moment

  sourceAt(address, moment) { return sourceIn(this.images, this.places.valueAt(moment), address); }

  nameOf(address, moment) { return nameIn(this.images, this.places.valueAt(moment), address); }

  modeAt(moment) { return MODES[this.mode.valueAt(moment)]; }

  flagsAt(moment) { return unpackFlags(this.psr.valueAt(moment)); }

  historyOf(name) { return this.registers[REGISTER_INDEX.get(name)]; }

  /* The history of Rn, 0 to 14, as the mode after a moment sees it. */
  registerHistory(n, moment) { return this.historyOf(bankedName(n, this.modeAt(moment))); }

  register(n, moment) { return n === 15 ? this.pcAfter[moment] : this.registerHistory(n, moment).valueAt(moment); }

  word(address, moment) {
    const history = this.words.get(address);
    return history ? history.valueAt(moment) : 0;
  }

  /* Whether the records say what a word is after a moment: a write of very many words lists only the first. */
  knows(address, moment) {
    const loss = lastAtMost(this.losses, moment);
    if (loss < 0) return true;
    const history = this.words.get(address);
    return history !== undefined && history.lastWrite(moment) >= this.losses[loss];
  }

  mapped(address, moment) {
    const inside = (from, bytes) => address >= from && address < from + bytes;
    return this.mappedAtFirst.valueAt(moment).some(([from, bytes]) => inside(from, bytes)) ||
      this.areas.valueAt(moment).some((area) => inside(area.base, area.size));
  }

  outputTo(moment) {
    const k = lastAtMost(this.outputAt, moment);
    return k < 0 ? "" : this.output.slice(0, this.outputLength[k]);
  }

  /* What the moment itself printed. */
  outputBy(moment) {
    const k = lastAtMost(this.outputAt, moment);
    if (k < 0 || this.outputAt[k] !== moment) return "";
    return this.output.slice(k ? this.outputLength[k - 1] : 0, this.outputLength[k]);
  }

  /* Open frames of module code, the innermost first. */
  framesAt(moment) {
    const frames = [];
    for (let frame = this.frames.valueAt(moment); frame; frame = frame.below) frames.push(frame.entry);
    return frames;
  }

  /* Why the machine was halted behind a moment, as the line's answer has it; null where it wasn't, or where the
     step itself says so. */
  haltBehind(moment, record) {
    const line = this.lineAt(moment);
    return line && line.last === moment && line.steps && !record.stop ? line.stop : null;
  }

  lineAt(moment) {
    const index = this.lineOf[moment];
    return index < 0 ? null : this.lines[index];
  }

  heapList() { return this.heaps.list(); }

  // ---- where to go

  /* The next and the previous moment of a kind; -1 where there is none. */
  nextOf(bits, moment) {
    for (let i = moment + 1; i <= this.last; i++) if (this.kind[i] & bits) return i;
    return -1;
  }

  previousOf(bits, moment) {
    for (let i = moment - 1; i >= 0; i--) if (this.kind[i] & bits) return i;
    return -1;
  }

  momentForStep(step) {
    if (step <= 0) return 0;
    for (let k = step; k <= this.steps; k++) if (this.momentOfStep[k] !== undefined) return this.momentOfStep[k];
    return this.momentOfStep[this.steps];
  }

  momentForLine(number) {
    const line = this.lines.find((each) => each.line >= number && each.last >= 0);
    return line ? line.last : -1;
  }
}

function kindOfStep(record) {
  let kind = KIND.STEP;
  if (record.swi) kind |= KIND.SWI;
  if (record.out) kind |= KIND.PRINT;
  if (record.skipped) kind |= KIND.SKIPPED;
  if (record.mem) kind |= KIND.STORE;
  if (record.error) kind |= KIND.ERROR;
  if (record.enters || record.leaves !== undefined) kind |= KIND.FRAME;
  if (record.stop) kind |= KIND.STOP;
  if (record.heaps || record.flex) kind |= KIND.HEAP;
  if (record.skip !== undefined) kind |= KIND.GAP;
  return kind;
}
