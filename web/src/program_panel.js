/* The program: its blocks line by line, with how often each was carried out so far; and, by address, what was
   carried out without a source. */

import { isFault } from "./describe.js";
import { keepInView, make, roving, firstStop } from "./dom.js";
import { address, hex, readable, sourceParts } from "./format.js";
import { lastAtMost } from "./histories.js";
import { KIND, RETURN_GATE } from "./names.js";

const ROW = ".row:not(.still)";
/* Of a listing without a source so many rows are made. */
const MOST_LISTED = 4000;
/* Columns are as wide as their longest text, up to these. */
const WIDEST = { label: 10, op: 8, operands: 20 };

function columnsOf(parts) {
  const most = (length, limit) => parts.reduce((widest, part) =>
    part.op && length(part) <= limit ? Math.max(widest, length(part)) : widest, 0);
  return {
    label: Math.max(3, most((part) => part.label.length, WIDEST.label)) + 1,
    op: Math.max(4, most((part) => part.op.length, WIDEST.op)) + 1,
    operands: most((part) => part.comment ? part.operands.trimEnd().length : 0, WIDEST.operands) + 2,
  };
}

/* A source line in columns, whatever its own spaces are. */
function sourceSpan(text, columns) {
  const part = sourceParts(text), span = make("span", "src");
  if (part.label) span.append(make("span", "label", part.label));
  if (columns && part.op) {
    span.append(" ".repeat(Math.max(part.label ? 1 : 0, columns.label - part.label.length)),
      make("span", "op", part.op));
    const own = part.operands.trimEnd();
    if (own || part.comment) {
      span.append(" ".repeat(Math.max(1, columns.op - part.op.length)));
      span.append(part.comment ? own.padEnd(Math.max(own.length + 1, columns.operands)) : own);
    }
  } else span.append(part.gap, make("span", "op", part.op), part.gap2 + part.operands);
  if (part.comment) span.append(make("span", "comment", part.comment));
  return span;
}

export class ProgramPanel {
  constructor(player) {
    this.player = player;
    this.trace = player.trace;
    this.box = player.find("code");
    this.rows = new Map();     // by script line number, or "pc" and the address: {row, counter, hits, shown}
    this.blocks = [];
    for (const image of this.trace.images.values()) this.addBlock(image);
    this.addListing();
    player.main.classList.toggle("noprogram", !this.rows.size);
    if (!this.rows.size) this.box.append(make("p", "none",
      "This script has no program: its lines call the machine from outside."));
    this.box.addEventListener("click", (event) => {
      const row = event.target.closest(".row");
      if (row) this.jump(row.dataset.key, event.shiftKey);
    });
    roving(this.box, ROW, (row, event) => this.jump(row.dataset.key, event.shiftKey));
    firstStop(this.box, ROW);
  }

  addBlock(image) {
    const line = image.block;
    if (!line || !line.block || !image.lines.length) return;
    const name = make("div", "blockname");
    this.box.append(name);
    this.blocks.push({ image, name });
    const withCode = new Set(image.lines.map((part) => part.line)),
      texts = line.block.map((_, i) => readable(this.trace.sources.get(line.line + 1 + i)));
    const columns = columnsOf(texts.map(sourceParts));
    texts.forEach((text, i) => {
      const number = line.line + 1 + i, isEnd = i === texts.length - 1 && /^\s*END\s*$/i.test(text);
      if (!isEnd) this.addRow(String(number), "line " + number, text, withCode.has(number),
        this.trace.hits.get(number), columns);
    });
  }

  addListing() {
    const listed = [...this.trace.listing.values()].filter((each) => each.pc !== RETURN_GATE);
    if (!listed.length) return;
    listed.sort((a, b) => a.pc - b.pc);
    this.box.append(make("div", "blockname", "code without a source"));
    for (const each of listed.slice(0, MOST_LISTED)) {
      this.addRow("pc" + each.pc, hex(each.pc), "        " + each.asm, true, each.hits, null);
    }
  }

  addRow(key, place, text, hasCode, hits, columns) {
    const row = make("div", "row" + (hasCode ? "" : " still"));
    row.dataset.key = key;
    if (hasCode) {
      row.tabIndex = -1;
      row.setAttribute("role", "button");
      row.setAttribute("aria-label", place + ": " + text.trim().replace(/\s+/g, " "));
    }
    if (!hits) row.classList.add("never");
    const counter = make("span", "hits none", "");
    row.append(counter, make("span", "no", place.replace("line ", "")), sourceSpan(text, columns));
    this.box.append(row);
    this.rows.set(key, { row, counter, hits: hits || [], shown: -1 });
  }

  /* To the next time that a line is carried out, or the last one before now; round at the end. */
  jump(key, back) {
    const found = this.rows.get(key);
    if (!found || !found.hits.length) return;
    const { hits } = found, now = this.player.moment;
    const at = back ? lastAtMost(hits, now - 1) : lastAtMost(hits, now) + 1;
    this.player.go(hits[(at + hits.length) % hits.length]);
  }

  keyOf(moment) {
    if (!(this.trace.kind[moment] & KIND.STEP)) return null;
    return this.trace.sourceOf[moment] ? String(this.trace.sourceOf[moment]) : "pc" + this.trace.pcBefore[moment];
  }

  keyOfNext(moment) {
    const source = this.trace.sourceAt(this.trace.pcAfter[moment], moment);
    return source ? String(source.line) : "pc" + this.trace.pcAfter[moment];
  }

  draw(moment, record) {
    const kind = this.trace.kind[moment];
    this.drawNames(moment);
    this.markWriter();
    const lit = this.rows.get(this.keyOf(moment));
    const next = kind & KIND.STOP ? undefined : this.rows.get(this.keyOfNext(moment));
    this.mark("lit", lit);
    this.mark("next", next);
    const isBad = kind & KIND.ERROR || record.stop && isFault(record.stop);
    const halt = this.trace.haltBehind(moment, record);
    if (lit) lit.row.classList.toggle("bad", Boolean(isBad));
    if (next && next !== lit) next.row.classList.toggle("bad", halt !== null && isFault(halt));
    for (const each of this.rows.values()) this.drawCounter(each, moment);
    const seen = lit || next;
    if (seen && seen !== this.seen) this.player.afterwards(() => keepInView(this.box, seen.row, 0.28));
    this.seen = seen;
  }

  /* Marks the line that wrote last what is chosen, and shows it once it is chosen. */
  markWriter() {
    const wrote = this.player.lastWriteOfChosen();
    const writer = wrote ? this.rows.get(this.keyOf(wrote)) : undefined, isNew = this.player.chosen !== this.choice;
    this.mark("writer", writer);
    this.choice = this.player.chosen;
    if (isNew && writer) this.player.afterwards(() => keepInView(this.box, writer.row, 0.28));
  }

  drawNames(moment) {
    for (const { image, name } of this.blocks) {
      const place = this.trace.places.valueAt(moment).find((each) => each.name === image.name);
      const text = readable(image.name) + (place ? " at " + address(place.at) : ", not in memory yet");
      if (name.textContent !== text) name.textContent = text;
    }
  }

  mark(name, found) {
    const old = this[name];
    if (old === found) return;
    if (old) old.row.classList.remove(name, "bad");
    if (found) found.row.classList.add(name);
    this[name] = found;
  }

  drawCounter(each, moment) {
    const times = lastAtMost(each.hits, moment) + 1;
    if (times === each.shown) return;
    each.shown = times;
    each.counter.textContent = times ? "×" + times : "";
    each.counter.classList.toggle("none", !times);
  }
}
