/* What leads into a heap: arcs above the bar, of the free chain and of words in blocks; chips below it, of
   registers, anchors, private words and other words. A pointer to a block that is gone is marked. */

import { make, makeButton, makeSvg, sizeOf } from "./dom.js";
import { address, hex, plural, readable } from "./format.js";
import { placeLabels } from "./layout.js";
import { SYSTEM_END, SYSTEM_START, bankedName } from "./names.js";
import { isLost, pointer } from "./pointers.js";

/* With more words than this the words aren't looked through for pointers at each step. */
const MOST_WORDS = 6000;
const MOST_ARCS = 120;
const ARC_HEIGHT = 30;
const CHIP = { top: 12, row: 20, character: 6.9, padding: 13, badPadding: 22, rowsOfOthers: 2 };
const COLOURS = { free: "var(--faint)", link: "var(--ink)", bad: "var(--bad)" };

function whyText(found) {
  if (found.to === "stale") {
    return `leads to where #${found.was.number} was; now #${found.stay.block.number} is there`;
  }
  if (found.to === "dead") return `leads to #${found.was.number}, which is gone`;
  if (found.to === "block") return `leads to #${found.stay.block.number}${found.offset ? "+" + found.offset : ""}`;
  return found.to === "start" ? "leads to the heap" : "leads to free memory";
}

export class HeapPointers {
  constructor(player, heap, scale, plot) {
    this.player = player;
    this.trace = player.trace;
    this.heap = heap;
    this.scale = scale;
    this.plot = plot;
    this.arcs = makeSvg("svg", { class: "arcs", "aria-hidden": "true" });
    this.chips = make("div", "ptrs");
    this.tallest = 0;
  }

  get width() { return sizeOf(this.plot).width || 600; }

  x(at) { return this.scale.at(at - this.heap.address) * this.width; }

  isIn(value) { return value >= this.heap.address && value < this.heap.address + this.scale.end; }

  draw(moment, items, isThere) {
    const words = isThere && this.trace.words.size <= MOST_WORDS ? this.wordsThatLeadHere(moment) : [];
    this.drawArcs(isThere ? [...this.freeChain(items), ...this.links(words, items)] : []);
    this.drawChips(isThere ? [...this.registers(moment), ...this.otherWords(words, moment)] : []);
  }

  /* Words whose values lead to the beginning of a block of this heap, or to where one was. */
  wordsThatLeadHere(moment) {
    const found = [];
    for (const [at, history] of this.trace.words) {
      const value = history.valueAt(moment);
      if (!this.isIn(value)) continue;
      const leads = pointer(this.trace, value, moment, history.lastWrite(moment));
      if (!leads || leads.heap !== this.heap) continue;
      if (leads.to === "block" && leads.offset === 0 || isLost(leads)) found.push({ at, value, leads, history });
    }
    return found;
  }

  freeChain(items) {
    if (this.heap.flex) return [];
    const arcs = [];
    let from = this.heap.address + 6;
    for (const stay of items) if (stay.kind === "free") {
      arcs.push({ from, to: stay.at + 2, kind: "free" });
      from = stay.at + 4;
    }
    return arcs;
  }

  /* Words in this heap's blocks that lead to a block of it. */
  links(words, items) {
    const inBlock = (at) => items.some((stay) => stay.kind === "live" && at >= this.heap.payload(stay)
      && at < stay.at + stay.size);
    return words.filter(({ at }) => this.isIn(at) && inBlock(at))
      .map(({ at, value, leads }) => ({ from: at + 2, to: value + 1, kind: isLost(leads) ? "bad" : "link" }));
  }

  drawArcs(arcs) {
    const key = JSON.stringify(arcs) + this.width;
    if (key === this.arcsShown) return;
    this.arcsShown = key;
    const hasRoom = arcs.length || this.heap.stays.some((stay) => stay.kind === "free");
    if (hasRoom) this.arcs.style.height = ARC_HEIGHT + "px";
    this.arcs.replaceChildren(...arcs.slice(0, MOST_ARCS).map((arc) => this.arc(arc)));
  }

  arc({ from, to, kind }) {
    const x1 = this.x(from), x2 = this.x(to), top = Math.max(3, 26 - Math.max(8, Math.abs(x2 - x1) * 0.16));
    const group = makeSvg("g");
    const isFree = kind === "free";
    group.append(
      makeSvg("path", { d: `M${x1} 30 C${x1} ${top},${x2} ${top},${x2} 27`, fill: "none", stroke: COLOURS[kind],
        "stroke-width": isFree ? 1.1 : 1.4, "stroke-dasharray": isFree ? "4 3" : kind === "bad" ? "2 2" : "none" }),
      makeSvg("path", { d: `M${x2 - 3.2} 24 L${x2} 30 L${x2 + 3.2} 24 z`, fill: COLOURS[kind] }));
    return group;
  }

  registers(moment) {
    const chips = [], mode = this.trace.modeAt(moment);
    for (let n = 0; n < 13; n++) {
      const history = this.trace.registerHistory(n, moment), value = history.valueAt(moment);
      if (!this.isIn(value)) continue;
      const leads = pointer(this.trace, value, moment, history.lastWrite(moment));
      if (leads && leads.heap === this.heap) {
        chips.push({ kind: "register", name: "R" + n, value, leads, choice: { register: bankedName(n, mode) },
          isChanged: history.changedAt(moment) });
      }
    }
    return chips;
  }

  /* Words outside of this heap's blocks: anchors, private words, variables of a program. */
  otherWords(words, moment) {
    const privates = new Map();
    for (const module of this.trace.modules.valueAt(moment)) {
      for (const instance of module.instances) {
        privates.set(instance.word, readable(module.title) + "%" + readable(instance.name));
      }
    }
    const isSystem = (at) => at >= SYSTEM_START && at < SYSTEM_END;
    return words.filter(({ at }) => (this.heap.flex || !this.isIn(at)) && (privates.has(at) || !isSystem(at)))
      .map(({ at, value, leads, history }) => ({
        kind: "word", value, leads, choice: { word: at }, isChanged: history.changedAt(moment),
        name: privates.get(at) || (this.heap.flex ? "anchor " : "") + (this.trace.nameOf(at, moment) || hex(at)) }));
  }

  drawChips(chips) {
    const { width } = this;
    const key = chips.map((chip) => [chip.name, chip.value, chip.leads.to, chip.isChanged]).join() + width;
    if (key === this.chipsShown) return;
    this.chipsShown = key;
    if (width !== this.widthShown) { this.widthShown = width; this.tallest = 0; }
    const { shown, rows } = this.arrange(chips, width), lines = makeSvg("svg", { "aria-hidden": "true" });
    const nodes = [lines, ...shown.map((chip) => this.chip(chip, lines))], hidden = chips.length - shown.length;
    if (hidden) {
      const more = make("span", "morewords", "and " + plural(hidden, "word") + " more");
      more.style.top = CHIP.top + rows * CHIP.row - 18 + "px";
      nodes.push(more);
    }
    this.tallest = Math.max(this.tallest, rows ? CHIP.top + rows * CHIP.row : 8);
    this.chips.style.height = this.tallest + "px";
    this.chips.replaceChildren(...nodes);
  }

  /* Registers and lost pointers come first; of the other words, where there are many, two rows are shown. */
  arrange(chips, width) {
    for (const chip of chips) {
      chip.isBad = isLost(chip.leads);
      chip.x = this.x(chip.value);
      chip.width = chip.name.length * CHIP.character + (chip.isBad ? CHIP.badPadding : CHIP.padding);
    }
    const isFirst = (chip) => chips.length <= 16 || chip.kind === "register" || chip.isBad;
    const first = chips.filter(isFirst), others = chips.filter((chip) => !isFirst(chip));
    const rows = placeLabels(first, width, 4), more = placeLabels(others, width, 4);
    for (const chip of others) chip.row += rows;
    return { shown: [...first, ...others.filter((chip) => chip.row < rows + CHIP.rowsOfOthers)],
      rows: rows + Math.min(CHIP.rowsOfOthers, more) };
  }

  chip(chip, lines) {
    const y = CHIP.top + chip.row * CHIP.row, middle = chip.left + chip.width / 2;
    const stroke = chip.isBad ? COLOURS.bad : chip.isChanged ? "var(--change)" : COLOURS.free;
    lines.append(makeSvg("path",
      { d: `M${chip.x} -1 L${chip.x} 3 L${middle} ${y - 2} L${middle} ${y + 4}`, fill: "none",
      stroke, "stroke-width": chip.kind === "register" ? 1.5 : 1, "stroke-dasharray": chip.isBad ? "2 2" : "none" }));
    const state = chip.isBad ? " bad" : chip.isChanged ? " changed" : "";
    const button = makeButton(`chip of${chip.kind}${state}`, chip.name + (chip.isBad ? " !" : ""),
      () => this.player.choose(chip.choice));
    button.tabIndex = -1;
    button.style.left = chip.left + "px";
    button.style.top = y + "px";
    button.setAttribute("aria-label", chip.name + " " + whyText(chip.leads));
    this.player.tip.over(button, () => `${chip.name} = ${address(chip.value)}\n${whyText(chip.leads)}`);
    return button;
  }
}
