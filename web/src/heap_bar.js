/* The bar of a heap: its items side by side, with a ruler below. A block keeps its element, so it glides when it is
   moved. */

import { blockLife, whenText } from "./describe.js";
import { firstStop, make, makeButton, roving, sizeOf } from "./dom.js";
import { address, count, hex, plural, readable } from "./format.js";
import { FLEX_HEADER } from "./heap_history.js";
import { DESCRIPTOR_BYTES, rulerStops } from "./layout.js";

const TINTS = 6;
/* Pixels that texts in a box need. */
const ROOM = { id: 20, size: 26, long: 78, asked: 62, character: 6.8 };
const LEAST_WIDTH = 0.15;
/* From the middle of one address of the ruler to the next. The first begins at its place, and isn't centred there. */
const RULER_STEP = 56, HALF_ADDRESS = 22;

export const tintOf = (block) => (block.number - 1) % TINTS;

/* Texts of a box that have room in it: [class, text, pixels needed]. */
function fill(node, width, texts) {
  const shown = texts.filter(([, text, needed]) => text && width > needed);
  const key = shown.map(([classes, text]) => classes + text).join("|");
  if (node.shownTexts === key) return;
  node.shownTexts = key;
  node.replaceChildren(...shown.map(([classes, text]) => make("span", classes, text)));
}

export class HeapBar {
  constructor(player, heap, scale, plot) {
    this.player = player;
    this.trace = player.trace;
    this.heap = heap;
    this.scale = scale;
    this.plot = plot;
    this.nodes = new Map();
    this.bar = make("div", "bar");
    this.bar.setAttribute("role", "group");
    this.bar.setAttribute("aria-label", "Blocks by address");
    this.ruler = make("div", "ruler");
    this.ruler.setAttribute("aria-hidden", "true");
    this.bar.addEventListener("click", (event) => {
      const node = event.target.closest("[data-block]");
      if (node) player.choose({ block: Number(node.dataset.block) });
    });
    roving(this.bar, "button.block", null, { ArrowRight: 1, ArrowLeft: -1 });
    player.tip.over(this.bar, (event) => {
      const node = event.target.closest(".block");
      return node ? node.tip : "";
    });
  }

  draw(moment, items, limits) {
    this.keep = new Set();
    this.width = sizeOf(this.plot).width || 600;
    this.moment = moment;
    if (limits.there && !this.heap.flex) this.drawDescriptor();
    for (const stay of items) if (stay.kind === "free") this.drawFree(stay); else this.drawBlock(stay);
    if (limits.there && limits.end > limits.base) this.drawRoom(limits);
    this.order();
    this.drawRuler();
  }

  /* The box of a key, made where it isn't there: at offsets from, to. */
  place(key, classes, from, to, isButton) {
    let node = this.nodes.get(key);
    if (!node) {
      node = isButton ? makeButton("block") : make("div", "block");
      if (isButton) node.tabIndex = -1;
      this.nodes.set(key, node);
      this.bar.append(node);
    }
    const left = this.scale.at(from), share = this.scale.at(to) - left;
    node.style.left = left * 100 + "%";
    node.style.width = Math.max(LEAST_WIDTH, share * 100) + "%";
    if (node.classNames !== classes) node.className = "block " + (node.classNames = classes);
    this.keep.add(key);
    return { node, width: share * this.width };
  }

  isFresh(stay) { return this.moment > 0 && stay.from === this.moment; }

  drawDescriptor() {
    const { node, width } = this.place("descriptor", "desc", 0, DESCRIPTOR_BYTES, false);
    node.tip = "the heap's descriptor: 16 bytes at " + address(this.heap.address);
    fill(node, width, [["id", "H", 10]]);
  }

  drawFree(stay) {
    const from = stay.at - this.heap.address;
    const { node, width } = this.place("free" + stay.at, "free" + (this.isFresh(stay) ? " fresh" : ""), from,
      from + stay.size, true);
    const since = whenText(this.trace, stay.from).replace(/^(at|by) /, "");
    node.tip = `free: ${plural(stay.size, "byte")} at ${address(stay.at)}\nsince ${since}`;
    node.setAttribute("aria-label", node.tip.replace(/\n/g, ", "));
    fill(node, width, [["sz", width > 60 ? count(stay.size) + " free" : String(stay.size), ROOM.size]]);
  }

  drawBlock(stay) {
    const { heap } = this, { block } = stay, from = stay.at - heap.address;
    const holds = this.contents(stay), bytes = heap.holds(stay);
    const chosen = this.player.isChosen("block", block.number);
    if (heap.flex) {
      const head = this.place("head" + block.number, "head", from, from + FLEX_HEADER, false);
      head.node.tip = `the header of block #${block.number}: 8 bytes`;
    }
    const classes = "t" + tintOf(block) + (this.isFresh(stay) ? " fresh" : "") + (chosen ? " chosen" : "");
    const { node, width } = this.place("block" + block.number, classes, heap.flex ? from + FLEX_HEADER : from,
      from + stay.size, true);
    node.dataset.block = block.number;
    node.tip = this.tipOf(stay, holds, bytes);
    node.setAttribute("aria-label", node.tip.replace(/\n/g, ", "));
    node.setAttribute("aria-pressed", chosen);
    const size = width > ROOM.long ? plural(bytes, "byte") : String(bytes);
    const isNamed = holds && width > holds.length * ROOM.character;
    const asked = block.asked >= 0 && block.asked !== bytes ? block.asked + " asked" : "";
    fill(node, width, [["id", "#" + block.number, ROOM.id], ["sz", isNamed ? holds : size, ROOM.size],
      ["ask", isNamed ? size : asked, ROOM.asked]]);
  }

  tipOf(stay, holds, bytes) {
    const { block } = stay, asked = block.asked >= 0 ? `, ${block.asked} asked for` : "";
    return [`block #${block.number}${holds ? ": " + holds : ""}`,
      `${address(this.heap.payload(stay))}, ${plural(bytes, "byte")}${asked}`,
      this.heap.flex ? "anchor " + address(stay.anchor) : "",
      blockLife(this.trace, block, this.moment)].filter(Boolean).join("\n");
  }

  drawRoom(limits) {
    const bytes = limits.end - limits.base;
    const { node, width } = this.place("room", "room" + (this.scale.whole ? "" : " torn"), limits.base,
      limits.end, false);
    node.tip = `room after the last block: ${plural(bytes, "byte")}${this.scale.whole ? "" : "\nnot to scale"}`;
    fill(node, width, [["sz", width > 90 ? count(bytes) + " room" : count(bytes), 30]]);
  }

  /* What a block holds, as far as modules and heaps say: an image, a workspace, a heap. */
  contents(stay) {
    const at = this.heap.payload(stay), { trace, moment } = this;
    for (const module of trace.modules.valueAt(moment)) {
      if (module.at === at) return readable(module.title) + "'s image";
      if (module.instances.some((instance) => trace.word(instance.word, moment) === at)) {
        return readable(module.title) + "'s workspace";
      }
    }
    const inner = trace.heapList().find((heap) => heap !== this.heap && heap.thereAt(moment) &&
      heap.address >= at && heap.address < stay.at + stay.size);
    return inner ? "heap " + address(inner.address) : "";
  }

  /* Boxes that are no longer there go; the others stand in the page in the order of their addresses. */
  order() {
    for (const [key, node] of this.nodes) if (!this.keep.has(key)) { node.remove(); this.nodes.delete(key); }
    let i = 0;
    for (const key of this.keep) {
      const node = this.nodes.get(key), before = this.bar.children[i++];
      if (before !== node) this.bar.insertBefore(node, before || null);
    }
    firstStop(this.bar, "button.block");
  }

  drawRuler() {
    const key = this.width + ":" + this.scale.end;
    if (this.rulerKey === key) return;
    this.rulerKey = key;
    const marks = [], { width, heap, scale } = this;
    let last = -RULER_STEP;
    for (const offset of rulerStops(heap.address, scale.used, Math.max(2, width / RULER_STEP))) {
      const x = scale.at(offset);
      if (x * width > width - RULER_STEP - 10 || x * width < last + RULER_STEP - 2) continue;
      last = x * width + (marks.length ? 0 : HALF_ADDRESS);
      const mark = make("span", "", hex(heap.address + offset));
      mark.style.left = x * 100 + "%";
      marks.push(mark);
    }
    const end = make("span", "end", hex(heap.address + scale.end));
    end.style.left = "100%";
    this.ruler.replaceChildren(...marks, end);
  }
}
