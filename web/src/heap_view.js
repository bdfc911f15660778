/* A heap: the map of now with what leads into it, sums, and the strip of all time. */

import { calm, make, makeButton } from "./dom.js";
import { address, count, plural } from "./format.js";
import { HeapBar } from "./heap_bar.js";
import { HeapPointers } from "./heap_pointers.js";
import { HeapStrip } from "./heap_strip.js";
import { lastAtMost } from "./histories.js";
import { heapScale } from "./layout.js";
import { MODULE_AREA } from "./names.js";

export const heapName = (heap) =>
  (heap.flex ? "flex store " : heap.address === MODULE_AREA ? "module area " : "heap ") + address(heap.address);

export class HeapView {
  constructor(player, heap) {
    this.player = player;
    this.heap = heap;
    this.scale = heapScale(heap);
    this.name = heapName(heap);
    this.plot = make("div", "plot");
    this.side = make("div", "side");
    this.bar = new HeapBar(player, heap, this.scale, this.plot);
    this.pointers = new HeapPointers(player, heap, this.scale, this.plot);
    this.strip = new HeapStrip(player, heap, this.scale, this.name);
    this.plot.append(this.pointers.arcs, this.bar.bar, this.bar.ruler, this.pointers.chips);
    const map = make("div", "map");
    map.append(this.plot, this.side);
    this.element = make("section", "heap wide");
    this.element.setAttribute("aria-label", this.name);
    this.element.append(this.head(), map, this.strip.element);
  }

  head() {
    const head = make("h2"), ways = make("span", "nav");
    this.title = make("span");
    for (const [text, by, label] of [["◂", -1, "previous change of this heap"],
      ["▸", 1, "next change of this heap"]]) {
      const button = makeButton("quiet", text, () => this.jump(by));
      button.title = label;
      button.setAttribute("aria-label", label);
      ways.append(button);
    }
    head.append(this.title, ways);
    return head;
  }

  jump(by) {
    const { events } = this.heap, now = this.player.moment;
    const to = by > 0 ? events[lastAtMost(events, now) + 1] : events[lastAtMost(events, now - 1)];
    if (to !== undefined) this.player.go(to);
  }

  draw(moment, animate) {
    const { heap } = this, limits = heap.limitsAt(moment), items = limits.there ? heap.itemsAt(moment) : [];
    this.element.classList.toggle("gone", !limits.there);
    const state = limits.there ? plural(limits.end, "byte") : heap.events[0] > moment ? "not made yet" : "gone";
    const scale = limits.there && this.scale.enlarged ? " · small pieces are enlarged" : "";
    this.title.textContent = `${this.name} · ${state}${scale}`;
    this.plot.classList.toggle("animate", animate && !calm.matches);
    this.bar.draw(moment, items, limits);
    this.pointers.draw(moment, items, limits.there);
    this.drawSums(heap.sumsAt(moment), limits.there);
    this.strip.draw(moment);
  }

  drawSums(sums, isThere) {
    const pieces = sums.holes + (sums.room ? 1 : 0);
    const lines = isThere ? [["", sums.used, " bytes in " + plural(sums.blocks, "block")],
      ["kfree", sums.free, pieces > 1 ? " free in " + count(pieces) : " free"],
        ["klargest", sums.largest, " the largest"]] : [];
    const key = lines.join();
    if (key === this.sumsShown) return;
    this.sumsShown = key;
    this.side.replaceChildren(...lines.map(([sign, bytes, text]) => {
      const line = make("div");
      if (sign) line.append(make("span", "key " + sign));
      line.append(make("b", "", count(bytes)), text);
      return line;
    }));
  }
}
