/* All heaps of a trace, and the pages of areas and of the pool. */

import { make } from "./dom.js";
import { plural, readable } from "./format.js";
import { HeapView } from "./heap_view.js";
import { MODULE_AREA, PAGE_BYTES } from "./names.js";

const SYSTEM_PAGES = 3;

export class HeapsPanel {
  constructor(player) {
    this.player = player;
    this.trace = player.trace;
    const box = player.find("heaps");
    if (this.trace.areas.changes()) box.append(this.pagesSection());
    const heaps = this.trace.heapList().filter((heap) => heap.blocks.length || heap.address !== MODULE_AREA);
    // by their addresses; after them those with few blocks beside the others, as the module area often has
    const most = Math.max(0, ...heaps.map((heap) => heap.blocks.length));
    const isSmall = (heap) => heap.blocks.length * 2 < most;
    heaps.sort((a, b) => isSmall(a) - isSmall(b) || a.address - b.address);
    this.views = heaps.map((heap) => new HeapView(player, heap));
    box.append(...this.views.map((view) => view.element));
    const isEmpty = !box.children.length;
    box.hidden = isEmpty;
    player.main.classList.toggle("noheap", isEmpty);
  }

  /* How many moments changed a heap. */
  changes() { return this.views.reduce((sum, view) => sum + view.heap.events.length, 0); }

  pagesSection() {
    const section = make("section", "heap");
    section.setAttribute("aria-label", "Pages");
    this.pages = make("div", "pages");
    section.append(make("h2", "", "Pages of 4,096 bytes"), this.pages);
    this.player.tip.over(this.pages, (event) => event.target.dataset.pages || "");
    return section;
  }

  draw(moment, animate) {
    if (this.pages) this.drawPages(moment);
    for (const view of this.views) view.draw(moment, animate);
  }

  drawPages(moment) {
    const areas = this.trace.areas.valueAt(moment), pool = this.trace.pool.valueAt(moment);
    const parts = [["application", this.trace.first.sizes.app, ""], ["system", SYSTEM_PAGES, "sys"],
      ...areas.map((area) => [readable(area.name), area.size / PAGE_BYTES, ""]), ["pool", pool, "pool"]];
    const key = parts.join();
    if (key === this.pagesShown) return;
    this.pagesShown = key;
    this.pages.replaceChildren(...parts.map(([name, pages, classes]) => {
      const part = make("span", classes, name + " " + pages);
      part.style.flex = pages + " 0 0";
      part.dataset.pages = name + ": " + plural(pages, "page");
      return part;
    }));
  }
}
