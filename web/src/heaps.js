/* All heaps of a trace, and the flex store: changes of records to their histories. Pure. */

import { FLEX_HEADER, HeapHistory } from "./heap_history.js";

const FLEX = "flex";
/* A flex block's header and its bytes, filled up to whole words. */
const wholeBytes = (bytes) => FLEX_HEADER + ((bytes + 3) & ~3);

export class Heaps {
  constructor() {
    this.byAddress = new Map();
    this.blocks = [];          // of all heaps, by number - 1
  }

  at(address) { return this.byAddress.get(address); }

  store() { return this.byAddress.get(FLEX); }

  list() { return [...this.byAddress.values()].filter((heap) => heap.address && heap.events.length); }

  made(key, address) {
    let heap = this.byAddress.get(key);
    if (!heap) this.byAddress.set(key, heap = new HeapHistory(address, key === FLEX, this.blocks));
    return heap;
  }

  endAll(moment) {
    for (const heap of this.byAddress.values()) if (heap.thereAt(moment)) heap.end(moment);
  }

  /* The changes of one record. `asked` is how many bytes a claim asked for, or -1. */
  change(changes, moment, asked) {
    for (const change of changes) {
      const heap = this.made(change.heap, change.heap);
      if (change.gone) heap.end(moment);
      if (change.gone && !change.made) continue;
      this.changeItems(heap, change.items || [], moment, asked);
      const limits = heap.limits.newest();
      heap.setLimits(moment, change.base === undefined ? limits.base : change.base,
        change.end === undefined ? limits.end : change.end);
    }
  }

  /* What goes first, so that the places are free for what comes. */
  changeItems(heap, items, moment, asked) {
    const moved = [];
    for (const item of items) {
      if (item[0] === "-") heap.free(moment, item[2]);
      else if (item[0] === "=") moved.push([heap.leave(moment, item[2]), item]);
    }
    for (const item of items) if (item[0] === "+") {
      const stay = heap.come(moment, item[1], item[2], item[3]);
      if (stay.block) stay.block.asked = asked;
    }
    for (const [stay, item] of moved) heap.come(moment, item[1], item[4], item[5], stay && stay.block);
  }

  setStore(store, moment) {
    const heap = this.made(FLEX, 0);
    if (!store) { heap.end(moment); return; }
    heap.address = store.start;
    heap.setLimits(moment, store.used, store.end - store.start);
  }

  changeFlex(changes, moment) {
    const heap = this.made(FLEX, 0), moved = [];
    const put = (block, anchor, address, bytes) => {
      heap.come(moment, "live", address - FLEX_HEADER, wholeBytes(bytes), block, anchor).bytes = bytes;
    };
    for (const change of changes) {
      const stay = [...heap.live.values()].find((each) => each.anchor === change[1]);
      if (change[0] === "-" && stay) heap.free(moment, stay.at);
      if (change[0] === "=") moved.push([stay && heap.leave(moment, stay.at), change]);
    }
    for (const change of changes) if (change[0] === "+") put(null, change[1], change[2], change[3]);
    for (const [stay, change] of moved) put(stay && stay.block, change[1], change[2], change[3]);
    let used = 0;
    for (const stay of heap.live.values()) used = Math.max(used, stay.at + stay.size - heap.address);
    if (heap.address) heap.setLimits(moment, used, heap.limits.newest().end);
  }
}
