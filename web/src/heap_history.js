/* A heap, or the flex store, over time. Pure.

   Its *stays* are items at places: a block that is resized or moved has several stays and one number.
   Numbers of blocks go over all heaps of a trace. */

import { Timeline, lastAtMost } from "./histories.js";

/* So many changes lie between two notes of what stood there. */
const NOTE_EVERY = 64;
const NOT_THERE = { there: false, base: 0, end: 0 };
/* A block has its length in a word before the bytes that the program has of it; a flex block has two words. */
const HEAP_HEADER = 4;
export const FLEX_HEADER = 8;

export class HeapHistory {
  constructor(address, isFlex, allBlocks) {
    this.allBlocks = allBlocks;
    this.address = address;
    this.flex = isFlex;
    this.events = [];          // moments at which it changed
    this.limits = new Timeline(NOT_THERE);
    this.stays = [];           // {kind, at, size, from, to, block, anchor}
    this.blocks = [];          // {number, heap, born, died, stays, asked}
    this.live = new Map();     // by address: the stay that is there at the end of what was read
    this.notes = [];           // every NOTE_EVERY events: the stays that were there
    this.extent = 0;           // the highest base that it ever has
    this.largest = 0;          // the highest end
  }

  event(moment) {
    if (this.events[this.events.length - 1] === moment) return;
    if (this.events.length % NOTE_EVERY === 0) {
      this.notes.push({ first: this.stays.length, there: [...this.live.values()] });
    }
    this.events.push(moment);
  }

  setLimits(moment, base, end) {
    this.event(moment);
    this.limits.put(moment, { there: true, base, end });
    this.extent = Math.max(this.extent, base);
    this.largest = Math.max(this.largest, end);
  }

  /* The item at an address leaves its place. Null where there is none. */
  leave(moment, at) {
    const stay = this.live.get(at);
    if (!stay) return null;
    this.event(moment);
    stay.to = moment;
    this.live.delete(at);
    return stay;
  }

  /* The item at an address is gone for good. */
  free(moment, at) {
    const stay = this.leave(moment, at);
    if (stay && stay.block) stay.block.died = moment;
  }

  /* An item comes to a place; a live one that is no known block is a new block. */
  come(moment, kind, at, size, block, anchor) {
    this.event(moment);
    if (kind === "live" && !block) block = this.newBlock(moment);
    const stay = { kind, at, size, from: moment, to: Infinity, block: block || null, anchor };
    if (block) { block.stays.push(stay); block.died = Infinity; }
    this.stays.push(stay);
    this.live.set(at, stay);
    return stay;
  }

  newBlock(moment) {
    const number = this.allBlocks.length + 1;
    const block = { number, heap: this, born: moment, died: Infinity, stays: [], asked: -1 };
    this.blocks.push(block);
    this.allBlocks.push(block);
    return block;
  }

  /* The heap is no longer there, nor anything in it. */
  end(moment) {
    for (const at of [...this.live.keys()]) this.free(moment, at);
    this.event(moment);
    this.limits.put(moment, NOT_THERE);
  }

  /* The items that stand there after a moment, by address. */
  itemsAt(moment) {
    const event = lastAtMost(this.events, moment);
    if (event < 0) return [];
    const note = this.notes[Math.floor(event / NOTE_EVERY)];
    const items = note.there.filter((stay) => stay.from <= moment && moment < stay.to);
    for (let i = note.first; i < this.stays.length && this.stays[i].from <= moment; i++) {
      if (moment < this.stays[i].to) items.push(this.stays[i]);
    }
    return items.sort((a, b) => a.at - b.at);
  }

  limitsAt(moment) { return this.limits.valueAt(moment); }

  thereAt(moment) { return this.limitsAt(moment).there; }

  /* The live item in whose bytes an address lies after a moment. */
  stayAt(address, moment) {
    for (const stay of this.itemsAt(moment)) {
      if (stay.kind === "live" && address >= this.payload(stay) && address < stay.at + stay.size) return stay;
    }
    return null;
  }

  /* The address that the program has of a block, and how many bytes. */
  payload(stay) { return stay.at + (this.flex ? FLEX_HEADER : HEAP_HEADER); }

  holds(stay) { return stay.bytes !== undefined ? stay.bytes : stay.size - HEAP_HEADER; }

  /* Bytes that are used and free after a moment, in how many pieces, and the largest free piece. */
  sumsAt(moment) {
    const limits = this.limitsAt(moment), sums = { used: 0, holes: 0, free: 0, largest: 0, blocks: 0, room: 0 };
    if (!limits.there) return sums;
    for (const stay of this.itemsAt(moment)) {
      if (stay.kind === "live") { sums.used += stay.size; sums.blocks++; continue; }
      sums.holes++;
      sums.free += stay.size;
      sums.largest = Math.max(sums.largest, stay.size);
    }
    sums.room = limits.end - limits.base;
    sums.free += sums.room;
    sums.largest = Math.max(sums.largest, this.flex ? sums.room : sums.room & ~7);
    return sums;
  }
}
