/* The stack: open frames of module code, and the words from R13 on, with return addresses by name. */

import { make } from "./dom.js";
import { address, hex, readable } from "./format.js";
import { ADDRESS_BITS } from "./names.js";
import { pointer } from "./pointers.js";
import { listenForWords, readBy, wordButton } from "./words.js";

const MOST_SLOTS = 7;

export class StackPanel {
  constructor(player) {
    this.player = player;
    this.trace = player.trace;
    this.box = player.find("stack");
    this.frames = player.find("frames");
    player.main.classList.toggle("nostack", !this.trace.usesStack);
    player.find("stackpanel").hidden = !this.trace.usesStack;
    listenForWords(player, this.box);
  }

  draw(moment, record) {
    if (!this.trace.usesStack) return;
    this.drawFrames(moment);
    const top = this.trace.register(13, moment), isMapped = (at) => this.trace.mapped(at >>> 0, moment);
    if (!top || top & 3 || !isMapped(top - 4) && !isMapped(top)) {
      this.box.replaceChildren(make("p", "none", top ? "R13 leads to no memory."
        : "R13 is 0: there is no stack yet."));
      return;
    }
    const slots = [], reads = readBy(record);
    for (let i = 0; i < MOST_SLOTS && isMapped(top + 4 * i); i++) {
      slots.push(this.slot(top + 4 * i >>> 0, moment, reads));
      if (i > 1 && !this.trace.words.has(top + 4 * i)) break;
    }
    this.box.replaceChildren(...slots);
    if (!slots.length) this.box.append(make("p", "none", "Nothing is on the stack: R13 is " + address(top) + "."));
  }

  slot(at, moment, reads) {
    const value = this.trace.word(at, moment), code = value & ADDRESS_BITS, slot = make("div", "slot");
    const leads = pointer(this.trace, value, moment);
    const note = code && this.trace.nameOf(code, moment)
      || (leads && leads.to === "block" ? "→ #" + leads.stay.block.number : "");
    slot.append(make("span", "a", hex(at)), wordButton(this.player, at, moment, reads), make("span", "t", note));
    return slot;
  }

  drawFrames(moment) {
    const frames = this.trace.framesAt(moment), key = JSON.stringify(frames);
    if (key === this.shown) return;
    this.shown = key;
    this.frames.replaceChildren(...frames.map((frame) => {
      const row = make("div", "frame", (frame.swi !== undefined ? "SWI " + address(frame.swi) : frame.entry) + " ");
      const caller = frame.caller === null ? "from outside"
        : "at " + (this.trace.nameOf(frame.caller, moment) || address(frame.caller));
      row.append(make("span", "", `${readable(frame.module)}%${readable(frame.instance)}, called ${caller}`));
      return row;
    }));
  }
}
