/* What was chosen, a register, a word or a block: who wrote it last, and ways to that moment and the next. */

import { blockLife, describe, sentence, whenText } from "./describe.js";
import { make, makeButton } from "./dom.js";
import { FORMATS, address, plural, word } from "./format.js";

const INVITATION = "Choose a register, a word or a block to see who wrote it, and when.";

export class Inspector {
  constructor(player) {
    this.player = player;
    this.trace = player.trace;
    this.box = player.find("inspector");
    this.panel = player.find("chosen");
  }

  draw(moment) {
    const { chosen } = this.player;
    const parts = !chosen ? [make("span", "", INVITATION)]
      : chosen.block !== undefined ? this.block(this.trace.heaps.blocks[chosen.block - 1], moment)
        : this.cell(chosen, moment);
    if (chosen) {
      const close = makeButton("x", "×", () => this.player.choose(null));
      close.setAttribute("aria-label", "Choose nothing");
      parts.push(close);
    }
    this.box.replaceChildren(...parts);
    this.panel.classList.toggle("empty", !chosen);
  }

  /* A button to a moment; it can't be pressed where there is none, or it is now. */
  way(text, to) {
    const button = makeButton("go", text), now = this.player.moment;
    button.disabled = !(to >= 0) || to === now;
    if (!button.disabled) {
      button.addEventListener("click", () => this.player.go(to));
      this.player.tip.over(button, () => sentence(this.trace, to, this.player.format));
    }
    return button;
  }

  block(block, moment) {
    const { heap } = block;
    const stay = block.stays.find((each) => each.from <= moment && moment < each.to) || block.stays.at(-1);
    const asked = block.asked >= 0 ? `, ${block.asked} asked for` : "";
    const parts = [make("b", "", "block #" + block.number),
      make("code", "", `${address(heap.payload(stay))}, ${plural(heap.holds(stay), "byte")}${asked}`),
      make("span", "", blockLife(this.trace, block, moment)), this.way("claimed", block.born)];
    const moves = block.stays.slice(1);
    if (moves.length) {
      const last = moves.findLast((each) => each.from <= moment) || moves[0];
      parts.push(this.way(moves.length === 1 ? "moved or resized" : "last change", last.from));
    }
    parts.push(this.way("freed", block.died === Infinity ? -1 : block.died));
    return parts;
  }

  cell(chosen, moment) {
    const isWord = chosen.word !== undefined;
    const history = this.player.historyChosen();
    const value = history ? history.valueAt(moment) : 0;
    const isKnown = !isWord || this.trace.knows(chosen.word, moment);
    const parts = [make("b", "", isWord ? address(chosen.word) : chosen.register),
      make("code", "", isKnown ? FORMATS.map((format) => word(value, format)).join("  ") : "not known")];
    const label = isWord ? this.trace.nameOf(chosen.word, moment) : "";
    if (label) parts.push(make("span", "", label));
    const wrote = history ? history.lastWrite(moment) : 0;
    parts.push(make("span", "", wrote ? "last written " + whenText(this.trace, wrote) : "not written so far"));
    if (wrote) parts.push(make("code", "", describe(this.trace, wrote, this.player.format).text));
    const before = wrote ? history.lastWrite(wrote - 1) : 0;
    parts.push(wrote === moment && wrote ? this.way("← write before", before || -1)
      : this.way("← last write", wrote || -1));
    parts.push(this.way("next write →", history ? history.nextWrite(moment) : -1));
    return parts;
  }
}
