/* The dialog that says what keys do and signs mean. */

import { keep, make, makeButton } from "./dom.js";

const KEYS = [
  ["← →", "one step back, on; with Shift ten"], ["Home End", "the start, the end"],
  ["PageUp PageDown", "the script's line before, after"], ["Space", "play, stop"], ["+ −", "faster, slower"],
  ["h H", "next, previous change of a heap"], ["s S", "next, previous SWI"],
  ["f F", "next, previous failure or error"], ["x", "hexadecimal, decimal, characters"], ["g", "go to a step"],
  ["Esc", "choose nothing"]];
const SIGNS = [
  ["boxes", "lines of the script"], ["short, grey", "a SWI"], ["tall, blue", "a call that changes a heap"],
  ["dot", "something is printed"], ["cross", "a call answers with an error"],
  ["triangle", "an EXPECT that fails, or a line with an error"], ["foot", "an EXPECT that passes"]];
const HEAP = [
  ["#3", "the third block of all that were claimed: it keeps number and colour over its life"],
  ["hatched", "free; dashed arcs: the free chain"], ["arc", "a word in a block that leads to a block"],
  ["R2", "what leads to a block; with ! to a block that is gone, or that another has taken the place of"],
  ["strip", "address across, time down; grey: bytes free in all, blue: the largest piece"]];
const NOTE = "A pointer is judged by what stood at its place when the register or word was written. " +
  "A register that was loaded from a word with an old pointer counts as written then.";

export class Help {
  constructor(player) {
    this.player = player;
    this.dialog = player.find("keys");
    player.find("help").addEventListener("click", () => this.show());
  }

  show() {
    const title = make("h2", "", "Keys and signs");
    title.id = "h-keys";
    this.dialog.replaceChildren(makeButton("quiet close", "Close", () => this.dialog.close()), title,
      ...this.list("Keys", KEYS, true), ...this.list("Signs on the slider", SIGNS, false),
      ...this.list("In the heap", HEAP, false), make("p", "", NOTE), make("h3", "", "Choices"), this.choice());
    this.dialog.showModal();
  }

  list(title, rows, areKeys) {
    const list = make("dl");
    for (const [term, meaning] of rows) {
      const dt = make("dt", "", areKeys ? undefined : term);
      if (areKeys) for (const key of term.split(" ")) dt.append(make("kbd", "", key), " ");
      list.append(dt, make("dd", "", meaning));
    }
    return [make("h3", "", title), list];
  }

  choice() {
    const label = make("label"), box = make("input");
    box.type = "checkbox";
    box.checked = this.player.lettersAreKeys;
    box.addEventListener("change", () => {
      this.player.lettersAreKeys = box.checked;
      keep("letters", box.checked ? "1" : "0");
    });
    label.append(box, " Letters are keys");
    return label;
  }
}
