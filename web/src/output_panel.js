/* What was printed so far, with what the present moment printed marked. */

import { make } from "./dom.js";
import { readable, visible } from "./format.js";

export class OutputPanel {
  constructor(player) {
    this.trace = player.trace;
    this.box = player.find("output");
    player.find("printed").hidden = !this.trace.output;
  }

  draw(moment) {
    if (!this.trace.output) return;
    const all = this.trace.outputTo(moment), fresh = this.trace.outputBy(moment);
    const key = all.length + ":" + fresh.length;
    if (this.shown === key) return;
    this.shown = key;
    this.box.replaceChildren(visible(readable(all.slice(0, all.length - fresh.length))));
    if (fresh) this.box.append(make("span", "new", visible(readable(fresh))));
    this.box.append(make("span", "caret"));
    this.box.scrollTop = this.box.scrollHeight;
  }
}
