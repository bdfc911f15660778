/* What the present moment did, large: step, line, label and the remark on it; the instruction; each effect. */

import { describe } from "./describe.js";
import { make } from "./dom.js";
import { commentOf, count, readable, sourceParts } from "./format.js";
import { KIND } from "./names.js";

const MOST_EFFECTS = 9;

function effectSpan(effect) {
  const isPlain = effect.now === undefined;
  const state = effect.bad ? " bad" : effect.good ? " good" : isPlain ? " say" : "";
  const span = make("span", "effect" + state);
  span.append(make("span", isPlain ? "" : "who", effect.what));
  if (!isPlain) span.append(" ", make("span", "to", effect.now));
  if (effect.was !== undefined) span.append(" ",
    make("small", "", effect.was === null ? "as before" : "was " + effect.was));
  return span;
}

export class NowPanel {
  constructor(player) {
    this.player = player;
    this.trace = player.trace;
    this.where = player.find("where");
    this.what = player.find("what");
    this.effects = player.find("effects");
  }

  /* What the script's writer remarked on the line. */
  remark(moment) {
    const { trace } = this, source = trace.sources.get(trace.sourceOf[moment]), line = trace.lineAt(moment);
    if (trace.kind[moment] & KIND.STEP) return source === undefined ? ""
      : sourceParts(readable(source)).comment.replace(/^;\s*/, "");
    return line ? commentOf(readable(line.text)) : "";
  }

  draw(moment) {
    const { trace } = this, { text, effects } = describe(trace, moment, this.player.format);
    const step = trace.stepOf[moment], line = trace.lineAt(moment), remark = this.remark(moment);
    if (step) {
      const label = trace.pcBefore[moment] >= 0 ? trace.nameOf(trace.pcBefore[moment], moment) : "";
      this.where.replaceChildren("step ", make("b", "", count(step)), " of " + count(trace.steps),
        ` · line ${trace.sourceOf[moment] || line.line}${label ? " · " + label : ""}`);
    } else this.where.replaceChildren(make("b", "", line ? "line " + line.line : "the start"));
    if (remark) this.where.append(make("i", "", remark));
    this.what.textContent = moment ? text.replace(/\s+/g, " ") : "";
    const others = effects.length - MOST_EFFECTS;
    this.effects.replaceChildren(...effects.slice(0, MOST_EFFECTS).map(effectSpan));
    if (others > 0) this.effects.append(make("span", "effect say", `and ${others} more`));
  }
}
