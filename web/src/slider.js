/* The slider: moments across; below, lines of the script as boxes; above, a sign for each thing that happens. */

import { describe } from "./describe.js";
import { colour, fitCanvas, sizeOf, stillCanvas, themeName } from "./dom.js";
import { count, readable, withoutComment } from "./format.js";
import { bins } from "./layout.js";
import { KIND } from "./names.js";

const PADDING = 6;
const LINES = { top: 26, height: 13, baseline: 35.6 };

export class Slider {
  constructor(player) {
    this.player = player;
    this.trace = player.trace;
    this.input = player.find("slider");
    this.canvas = player.find("ticks");
    this.input.max = this.trace.last;
    this.input.addEventListener("input", () => player.go(Number(this.input.value), { isFast: true }));
    player.tip.over(this.input, (event) => this.tipAt(event));
  }

  tipAt(event) {
    const box = this.input.getBoundingClientRect();
    const share = (event.clientX - box.left - PADDING) / (box.width - 2 * PADDING);
    const moment = Math.round(Math.max(0, Math.min(1, share)) * this.trace.last);
    const line = this.trace.lineAt(moment);
    if (!line) return "the start";
    const step = this.trace.stepOf[moment] ? "step " + count(this.trace.stepOf[moment]) + "  " : "";
    const { text } = describe(this.trace, moment, this.player.format);
    return `${step}line ${line.line}  ${readable(line.text).trim()}\n${text}`;
  }

  x(moment, width, padding) { return padding
    + (this.trace.last ? moment / this.trace.last : 0) * (width - 2 * padding); }

  draw(moment) {
    const ratio = devicePixelRatio || 1, size = sizeOf(this.canvas);
    const width = Math.round(size.width * ratio), height = Math.round(size.height * ratio);
    this.say(moment);
    if (width < 2) return;
    const key = [width, height, themeName()].join();
    if (this.key !== key) { this.key = key; this.paint(width, height, ratio); }
    fitCanvas(this.canvas, width, height);
    const c = this.canvas.getContext("2d"), x = this.x(moment, width, PADDING * ratio);
    const change = colour("--change");
    c.clearRect(0, 0, width, height);
    c.drawImage(this.still, 0, 0);
    c.fillStyle = change;
    c.globalAlpha = 0.16;
    c.fillRect(PADDING * ratio, LINES.top * ratio, x - PADDING * ratio, LINES.height * ratio);
    c.globalAlpha = 1;
    c.fillRect(x - ratio, 3 * ratio, 2 * ratio, 40 * ratio);
    disc(c, x, 32.5 * ratio, 6.5 * ratio, change);
    disc(c, x, 32.5 * ratio, 2.4 * ratio, colour("--raised"));
  }

  say(moment) {
    if (Number(this.input.value) !== moment) this.input.value = moment;
    const line = this.trace.lineAt(moment), step = this.trace.stepOf[moment];
    const where = line ? "line " + line.line : "the start";
    this.input.setAttribute("aria-valuetext", step ? `step ${step} of ${this.trace.steps}, ${where}` : where);
  }

  paint(width, height, ratio) {
    this.still = stillCanvas(width, height);
    const c = this.still.getContext("2d"), padding = PADDING * ratio;
    this.paintLines(c, width, ratio);
    const kinds = bins(this.trace.kind, (width - 2 * padding) / ratio), at = (i) => padding + i * ratio;
    const bar = (i, top, bottom, fill,
      wide) => { c.fillStyle = fill; c.fillRect(at(i) - wide / 2, top * ratio, wide, (bottom - top) * ratio); };
    kinds.forEach((kind, i) => { if (kind & KIND.SWI) bar(i, 20, 25, colour("--faint"), ratio); });
    kinds.forEach((kind, i) => { if (kind & KIND.HEAP) bar(i, 11, 25, colour("--blue"), 1.6 * ratio); });
    kinds.forEach((kind, i) => this.paintSigns(c, kind, at(i), ratio));
  }

  paintLines(c, width, ratio) {
    let isOdd = false;
    c.font = 9.5 * ratio + "px " + colour("--mono");
    for (const line of this.trace.lines) {
      if (line.first < 0) continue;
      const left = this.x(line.first - 0.5, width, PADDING * ratio);
      const wide = this.x(line.last + 0.5, width, PADDING * ratio) - left;
      c.fillStyle = colour(isOdd ? "--sunk" : "--line");
      isOdd = !isOdd;
      c.fillRect(left, LINES.top * ratio, Math.max(1, wide), LINES.height * ratio);
      const text = withoutComment(readable(line.text));
      if (!line.steps || c.measureText(text).width >= wide - 8 * ratio) continue;
      c.fillStyle = colour("--soft");
      c.fillText(text, left + 4 * ratio, LINES.baseline * ratio);
    }
  }

  /* A dot for print, a cross for an error, a triangle for what failed, a foot for what passed. */
  paintSigns(c, kind, x, u) {
    if (kind & KIND.PRINT) disc(c, x, 8 * u, 1.8 * u, colour("--read"));
    if (kind & KIND.ERROR) {
      c.strokeStyle = colour("--bad");
      c.lineWidth = 1.3 * u;
      c.beginPath();
      for (const side of [1, -1]) { c.moveTo(x - 2.5 * u * side, 6 * u); c.lineTo(x + 2.5 * u * side, 11 * u); }
      c.stroke();
    }
    if (kind & (KIND.FAIL | KIND.REFUSED)) {
      c.fillStyle = colour("--bad");
      c.beginPath();
      c.moveTo(x - 4 * u, u);
      c.lineTo(x + 4 * u, u);
      c.lineTo(x, 8 * u);
      c.fill();
      c.fillRect(x - 1.2 * u, 40 * u, 2.4 * u, 5 * u);
    } else if (kind & KIND.PASS) {
      c.fillStyle = colour("--good");
      c.fillRect(x - 1.2 * u, 40 * u, 2.4 * u, 4 * u);
    }
  }
}

function disc(c, x, y, radius, fill) {
  c.fillStyle = fill;
  c.beginPath();
  c.arc(x, y, radius, 0, 7);
  c.fill();
}
