/* The strip of a heap: address across over the same scale as its bar, time down, a row for each change; beside it
   the bytes that are free in all, and the largest piece. */

import { blockLife, describe, whenText } from "./describe.js";
import { colour, fitCanvas, make, sizeOf, stillCanvas, themeName } from "./dom.js";
import { address, plural } from "./format.js";
import { tintOf } from "./heap_bar.js";
import { lastAtMost } from "./histories.js";
import { DESCRIPTOR_BYTES } from "./layout.js";

const TINT_NAMES = ["--b0", "--b1", "--b2", "--b3", "--b4", "--b5"];
const FUTURE = 0.3;
/* A few changes need no tall strip. */
const ROW_AT_MOST = 17, LEAST_HEIGHT = 74, ENOUGH = 200;

export class HeapStrip {
  constructor(player, heap, scale, name) {
    this.player = player;
    this.trace = player.trace;
    this.heap = heap;
    this.scale = scale;
    this.element = make("div", "strip");
    this.canvas = this.addCanvas("",
      `Blocks of ${name} over ${plural(heap.events.length, "change")}: address across, time down`);
    this.curve = this.addCanvas("curve", "Free bytes in all, and the largest free piece, over time");
    const height = heap.events.length * ROW_AT_MOST;
    if (height < ENOUGH) this.element.style.maxHeight = Math.max(LEAST_HEIGHT, height) + "px";
    player.tip.over(this.canvas, (event) => this.tipAt(event));
  }

  addCanvas(classes, label) {
    const box = make("div", classes), canvas = make("canvas");
    canvas.setAttribute("role", "img");
    canvas.setAttribute("aria-label", label);
    canvas.addEventListener("click", (event) => this.player.go(this.momentAt(event)));
    box.append(canvas);
    this.element.append(box);
    return canvas;
  }

  momentAt(event) {
    const box = event.currentTarget.getBoundingClientRect(), { events } = this.heap;
    const row = Math.floor((event.clientY - box.top) / box.height * events.length);
    return events[Math.max(0, Math.min(events.length - 1, row))];
  }

  tipAt(event) {
    const { heap, trace } = this, moment = this.momentAt(event), box = this.canvas.getBoundingClientRect();
    const at = heap.address + this.scale.offset((event.clientX - box.left) / box.width);
    const stay = heap.itemsAt(moment).find((each) => at >= each.at && at < each.at + each.size);
    const isOfHeap = (effect) => effect.block || /heap|anchor/.test(effect.what);
    const effects = describe(trace, moment, this.player.format).effects.filter(isOfHeap);
    const did = effects.map((effect) => effect.what + (effect.now ? " " + effect.now : "")).join(", ");
    const what = !stay ? "" : stay.kind === "free" ? `: free, ${plural(stay.size, "byte")}`
      : `: #${stay.block.number}, ${plural(stay.size, "byte")}\n${blockLife(trace, stay.block, moment)}`;
    return `${whenText(trace, moment).replace(/^(at|by) /, "")}: ${did}\n${address(at)}${what}`;
  }

  /* Draws the picture of all time once, and then what is past in full and what is to come paler. */
  draw(moment) {
    const box = sizeOf(this.canvas.parentElement), ratio = devicePixelRatio || 1;
    const width = Math.round(box.width * ratio), height = Math.round(box.height * ratio);
    if (width < 2 || height < 2) return;
    const key = [width, height, themeName()].join();
    if (this.key !== key) { this.key = key; this.paint(width, height, ratio); }
    const rows = Math.max(1, this.heap.events.length);
    const now = (lastAtMost(this.heap.events, moment) + 1) * height / rows;
    this.show(this.canvas, this.still, now, ratio);
    this.show(this.curve, this.curveStill, now, ratio);
  }

  show(canvas, still, now, ratio) {
    if (sizeOf(canvas.parentElement).width < 2) return;
    fitCanvas(canvas, still.width, still.height);
    const c = canvas.getContext("2d");
    c.globalAlpha = 1;
    c.fillStyle = colour("--raised");
    c.fillRect(0, 0, still.width, still.height);
    c.globalAlpha = FUTURE;
    c.drawImage(still, 0, 0);
    c.globalAlpha = 1;
    if (now > 0) {
      c.save();
      c.beginPath();
      c.rect(0, 0, still.width, now);
      c.clip();
      c.fillRect(0, 0, still.width, now);
      c.drawImage(still, 0, 0);
      c.restore();
    }
    c.fillStyle = colour("--change");
    c.fillRect(0, Math.min(still.height - 2 * ratio, Math.max(0, now - ratio)), still.width, 2 * ratio);
  }

  paint(width, height, ratio) {
    this.still = stillCanvas(width, height);
    const c = this.still.getContext("2d"), { heap, scale } = this;
    const row = height / Math.max(1, heap.events.length);
    const y = (moment) => moment === Infinity ? height : Math.max(0, lastAtMost(heap.events, moment)) * row;
    const x = (at) => scale.at(at - heap.address) * width;
    c.fillStyle = colour("--paper");
    c.fillRect(0, 0, width, height);
    if (!heap.flex) this.paintDescriptor(c, y, height, width);
    const hatch = hatching(c, colour("--hatch"), ratio);
    c.lineWidth = Math.max(0.5, ratio * 0.5);
    for (const stay of heap.stays) {
      const box = { left: x(stay.at), top: y(stay.from), width: x(stay.at + stay.size) - x(stay.at),
        height: y(stay.to) - y(stay.from) };
      paintStay(c, stay, box, hatch, ratio);
    }
    this.paintCurve(ratio, height, row);
  }

  paintDescriptor(c, y, height, width) {
    const { at, value } = this.heap.limits;
    c.fillStyle = colour("--desc");
    value.forEach((limits, i) => {
      if (!limits.there) return;
      const top = y(at[i]), end = i + 1 < at.length ? y(at[i + 1]) : height;
      c.fillRect(0, top, Math.max(1, this.scale.at(DESCRIPTOR_BYTES) * width), end - top + 0.5);
    });
  }

  paintCurve(ratio, height, row) {
    if (!this.sums) this.sums = this.heap.events.map((moment) => this.heap.sumsAt(moment));
    const width = Math.max(1, Math.round(sizeOf(this.curve.parentElement).width * ratio));
    this.curveStill = stillCanvas(width, height);
    const c = this.curveStill.getContext("2d");
    const most = this.sums.reduce((top, sums) => Math.max(top, sums.free), 1);
    for (const [name, fill] of [["free", colour("--hatch")], ["largest", colour("--curve")]]) {
      c.fillStyle = fill;
      this.sums.forEach((sums, i) => c.fillRect(0, i * row, sums[name] / most * width, row + 0.6));
    }
  }
}

function paintStay(c, stay, box, hatch, ratio) {
  const height = Math.max(1, box.height);
  c.fillStyle = stay.kind === "free" ? hatch : colour(TINT_NAMES[tintOf(stay.block)]);
  c.fillRect(box.left, box.top, box.width, height);
  if (stay.kind === "free") return;
  if (box.width > 3 * ratio && box.height > 3 * ratio) {
    c.strokeStyle = colour("--edge");
    c.strokeRect(box.left + 0.25, box.top + 0.25, box.width - 0.5, box.height - 0.5);
  }
  if (box.width < 24 * ratio || box.height < 12 * ratio) return;
  c.fillStyle = colour("--ink");
  c.font = 10.5 * ratio + "px " + colour("--mono");
  c.fillText("#" + stay.block.number, box.left + 3 * ratio, box.top + 10 * ratio);
}

function hatching(c, stroke, ratio) {
  const side = Math.round(6 * ratio), tile = stillCanvas(side, side), t = tile.getContext("2d");
  t.strokeStyle = stroke;
  t.lineWidth = ratio;
  t.beginPath();
  for (const from of [-side / 2, 0, side / 2]) {
    t.moveTo(from, from === 0 ? side : from < 0 ? side / 2 : side * 1.5);
    t.lineTo(from + side, from === 0 ? 0 : from < 0 ? -side / 2 : side / 2);
  }
  t.stroke();
  return c.createPattern(tile, "repeat");
}
