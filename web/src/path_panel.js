/* The path: lines of the program down, time across. Loops are seen as bands. Only where there is no heap to
   speak of. */

import { colour, fitCanvas, sizeOf, stillCanvas, themeName } from "./dom.js";

const LEFT = 50, MOST_ROW = 22, FUTURE = 0.35;
/* It is drawn where heaps change at most so often, and more lines and steps than these are carried out. */
const FEW_CHANGES = 4, FEW_LINES = 3, FEW_STEPS = 12;

export class PathPanel {
  constructor(player) {
    this.player = player;
    this.trace = player.trace;
    const panel = player.find("pathpanel");
    this.isOn = player.heaps.changes() <= FEW_CHANGES && this.trace.hits.size > FEW_LINES
      && this.trace.steps > FEW_STEPS;
    panel.hidden = !this.isOn;
    player.main.classList.toggle("nopath", !this.isOn);
    if (!this.isOn) return;
    if (!player.main.classList.contains("noheap")) player.find("heaps").append(panel);
    this.canvas = player.find("path");
    this.rows = [...player.program.rows.values()].filter((each) => each.hits.length);
    this.canvas.addEventListener("click", (event) => {
      const box = this.canvas.getBoundingClientRect();
      player.go(Math.round((event.clientX - box.left - LEFT) / (box.width - LEFT) * this.trace.last));
    });
  }

  draw(moment) {
    if (!this.isOn) return;
    const box = sizeOf(this.canvas.parentElement), ratio = devicePixelRatio || 1;
    const width = Math.round(box.width * ratio), height = Math.round(box.height * ratio);
    if (width < 60 || height < 20) return;
    const key = [width, height, themeName()].join(), last = this.trace.last || 1;
    this.bar = Math.max(1.2 * ratio, (width - LEFT * ratio) / (last + 1));
    if (key !== this.key) { this.key = key; this.paint(width, height, ratio); }
    fitCanvas(this.canvas, width, height);
    const c = this.canvas.getContext("2d"), x = this.x(moment, width, ratio) + this.bar - 2 * ratio;
    c.globalAlpha = 1;
    c.clearRect(0, 0, width, height);
    c.globalAlpha = FUTURE;
    c.drawImage(this.still, 0, 0);
    c.globalAlpha = 1;
    c.save();
    c.beginPath();
    c.rect(0, 0, x + 2 * ratio, height);
    c.clip();
    c.clearRect(0, 0, width, height);
    c.drawImage(this.still, 0, 0);
    c.restore();
    c.fillStyle = colour("--change");
    c.fillRect(x, 0, 2 * ratio, this.rows.length * this.rowHeight);
  }

  x(moment, width, ratio) {
    return LEFT * ratio + moment / (this.trace.last || 1) * (width - LEFT * ratio - this.bar);
  }

  paint(width, height, ratio) {
    this.still = stillCanvas(width, height);
    this.rowHeight = Math.min(height / this.rows.length, MOST_ROW * ratio);
    const c = this.still.getContext("2d");
    c.font = 10.5 * ratio + "px " + colour("--mono");
    this.rows.forEach((each, i) => this.paintRow(c, each, i * this.rowHeight, width, ratio));
  }

  paintRow(c, each, y, width, ratio) {
    const label = each.row.querySelector(".label");
    if (label) {
      c.fillStyle = colour("--soft");
      c.fillText(label.textContent.slice(0, 7), 0, y + Math.min(this.rowHeight, 11 * ratio));
      c.fillStyle = colour("--line");
      c.fillRect(LEFT * ratio, y, width - LEFT * ratio, ratio);
    }
    c.fillStyle = colour("--blue");
    let last = -1;
    for (const moment of each.hits) {
      const x = Math.round(this.x(moment, width, ratio));
      if (x !== last) c.fillRect(x, y + ratio, this.bar, Math.max(ratio, this.rowHeight - 2 * ratio));
      last = x;
    }
  }
}
