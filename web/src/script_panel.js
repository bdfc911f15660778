/* The script: headings, remarks, and each line with its answer so far. */

import { firstStop, keepInView, make, roving } from "./dom.js";
import { isHeading, plural, readable, visible, withoutMarks } from "./format.js";

/* The first heading is the page's title. */
export const titleLine = (trace) => trace.lines.find((line) => isHeading(line.text) && withoutMarks(line.text));

export class ScriptPanel {
  constructor(player) {
    this.player = player;
    this.trace = player.trace;
    this.box = player.find("lines");
    this.rows = [];            // {line, row, shown}
    this.addAll();
    this.box.addEventListener("click", (event) => {
      const row = event.target.closest(".line");
      if (row) this.jump(row);
    });
    roving(this.box, ".line", (row) => this.jump(row));
    firstStop(this.box, ".line");
  }

  addAll() {
    const title = titleLine(this.trace);
    let remark = null;
    for (const line of this.trace.lines) {
      const text = readable(line.text).trim(), isRemark = text.startsWith(";");
      if (!isRemark) remark = null;
      if (!text || line === title) continue;
      if (isHeading(text)) this.box.append(make("h3", "", withoutMarks(text)));
      else if (isRemark && remark) remark.textContent += " " + text.replace(/^;\s*/, "");
      else if (isRemark) this.box.append(remark = make("p", "", text.replace(/^;\s*/, "")));
      else this.addRow(line);
    }
  }

  addRow(line) {
    const row = make("div", "line"), mark = make("span", "mark"), body = make("span", "text");
    row.tabIndex = -1;
    row.setAttribute("role", "button");
    row.dataset.index = line.index;
    const marked = (sign, classes, name) => {
      mark.textContent = sign;
      mark.classList.add(classes);
      mark.setAttribute("role", "img");
      mark.setAttribute("aria-label", name);
    };
    if (line.expect) marked(line.expect.pass ? "✓" : "✗", line.expect.pass ? "good" : "bad", line.expect.pass
      ? "passed" : "failed");
    if (line.refused) marked("!", "bad", "error");
    const [, code, comment] = /^(.*?)((?:^|\s+);.*)?$/s.exec(readable(line.text));
    body.append(code);
    if (line.repeat) body.append(make("span", "comment", "  time " + line.repeat));
    if (line.block) body.append(make("span", "comment", "  … " + plural(line.block.length, "line")));
    else if (comment) body.append(make("span", "comment", comment));
    row.append(mark, make("span", "no", String(line.line)), body);
    if (line.answer && line.answer !== "pass") {
      row.append(make("span", "ans", visible(readable(line.answer)).replace(/^fail line \d+: /, "")));
    }
    row.classList.toggle("fail", Boolean(line.expect && !line.expect.pass || line.refused));
    this.box.append(row);
    this.rows.push({ line, row, shown: "" });
  }

  jump(row) {
    const line = this.trace.lines[row.dataset.index];
    if (line.last >= 0) this.player.go(line.last);
  }

  draw(moment) {
    const now = this.trace.lineOf[moment], isDone = now >= 0 && moment >= this.trace.lines[now].last;
    if (now === this.now && isDone === this.isDone) return;
    this.now = now;
    this.isDone = isDone;
    for (const each of this.rows) this.drawRow(each, now, isDone);
  }

  drawRow(each, now, isDone) {
    const isNow = each.line.index === now, isFuture = each.line.index > now || isNow && !isDone;
    const state = (isNow ? "current " : "") + (isFuture ? "future" : "");
    if (state !== each.shown) {
      each.shown = state;
      each.row.classList.toggle("current", isNow);
      each.row.classList.toggle("future", isFuture);
      if (isNow) each.row.setAttribute("aria-current", "step"); else each.row.removeAttribute("aria-current");
    }
    if (isNow) this.player.afterwards(() => keepInView(this.box, each.row, 0.3));
  }
}
