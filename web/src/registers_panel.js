/* Registers as the mode sees them, flags, mode, and the registers of other banks. */

import { make, makeButton, roving } from "./dom.js";
import { count, signed, word } from "./format.js";
import { ADDRESS_BITS, FLAGS, REGISTERS, bankedName, unpackFlags } from "./names.js";
import { isLost, pointer } from "./pointers.js";

/* Numbers that are given in decimal beside their hexadecimal form: above 9 and below this. */
const MOST_DECIMAL = 1e6;

/* What a pointer means, in a few characters; "" where the value leads to nothing worth a note. */
function pointerNote(found) {
  if (!found) return "";
  if (found.to === "start") return "heap";
  if (found.to === "stale") return `was #${found.was.number}, now #${found.stay.block.number}`;
  if (found.to === "dead") return `#${found.was.number} is gone`;
  return found.to === "block" ? `→ #${found.stay.block.number}${found.offset ? "+" + found.offset : ""}` : "";
}

export class RegistersPanel {
  constructor(player) {
    this.player = player;
    this.trace = player.trace;
    const box = player.find("registers"), psr = player.find("psr");
    this.cells = [...Array(16).keys()].map((n) => this.cell(n, box));
    roving(box, ".reg", (button) => button.click(), { ArrowDown: 4, ArrowUp: -4, ArrowRight: 1, ArrowLeft: -1 });
    this.flags = [...FLAGS].map((flag) => make("span", "", flag));
    this.mode = make("span", "mode");
    psr.append(...this.flags, this.mode);
    this.psr = psr;
    this.banks = player.find("banks");
  }

  cell(n, box) {
    const button = makeButton("reg", undefined, () => this.choose(n));
    const value = make("span", "v"), note = make("small");
    button.append(make("span", "n", "R" + n), value, note);
    button.tabIndex = n ? -1 : 0;
    box.append(button);
    return { button, value, note, shown: "" };
  }

  choose(n) {
    this.player.choose(n === 15 ? null : { register: bankedName(n, this.trace.modeAt(this.player.moment)) });
  }

  /* What a value may mean: a block, a label, a character, a number. */
  note(n, value, moment, found) {
    const code = value & ADDRESS_BITS, name = code ? this.trace.nameOf(code, moment) : "";
    if (n === 15 || n === 14 && name) return name;
    const leads = pointerNote(found);
    if (leads) return leads;
    if (name && !(value & 3)) return name;
    if (n === 13) return "";
    if (value >= 33 && value < 127) return "'" + String.fromCharCode(value) + "'  " + value;
    if (this.player.format !== "hex") return "";
    if (value > 9 && value < MOST_DECIMAL) return count(value);
    return (value | 0) < 0 && (value | 0) > -MOST_DECIMAL ? signed(value) : "";
  }

  draw(moment, record) {
    const mode = this.trace.modeAt(moment), read = new Set(record.swi && record.swi.args || []);
    this.cells.forEach((cell, n) => this.drawCell(cell, n, moment, mode, read.has("R" + n)));
    this.drawFlags(moment, mode);
    this.drawBanks(moment, mode);
  }

  drawCell(cell, n, moment, mode, isRead) {
    const history = n < 15 ? this.trace.registerHistory(n, moment) : null;
    const value = this.trace.register(n, moment);
    const isWritten = history !== null && history.writtenAt(moment);
    const isChanged = isWritten && history.changedAt(moment);
    const found = n < 13 ? pointer(this.trace, value, moment, history.lastWrite(moment)) : null;
    const text = word(value, this.player.format);
    const isChosen = this.player.isChosen("register", bankedName(n, mode));
    let note = this.note(n, value, moment, found);
    if (isChanged && !note) note = "was " + word(history.before(moment), this.player.format);
    const classes = ["reg", isChanged && "changed", isWritten && !isChanged && "written", value === 0 && "zero",
      isRead && "used", isLost(found) && "stale", n < 15 && isChosen && "chosen"].filter(Boolean).join(" ");
    const key = text + "|" + note + "|" + classes;
    if (key === cell.shown) return;
    cell.shown = key;
    cell.value.textContent = text;
    cell.note.textContent = note;
    cell.button.className = classes;
    const name = n === 15 ? "R15, the program counter," : "R" + n;
    cell.button.setAttribute("aria-label",
      [name + " " + text, note, isChanged && "changed"].filter(Boolean).join(", "));
  }

  drawFlags(moment, mode) {
    const now = this.trace.flagsAt(moment), was = moment ? unpackFlags(this.trace.psr.before(moment)) : now;
    const isWritten = this.trace.psr.writtenAt(moment);
    [...FLAGS].forEach((flag, i) => {
      const span = this.flags[i], isChanged = isWritten && now[flag] !== was[flag];
      span.className = (now[flag] ? "set" : "") + (isChanged ? " changed" : "");
    });
    this.mode.textContent = mode;
    this.mode.className = "mode" + (this.trace.mode.writtenAt(moment) ? " changed" : "");
    const spoken = [...FLAGS].map((flag) => flag + " " + (now[flag] ? "set" : "clear"));
    this.psr.setAttribute("aria-label", spoken.join(", ") + ", mode " + mode);
  }

  /* Registers of other banks that have ever been anything but 0. */
  drawBanks(moment, mode) {
    const seen = new Set([...Array(15).keys()].map((n) => bankedName(n, mode))), parts = [];
    REGISTERS.forEach((name, i) => {
      const history = this.trace.registers[i];
      if (seen.has(name) || !history.valueAt(moment) && !history.changedAt(moment)) return;
      parts.push({ text: name + " " + word(history.valueAt(moment), this.player.format),
        isChanged: history.changedAt(moment) });
    });
    const key = JSON.stringify(parts);
    if (this.shownBanks === key) return;
    this.shownBanks = key;
    this.banks.replaceChildren(...parts.map((part) => make("span", part.isChanged ? "changed" : "", part.text)));
  }
}
