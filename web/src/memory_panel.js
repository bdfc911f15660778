/* Memory: rows of the words that were touched. Only those in view are made. */

import { make, sizeOf } from "./dom.js";
import { characters, hex, plural } from "./format.js";
import { memoryRows } from "./layout.js";
import { goToWrite, listenForWords, readBy, wordButton } from "./words.js";

const ROW_HEIGHT = 20;
/* Pixels that a row needs to have room for its characters too. */
const WIDE = 470, WIDE_DECIMAL = 520;
/* A record that writes more words than this is shown by its last one. */
const FEW = 3;

export class MemoryPanel {
  constructor(player) {
    this.player = player;
    this.trace = player.trace;
    this.box = player.find("words");
    this.list = player.find("rows");
    this.rows = memoryRows(this.trace.touched);
    this.index = new Map(this.rows.map((row, i) => [row.at, i]));
    player.find("space").style.height = this.rows.length * ROW_HEIGHT + 8 + "px";
    player.find("memnote").textContent = this.rows.length ? plural(this.trace.touched.size, "word") + " touched" : "";
    if (!this.rows.length) this.list.append(make("p", "none", "No word was read or written."));
    listenForWords(player, this.box);
    this.box.addEventListener("scroll", () => this.drawRows(player.moment, player.record));
    this.box.addEventListener("keydown", (event) => this.key(event));
  }

  /* Arrows choose the word beside the chosen one; Enter goes to who wrote it. */
  key(event) {
    const by = { ArrowLeft: -4, ArrowRight: 4, ArrowUp: -16, ArrowDown: 16 }[event.key];
    const { chosen } = this.player;
    if (!this.rows.length || !by && event.key !== "Enter") return;
    event.preventDefault();
    event.stopPropagation();
    const hasWord = chosen !== null && chosen.word !== undefined;
    if (event.key === "Enter") {
      if (hasWord) goToWrite(this.player, chosen.word);
      return;
    }
    const at = hasWord ? this.beside(chosen.word, by) : this.rows[0].at;
    if (hasWord && chosen.word === at) return;
    this.player.chosen = { word: at };
    this.see(at);
    this.player.draw();
  }

  beside(address, by) {
    const row = this.index.get(address - address % 16);
    if (row === undefined) return this.rows[0].at;
    const place = row * 4 + address % 16 / 4 + by / 4;
    if (place < 0 || place >= this.rows.length * 4) return address;
    return this.rows[Math.floor(place / 4)].at + place % 4 * 4;
  }

  /* Scrolls to a word, where it isn't in view. */
  see(address) {
    const i = this.index.get(address - address % 16);
    if (i === undefined) return;
    const y = i * ROW_HEIGHT, height = sizeOf(this.box).height, top = this.box.scrollTop;
    if (y < top + ROW_HEIGHT || y > top + height - 2 * ROW_HEIGHT) this.box.scrollTop = y - height / 2;
  }

  draw(moment, record) {
    if (!this.rows.length) return;
    const { mem, reads } = record;
    if (mem && mem.length) this.see(mem[mem.length > FEW ? mem.length - 1 : 0][0]);
    else if (reads && reads.length) this.see(reads[0][0]);
    this.drawRows(moment, record);
  }

  drawRows(moment, record) {
    if (!this.rows.length) return;
    const { width, height } = sizeOf(this.box), reads = readBy(record), { format } = this.player;
    const first = Math.max(0, Math.floor(this.box.scrollTop / ROW_HEIGHT) - 1);
    const last = Math.min(this.rows.length, first + Math.ceil((height || 200) / ROW_HEIGHT) + 3);
    const withCharacters = format !== "chr" && width > (format === "dec" ? WIDE_DECIMAL : WIDE);
    const rows = [];
    for (let i = first; i < last; i++) rows.push(this.row(this.rows[i], moment, reads, withCharacters));
    this.list.style.top = first * ROW_HEIGHT + 4 + "px";
    this.list.replaceChildren(...rows);
  }

  row({ at, gap }, moment, reads, withCharacters) {
    const row = make("div", "mrow" + (gap ? " gap" : ""));
    row.append(make("span", "a", hex(at)));
    let text = "";
    for (let address = at; address < at + 16; address += 4) {
      row.append(wordButton(this.player, address, moment, reads));
      text += characters(this.trace.word(address, moment));
    }
    if (withCharacters) row.append(make("span", "c", text));
    return row;
  }
}
