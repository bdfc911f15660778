/* The player: it holds the present moment, and lets each part of the page draw it. */

import { sentence } from "./describe.js";
import { Tip, forgetColours, forgetSizes, kept, make, makeButton } from "./dom.js";
import { emptyRun, emptyRunText } from "./empty_run.js";
import { FORMATS, FORMAT_NAMES, count, readable, withoutMarks } from "./format.js";
import { momentNamed, nameMoment, readFragment, writeFragment } from "./fragment.js";
import { HeapsPanel } from "./heaps_panel.js";
import { Help } from "./help.js";
import { Inspector } from "./inspector.js";
import { listenForKeys } from "./keys.js";
import { MemoryPanel } from "./memory_panel.js";
import { NowPanel } from "./now_panel.js";
import { OutputPanel } from "./output_panel.js";
import { PathPanel } from "./path_panel.js";
import { ProgramPanel } from "./program_panel.js";
import { RegistersPanel } from "./registers_panel.js";
import { ScriptPanel, titleLine } from "./script_panel.js";
import { Slider } from "./slider.js";
import { StackPanel } from "./stack_panel.js";

const SPEEDS = [1, 2, 5, 10, 30, 100, 300, 1000, 3000];
/* Blocks glide where steps are slower than this. */
const GLIDING_SPEED = 10;
/* The page's address follows, and the moment is said, when the slider has rested so long, in milliseconds. */
const ADDRESS_RESTS = 250, SAY_RESTS = 180;

const usualSpeed = (moments) => moments > 20000 ? 1000 : moments > 2000 ? 100 : moments > 200 ? 10 : 2;

export class Player {
  constructor(place, trace) {
    this.place = place;
    this.trace = trace;
    this.moment = 0;
    this.format = FORMATS[0];
    this.chosen = null;
    this.isPlaying = false;
    this.speed = usualSpeed(trace.last);
    this.lettersAreKeys = kept("letters") !== "0";
    this.atEnd = [];
    this.onDraw = () => {};          // for the page around it: called with the moment after each drawing
    this.ending = new AbortController();
    forgetSizes();
    place.replaceChildren(document.getElementById("player-parts").content.cloneNode(true));
    this.main = place.querySelector("main");
    this.tip = new Tip(this.find("tip"));
    this.makeParts();
    this.header();
    this.transport();
    listenForKeys(this, this.ending.signal);
    addEventListener("hashchange", () => this.goToAddress(), { signal: this.ending.signal });
    this.record = trace.record(0);
    this.watchSizes();
  }

  find(id) { return this.place.querySelector("#" + id); }

  makeParts() {
    this.program = new ProgramPanel(this);
    this.script = new ScriptPanel(this);
    this.stack = new StackPanel(this);
    this.heaps = new HeapsPanel(this);
    this.inspector = new Inspector(this);
    this.help = new Help(this);
    this.parts = [this.program, this.script, new RegistersPanel(this), this.stack, new MemoryPanel(this), this.heaps,
      new PathPanel(this), new Slider(this), new NowPanel(this), new OutputPanel(this), this.inspector];
  }

  /* Boxes that have another size are drawn anew. */
  watchSizes() {
    this.watch = new ResizeObserver(() => { forgetSizes(); this.draw(); });
    for (const id of ["code", "words", "heaps", "scrub", "path"]) this.watch.observe(this.find(id));
    for (const view of this.heaps.views) { this.watch.observe(view.plot); this.watch.observe(view.strip.canvas); }
  }

  header() {
    const { trace } = this, title = titleLine(trace);
    this.title = title ? withoutMarks(readable(title.text)) : readable(trace.name) || "A script";
    this.find("title").textContent = this.title;
    this.find("file").textContent = title ? readable(trace.name) : "";
    for (const format of FORMATS) this.find("formats").append(this.formatButton(format));
    const failed = trace.expects.filter((each) => !each.pass), passed = trace.expects.length - failed.length;
    const errors = trace.lines.filter((line) => line.refused), results = this.find("results");
    if (passed) results.append(make("span", "badge good", `✓ ${count(passed)} passed`));
    if (failed.length) results.append(this.badge(`✗ ${count(failed.length)} failed`,
      failed.map((each) => each.moment)));
    if (errors.length) {
      const text = `! ${count(errors.length)} ${errors.length === 1 ? "line" : "lines"} with an error`;
      results.append(this.badge(text, errors.map((line) => line.last)));
    }
    const empty = emptyRun(trace);
    if (empty) results.append(this.badge("! empty memory was run", [empty.block.last], emptyRunText(empty)));
    if (trace.gaps) results.append(make("span", "badge", count(trace.gaps) + " steps not listed"));
  }

  /* A badge that goes to the next of some moments, and round at the end. */
  badge(text, moments, title = "To the next of them") {
    const button = makeButton("badge bad", text, () => {
      const next = moments.find((moment) => moment > this.moment);
      this.go(next === undefined ? moments[0] : next);
    });
    button.title = title;
    return button;
  }

  formatButton(format) {
    const button = makeButton("", format, () => this.setFormat(format));
    button.dataset.format = format;
    button.setAttribute("aria-pressed", format === this.format);
    button.setAttribute("aria-label", FORMAT_NAMES[format]);
    return button;
  }

  transport() {
    const on = (id, act) => this.find(id).addEventListener("click", act);
    const move = (to) => () => { this.play(false); this.go(to()); };
    on("first", move(() => 0));
    on("back", move(() => this.moment - 1));
    on("forward", move(() => this.moment + 1));
    on("end", move(() => this.trace.last));
    on("play", () => this.play(!this.isPlaying));
    const select = this.find("speed");
    for (const speed of SPEEDS) select.append(new Option(speed + "/s", speed));
    select.value = this.speed;
    select.addEventListener("change", () => { this.speed = Number(select.value); });
  }

  // ---- moving

  go(moment, { isFast = false } = {}) {
    this.moment = Math.max(0, Math.min(this.trace.last, moment));
    this.draw(!isFast && (!this.isPlaying || this.speed <= GLIDING_SPEED));
    clearTimeout(this.addressTimer);
    clearTimeout(this.sayTimer);
    this.addressTimer = setTimeout(() => this.writeAddress(), ADDRESS_RESTS);
    if (!this.isPlaying) this.sayTimer = setTimeout(() => this.say(), SAY_RESTS);
  }

  say() { this.find("say").textContent = sentence(this.trace, this.moment, this.format); }

  writeAddress() {
    const hash = writeFragment(nameMoment(this.trace, this.moment, readFragment(location.hash)));
    if (location.hash === hash) return;
    try { history.replaceState(null, "", hash); } catch { /* a page that may not */ }
  }

  /* Goes where the page's address says; answers whether it says anything. */
  goToAddress() {
    const moment = momentNamed(this.trace, readFragment(location.hash));
    if (moment >= 0 && moment !== this.moment) this.go(moment, { isFast: true });
    return moment >= 0;
  }

  goToKind(bits, by) {
    const moment = by > 0 ? this.trace.nextOf(bits, this.moment) : this.trace.previousOf(bits, this.moment);
    if (moment >= 0) this.go(moment);
  }

  /* To the end of this line or the next, or to the beginning of this line or the one before. */
  goToLine(by) {
    const lines = this.trace.lines.filter((line) => line.last >= 0);
    const at = lines.findIndex((line) => line.index === this.trace.lineOf[this.moment]);
    const line = lines[at];
    if (by > 0) {
      const to = line && this.moment < line.last ? line : lines[at + 1];
      this.go(to ? to.last : this.trace.last);
    } else {
      const to = line && this.moment > line.first ? line : lines[at - 1];
      this.go(to ? to.first : 0);
    }
  }

  askForStep() {
    const answer = prompt(`Go to step (0 to ${this.trace.steps})`, this.trace.stepOf[this.moment]);
    if (answer !== null && /^\s*\d{1,9}\s*$/.test(answer)) this.go(this.trace.momentForStep(Number(answer)));
  }

  faster(by) {
    const at = Math.max(0, Math.min(SPEEDS.length - 1, SPEEDS.indexOf(this.speed) + by));
    this.speed = SPEEDS[at];
    this.find("speed").value = this.speed;
  }

  play(isOn) {
    if (isOn === this.isPlaying && !isOn) return;
    this.isPlaying = isOn;
    const button = this.find("play");
    button.setAttribute("aria-pressed", isOn);
    button.setAttribute("aria-label", isOn ? "Stop" : "Play");
    cancelAnimationFrame(this.frame);
    if (!isOn) { this.go(this.moment); return; }
    if (this.moment === this.trace.last) this.go(0);
    this.then = performance.now();
    this.owed = 0;
    this.frame = requestAnimationFrame((time) => this.tick(time));
  }

  tick(time) {
    this.owed += Math.min(0.25, (time - this.then) / 1000) * this.speed;
    this.then = time;
    const steps = Math.floor(this.owed);
    this.owed -= steps;
    if (steps) this.go(this.moment + steps, { isFast: steps > 1 });
    if (this.moment >= this.trace.last) { this.play(false); return; }
    this.frame = requestAnimationFrame((next) => this.tick(next));
  }

  // ---- choosing

  isChosen(kind, value) { return this.chosen !== null && this.chosen[kind] === value; }

  /* Chooses a register, a word or a block; what is chosen already is chosen no longer. */
  choose(choice) {
    const isSame = choice !== null && JSON.stringify(choice) === JSON.stringify(this.chosen);
    this.chosen = isSame ? null : choice;
    this.draw();
  }

  /* The history of the register or the word that is chosen, if one is. */
  historyChosen() {
    if (this.chosen === null || this.chosen.block !== undefined) return undefined;
    const { word, register } = this.chosen;
    return word !== undefined ? this.trace.words.get(word) : this.trace.historyOf(register);
  }

  /* The moment at which it was written last, up to now; 0 where nothing is chosen, or it wasn't written. */
  lastWriteOfChosen() {
    const history = this.historyChosen();
    return history ? history.lastWrite(this.moment) : 0;
  }

  setFormat(format) {
    this.format = format;
    for (const button of this.find("formats").children) button.setAttribute("aria-pressed",
      button.dataset.format === format);
    this.find("words").className = "body " + format;
    this.draw();
  }

  recolour() { forgetColours(); this.draw(); }

  // ---- drawing

  /* What is done when all parts have drawn: scrolling, which asks for sizes. */
  afterwards(act) { this.atEnd.push(act); }

  draw(animate = false) {
    this.tip.hide();
    this.record = this.trace.record(this.moment);
    for (const part of this.parts) part.draw(this.moment, part === this.heaps ? animate : this.record);
    const isFirst = this.moment === 0, isLast = this.moment === this.trace.last;
    for (const id of ["first", "back"]) this.find(id).disabled = isFirst;
    for (const id of ["forward", "end"]) this.find(id).disabled = isLast;
    for (const act of this.atEnd.splice(0)) act();
    this.onDraw(this.moment);
  }

  /* Takes the player off the page. */
  remove() {
    this.ending.abort();
    this.watch.disconnect();
    cancelAnimationFrame(this.frame);
    clearTimeout(this.addressTimer);
    clearTimeout(this.sayTimer);
    this.place.replaceChildren();
  }
}
