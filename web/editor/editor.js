/* The page rosm.html: an editor, the machine in a worker, and the player of what it did. */

import { emptyRun, emptyRunText } from "../src/empty_run.js";
import { plural, visible } from "../src/format.js";
import { readFragment, writeFragment } from "../src/fragment.js";
import { Player } from "../src/player.js";
import { Trace } from "../src/replay.js";
import { startTheme } from "../src/theme.js";
import { saveText, textOfFile } from "./files.js";
import { Runner } from "./runner.js";
import { packScript, unpackScript } from "./share.js";
import { Writing } from "./writing.js";

/* The button Stop comes when a run takes longer, in milliseconds. */
const LONG_RUN = 300;

const find = (id) => document.getElementById(id);
/* Records are ASCII. */
const bytesToText = (bytes) => new TextDecoder().decode(bytes);

async function moduleBytes() {
  const packed = Uint8Array.from(atob(find("wasm").textContent.trim()), (c) => c.charCodeAt(0));
  const stream = new Blob([packed]).stream().pipeThrough(new DecompressionStream("gzip"));
  return new Uint8Array(await new Response(stream).arrayBuffer());
}

class Editor {
  constructor(examples, runner) {
    this.examples = examples;
    this.runner = runner;
    this.player = null;
    // what was typed or opened last, which an example takes the place of, and whether it would be lost
    this.own = { text: "", file: "" };
    this.file = "";
    this.isUnsaved = false;
    this.writing = new Writing({ area: find("text"), numbers: find("numbers"), mark: find("mark") });
    this.listExamples();
    this.listen();
  }

  listExamples() {
    const groups = new Map();
    for (const example of this.examples) {
      if (!groups.has(example.group)) {
        const group = document.createElement("optgroup");
        group.label = example.group;
        groups.set(example.group, group);
        find("examples").append(group);
      }
      groups.get(example.group).append(new Option(example.title, example.name));
    }
  }

  listen() {
    find("run").addEventListener("click", () => this.run());
    find("stop").addEventListener("click", () => this.runner.stop());
    find("share").addEventListener("click", () => this.share());
    find("open").addEventListener("click", () => find("opened").click());
    find("opened").addEventListener("change", () => this.openFile(find("opened").files[0]));
    find("save").addEventListener("click", () => this.save());
    find("examples").addEventListener("change", () => {
      const example = this.examples.find((each) => each.name === find("examples").value);
      if (example) this.open(example);
      else this.openOwn(this.own.text, this.own.file);
      this.run();
    });
    this.listenToText();
    addEventListener("beforeunload", (event) => { if (this.isUnsaved) event.preventDefault(); });
  }

  listenToText() {
    find("write").addEventListener("dragover", (event) => event.preventDefault());
    find("write").addEventListener("drop", (event) => {
      if (!event.dataTransfer.files.length) return;
      event.preventDefault();
      this.openFile(event.dataTransfer.files[0]);
    });
    find("fold").addEventListener("click", () => {
      const isFolded = document.body.classList.toggle("folded");
      find("fold").setAttribute("aria-expanded", !isFolded);
    });
    find("text").addEventListener("input", () => this.edited());
    find("text").addEventListener("keydown", (event) => {
      if (event.key !== "Enter" || !event.ctrlKey && !event.metaKey) return;
      event.preventDefault();
      this.run();
    });
  }

  open(example) {
    if (this.example === null) {
      this.own = { text: this.writing.text, file: this.file };
      find("own").hidden = false;
    }
    this.example = example;
    this.file = example.file;
    this.writing.text = example.script;
    find("examples").value = example.name;
    find("about").textContent = example.about;
    this.name({ example: example.name });
  }

  /* Shows a script of one's own. */
  openOwn(text, file) {
    this.example = null;
    this.file = file;
    this.writing.text = text;
    find("examples").value = "";
    find("about").textContent = "";
    this.name({});
  }

  async openFile(file) {
    find("opened").value = "";
    if (!file) return;
    try {
      this.openOwn(await textOfFile(file), file.name);
    } catch (error) {
      this.say(error.message, true);
      return;
    }
    this.isUnsaved = false;
    this.run();
  }

  save() {
    saveText(this.writing.text, this.file || "mine.script");
    this.isUnsaved = false;
  }

  /* What is edited is no example any more, nor what the page's address holds. */
  edited() {
    this.isUnsaved = true;
    if (this.example === null) return;
    this.example = null;
    this.file = "";
    find("examples").value = "";
    find("about").textContent = "";
    this.name({});
  }

  /* Names the script in the page's address. */
  name(parts) {
    const hash = writeFragment(new Map(Object.entries(parts)));
    try { history.replaceState(null, "", hash); } catch { /* a page that may not */ }
  }

  say(text, isBad = false) {
    find("state").textContent = text;
    find("state").classList.toggle("bad", isBad);
  }

  async run() {
    const text = this.writing.text, begin = performance.now();
    this.say("running …");
    const timer = setTimeout(() => { find("stop").hidden = false; }, LONG_RUN);
    const result = await this.runner.run(new TextEncoder().encode(text), this.file);
    clearTimeout(timer);
    if (this.runner.isRunning) return;
    find("stop").hidden = true;
    if (result.stopped) this.say("stopped: what it did is not known", true);
    else if (result.failure) this.say(result.failure, true);
    else this.show(result, Math.round(performance.now() - begin));
  }

  show(result, milliseconds) {
    this.close();
    if (result.answers) {
      find("answers").textContent = visible(new TextDecoder().decode(result.answers));
      find("answers").hidden = false;
      this.say("This build of the machine has answers and no records, so there is nothing to step through.");
      return;
    }
    try {
      const trace = new Trace(bytesToText(result.records)), empty = emptyRun(trace);
      this.play(trace, empty ? empty.block.last : trace.last);
      this.say(empty ? emptyRunText(empty) : `${plural(trace.steps, "step")} in ${milliseconds} ms`, empty !== null);
    } catch (error) {
      this.close();
      this.say("The records can't be shown. " + error.message, true);
    }
  }

  /* Shows a run, at the moment that the address names, or else at this one. */
  play(trace, moment) {
    this.player = new Player(find("player"), trace);
    this.player.onDraw = (at) => this.follow(at);
    if (!this.player.goToAddress()) this.player.go(moment, { isFast: true });
    window.rosm = { player: this.player, trace, editor: this };
  }

  close() {
    if (this.player) this.player.remove();
    this.player = null;
    find("answers").hidden = true;
    find("hint").hidden = true;
  }

  /* Marks a line in the editor: the one that wrote last what is chosen, else that of the present moment. */
  follow(moment) {
    const { trace } = this.player, at = this.player.lastWriteOfChosen() || moment, line = trace.lineAt(at);
    this.writing.showLine(trace.sourceOf[at] || (line ? line.line : 0));
  }

  async share() {
    this.name({ script: await packScript(this.writing.text) });
    this.isUnsaved = false;
    if (this.player) this.player.writeAddress();
    try {
      await navigator.clipboard.writeText(location.href);
      this.say("The page's address holds the script now, and was copied.");
    } catch {
      this.say("The page's address holds the script now: copy it.");
    }
  }

  /* Opens what the address names: a script, an example, or else the first example. */
  async openAddress() {
    const parts = readFragment(location.hash);
    const shared = parts.has("script") ? await unpackScript(parts.get("script")) : null;
    if (parts.has("script") && shared === null) {
      this.say("The address holds no script that can be read.", true);
      return false;
    }
    const moment = ["step", "line"].filter((name) => parts.has(name)).map((name) => [name, parts.get(name)]);
    if (shared !== null) {
      this.openOwn(shared, "");
      this.name({ script: parts.get("script"), ...Object.fromEntries(moment) });
      return true;
    }
    this.open(this.examples.find((each) => each.name === parts.get("example")) || this.examples[0]);
    this.name({ example: this.example.name, ...Object.fromEntries(moment) });
    return true;
  }
}

async function start() {
  let editor = null;
  startTheme(() => { if (editor && editor.player) editor.player.recolour(); });
  if (new URLSearchParams(location.search).has("embed")) document.body.classList.add("embed", "folded");
  const runner = new Runner(find("worker").textContent, await moduleBytes());
  editor = new Editor(JSON.parse(find("scripts").textContent), runner);
  window.rosm = { editor };
  if (await editor.openAddress()) await editor.run();
  addEventListener("hashchange", async () => {
    const parts = readFragment(location.hash);
    if ((parts.has("script") || parts.has("example")) && await editor.openAddress()) await editor.run();
  });
}

start().catch((error) => {
  find("state").textContent = "This page can't be shown: " + error.message;
});
