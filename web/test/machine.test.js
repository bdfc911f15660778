/* The machine as a page has it, web/rosm.wasm where tools/build_web has made it: all transcripts of the gate, byte for
   byte, and records that can be replayed. */

import assert from "node:assert";
import fs from "node:fs";
import path from "node:path";
import { test } from "node:test";
import { Machine, MachineError, USUAL } from "../editor/machine.js";
import { sentence } from "../src/describe.js";
import { Trace } from "../src/replay.js";
import { VIEWS, compareMoments, compareViews } from "../support/compare.js";
import { SAMPLES, scriptOf, textOf as sampleText } from "../support/samples.js";
import { transcripts } from "../support/transcripts.js";

const HERE = new URL(".", import.meta.url), FILE = new URL("../rosm.wasm", HERE);
const EXAMPLES = new URL("../../examples/", HERE);
const isThere = fs.existsSync(FILE);
const skip = isThere ? false : "there is no web/rosm.wasm: tools/build_web makes it";
const module = isThere ? new WebAssembly.Module(fs.readFileSync(FILE)) : null;
const hasRecords = isThere && new Machine(module).hasRecords;
const skipRecords = skip || (hasRecords ? false : "this build of the machine has no records");

const bytesOf = (text) => Uint8Array.from(text, (letter) => letter.charCodeAt(0));
const textOf = (bytes) => Buffer.from(bytes).toString("latin1");

test("transcripts of scripts are answered byte for byte", { skip }, () => {
  let compared = 0;
  for (const each of transcripts().filter((one) => !one.isDebug)) {
    const { status, bytes } = new Machine(module).answers(bytesOf(each.script), each.setting);
    assert.equal(textOf(bytes), each.answers, each.name);
    assert.equal(status, each.status, each.name);
    compared++;
  }
  assert.ok(compared > 200, compared + " compared");
});

/* lines that a recorded script answers otherwise: records go forward alone */
const ANSWERED_OTHERWISE = /^\s*(TRACE|PUT|SAVE|BACK|UNDO|WHEN|LAST)\b/mi;

test("transcripts of debugging scripts have the answers that records have", { skip: skipRecords }, () => {
  let compared = 0;
  for (const each of transcripts().filter((one) => one.isDebug && !ANSWERED_OTHERWISE.test(one.script))) {
    const { bytes } = new Machine(module).records(bytesOf(each.script), each.name, each.setting);
    const text = textOf(bytes);
    let answers = "", out = "";
    for (const record of text.trim().split("\n").map((line) => JSON.parse(line))) {
      if (record.out) out += record.out;
      if (!record.answer) continue;
      answers += out + (record.text ? record.text + "\n" : "");
      out = "";
    }
    const expected = each.answers.replace(/\d+ passed, \d+ failed(, \d+ refused)?\n$/, "");
    assert.equal(answers, expected, each.name);
    assert.ok(new Trace(text));
    compared++;
  }
  assert.ok(compared > 30, compared + " compared");
});

test("records of the samples are those of the program", { skip: skipRecords }, () => {
  for (const file of SAMPLES) {
    const script = scriptOf(file),
      { bytes } = new Machine(module).records(fs.readFileSync(script), path.basename(script));
    assert.equal(textOf(bytes), sampleText(file), file);
  }
});

test("answers that need more room than was lent first", { skip }, () => {
  const script = "MEM &8000 4096\n".repeat(120), { bytes } = new Machine(module).answers(bytesOf(script));
  assert.ok(bytes.length > 1 << 20);
  assert.equal(textOf(bytes).split("\n").length - 1, 120 * 256);
});

test("a script that is too long, and sizes that no machine has", { skip }, () => {
  assert.throws(() => new Machine(module).answers(new Uint8Array((1 << 20) + 1)), MachineError);
  assert.equal(new Machine(module).answers(bytesOf("STEP 0\n"), { ...USUAL, pages: 1 }).status, 2);
});

/* Scripts with their names and settings: those of examples/, and of transcripts. */
function* allScripts() {
  for (const folder of ["", "debug/", "lessons/", "play/"]) {
    for (const file of fs.readdirSync(new URL(folder, EXAMPLES)).filter((name) => name.endsWith(".script"))) {
      yield { name: folder + file, script: fs.readFileSync(new URL(folder + file, EXAMPLES), "latin1"), setting: USUAL };
    }
  }
  yield* transcripts();
}

test("records of all examples and transcripts are replayed, beside a naive replay and the machine's own views", {
  skip: skipRecords }, () => {
  const compared = Object.fromEntries(Object.keys(VIEWS).map((name) => [name, 0]));
  let scripts = 0, moments = 0;
  for (const { name, script, setting } of allScripts()) {
    const text = textOf(new Machine(module).records(bytesOf(script), name, setting).bytes), trace = new Trace(text);
    try {
      moments += compareMoments(text, trace);
      compareViews(trace, compared);
    } catch (error) {
      error.message = `${name}: ${error.message}`;
      throw error;
    }
    scripts++;
  }
  console.log(`${scripts} scripts, ${moments} moments, values of views: ${JSON.stringify(compared)}`);
  assert.ok(scripts > 700 && moments > 10000);
  for (const name of Object.keys(VIEWS)) assert.ok(compared[name] > 0, name + " was compared with nothing");
});

test("each moment of the examples has a sentence", { skip: skipRecords }, () => {
  for (const { name, script, setting } of allScripts()) {
    if (!name.endsWith(".script")) continue;
    const trace = new Trace(textOf(new Machine(module).records(bytesOf(script), name, setting).bytes));
    assert.ok(trace.last > 0, name);
    for (let moment = 0; moment <= trace.last; moment++) {
      const said = sentence(trace, moment, "hex");
      assert.ok(said.length > 3 && !/undefined|NaN|null/.test(said), `${name}, moment ${moment}: ${said}`);
    }
  }
});
