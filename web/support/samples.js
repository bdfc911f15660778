/* The recorded samples that tests read, and what they are made of. */

import fs from "node:fs";
import path from "node:path";
import { fileURLToPath } from "node:url";

export const DATA = path.join(path.dirname(fileURLToPath(import.meta.url)), "../test/data");
export const SAMPLES = fs.readdirSync(DATA).filter((file) => file.endsWith(".jsonl")).sort();
export const textOf = (file) => fs.readFileSync(path.join(DATA, file), "latin1");

/* The script that a sample is of: beside it, or an example. */
export function scriptOf(file) {
  const name = file.replace(/\.jsonl$/, ""), examples = path.join(DATA, "../../../examples");
  const beside = path.join(DATA, name + ".script");
  if (fs.existsSync(beside)) return beside;
  const [, folder, own] = /^(lesson|debug)-(.*)$/.exec(name) || [null, "", name];
  if (folder) return path.join(examples, folder === "lesson" ? "lessons" : "debug", own + ".script");
  return ["", "play"].map((each) => path.join(examples, each, own + ".script")).find((each) => fs.existsSync(each));
}

export const recordsIn = (text) => text.trim().split("\n").map((line) => JSON.parse(line));
export const textFrom = (records) => records.map((record) => JSON.stringify(record) + "\n").join("");

/* Records of a machine that is at its start, for tests that write their own. */
export const START = {
  start: 1, name: "own", sizes: { pages: 256, app: 64, rma: 16 }, budget: 1000, regs: { R0: 0, R13_svc: 0x1C02000 },
  flags: { N: 0, Z: 0, C: 0, V: 0, I: 0, F: 0 }, mode: "USR", pc: 0x8000, mapped: [[0x8000, 0x40000]], mem: [],
  heaps: [], areas: [], pool: 100, flex: null, modules: [],
};
export const END = { end: 1, passed: 0, failed: 0, refused: 0, status: 0 };
