/* The gate's transcripts: scripts with what they are answered. `node web/support/transcripts.js` writes them as JSON. */

import fs from "node:fs";
import { fileURLToPath } from "node:url";
import { USUAL } from "../editor/machine.js";

const DATA = new URL("../../transcripts/", import.meta.url);
/* Folders of other forms: cases of the grid, packets, lines in pieces, records; and transcripts that are wrong on purpose. */
const OTHERS = ["grid", "gdb", "typed", "records", "wrong"];

/* A transcript's spelling, undone. */
const unspell = (text) => text.replace(/\\(x[0-9A-Fa-f]{2}|.)/g, (_, code) =>
  code.length === 3 ? String.fromCharCode(parseInt(code.slice(1), 16)) : { n: "\n", r: "\r", t: "\t" }[code] || code);

/* A line of a transcript; one with a backslash behind it has no line feed. */
const spelledLine = (line) => /(?:^|[^\\])(?:\\\\)*\\$/.test(line) ? unspell(line.slice(0, -1))
  : unspell(line) + "\n";

/* A number, or its digits where it has more than a number of JavaScript holds. */
const numberOf = (digits) => Number.isSafeInteger(Number(digits)) ? Number(digits) : digits;

/* A transcript's script, what it is answered, and what it runs with; null where it needs what a page hasn't. */
function transcript(text) {
  const found = { script: "", answers: "", status: 0, setting: { ...USUAL }, isDebug: false };
  for (const line of text.split("\n").slice(0, -1)) {
    if (line.startsWith("#")) continue;
    if (line.startsWith("!")) return null;
    if (line.startsWith("= status ")) found.status = Number(line.slice(9));
    else if (line.startsWith("$ ")) {
      for (const word of line.slice(2).split(" ")) {
        const [, name, value] = /^--(pages|app|rma|budget|debug)(?:=(\d+))?$/.exec(word) || [];
        if (!name) return null;
        if (name === "debug") found.isDebug = true; else found.setting[name] = numberOf(value);
      }
    } else if (line.startsWith(">")) found.script += spelledLine(line.slice(2));
    else found.answers += spelledLine(line);
  }
  return found;
}

export function transcripts() {
  const all = [];
  for (const folder of fs.readdirSync(DATA).filter((name) => !OTHERS.includes(name))) {
    for (const file of fs.readdirSync(new URL(folder + "/", DATA)).filter((name) => name.endsWith(".txt"))) {
      const read = transcript(fs.readFileSync(new URL(`${folder}/${file}`, DATA), "latin1"));
      if (read) all.push({ name: `${folder}/${file}`, ...read });
    }
  }
  return all;
}

if (process.argv[1] === fileURLToPath(import.meta.url)) process.stdout.write(JSON.stringify(transcripts()));
