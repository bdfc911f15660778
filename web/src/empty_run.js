/* Whether a script ran empty memory, since the block of the program that should be there has errors. */

const BLOCK = /^\s*(?:ASM|HEX)\s+(\S+)/i;
/* The lines that go on from the program counter. */
const FROM_HERE = /^\s*((TRACE|REPEAT\s+\S+)\s+)*(RUN|STEP|TRACE\s+(\d|&|LAST))\b/i;

/* The block with errors, and the first line whose steps began where no program is; null where none did. */
export function emptyRun(trace) {
  const lost = new Map();
  for (const line of trace.lines) {
    const name = line.block ? BLOCK.exec(line.text) : null;
    if (name) {
      lost.delete(name[1]);
      if (line.refused) lost.set(name[1], line);
    } else if (lost.size && line.steps && FROM_HERE.test(line.text) && beganEmpty(trace, line)) {
      return { block: [...lost.values()].at(-1), line };
    }
  }
  return null;
}

function beganEmpty(trace, line) {
  const before = line.first - 1, address = trace.pcAfter[before] & ~3;
  return trace.knows(address, before) && trace.word(address, before) === 0;
}

/* That, in words. */
export function emptyRunText({ block, line }) {
  const name = BLOCK.exec(block.text)[1];
  return `${name} has errors (line ${block.line}), so line ${line.line} ran empty memory: correct ${name} first.`;
}
