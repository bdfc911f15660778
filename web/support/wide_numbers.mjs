/* node web/support/wide_numbers.mjs MODULE: numbers of 128 bits by the module against those of JavaScript. */
import fs from "node:fs";

const { exports } = new WebAssembly.Instance(new WebAssembly.Module(fs.readFileSync(process.argv[2])), {});
const MASK = (1n << 64n) - 1n, WHOLE = (1n << 128n) - 1n;
const result = () => {
  const view = new DataView(exports.memory.buffer), at = exports.result_at();
  return view.getBigUint64(at, true) | view.getBigUint64(at + 8, true) << 64n;
};
const call = (name, a, b) => { exports[name](a & MASK, a >> 64n, b & MASK, b >> 64n); return result(); };

const values = [0n, 1n, 2n, 9n, 10n, 0xFFFFFFFFn, 1n << 32n, MASK, 1n << 64n, (1n << 64n) + 1n, 1n << 127n, WHOLE, WHOLE - 1n];
let state = 12345n;
for (let i = 0; i < 200; i++) {
  state = (state * 6364136223846793005n + 1442695040888963407n) & WHOLE;
  values.push(state >> BigInt(i % 127));
}
let count = 0;
for (const a of values) for (const b of values) {
  if (call("multiply", a, b) !== (a * b & WHOLE)) throw new Error(`${a} * ${b}`);
  if (b && call("divide", a, b) !== a / b) throw new Error(`${a} / ${b} is not ${result()}`);
  count++;
}
/* Memory: blocks that are handed out don't meet, and come back. */
const blocks = Array.from({ length: 500 }, (_, i) => [exports.take(i * 7 + 1), i * 7 + 1]).sort((x, y) => x[0] - y[0]);
blocks.forEach(([at, bytes], i) => {
  if (!at || at % 16 || i + 1 < blocks.length && at + bytes > blocks[i + 1][0]) throw new Error("block " + i);
});
for (const [at] of blocks) exports.give(at);
const pages = exports.memory.buffer.byteLength;
for (let i = 0; i < 20000; i++) exports.give(exports.take(1000));
if (exports.memory.buffer.byteLength !== pages) throw new Error("memory grows");
if (exports.take(0xFFFFFFF0) !== 0) throw new Error("more memory than there is");
console.log(count);
