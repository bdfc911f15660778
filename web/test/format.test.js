/* Numbers, bytes and source lines as text; colours of the page. */

import assert from "node:assert";
import fs from "node:fs";
import { test } from "node:test";
import { characters, commentOf, count, hex8, plural, quoted, readable, signed, sourceParts, visible, withoutComment, word } from "../src/format.js";

test("numbers", () => {
  assert.deepEqual([hex8(0xFFFFFFFF), signed(0xFFFFFFFF), count(1234567), count(12), count(1000)],
    ["FFFFFFFF", "-1", "1,234,567", "12", "1,000"]);
  assert.deepEqual([plural(1, "byte"), plural(2, "byte"), plural(1200, "child", "children")],
    ["1 byte", "2 bytes", "1,200 children"]);
  assert.deepEqual([word(0x41, "hex"), word(0x41, "dec"), word(0x41, "chr")], ["00000041", "65", "A···"]);
});

test("bytes", () => {
  assert.deepEqual([characters(0x6C6C6548), characters(0x0A)], ["Hell", "····"]);
  assert.equal(visible("a\x00\n\rb\x1b"), "a⟨00⟩\nb⟨1B⟩");
  assert.equal(quoted('"\x1b\n\\'), '"\\"\\x1B\\n\\\\"');
  assert.deepEqual([readable("\xc3\xa9"), readable("\xe9"), readable("plain")], ["é", "é", "plain"]);
});

test("source lines", () => {
  assert.deepEqual(sourceParts('l  DCB  "a;b",1 ; c'),
    { label: "l", gap: "  ", op: "DCB", gap2: "  ", operands: '"a;b",1 ', comment: "; c" });
  assert.deepEqual(sourceParts("; only"), { label: "", gap: "", op: "", gap2: "", operands: "", comment: "; only" });
  assert.deepEqual([withoutComment("EXPECT R0 1   ; why"), commentOf("EXPECT R0 1   ; why"), commentOf("STEP")],
    ["EXPECT R0 1", "why", ""]);
});

/* Relative luminance and contrast as WCAG 2 defines them. */
function luminance(colour) {
  const parts = [1, 3, 5].map((i) => parseInt(colour.slice(i, i + 2), 16) / 255);
  const [r, g, b] = parts.map((c) => c <= 0.04045 ? c / 12.92 : ((c + 0.055) / 1.055) ** 2.4);
  return 0.2126 * r + 0.7152 * g + 0.0722 * b;
}
function contrast(one, other) {
  const [high, low] = [luminance(one), luminance(other)].sort((a, b) => b - a);
  return (high + 0.05) / (low + 0.05);
}

const TEXT = [["ink", "paper"], ["ink", "raised"], ["ink", "sunk"], ["ink", "lit"], ["ink", "desc"],
  ["ink", "bad-bg"], ["ink", "change-bg"],
  ["soft", "paper"], ["soft", "raised"], ["soft", "sunk"], ["faint", "raised"], ["faint", "paper"],
    ["faint", "sunk"], ["change", "raised"],
  ["change", "paper"], ["change", "change-bg"], ["bad", "bad-bg"], ["bad", "raised"], ["bad", "paper"],
    ["good", "good-bg"], ["good", "raised"],
  ["good", "paper"], ["read", "raised"], ["blue", "raised"], ["paper", "ink"],
    ...[0, 1, 2, 3, 4, 5].map((i) => ["ink", "b" + i])];
const EDGES = [["edge", "raised"], ["lit-edge", "raised", 1.5], ["curve", "raised", 1.5], ["change", "paper"]];

test("text has a contrast of 4.5 at least, and edges of 3, in light and dark", () => {
  const css = fs.readFileSync(new URL("../src/page.css", import.meta.url), "utf8");
  const darkAt = css.indexOf("[data-theme=dark]");
  const colours = (text) => Object.fromEntries([...text.matchAll(/--([\w-]+):\s*(#[0-9a-f]{6})/gi)].map(([,
    name, value]) => [name, value]));
  const light = colours(css.slice(0, darkAt)), dark = { ...light, ...colours(css.slice(darkAt)) };
  assert.ok(darkAt > 0 && dark.paper !== light.paper);
  const poor = [];
  for (const [theme, all] of [["light", light], ["dark", dark]]) {
    for (const [one, other, least] of [...TEXT.map((pair) => [...pair, 4.5]),
      ...EDGES.map(([a, b, c]) => [a, b, c || 3])]) {
      const ratio = contrast(all[one], all[other]);
      if (ratio < least) poor.push(`${theme}: ${one} on ${other} ${ratio.toFixed(2)}`);
    }
  }
  assert.deepEqual(poor, []);
});
