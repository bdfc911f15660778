/* Scripts in addresses. */

import assert from "node:assert";
import fs from "node:fs";
import { test } from "node:test";
import { packScript, unpackScript } from "../editor/share.js";

test("a script is packed and unpacked", async () => {
  const script = fs.readFileSync(new URL("data/hostile.script", import.meta.url), "utf8");
  for (const text of ["", "STEP 0\n", "é → \u{1F600}\n", script, "RUN\n".repeat(5000)]) {
    const part = await packScript(text);
    assert.match(part, /^[A-Za-z0-9_-]*$/);
    assert.equal(await unpackScript(part), text);
  }
  assert.ok((await packScript("RUN\n".repeat(5000))).length < 200);
});

test("what holds no script is none", async () => {
  const part = await packScript("RUN\nSTEP 3\n");
  for (const other of ["%%%", "abc", part.slice(0, -3), "A" + part, "é"]) assert.equal(await unpackScript(other), null, other);
});

test("an address unpacks to no more than a script may have", async () => {
  assert.equal(await unpackScript(await packScript("x".repeat((1 << 20) + 1))), null);
  assert.equal((await unpackScript(await packScript("x".repeat(1 << 20)))).length, 1 << 20);
});
