/* Makes the samples of web/test/data anew, by the machine in web/rosm.wasm: node web/support/make_samples.js */

import fs from "node:fs";
import path from "node:path";
import { Machine } from "../editor/machine.js";
import { DATA, SAMPLES, scriptOf } from "./samples.js";

const module = new WebAssembly.Module(fs.readFileSync(new URL("../rosm.wasm", import.meta.url)));
for (const file of SAMPLES) {
  const script = scriptOf(file),
    { bytes } = new Machine(module).records(fs.readFileSync(script), path.basename(script));
  fs.writeFileSync(path.join(DATA, file), bytes);
}
