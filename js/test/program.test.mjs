// What the recorder writes is what the program prints of the same run. It needs the program.
import assert from "node:assert/strict";
import {spawnSync} from "node:child_process";
import fs from "node:fs";
import os from "node:os";
import path from "node:path";
import test from "node:test";
import {PROGRAM, TOP} from "../fixtures/program.mjs";
import {Recorder} from "../recorder.mjs";
import {runScript} from "../script.mjs";
import {informationOf} from "../wasabi.mjs";

const EXAMPLES = path.join(TOP, "examples/");
const SCRIPTS = {
  calculator: {calls: [["calculate", 42, 6, 7], ["again", 0], ["again", 1], ["calculate", 63, -1, 2], ["calculate", 47, 1, 0], ["again", 2]]},
  crc32: {calls: [["place"], ["crc32", 1024, 9], ["crc32", 1024, 0]]},
  nop: {calls: [["f"]]},
};
const GROUPS = ["all", "begin,end", "begin,end,call", "end", "br_table", "load,store", "call", "begin,if,br,br_if,br_table"];
const skip = PROGRAM ? false : "the program is not there";

for (const name of ["calculator", "crc32", "euclid", "expression", "fibonacci", "nop", "queens", "secret", "unseen", "weekday"]) {
  test(`the recorder on ${name} writes what the program writes`, {skip}, async t => {
    const folder = fs.mkdtempSync(path.join(os.tmpdir(), "wasabi-program-"));
    t.after(() => fs.rmSync(folder, {recursive: true}));
    const file = (/** @type {string} */ it) => path.join(folder, it);
    const wasabi = (/** @type {string[]} */ ...words) => spawnSync(PROGRAM ?? "", words, {cwd: folder, encoding: "utf8", maxBuffer: 1e9}).stdout;
    const script = SCRIPTS[name] ? {calls: SCRIPTS[name].calls.map(([it, ...args]) => ({export: it, args}))}
      : JSON.parse(fs.readFileSync(`${EXAMPLES}${name}.json`, "utf8"));
    fs.writeFileSync(file("s.json"), JSON.stringify(script));
    for (const groups of GROUPS) {
      wasabi("instrument", `${EXAMPLES}${name}.wasm`, "--out", "b.wasm", "--info", "b.json", "--hooks", groups, "--names", "keep");
      const output = fs.readFileSync(file("b.wasm")), information = informationOf(fs.readFileSync(file("b.json")));
      const recorder = new Recorder(information);
      const {run, text} = await runScript(output, information, script, recorder.callbacks);
      const words = ["b.wasm", "--info", "b.json", "--script", "s.json"];
      assert.equal(text + recorder.report(), wasabi("report", ...words));
      wasabi("record", ...words, "--out", "t");
      assert.ok(Buffer.from(recorder.trace()).equals(fs.readFileSync(file("t"))), groups);
      fs.writeFileSync(file("own"), recorder.trace());
      assert.equal(wasabi("replay", "own"), recorder.report());
      if (recorder.nests) assert.equal(text + recorder.tree(), wasabi("tree", ...words));
      assert.ok(run.names.size > 0);
    }
  });
}
