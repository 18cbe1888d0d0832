// What docs/RUNTIME.md names is what there is; and what it says of the scripts of examples/.
import assert from "node:assert/strict";
import {spawnSync} from "node:child_process";
import fs from "node:fs";
import os from "node:os";
import path from "node:path";
import test from "node:test";
import {sample} from "../fixtures/modules.mjs";
import {TOP} from "../fixtures/program.mjs";
import * as runtime from "../wasabi.mjs";

const FOLDER = path.join(TOP, "examples");
const scripts = fs.readdirSync(FOLDER).filter(name => /\.m?js$/.test(name));
const without = (/** @type {RegExp} */ form) => scripts.filter(name => !form.test(fs.readFileSync(path.join(FOLDER, name), "utf8")));

test("all scripts use the runtime but one, and all for Node take their arguments by command.mjs", () => {
  assert.deepEqual(without(/\.\.\/js\/\w+\.mjs/), ["run.js"]);
  assert.deepEqual(without(/\.\.\/js\/(command|report)\.mjs/), ["live_worker.mjs", "run.js"]); // the worker is that of live.html
  for (const name of scripts.filter(it => !["live_worker.mjs", "run.js"].includes(it))) {
    const {status, stdout, stderr} = spawnSync(process.execPath, [path.join(FOLDER, name), "--help"], {encoding: "utf8"});
    assert.deepEqual([status, stderr], [0, ""], name);
    assert.match(stdout, /^usage: .* OUTPUT INFORMATION /, name);
  }
});

test("a script that makes a report says in a sentence what is wrong with its files, and ends with a status", () => {
  const folder = fs.mkdtempSync(path.join(os.tmpdir(), "wasabi-"));
  try {
    const {output, information} = sample(), file = (/** @type {string} */ name) => path.join(folder, name);
    fs.writeFileSync(file("b.wasm"), output);
    fs.writeFileSync(file("b.json"), JSON.stringify(information));
    fs.writeFileSync(file("text"), "hello");
    /** @type {[expected: number, ...words: string[]][]} */
    const cases = [[1, "b.wasm", "b.json", "b.json"], [1, "b.wasm", "b.json", "text"], [3, "b.wasm", "b.json", "none"], [1, "b.wasm", "text", "b.json"]];
    for (const [expected, ...words] of cases) {
      const {status, stdout, stderr} = spawnSync(process.execPath, [path.join(TOP, "js/report.mjs"), ...words.map(file)], {encoding: "utf8"});
      assert.deepEqual([status, stdout], [expected, ""], `${words}: ${stderr}`);
      assert.match(stderr, /^[^\n]+\n$/, `${words}`);
      assert.doesNotMatch(stderr, /TypeError|SyntaxError|\.mjs:\d/, `${words}`);
    }
  } finally {
    fs.rmSync(folder, {recursive: true});
  }
});

test("the page has all events and all refusals", () => {
  const page = fs.readFileSync(path.join(TOP, "docs/RUNTIME.md"), "utf8");
  const listed = (/** @type {string} */ title) => {
    const section = page.split(`\n## ${title}\n`)[1].split(/\n## |\nOf these:/)[0];
    return [...section.matchAll(/^- ((?:`\w+`(?:, )?)+)/gm)].flatMap(([, names]) => [...names.matchAll(/\w+/g)].map(String)).sort();
  };
  assert.deepEqual(listed("Events"), [...runtime.EVENTS].sort());
  assert.deepEqual(listed("Refusals"), Object.keys(runtime).filter(name => /Error$/.test(name) && name !== "WasabiError").sort());
});

test("a refusal has the name of its class", () => {
  for (const [name, value] of Object.entries(runtime)) if (/Error$/.test(name)) assert.equal(/** @type {any} */ (value).prototype.name, name);
});
