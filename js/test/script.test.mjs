// Scripts: their form, the host that answers by them, and what a script for Node prints.
import assert from "node:assert/strict";
import {spawnSync} from "node:child_process";
import fs from "node:fs";
import os from "node:os";
import path from "node:path";
import test from "node:test";
import {fileURLToPath} from "node:url";
import {list, moduleOf, op, sample, section, text} from "../fixtures/modules.mjs";
import {Host, runPlain, runScript, scriptOf} from "../script.mjs";
import {readModule} from "../module.mjs";

test("a script is read with whole numbers of any length, and what is none is refused", () => {
  assert.deepEqual(scriptOf('{"calls": [{"export": "\\u0000a\\"1234567890123456", "args": [9223372036854775807, -1, 18446744073709551615]}], "pages": 3}'),
    {calls: [{export: '\u0000a"1234567890123456', args: [9223372036854775807n, -1, 18446744073709551615n]}], host: [], globals: [], pages: 3});
  /** @type {[given: any, form: RegExp][]} */
  const cases = [["{", /^the script is not JSON: /], ["3", /it is no object with a list of calls$/], [{calls: 3}, /it is no object/], [{calls: [{export: 3, args: []}]}, /call 0$/],
    [{calls: [{export: "f", args: [1.5]}]}, /call 0$/], [{calls: [{export: "f", args: [2 ** 60]}]}, /call 0$/], [{calls: [], host: 3}, /host is no list$/],
    [{calls: [], host: [{results: []}]}, /answer 0 of the host$/], [{calls: [], host: [{results: [], writes: [[1, "0"]]}]}, /answer 0 of the host$/],
    [{calls: [], globals: ["a"]}, /globals is no list of numbers$/], [{calls: [], pages: "a"}, /pages is no number$/]];
  for (const [given, form] of cases) assert.throws(() => scriptOf(given), {name: "ScriptError", message: form});
});

test("a script runs an output, and the text is that of run", async () => {
  const {output, information} = sample({calls: true});
  const script = JSON.stringify({calls: [{export: "f", args: [4294967295]}, {export: "g", args: []}, {export: "r", args: []}, {export: "h", args: [1]}]});
  const {run, text: printed} = await runScript(output, information, script);
  assert.equal(printed, "call 0 f: ok i32:0\ncall 1 g: trap unreachable\ncall 2 r: ok\ncall 3 h: ok i32:6\npages 0\nhost 1\n");
  assert.deepEqual(run.stack, []);
  await assert.rejects(runScript(output, information, {...scriptOf(script), calls: [{export: "f", args: []}]}), {name: "CallError"});
  await assert.rejects(runScript(output, information, script, {binary() { throw new RangeError("mine"); }}), {message: "mine"});
});

test("a host answers by the script, and imports are made by their forms", async () => {
  const limits = [1, 2, 5]; // a memory of two to five pages
  const imported = [[...text("env"), ...text("h"), 0, 0], [...text("env"), ...text("m"), 2, ...limits], [...text("env"), ...text("g"), 3, 0x7E, 1], [...text("env"), ...text("t"), 1, 0x70, 0, 3]];
  const bytes = Uint8Array.from([0, 0x61, 0x73, 0x6D, 1, 0, 0, 0, ...section(1, [1, 0x60, 0, 2, 0x7F, 0x7E]), ...section(2, list(imported)), ...section(3, [1, 0]),
    ...section(7, [1, ...text("f"), 0, 1]), ...section(10, [1, 4, 0, ...op.call(0), ...op.end])]);
  const script = scriptOf({calls: [{export: "f", args: []}, {export: "f", args: []}], host: [{results: [-1, 4294967298], writes: [[2, "aBcd"], [131071, "0102"]]}], globals: [7], pages: 4});
  const {text: printed, host} = await runPlain(bytes, script);
  assert.equal(printed, "call 0 f: ok i32:4294967295 i64:4294967298\ncall 1 f: ok i32:0 i64:0\npages 2\nhost 2\n");
  assert.deepEqual([...new Uint8Array(/** @type {WebAssembly.Memory} */ (host.memory).buffer).subarray(0, 5)], [0, 0, 0xAB, 0xCD, 0]);
  assert.equal(new Uint8Array(/** @type {WebAssembly.Memory} */ (host.memory).buffer)[131071], 0); // a write that would leave the memory is not made
  assert.equal(host.imports.env.g.value, 7n);
  assert.equal(host.imports.env.t.length, 3);
  assert.equal(/** @type {WebAssembly.Memory} */ (host.memory).grow(2), 2);
  assert.throws(() => /** @type {WebAssembly.Memory} */ (host.memory).grow(1), RangeError); // the script allows four pages
  assert.deepEqual(readModule(bytes).imports.map(({kind, limits: {least, most}}) => [kind, least, most]),
    [["function", 0, undefined], ["memory", 2, 5], ["global", 0, undefined], ["table", 3, undefined]]);
  await assert.rejects(runPlain(bytes, {...script, calls: [{export: "g", args: []}]}), {name: "CallError"});
  const hostile = moduleOf({
    types: [["", ""]], imports: [["__proto__", "polluted", 0], ["constructor", "__proto__", 0]], functions: [[0, []]], exports: [["__proto__", 0, 2]],
  });
  assert.equal((await runPlain(hostile, {...script, calls: [{export: "__proto__", args: []}]})).text, "call 0 __proto__: ok\npages 0\nhost 0\n");
  assert.equal(/** @type {any} */ ({}).polluted, undefined);
  assert.equal(new Host(readModule(bytes), scriptOf({calls: []})).calls, 0);
});

test("a script for Node prints answers, and ends with a sentence if it is refused", t => {
  const folder = fs.mkdtempSync(path.join(os.tmpdir(), "wasabi-command-"));
  t.after(() => fs.rmSync(folder, {recursive: true}));
  const {output, information} = sample();
  const command = new URL("../command.mjs", import.meta.url).href;
  const files = {"b.wasm": output, "b.json": JSON.stringify(information), "o.wasm": moduleOf({types: [["", ""]], functions: [[0, op.nop]]}), "bad.wasm": "text", "bad.json": "{}",
    "s.json": '{"calls":[{"export":"f","args":[1]}]}',
    "mine.mjs": `import {command} from ${JSON.stringify(command)}; let n = 0; await command("usage: mine", {begin() { n++; }}); console.log(n);`,
    "fails.mjs": `import {command} from ${JSON.stringify(command)}; await command("usage: mine", {begin() { undefinedThing(); }});`,
    "ranges.mjs": `import {command} from ${JSON.stringify(command)}; await command("usage: mine", {begin() { new Array(-1); }});`,
    "traps.mjs": `import {command} from ${JSON.stringify(command)};
      await command("usage: mine", {begin() { throw new WebAssembly.RuntimeError("unreachable"); }});`};
  for (const [name, content] of Object.entries(files)) fs.writeFileSync(path.join(folder, name), content);
  const node = (/** @type {string[]} */ ...words) => {
    const {status, stdout, stderr} = spawnSync(process.execPath, words, {cwd: folder, encoding: "utf8"});
    return [status, stdout, stderr];
  };
  const report = fileURLToPath(new URL("../report.mjs", import.meta.url));
  assert.deepEqual(node("mine.mjs", "b.wasm", "b.json", "f(1)", "g()", "r()"), [0, "f(1) = 2\ng() traps\nr() = undefined\n3\n", ""]);
  assert.deepEqual(node("mine.mjs", "--help"), [0, "usage: mine\n", ""]);
  assert.deepEqual(node("mine.mjs", "b.wasm"), [2, "", "1 arguments were given, and 3 are needed\nusage: mine\n"]);
  assert.deepEqual(node("mine.mjs", "x.wasm", "b.json", "f(1)"), [3, "", "x.wasm can't be read: ENOENT\n"]);
  assert.deepEqual(node("mine.mjs", "b.wasm", "b.json", "f"), [1, "", "no call: f; a call is written as f(1, 2)\n"]);
  assert.match(String(node("mine.mjs", "b.wasm", "bad.json", "f(1)")), /^1,,b.wasm can't be run: the information lacks /);
  assert.match(String(node("mine.mjs", "bad.wasm", "b.json", "f(1)")), /^1,,bad.wasm can't be run: .*WebAssembly/);
  assert.match(String(node("mine.mjs", "o.wasm", "b.json", "f(1)")), /the module may be the original, not its output/);
  const [status, stdout, stderr] = node("fails.mjs", "b.wasm", "b.json", "f(1)");
  assert.deepEqual([status, stdout], [1, ""]);
  assert.match(String(stderr), /ReferenceError: undefinedThing is not defined\n    at .*fails\.mjs:1/s);
  for (const [name, error] of [["ranges.mjs", "RangeError: Invalid array length"], ["traps.mjs", "RuntimeError: unreachable"]]) {
    const [ended, printed, said] = node(name, "b.wasm", "b.json", "f(1)");
    assert.deepEqual([ended, printed], [1, ""], name); // and not "f(1) traps"
    assert.match(String(said), new RegExp(`${error}\n    at .*${name}:`, "s"));
  }
  assert.match(String(node(report, "b.wasm", "b.json", "s.json")), /^0,call 0 f: ok i32:2\npages 0\nhost 0\nreport blocks 1\n.*events 3 stray 0\n,$/s);
  assert.match(String(node(report, "b.wasm", "b.json", "b.json")), /^1,,b.wasm can't be run: the script is not of its form: it is no object with a list of calls\n$/);
});
