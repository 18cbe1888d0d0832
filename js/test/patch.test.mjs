// Programs run outputs as if they were the originals, by patch and under the preload; counts of processes add up.
import assert from "node:assert/strict";
import {execFileSync, spawn, spawnSync} from "node:child_process";
import fs from "node:fs";
import os from "node:os";
import path from "node:path";
import test from "node:test";
import {fileURLToPath} from "node:url";
import {moduleOf, op, sample} from "../fixtures/modules.mjs";
import {CountsFolder} from "../folder.mjs";
import {besideOf, noteOrigin, originOf} from "../origins.mjs";
import {beside, patch} from "../patch.mjs";
import {Counts, Recorder, Tree} from "../recorder.mjs";

const REGISTER = fileURLToPath(new URL("../register.mjs", import.meta.url));
const imports = {env: {back() {}}};
const plain = moduleOf({types: [["i", "i"]], functions: [[0, [op.get(0)]]], exports: [["f", 0, 0]]});

/**
 * @param {any} t
 * @param {Record<string, string | Uint8Array>} files
 */
function folderWith(t, files = {}) {
  const folder = fs.mkdtempSync(path.join(os.tmpdir(), "wasabi-patch-"));
  t.after(() => fs.rmSync(folder, {recursive: true}));
  for (const [name, content] of Object.entries(files)) fs.writeFileSync(path.join(folder, name), content);
  return folder;
}

test("each way of making an instance is patched, and other modules stay as they are", async () => {
  const {output, information} = sample();
  const own = {...WebAssembly, Module: WebAssembly.Module, instantiate: WebAssembly.instantiate};
  let begun = 0;
  const undo = patch({informationOf: () => information, callbacksOf: () => ({begin() { begun++; }})});
  try {
    const module = new WebAssembly.Module(output);
    const instance = new WebAssembly.Instance(module, imports);
    assert.ok(module instanceof WebAssembly.Module && instance instanceof WebAssembly.Instance);
    const response = () => new Response(output, {headers: {"Content-Type": "application/wasm"}});
    const all = [instance, (await WebAssembly.instantiate(output, imports)).instance, await WebAssembly.instantiate(module, imports),
      await WebAssembly.instantiate(await WebAssembly.compile(output.buffer), imports), (await WebAssembly.instantiateStreaming(response(), imports)).instance,
      await WebAssembly.instantiate(await WebAssembly.compileStreaming(Promise.resolve(response())), imports)];
    all.forEach(({exports}, at) => {
      assert.equal(/** @type {any} */ (exports).f(at), at + 1);
      assert.equal(begun, at + 1);
    });
    await assert.rejects(WebAssembly.instantiateStreaming(new Response(output), imports), TypeError);
    assert.equal(/** @type {any} */ ((await WebAssembly.instantiate(plain)).instance.exports).f(3), 3);
    assert.equal(/** @type {any} */ (new WebAssembly.Instance(new WebAssembly.Module(plain)).exports).f(3), 3);
    assert.throws(() => new WebAssembly.Instance(module, {}), WebAssembly.LinkError);
    await assert.rejects(WebAssembly.instantiate(Uint8Array.of(1, 2)), WebAssembly.CompileError);
    await assert.rejects(WebAssembly.instantiate(/** @type {any} */ ("text")), TypeError);
    const hooks = {begin_function() {}, end_function() {}, "i32.add"() {}};
    assert.equal(/** @type {any} */ (new WebAssembly.Instance(module, {...imports, __wasabi_hooks: hooks}).exports).f(1), 2); // a host that supplies hooks
    assert.equal(begun, all.length);
  } finally {
    undo();
  }
  assert.equal(WebAssembly.instantiate, own.instantiate);
  assert.equal(WebAssembly.Module, own.Module);
});

test("information may be a promise where the host waits, and may be missing", async () => {
  const {output, information} = sample();
  const undo = patch({informationOf: async () => JSON.stringify(information), callbacksOf: () => ({}), started: run => assert.equal(run.exports.f(1), 2)});
  try {
    await WebAssembly.instantiate(output, imports);
    const module = await WebAssembly.compile(output);
    assert.throws(() => new WebAssembly.Instance(module, imports), {name: "InformationError", message: /can't wait for the information/});
  } finally {
    undo();
  }
  const leave = patch({informationOf: () => undefined, callbacksOf: () => assert.fail()});
  try {
    await assert.rejects(WebAssembly.instantiate(output, imports), TypeError); // the hooks are missing, as without the patch
  } finally {
    leave();
  }
});

test("information is found beside an output", async t => {
  const {output, information} = sample();
  assert.deepEqual(besideOf("http://x/b.wasm"), ["http://x/b.json", "http://x/b.wasm.json"]);
  assert.deepEqual(besideOf("b.wasm?v=1"), ["b.json?v=1", "b.wasm?v=1.json"]);
  noteOrigin(output, "somewhere");
  noteOrigin(Uint8Array.of(1, 2, 3, 4), "elsewhere");
  assert.deepEqual([originOf(output), originOf(Uint8Array.of(1, 2, 3, 4)), originOf(undefined)], ["somewhere", undefined, undefined]);
  const asked = /** @type {string[]} */ ([]), own = globalThis.fetch;
  t.after(() => { globalThis.fetch = own; });
  globalThis.fetch = /** @type {any} */ (async (/** @type {string} */ name) => {
    asked.push(name);
    return name.endsWith("b.json") ? new Response(JSON.stringify(information)) : new Response("", {status: 404});
  });
  const found = {module: new WebAssembly.Module(output), bytes: output};
  assert.equal(await beside({...found, origin: "http://x/b.wasm"}), JSON.stringify(information));
  await assert.rejects(beside({...found, origin: "http://x/c.wasm"}), {name: "InformationError", message: /no http:\/\/x\/c.json, no http:\/\/x\/c.wasm.json/});
  await assert.rejects(beside({...found, origin: undefined}), {name: "InformationError", message: /is not known/});
});

const PROGRAM = `import {readFile} from "node:fs/promises";
import fs, {readFileSync} from "node:fs";
const imports = {env: {back() {}}};
const {instance} = await WebAssembly.instantiate(await readFile("b.wasm"), imports);
const again = new WebAssembly.Instance(new WebAssembly.Module(readFileSync(new URL("b.wasm", import.meta.url))), imports);
const bytes = await new Promise((done, failed) => fs.readFile("b.wasm", (error, data) => error ? failed(error) : done(data)));
const third = (await WebAssembly.instantiate(bytes, imports)).instance;
console.log(instance.exports.h(1), again.exports.f(1), third.exports.f(2));
`;

test("a program runs an output under the preload, which finds the information", t => {
  const {output, information} = sample({calls: true});
  const folder = folderWith(t, {
    "b.wasm": output, "b.json": JSON.stringify(information), "other.json": JSON.stringify({...information, hooks: []}), "program.mjs": PROGRAM,
    "object.mjs": `let n = 0; export default {begin() { n++; }}; export const done = runs => console.log("begun", n, runs.length);`,
    "made.mjs": `let n = 0; export default ({version}) => ({end() { n += version; }}); export const done = () => console.log("ended", n);`,
    "class.mjs": `let all = []; export default class { n = 0; constructor() { all.push(this); } begin() { this.n++; } } export const done = () => console.log(all.map(({n}) => n).join());`,
    "raw.mjs": `export default {raw: {begin: () => () => {}}};`,
  });
  const node = (/** @type {Record<string, string>} */ env) => {
    const {NODE_TEST_CONTEXT: _, ...rest} = process.env;
    const {status, stdout, stderr} = spawnSync(process.execPath, ["--import", REGISTER, "program.mjs"], {cwd: folder, env: {...rest, ...env}, encoding: "utf8"});
    return status === 0 ? stdout : stderr;
  };
  assert.equal(node({WASABI_ANALYSIS: "object.mjs"}), "6 2 3\nbegun 4 3\n");
  assert.equal(node({WASABI_ANALYSIS: "object.mjs", WASABI_INFORMATION: `other.json${path.delimiter}b.json`}), "6 2 3\nbegun 4 3\n");
  assert.equal(node({WASABI_ANALYSIS: "made.mjs"}), "6 2 3\nended 4\n");
  assert.equal(node({WASABI_ANALYSIS: "class.mjs"}), "6 2 3\n2,1,1\n");
  assert.equal(node({WASABI_INFORMATION: folder, WASABI_RECORD: "counts", WASABI_TRACES: "traces"}), "6 2 3\n");
  assert.equal(node({WASABI_ANALYSIS: "object.mjs", WASABI_RECORD: "counts"}), "6 2 3\nbegun 4 3\n");
  assert.deepEqual(fs.readdirSync(path.join(folder, "counts")).sort(), ["b.json", "b.report", "b.tree"]);
  assert.match(fs.readFileSync(path.join(folder, "counts/b.report"), "utf8"), /^report blocks 2\nblock 1:-1 function 6\nblock 3:-1 function 2\n/);
  assert.equal(fs.readFileSync(path.join(folder, "counts/b.tree"), "utf8"), "tree 3\nnode 0 1 4\nnode 0 3 2\nnode 1 1 2\n");
  assert.deepEqual(fs.readdirSync(path.join(folder, "traces")).map(name => name.replace(/\.\d+\.0\./, ".")).sort(), ["b.0.trace", "b.1.trace", "b.2.trace"]);
  assert.match(node({WASABI_INFORMATION: "other.json"}), /InformationError: no information belongs to the output .*b\.wasm\n.*other\.json: the information does not belong/s);
  assert.match(node({WASABI_ANALYSIS: "raw.mjs", WASABI_RECORD: "counts"}), /CallbackError: an analysis with raw callbacks can't be recorded too/);
  fs.writeFileSync(path.join(folder, "counts/b.json"), JSON.stringify({...information, dropped: ["name"]}));
  assert.match(node({WASABI_RECORD: "counts"}), /RecordError: counts has the counts of another output named b, or of an older one: remove the folder/);
  fs.rmSync(path.join(folder, "b.json"));
  assert.match(node({}), /InformationError: there is no information for the output .*b\.wasm; WASABI_INFORMATION names it/);
});

test("a test suite and worker threads are recorded too", t => {
  const {output, information} = sample();
  const folder = folderWith(t, {
    "b.wasm": output, "b.json": JSON.stringify(information),
    "one.test.mjs": `import test from "node:test"; import {readFileSync} from "node:fs";
      test("f", async () => { const {instance} = await WebAssembly.instantiate(readFileSync("b.wasm"), {env: {back() {}}}); instance.exports.f(1); });`,
    "two.test.mjs": `import test from "node:test"; import {Worker} from "node:worker_threads";
      test("worker", () => new Promise(done => new Worker(new URL("./one.test.mjs", import.meta.url)).on("exit", done)));`,
  });
  const {NODE_TEST_CONTEXT: _, ...env} = process.env;
  execFileSync(process.execPath, ["--import", REGISTER, "--test", "one.test.mjs", "two.test.mjs"], {cwd: folder, env: {...env, WASABI_RECORD: "counts"}, stdio: "pipe"});
  assert.match(fs.readFileSync(path.join(folder, "counts/b.report"), "utf8"), /^report blocks 1\nblock 1:-1 function 2\n/);
});

test("counts that several processes add at once are all there", async t => {
  const {output, information} = sample();
  const folder = folderWith(t, {"b.wasm": output, "b.json": JSON.stringify(information), "program.mjs": PROGRAM});
  const {NODE_TEST_CONTEXT: _, ...env} = process.env;
  fs.mkdirSync(path.join(folder, "counts"));
  fs.writeFileSync(path.join(folder, "counts/b.lock"), "999999999"); // of a process that is no more
  await Promise.all(Array.from({length: 6}, () => new Promise((done, failed) => {
    spawn(process.execPath, ["--import", REGISTER, "program.mjs"], {cwd: folder, env: {...env, WASABI_RECORD: "counts"}}).on("exit", code => (code === 0 ? done(code) : failed(code)));
  })));
  assert.match(fs.readFileSync(path.join(folder, "counts/b.report"), "utf8"), /\nblock 3:-1 function 6\n/);
  assert.deepEqual(fs.readdirSync(path.join(folder, "counts")).sort(), ["b.json", "b.report", "b.tree"]);
});

test("a lock that changes hands while its holder is looked at is not removed", t => {
  const folder = folderWith(t), lock = path.join(folder, "m.lock"), counts = new CountsFolder(folder, "m", sample().information);
  const [left, ended, living] = [999999991, 999999992, process.ppid], {kill} = process;
  const put = (/** @type {number} */ pid) => {
    fs.rmSync(lock, {force: true});
    fs.writeFileSync(lock, String(pid));
  };
  const looked = /** @type {number[]} */ ([]);
  t.after(() => { process.kill = kill; });
  process.kill = (/** @type {number} */ pid, /** @type {any} */ signal) => {
    looked.push(pid);
    if (pid === left) put(ended); // others removed the lock that was left, and took it
    else if (pid === ended) put(living); // its holder released it and ended, and the next one took it
    else {
      assert.equal(fs.readFileSync(lock, "utf8"), String(living));
      fs.rmSync(lock);
    }
    return kill.call(process, pid, signal);
  };
  put(left);
  counts.add(Counts.of("call 0 1 2\nevents 4 stray 1\n"), undefined);
  assert.deepEqual(looked, [left, ended, living]);
  assert.deepEqual(fs.readdirSync(folder).sort(), ["m.json", "m.report"]);
});

test("counts are exact while locks of processes that are no more are put there", async t => {
  const folder = folderWith(t), adds = 8, processes = 4, lock = path.join(folder, "m.lock");
  const [theFolder, theCounts] = ["folder.mjs", "counts.mjs"].map(name => JSON.stringify(new URL(`../${name}`, import.meta.url)));
  fs.writeFileSync(path.join(folder, "adds.mjs"), `import {CountsFolder} from ${theFolder}; import {Counts} from ${theCounts};
    for (let n = 0; n < ${adds}; n++) new CountsFolder(".", "m", {}).add(Counts.of("call 0 1 1\\nevents 1 stray 0\\n"), undefined);`);
  const dead = path.join(folder, "dead");
  const putting = setInterval(() => {
    fs.writeFileSync(dead, `999999999 0 ${process.hrtime.bigint()}`);
    try {
      fs.linkSync(dead, lock);
    } catch {} // a process holds it
    fs.rmSync(dead);
  }, 2);
  t.after(() => clearInterval(putting));
  await Promise.all(Array.from({length: processes}, () => new Promise((done, failed) => {
    const adding = spawn(process.execPath, ["adds.mjs"], {cwd: folder, stdio: ["ignore", "ignore", "inherit"]});
    adding.on("exit", code => (code === 0 ? done(code) : failed(new Error(`status ${code}`))));
  })));
  clearInterval(putting);
  assert.match(fs.readFileSync(path.join(folder, "m.report"), "utf8"), new RegExp(`^call 0 1 ${adds * processes}$`, "m"));
});

test("a folder adds counts and trees, and keeps those of another output apart", async t => {
  const folder = folderWith(t), {information} = sample();
  const counts = new CountsFolder(folder, "m", information), recorder = new Recorder(information);
  counts.add(recorder.counts, recorder.paths);
  counts.add(Counts.of("call 0 1 2\nevents 4 stray 1\n"), Tree.of("tree 1\nnode 0 1 2\n"));
  new CountsFolder(folder, "m", structuredClone(information)).add(Counts.of("call 0 1 3\nevents 5 stray 0\n"), undefined);
  assert.match(fs.readFileSync(path.join(folder, "m.report"), "utf8"), /\ncall 0 1 5\nreport memory 0\nevents 9 stray 1\n$/);
  assert.equal(fs.readFileSync(path.join(folder, "m.tree"), "utf8"), "tree 1\nnode 0 1 2\n");
  assert.throws(() => new CountsFolder(folder, "m", {...information, dropped: ["x"]}), {name: "RecordError"});
});
