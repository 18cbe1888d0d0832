// The recipes of docs/RUNTIME.md, and the first analysis of README, word for word, in a folder that has what a checkout has. They need
// the program; some need clang with wasi-libc, Python or Chromium.
import assert from "node:assert/strict";
import {spawn, spawnSync} from "node:child_process";
import fs from "node:fs";
import http from "node:http";
import os from "node:os";
import path from "node:path";
import test from "node:test";
import {PROGRAM, TOP} from "../fixtures/program.mjs";

const PAGES = ["README.md", "docs/RUNTIME.md"].map(name => fs.readFileSync(path.join(TOP, name), "utf8")).join("\n");
const has = (/** @type {string[]} */ ...names) => names.every(name => name.startsWith("/") ? fs.existsSync(name) : spawnSync("which", [name]).status === 0);
const unless = (/** @type {boolean} */ can, /** @type {string} */ what) => (can && PROGRAM ? false : `${PROGRAM ? what : "the program"} is missing`);

/**
 * The blocks of a section, each with the sentence before it.
 * @param {string} title
 */
function blocksOf(title) {
  const [, section] = PAGES.split(`\n## ${title}\n`);
  const found = [...section.split(/\n## /)[0].matchAll(/(?<lead>(?:\S.*\n)+)\n(?<code>(?: {4}.*\n|\n(?= {4}))+)/g)];
  return found.map(({groups}) => ({lead: String(groups?.lead).replace(/\n/g, " "), code: String(groups?.code).replace(/^ {4}/gm, "")}));
}

/**
 * A folder with links to what is in a checkout, and with the files that a section shows.
 * @param {any} t
 * @param {string} title
 */
function recipe(t, title) {
  const folder = fs.mkdtempSync(path.join(os.tmpdir(), "wasabi-recipe-"));
  t.after(() => fs.rmSync(folder, {recursive: true}));
  for (const name of ["wasabi", "crates", "tools", "examples", "js"]) fs.symlinkSync(path.join(TOP, name), path.join(folder, name));
  fs.mkdirSync(path.join(folder, "try"));
  const blocks = blocksOf(title);
  for (const {lead, code} of blocks) {
    const [, name] = /(?:[Tt]his is|[Tt]he program is) `([\w./]+)`[^`]*:? *$/.exec(lead) ?? [];
    if (name) fs.writeFileSync(path.join(folder, name), code);
  }
  const bash = (/** @type {string} */ commands) => spawnSync("bash", ["-e"], {cwd: folder, input: commands, encoding: "utf8", env: {...process.env, NODE_TEST_CONTEXT: undefined, WASABI_PROGRAM: PROGRAM}});
  return {folder, blocks, bash, commands: blocks.map(it => it.code).filter(it => /^(\$|clang|\.\/wasabi) /.test(it))};
}

test("a first analysis", {skip: unless(true, "")}, t => {
  const {folder, blocks, bash} = recipe(t, "An example");
  const text = blocks.map(it => it.code).join("\n"), program = /^import .*?\n(?=\n\$ )/ms.exec(text)?.[0] ?? assert.fail();
  fs.writeFileSync(path.join(folder, "turns.mjs"), program);
  const parts = text.replace(program, "").trim().split(/^\$ /m).slice(1).map(it => it.trim().split("\n"));
  assert.equal(parts.length, 3);
  for (const [command, ...printed] of parts) {
    const lines = bash(command).stdout.split("\n");
    for (const line of printed) assert.ok(lines.includes(line), `${command}: ${line}`); // of the report, some of its lines
  }
});

test("the runtime is installed among the packages of a project", {skip: unless(has("npm"), "npm")}, t => {
  const {folder, bash} = recipe(t, "start");
  fs.writeFileSync(path.join(folder, "package.json"), "{}");
  fs.writeFileSync(path.join(folder, "mine.mjs"), `import {start} from "wasabi-runtime"; import {Recorder} from "wasabi-runtime/recorder"; import {runScript} from "wasabi-runtime/script";
    import {patch} from "wasabi-runtime/patch"; import {command} from "wasabi-runtime/command"; console.log([start, Recorder, runScript, patch, command].map(it => typeof it).join());`);
  const {status, stderr} = bash("npm install --offline --no-audit --no-fund ./js > npm.txt");
  assert.equal(status, 0, stderr);
  assert.equal(bash("node mine.mjs").stdout, "function,function,function,function,function\n");
  assert.equal(bash("node --import wasabi-runtime/register -p 1").stdout, "1\n");
  bash("./wasabi instrument examples/weekday.wasm --out b.wasm --info b.json");
  const {stdout} = bash("npx --offline wasabi-report b.wasm b.json examples/weekday.json");
  assert.equal(stdout, bash("./wasabi report b.wasm --info b.json --script examples/weekday.json").stdout);
});

test("coverage of a C library", {skip: unless(has("clang", "wasm-ld"), "clang or lld")}, t => {
  const {folder, commands: [commands], bash} = recipe(t, "Coverage of a C library");
  const [coverage, ...before] = commands.trim().split("\n").reverse();
  const {status, stdout, stderr} = bash(before.reverse().join("\n"));
  assert.equal(status, 0, stdout + stderr);
  const report = fs.readFileSync(path.join(folder, "try/counts/crc32.report"), "utf8");
  assert.match(report, /^block \d+:-1 function 9?1?$/m);
  assert.match(report, /^block \d+:\d+ loop 72$/m); // nine bytes of eight bits
  if (!fs.existsSync(path.join(TOP, "tools/wasabi_tools"))) return;
  assert.equal(bash(coverage).status, 0);
  const lines = fs.readFileSync(path.join(folder, "try/coverage.info"), "utf8");
  assert.match(lines, /^SF:.*examples\/crc32\.c$/m);
  const source = fs.readFileSync(path.join(TOP, "examples/crc32.c"), "utf8").split("\n");
  assert.match(lines, new RegExp(`^DA:${1 + source.findIndex(line => line.includes("if (crc & 1)"))},72$`, "m"));
});

test("a program for WASI", {skip: unless(has("clang", "wasm-ld", "/usr/lib/wasm32-wasi/libc.a"), "clang or wasi-libc")}, t => {
  const {commands: [commands], bash} = recipe(t, "A program for WASI");
  const {status, stdout, stderr} = bash(commands);
  assert.equal(status, 0, stdout + stderr);
  assert.match(stdout, /^wrote \d+ bytes with \d+ hooks\none\ntwo\nstatus 3 \[\n/);
  assert.match(stdout, /fd_write'/);
});

test("glue by the conventions of Emscripten and of wasm-bindgen", async () => {
  const {sample} = await import("../fixtures/modules.mjs");
  const {start} = await import("../wasabi.mjs");
  const {patch} = await import("../patch.mjs");
  const {output, information} = sample();
  let begun = 0;
  const callbacks = {begin() { begun++; }};
  // Emscripten's glue hands its imports to instantiateWasm, waits for the instance, and puts exports into the table
  /** @type {(given: any) => Promise<any>} */
  const create = given => new Promise(done => {
    const imports = {env: {back() {}}};
    const take = (/** @type {WebAssembly.Instance} */ instance, /** @type {WebAssembly.Module} */ module) => {
      const {table, f, h} = /** @type {any} */ (instance.exports);
      assert.ok(module instanceof WebAssembly.Module);
      table.set(1, h);
      done({_f: f, arity: f.length, called: table.get(1)(2)});
    };
    assert.deepEqual(given.instantiateWasm(imports, take), {});
  });
  const module = await create({
    instantiateWasm(/** @type {any} */ imports, /** @type {any} */ done) {
      start(output, information, callbacks, imports).then(run => done(run.instance, run.module));
      return {};
    },
  });
  assert.deepEqual([module._f(1), module.arity, module.called, begun], [2, 1, 6, 3]);
  // wasm-bindgen's glue makes the instance itself, of a module that was compiled before
  let wasm = /** @type {any} */ (undefined);
  const initSync = (/** @type {{module: any}} */ {module: given}) => {
    const compiled = given instanceof WebAssembly.Module ? given : new WebAssembly.Module(given);
    wasm = new WebAssembly.Instance(compiled, {env: {back() {}}}).exports;
  };
  const undo = patch({informationOf: () => information, callbacksOf: () => callbacks});
  initSync({module: new WebAssembly.Module(output)});
  undo();
  assert.deepEqual([wasm.h(1), begun], [6, 5]);
});

/**
 * A server of files; its address.
 * @param {any} t
 * @param {string} folder
 * @returns {Promise<string>}
 */
function served(t, folder) {
  const types = new Map([[".html", "text/html"], [".mjs", "text/javascript"], [".js", "text/javascript"], [".wasm", "application/wasm"], [".json", "application/json"]]);
  const server = http.createServer((/** @type {any} */ {url}, /** @type {any} */ response) => {
    const file = path.join(folder, decodeURIComponent(new URL(url, "http://x").pathname));
    if (!fs.existsSync(file) || !fs.statSync(file).isFile()) return response.writeHead(404).end();
    return response.writeHead(200, {"Content-Type": types.get(path.extname(file)) ?? "text/plain"}).end(fs.readFileSync(file));
  });
  t.after(() => server.close());
  return new Promise(done => server.listen(0, "127.0.0.1", () => done(`http://127.0.0.1:${server.address().port}`)));
}

/**
 * What a page shows when it has what is waited for, or after two minutes. Chromium is asked by its own protocol, through pipes.
 * @param {any} t
 * @param {string} address
 * @param {RegExp} awaited
 * @returns {Promise<string>}
 */
async function shown(t, address, awaited) {
  const profile = fs.mkdtempSync(path.join(os.tmpdir(), "wasabi-chromium-"));
  const words = ["--headless", "--no-sandbox", "--disable-gpu", "--disable-dev-shm-usage", `--user-data-dir=${profile}`, "--remote-debugging-pipe"];
  const browser = spawn("chromium", words, {stdio: ["ignore", "ignore", "ignore", "pipe", "pipe"], detached: true});
  const ended = new Promise(done => browser.on("close", done)); // when all that it started has ended too
  t.after(async () => {
    process.kill(-(browser.pid ?? 0), "SIGKILL");
    await ended;
    try {
      fs.rmSync(profile, {recursive: true, force: true, maxRetries: 20});
    } catch (error) {
      t.diagnostic(`${profile} is left: ${error}`);
    }
  });
  const [, , , asking, answering] = /** @type {any[]} */ (browser.stdio);
  /** @type {Map<number, (result: any) => void>} */
  const waiting = new Map();
  let rest = "", count = 0;
  answering.on("data", (/** @type {any} */ data) => {
    const messages = (rest + data).split("\0");
    rest = messages.pop() ?? "";
    for (const {id, result, error} of messages.map(it => JSON.parse(it))) waiting.get(id)?.(result ?? error);
  });
  const ask = (/** @type {string} */ method, /** @type {object} */ params, /** @type {string | undefined} */ sessionId = undefined) => new Promise(done => {
    waiting.set(++count, done);
    asking.write(`${JSON.stringify({id: count, method, params, sessionId})}\0`);
  });
  const {targetId} = await ask("Target.createTarget", {url: address});
  const {sessionId} = await ask("Target.attachToTarget", {targetId, flatten: true});
  let text = "";
  for (let turn = 0; turn < 600 && !awaited.test(text); turn++) {
    await new Promise(done => setTimeout(done, 200));
    text = (await ask("Runtime.evaluate", {expression: "document.body?.outerHTML ?? ''"}, sessionId)).result?.value ?? "";
  }
  return text;
}

test("a page", {skip: unless(has("chromium"), "chromium")}, async t => {
  const {folder, commands: [commands], bash} = recipe(t, "Pages");
  assert.equal(bash(commands.split("\n")[0]).status, 0);
  const page = await shown(t, `${await served(t, folder)}/try/page.html`, /report blocks/);
  assert.match(page, /<p>21<\/p>/);
  assert.match(page, /<pre>report blocks \d+\nblock 0:-1 function 3\n/); // 1071, 462, 147 and 21 are divided three times
});

test("the page of examples/ shows a run", {skip: unless(has("chromium"), "chromium")}, async t => {
  const {folder, bash} = recipe(t, "Pages");
  bash("./wasabi instrument examples/weekday.wasm --out try/b.wasm --info try/b.json --hooks begin,end,call");
  const address = `${await served(t, folder)}/examples/live.html?output=../try/b.wasm&information=../try/b.json&call=weekday(2024,2,29)&speed=0`;
  const page = await shown(t, address, / events<\/p>/);
  assert.match(page, /weekday\(2024,2,29\) = 4, \d+ events/); // a Thursday
});
