// A preload for Node, under which a program or a test suite runs outputs as if they were the originals:
//
//     WASABI_RECORD=counts node --import ./js/register.mjs program.mjs
//
// WASABI_INFORMATION   the information, or several of them, with the separator of PATH between two; or a folder of files *.json. The one
//                      that belongs to an output is taken. Without it, NAME.json is taken beside NAME.wasm that was read.
// WASABI_ANALYSIS      a module whose default export is an object of callbacks, or a function or a class that makes one for an information;
//                      its export `done`, if there is one, is called with all runs at the end of the process
// WASABI_RECORD        a folder, in which the counts of all processes add up: NAME.report and NAME.tree, of an output NAME.wasm
// WASABI_TRACES        a folder, in which each run leaves a trace: NAME.PROCESS.THREAD.RUN.trace
import fs from "node:fs";
import {syncBuiltinESMExports} from "node:module";
import path from "node:path";
import {fileURLToPath, pathToFileURL} from "node:url";
import {threadId} from "node:worker_threads";
import {checkCallbacks} from "./callbacks.mjs";
import {checkOutput} from "./check.mjs";
import {CallbackError, InformationError} from "./errors.mjs";
import {CountsFolder, writeWhole} from "./folder.mjs";
import {EVENTS} from "./hooks.mjs";
import {informationOf} from "./information.mjs";
import {besideOf, noteOrigin} from "./origins.mjs";
import {patch} from "./patch.mjs";
import {Recorder} from "./recorder.mjs";

/** @typedef {import("./information.mjs").Information} Information */
/** @typedef {import("./patch.mjs").Found} Found */

const {WASABI_INFORMATION: given, WASABI_ANALYSIS: analysis, WASABI_RECORD: folder, WASABI_TRACES: traces} = process.env;
const mine = analysis ? await import(pathToFileURL(path.resolve(analysis)).href) : undefined;
/** @type {import("./wasabi.mjs").Run[]} */
const runs = [];
/** @type {{name: string, recorder: Recorder, counts: CountsFolder | undefined}[]} */
const recorded = [];

/** @type {any} */
const files = fs;
const {readFileSync} = fs, {readFile} = fs.promises;

/**
 * @param {any} name
 * @param {any} data
 */
function noted(name, data) {
  const isName = typeof name === "string" || name instanceof URL || Buffer.isBuffer(name);
  if (isName && data instanceof Uint8Array) noteOrigin(data, name instanceof URL ? fileURLToPath(name) : path.resolve(String(name)));
  return data;
}

/** Notes which files modules are read from. */
function notesFiles() {
  const {readFile: readLater} = fs;
  files.readFileSync = (/** @type {any} */ name, /** @type {any[]} */ ...rest) => noted(name, readFileSync(name, ...rest));
  files.promises.readFile = async (/** @type {any} */ name, /** @type {any[]} */ ...rest) => noted(name, await readFile(name, ...rest));
  files.readFile = (/** @type {any} */ name, /** @type {any[]} */ ...rest) => {
    const done = rest.pop();
    if (typeof done !== "function") return /** @type {any} */ (readLater)(name, ...rest, done); // which refuses it
    const take = (/** @type {any} */ error, /** @type {any} */ data) => done(error, error ? data : noted(name, data));
    return /** @type {any} */ (readLater)(name, ...rest, take);
  };
  syncBuiltinESMExports();
}

/**
 * The files that may have the information of an output.
 * @param {string | undefined} origin
 * @returns {string[]}
 */
function candidates(origin) {
  if (!given) return origin ? besideOf(origin).filter(name => fs.existsSync(name)) : [];
  return given.split(path.delimiter).filter(Boolean).flatMap(name => {
    if (!fs.statSync(name, {throwIfNoEntry: false})?.isDirectory()) return [name];
    const inside = fs.readdirSync(name).filter((/** @type {string} */ it) => it.endsWith(".json")).sort();
    return inside.map((/** @type {string} */ it) => path.join(name, it));
  });
}

/**
 * The first information that belongs to an output.
 * @param {Found} found
 * @returns {Information}
 */
function informationFor({module, bytes, origin}) {
  const from = origin?.startsWith("file:") ? fileURLToPath(origin) : origin;
  const what = from ? `the output ${from}` : "an output that no file is known of";
  const names = candidates(from);
  const refused = [];
  for (const name of names) {
    try {
      const information = informationOf(readFileSync(name, "utf8"));
      checkOutput(module, bytes, information);
      return information;
    } catch (error) {
      refused.push(`${name}: ${/** @type {Error} */ (error).message}`);
    }
  }
  throw new InformationError(names.length > 0 ? `no information belongs to ${what}\n  ${refused.join("\n  ")}`
    : `there is no information for ${what}; WASABI_INFORMATION names it, or it is NAME.json beside NAME.wasm`);
}

/** @param {Information} information */
function analysisFor(information) {
  const made = mine?.default ?? {};
  if (typeof made !== "function") return made;
  return /^class\b/.test(Function.prototype.toString.call(made)) ? new made(information) : made(information);
}

/**
 * The callbacks of the analysis and of a recorder. The analysis' own object stays what its functions see as `this`.
 * @param {any} callbacks
 * @param {Recorder} recorder
 * @param {Information} information
 */
function bothOf(callbacks, recorder, information) {
  checkCallbacks(callbacks, information.groups, "refuse");
  if (callbacks.raw) throw new CallbackError("an analysis with raw callbacks can't be recorded too");
  /** @type {any} */
  const both = {...recorder.callbacks};
  for (const event of EVENTS.filter(it => callbacks[it])) {
    both[event] = (/** @type {any} */ fields, /** @type {any} */ run) => callbacks[event](fields, run);
  }
  return both;
}

notesFiles();
patch({
  informationOf: informationFor,
  callbacksOf(information, {origin}) {
    const callbacks = analysisFor(information);
    if (!folder && !traces) return callbacks;
    const recorder = new Recorder(information, {trace: Boolean(traces)});
    const name = path.basename(origin ?? "output", ".wasm");
    recorded.push({name, recorder, counts: folder ? new CountsFolder(folder, name, information) : undefined});
    return bothOf(callbacks, recorder, information);
  },
  started: run => { runs.push(run); },
});

process.on("exit", () => {
  mine?.done?.(runs);
  for (const [at, {name, recorder, counts}] of recorded.entries()) {
    counts?.add(recorder.counts, recorder.paths);
    if (!traces) continue;
    fs.mkdirSync(traces, {recursive: true});
    writeWhole(path.join(traces, `${name}.${process.pid}.${threadId}.${at}.trace`), recorder.trace());
  }
});
