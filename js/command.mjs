// For scripts in Node whose words are OUTPUT INFORMATION CALL ..: reads the files, makes the calls, and prints their answers.
import {readFile} from "node:fs/promises";
import {callIn} from "./calls.mjs";
import {CallError, WasabiError, start} from "./wasabi.mjs";

/** @typedef {import("./wasabi.mjs").Callbacks} Callbacks */
/** @typedef {import("./wasabi.mjs").Options} Options */
/** @typedef {import("./wasabi.mjs").Run} Run */

/**
 * Ends the script with a sentence on standard error.
 * @param {number} status
 * @param {string} text
 * @returns {never}
 */
export function stop(status, text) {
  process.stderr.write(`${text}\n`);
  return process.exit(status);
}

/**
 * The files under these names, as bytes.
 * @param {string[]} names
 * @returns {Promise<Uint8Array[]>}
 */
export function filesAt(names) {
  const missing = (/** @type {string} */ name) => (/** @type {any} */ error) => stop(3, `${name} can't be read: ${error.code}`);
  return Promise.all(names.map(name => readFile(name).catch(missing(name))));
}

/**
 * The words after the script's name, which must be at least `least`. If there are fewer, or for --help, prints the usage and ends.
 * @param {string} usage
 * @param {number} least
 * @param {string[]} words
 */
export function wordsOf(usage, least, words = process.argv.slice(2)) {
  if (words.includes("--help") || words.includes("-h")) {
    process.stdout.write(`${usage}\n`);
    process.exit(0);
  }
  if (words.length < least) stop(2, `${words.length} arguments were given, and ${least} are needed\n${usage}`);
  return words;
}

/**
 * What a promise leads to. If it is refused, by the runtime or by the engine, prints the reason and ends the script. Any other error is
 * that of the analysis, and is thrown as it is.
 * @template T
 * @param {string} output
 * @param {Promise<T>} promise
 */
export function unlessRefused(output, promise) {
  return promise.catch(error => {
    const isRefusal = [WasabiError, WebAssembly.LinkError, WebAssembly.CompileError].some(it => error instanceof it);
    if (isRefusal) return stop(1, `${output} can't be run: ${error.message}`);
    throw error;
  });
}

/**
 * A run of the output with these callbacks. Functions that the imports lack return zeros, unless the options say otherwise.
 * @param {string} output
 * @param {string} information
 * @param {Callbacks} callbacks
 * @param {WebAssembly.Imports} [imports]
 * @param {Options} [options]
 */
export async function started(output, information, callbacks, imports, options) {
  const [bytes, text] = await filesAt([output, information]);
  return unlessRefused(output, start(bytes, text, callbacks, imports, {missing: "zeros", ...options}));
}

/**
 * One call, as "f(1, 2)", and the line on its answer. A trap is an answer too; an error of a callback is thrown as it is.
 * @param {Run} run
 * @param {string} call
 */
export function answerOf(run, call) {
  try {
    callIn(call); // a name alone is no call here
    return `${call} = ${run.call(call)}`;
  } catch (error) {
    if (run.isTrap(error)) return `${call} traps`;
    if (error instanceof CallError) return stop(1, error.message);
    throw error;
  }
}

/**
 * The run of OUTPUT with these callbacks, when each CALL was made and its answer printed.
 * @param {string} usage
 * @param {Callbacks} callbacks
 * @param {string[]} [words]
 * @param {Options} [options]
 */
export async function command(usage, callbacks, words, options) {
  const [output, information, ...calls] = wordsOf(usage, 3, words);
  const run = await started(output, information, callbacks, {}, options);
  for (const call of calls) console.log(answerOf(run, call));
  return run;
}
