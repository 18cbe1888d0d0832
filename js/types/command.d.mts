/** @typedef {import("./wasabi.mjs").Callbacks} Callbacks */
/** @typedef {import("./wasabi.mjs").Options} Options */
/** @typedef {import("./wasabi.mjs").Run} Run */
/**
 * Ends the script with a sentence on standard error.
 * @param {number} status
 * @param {string} text
 * @returns {never}
 */
export function stop(status: number, text: string): never;
/**
 * The files under these names, as bytes.
 * @param {string[]} names
 * @returns {Promise<Uint8Array[]>}
 */
export function filesAt(names: string[]): Promise<Uint8Array[]>;
/**
 * The words after the script's name, which must be at least `least`. If there are fewer, or for --help, prints the usage and ends.
 * @param {string} usage
 * @param {number} least
 * @param {string[]} words
 */
export function wordsOf(usage: string, least: number, words?: string[]): string[];
/**
 * What a promise leads to. If it is refused, by the runtime or by the engine, prints the reason and ends the script. Any other error is
 * that of the analysis, and is thrown as it is.
 * @template T
 * @param {string} output
 * @param {Promise<T>} promise
 */
export function unlessRefused<T>(output: string, promise: Promise<T>): Promise<T>;
/**
 * A run of the output with these callbacks. Functions that the imports lack return zeros, unless the options say otherwise.
 * @param {string} output
 * @param {string} information
 * @param {Callbacks} callbacks
 * @param {WebAssembly.Imports} [imports]
 * @param {Options} [options]
 */
export function started(output: string, information: string, callbacks: Callbacks, imports?: WebAssembly.Imports | undefined, options?: import("./wasabi.mjs").Options | undefined): Promise<import("./wasabi.mjs").Run>;
/**
 * One call, as "f(1, 2)", and the line on its answer. A trap is an answer too; an error of a callback is thrown as it is.
 * @param {Run} run
 * @param {string} call
 */
export function answerOf(run: Run, call: string): string;
/**
 * The run of OUTPUT with these callbacks, when each CALL was made and its answer printed.
 * @param {string} usage
 * @param {Callbacks} callbacks
 * @param {string[]} [words]
 * @param {Options} [options]
 */
export function command(usage: string, callbacks: Callbacks, words?: string[] | undefined, options?: import("./wasabi.mjs").Options | undefined): Promise<import("./wasabi.mjs").Run>;
export type Callbacks = import("./wasabi.mjs").Callbacks;
export type Options = import("./wasabi.mjs").Options;
export type Run = import("./wasabi.mjs").Run;
