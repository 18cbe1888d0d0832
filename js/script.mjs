// Makes the calls of a script in Node or in a page, as the mode `run` does, with a host that answers by the script. docs/FORMATS.md,
// "Scripts", has their form. Depth and steps are the engine's, and so is the greatest size of a memory that is not imported.
import {valuesFor} from "./calls.mjs";
import {CallError, ScriptError} from "./errors.mjs";
import {isOfModule} from "./frames.mjs";
import {HOOKS, exportedFunctions, readModule} from "./module.mjs";
import {viewOf} from "./reader.mjs";
import {start} from "./wasabi.mjs";

/** @typedef {number | bigint} Num */
/** @typedef {{results: Num[], writes: [address: number, digits: string][]}} Answer */
/** @typedef {{calls: {export: string, args: Num[]}[], host: Answer[], globals: Num[], pages: number}} Script */
/** @typedef {import("./wasabi.mjs").Bytes} Bytes */

/** What engines say of a trap, and the cause that `run` prints. V8 says the same of an empty slot and of one of a wrong type. */
const CAUSES = /** @type {[RegExp, string][]} */ ([
  [/unreachable/, "unreachable"], [/divide by zero|division by zero|remainder by zero/i, "divide by zero"],
  [/unrepresentable|integer overflow/, "integer overflow"], [/table index|table access|undefined element/, "no slot"],
  [/memory access|out of bounds/i, "out of bounds"], [/null function|uninitialized element/, "empty slot"],
  [/signature mismatch|indirect call/, "wrong type"], [/call stack size|recursion/, "call depth"],
]);
const MOST_SLOTS = 10_000_000; // that engines make room for

/**
 * The values of JSON, in which whole numbers that are too long for a double become BigInts.
 * @param {string} text
 */
function parsed(text) {
  const isLong = (/** @type {string} */ token) => token.length > 15 && !token.startsWith('"');
  const marked = text.replace(/"(?:[^"\\]|\\.)*"|-?\d+(?![\d.eE])/g, token => (isLong(token) ? `{"whole": "${token}"}` : token));
  try {
    return JSON.parse(marked, (_, value) => (typeof value?.whole === "string" ? BigInt(value.whole) : value));
  } catch (error) {
    throw new ScriptError(`the script is not JSON: ${/** @type {Error} */ (error).message}`);
  }
}

/** @param {unknown} value */
const areNumbers = value => Array.isArray(value) && value.every(it => typeof it === "bigint" || Number.isSafeInteger(it));

/**
 * The script, which is given as text or parsed. What is none is refused.
 * @param {unknown} given
 * @returns {Script}
 */
export function scriptOf(given) {
  /** @type {(condition: unknown, sentence: string) => void} */
  const must = (condition, sentence) => {
    if (!condition) throw new ScriptError(`the script is not of its form: ${sentence}`);
  };
  const value = typeof given === "string" ? parsed(given) : given;
  must(value !== null && typeof value === "object" && Array.isArray(value.calls), "it is no object with a list of calls");
  const {calls, host = [], globals = [], pages = 1024} = value;
  calls.forEach((/** @type {any} */ call, /** @type {number} */ at) => {
    must(typeof call?.export === "string" && areNumbers(call.args), `call ${at}`);
  });
  must(Array.isArray(host), "host is no list");
  host.forEach((/** @type {any} */ answer, /** @type {number} */ at) => {
    const isWrite = (/** @type {any} */ it) => Array.isArray(it) && Number.isSafeInteger(it[0]) && /^([\da-f]{2})*$/i.test(it[1]);
    must(areNumbers(answer?.results) && Array.isArray(answer.writes) && answer.writes.every(isWrite), `answer ${at} of the host`);
  });
  must(areNumbers(globals), "globals is no list of numbers");
  must(Number.isSafeInteger(pages), "pages is no number");
  return {calls, host, globals, pages};
}

/**
 * @param {string} letter
 * @param {Num} number
 */
const valueOf = (letter, number) => (letter === "l" ? BigInt.asIntN(64, BigInt(number)) : Number(BigInt.asIntN(32, BigInt(number))));

/** All that a module imports besides hooks, answered by a script. */
export class Host {
  /** How many calls of functions were answered. */
  calls = 0;
  /**
   * The imported memory, or the one that `attach` found.
   * @type {WebAssembly.Memory | undefined}
   */
  memory = undefined;
  /**
   * What `start` takes as imports.
   * @type {Record<string, Record<string, any>>}
   */
  imports = Object.create(null);
  #answers;

  /**
   * @param {import("./module.mjs").Module} module
   * @param {Script} script
   */
  constructor({imports, types}, {host, globals, pages}) {
    this.#answers = host;
    let place = 0;
    for (const {module, name, kind, type, limits: {least, most = Infinity}, letter, isMutable} of imports) {
      if (kind === "function" && module === HOOKS) continue;
      const fields = this.imports[module] ??= Object.create(null);
      switch (kind) {
        case "function":
          fields[name] = () => this.#answer(types[type].results);
          break;
        case "table":
          fields[name] = new WebAssembly.Table({element: "anyfunc", initial: least, maximum: Math.min(most, MOST_SLOTS)});
          break;
        case "memory":
          this.memory = fields[name] = new WebAssembly.Memory({initial: least, maximum: Math.max(least, Math.min(most, pages))});
          break;
        case "global": {
          const value = valueOf(letter, globals[place++] ?? 0);
          fields[name] = new WebAssembly.Global({value: letter === "l" ? "i64" : "i32", mutable: isMutable}, value);
        }
      }
    }
  }

  /** @param {WebAssembly.Exports} exports */
  attach(exports) {
    this.memory ??= /** @type {any[]} */ (Object.values(exports)).find(it => it instanceof WebAssembly.Memory);
  }

  /** @param {string} letters of the results */
  #answer(letters) {
    const {results, writes} = this.#answers[this.calls++] ?? {results: [], writes: []};
    for (const [address, digits] of writes) {
      const bytes = Uint8Array.from(digits.match(/../g) ?? [], pair => Number.parseInt(pair, 16));
      if (this.memory && address + bytes.length <= this.memory.buffer.byteLength) new Uint8Array(this.memory.buffer).set(bytes, address);
    }
    const values = [...letters].map((letter, at) => valueOf(letter, results[at] ?? 0));
    return values.length > 1 ? values : values[0];
  }
}

/**
 * The answer of a call, as `run` prints it. An error that is no trap is thrown.
 * @param {() => any} call
 * @param {(error: unknown) => boolean} isTrap
 */
export function answerOf(call, isTrap) {
  try {
    const result = call();
    const values = result === undefined ? [] : Array.isArray(result) ? result : [result];
    return ["ok", ...values.map(it => (typeof it === "bigint" ? `i64:${BigInt.asUintN(64, it)}` : `i32:${it >>> 0}`))].join(" ");
  } catch (error) {
    if (!isTrap(error)) throw error;
    const {message} = /** @type {Error} */ (error);
    return `trap ${CAUSES.find(([form]) => form.test(message))?.[1] ?? message}`;
  }
}

/**
 * The text of the mode `run`.
 * @param {import("./module.mjs").Module} module
 * @param {Host} host
 * @param {string[]} answers those of the calls
 */
function textOf({start: entered}, host, answers) {
  const pages = host.memory ? host.memory.buffer.byteLength / 65536 : 0;
  return `${[...(entered === undefined ? [] : ["start: ok"]), ...answers, `pages ${pages}`, `host ${host.calls}`].join("\n")}\n`;
}

/**
 * The module in bytes that the engine takes, and its host by a script.
 * @param {Bytes} given
 * @param {Script} script
 */
async function readFor(given, script) {
  const bytes = viewOf(given), compiled = await WebAssembly.compile(bytes);
  const module = readModule(bytes);
  return {bytes, compiled, module, host: new Host(module, script)};
}

/**
 * Makes the calls of a script in an output, and answers with the run and the text of the mode `run`.
 * @param {Bytes} output
 * @param {import("./information.mjs").Information | string | Bytes} information
 * @param {Script | string} script
 * @param {import("./wasabi.mjs").Callbacks} [callbacks]
 * @param {import("./wasabi.mjs").Options} [options]
 */
export async function runScript(output, information, script, callbacks = {}, options = {}) {
  const read = scriptOf(script);
  const {bytes, compiled, module, host} = await readFor(output, read);
  const run = await start(compiled, information, callbacks, host.imports, {...options, bytes});
  host.attach(run.exports);
  const answers = read.calls.map(({export: name, args}, at) => {
    const call = () => (args.length > 0 ? run.call(name, ...args) : run.call(name));
    return `call ${at} ${name}: ${answerOf(call, error => run.isTrap(error))}`;
  });
  return {run, host, text: textOf(module, host, answers)};
}

/**
 * The same for a module without hooks.
 * @param {Bytes} given
 * @param {Script | string} script
 */
export async function runPlain(given, script) {
  const read = scriptOf(script);
  const {compiled, module, host} = await readFor(given, read);
  const {exports} = await WebAssembly.instantiate(compiled, host.imports);
  host.attach(exports);
  const types = [...module.imports.filter(it => it.kind === "function").map(it => it.type), ...module.functions];
  const indices = new Map(exportedFunctions(module));
  const answers = read.calls.map(({export: name, args}, at) => {
    const index = indices.get(name);
    if (index === undefined) throw new CallError(`no exported function ${name}`);
    const values = valuesFor(name, args, module.types[types[index]].params);
    return `call ${at} ${name}: ${answerOf(() => /** @type {any} */ (exports[name])(...values), error => isOfModule(error, true))}`;
  });
  return {host, text: textOf(module, host, answers)};
}
