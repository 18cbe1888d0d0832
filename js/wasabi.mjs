// Runs a module that wasabi instrumented, and calls a function of yours for each event, in Node and in browsers:
//
//     const run = await start(output, information, {begin({location, kind}) { .. }}, imports);
//     run.exports.f(1);
//
// docs/RUNTIME.md says what each event has, and what a run has.
import {Callees} from "./callees.mjs";
import {checkCallbacks} from "./callbacks.mjs";
import {callIn, valuesFor} from "./calls.mjs";
import {checkOutput} from "./check.mjs";
import {CallError, InformationError, MissingImportError, OptionError, StackError} from "./errors.mjs";
import {isOfModule} from "./frames.mjs";
import {handlerOf} from "./handlers.mjs";
import {EVENTS, KINDS, hookNamed} from "./hooks.mjs";
import {choicesOf, informationOf, partOf} from "./information.mjs";
import {HOOKS, exportedFunctions} from "./module.mjs";
import {namesOf, originalIndex} from "./names.mjs";
import {isBytes, viewOf} from "./reader.mjs";
import {Stack} from "./stack.mjs";

export * from "./errors.mjs";
export {EVENTS, HOOKS, KINDS, hookNamed, informationOf};

/** @typedef {import("./types.js").Callbacks} Callbacks */
/** @typedef {import("./information.mjs").Information} Information */
/** @typedef {ArrayBuffer | SharedArrayBuffer | ArrayBufferView} Bytes */
/**
 * @typedef {object} Options
 * @property {"refuse" | "zeros"} [missing] what is done about a function that the imports lack: "zeros" supplies one that returns zeros
 * @property {"refuse" | "ignore"} [unselected] what is done about a callback whose group the output lacks
 * @property {boolean} [stack] false: the stack is not kept, which makes begins and ends faster
 * @property {boolean} [check] false: the bodies of the output are not compared with the information
 * @property {Bytes} [bytes] the bytes of the output, if a WebAssembly.Module is given
 */

/**
 * @param {Options} options
 * @returns {Options}
 */
function checkOptions(options) {
  const isFlag = (/** @type {unknown} */ value) => value === undefined || typeof value === "boolean";
  /** @type {Record<string, (value: any) => boolean>} */
  const allowed = {
    missing: it => [undefined, "refuse", "zeros"].includes(it), unselected: it => [undefined, "refuse", "ignore"].includes(it),
    stack: isFlag, check: isFlag, bytes: it => it === undefined || isBytes(it),
  };
  for (const [name, value] of Object.entries(options)) {
    if (!Object.hasOwn(allowed, name)) throw new OptionError(`no option is named ${name}; options are ${Object.keys(allowed).join(", ")}`);
    if (!allowed[name](value)) throw new OptionError(`the option ${name} can't be ${String(value)}`);
  }
  return options;
}

export class Run {
  /**
   * The exports of the instance, which are the engine's own.
   * @type {Record<string, any>}
   */
  exports = Object.create(null);
  /**
   * The names of functions that have names, by their indices in the original.
   * @type {Map<number, string>}
   */
  names = new Map();
  /**
   * Undefined while the start function runs.
   * @type {WebAssembly.Instance | undefined}
   */
  instance = undefined;
  /**
   * All that the output imports: the given imports and the hooks.
   * @type {WebAssembly.Imports}
   */
  imports;
  #read;
  #stack;
  /** Why the stack is not kept, or "". */
  #lacks;
  /** @type {Callees} */
  #callees;

  /**
   * @param {WebAssembly.Module} module the output
   * @param {Information | string | Bytes} information what `instrument --info` wrote: parsed, as text or as bytes
   * @param {Callbacks} [callbacks]
   * @param {WebAssembly.Imports} [imports] what the original imports
   * @param {Options} [options]
   */
  constructor(module, information, callbacks = {}, imports = {}, options = {}) {
    if (!(module instanceof WebAssembly.Module)) throw new InformationError("the module is no WebAssembly.Module; start takes bytes too");
    const {missing = "refuse", unselected = "refuse", stack = true, check, bytes} = checkOptions(options);
    this.module = module;
    this.information = informationOf(information);
    const {groups, hooks} = this.information;
    const {module: read, isVerified} = checkOutput(module, bytes && viewOf(bytes), this.information, check);
    checkCallbacks(callbacks, groups, unselected);
    this.#read = read;
    this.#lacks = stack ? lackOf(["begin", "end"].filter(group => !groups.includes(group))) : "the option stack is false";
    this.#stack = new Stack(this.#reachable());
    const context = this.#context(callbacks, isVerified);
    const handlers = hooks.map((name, place) => handlerOf(hookNamed(name), place, context));
    this.imports = this.#allImports(imports, handlers, missing === "zeros");
    this.#callees = this.#calleesOf(this.imports);
  }

  /**
   * Takes the instance that was made of the module and the imports.
   * @param {WebAssembly.Instance} instance
   */
  attach(instance) {
    this.instance = instance;
    this.exports = instance.exports;
    this.names = namesOf(this.module, this.#exported(), this.information);
    this.#callees.attach(instance.exports);
    return this;
  }

  /** The functions that are open, the outermost first. Needs the groups begin and end. */
  get stack() {
    if (this.#lacks) throw new StackError(`there is no stack: ${this.#lacks}`);
    return this.#stack.settle().functions;
  }

  /** The parts that are open, functions among them, the innermost last. Needs the groups begin and end. */
  get parts() {
    if (this.#lacks) throw new StackError(`there are no open parts: ${this.#lacks}`);
    return this.#stack.settle().places().map(({func, begin}) => {
      const found = this.partsOf(func).find(it => it.begin === begin);
      return {func, kind: found?.kind ?? "function", begin};
    });
  }

  /**
   * The name of a function, or its number if it has no name.
   * @param {number} func
   */
  nameOf(func) {
    return this.names.get(func) ?? `function ${func}`;
  }

  /**
   * The parts of a function, itself first, in ascending order of their begins; none if the original imports it.
   * @param {number} func
   */
  partsOf(func) {
    return (this.information.functions[func]?.[2] ?? []).map(partOf);
  }

  /**
   * Whether an error that a call threw is a trap of the module or a call that was too deep, and not an error of a callback or of the host.
   * @param {unknown} error
   */
  isTrap(error) {
    return isOfModule(error, !this.#stack.telling);
  }

  /**
   * Calls an export: `call("f", 1, 2)`, or as it is written, `call("f(1, 2)")`. Each number becomes the i32 or i64 that the
   * function takes.
   * @param {string} text
   * @param {(number | bigint)[]} values
   * @returns {any}
   */
  call(text, ...values) {
    if (!this.instance) throw new CallError("there is no instance to call: attach was not called, or the start function runs");
    const isName = values.length > 0 || Object.hasOwn(this.exports, text);
    /** @type {[string, (string | number | bigint)[]]} */
    const [name, args] = isName ? [text, values] : callIn(text);
    const [, index] = this.#exported().find(([it]) => it === name) ?? [];
    if (index === undefined) throw new CallError(`no exported function ${name}`);
    const [params] = this.information.functions[originalIndex(index, this.information)];
    const numbers = valuesFor(name, args, params);
    this.#stack.telling = false; // even if a callback threw before
    return this.exports[name](...numbers);
  }

  /**
   * The exported functions with their indices in the output.
   * @returns {[name: string, index: number][]}
   */
  #exported() {
    if (this.#read) return exportedFunctions(this.#read);
    const functions = Object.entries(this.exports).filter(([, value]) => typeof value === "function");
    return functions.map(([name, value]) => [name, Number(value.name)]);
  }

  /**
   * @param {Callbacks} callbacks
   * @param {boolean} isVerified
   * @returns {import("./handlers.mjs").Context}
   */
  #context(callbacks, isVerified) {
    const {information} = this;
    return {
      run: this, callbacks, isVerified, groups: new Set(information.groups), stack: this.#stack, keeps: this.#lacks === "",
      isDefined: func => func >= information.imports && func < information.functions.length,
      choicesAt: choicesOf(information),
      calleeAt: slot => this.#callees.at(slot),
      entered: (type, callee) => this.#callees.entered(type, callee),
    };
  }

  /**
   * Whether the host can call a function of the original.
   * @returns {(func: number) => boolean}
   */
  #reachable() {
    const read = this.#read;
    if (!read) return () => true;
    const isShared = read.exports.some(it => it.kind === 1) || read.imports.some(it => it.kind === "table");
    const given = [...exportedFunctions(read).map(([, index]) => index), ...(isShared ? read.segments.flatMap(it => it.functions) : [])];
    const reachable = new Uint8Array(this.information.functions.length);
    for (const index of given) reachable[originalIndex(index, this.information)] = 1;
    return func => reachable[func] === 1;
  }

  /**
   * @param {any} given
   * @param {Function[]} handlers
   * @param {boolean} fills whether missing functions are supplied
   * @returns {WebAssembly.Imports}
   */
  #allImports(given, handlers, fills) {
    const all = Object.create(null);
    /** @type {{module: string, name: string, kind: string}[]} */
    const missing = [];
    let hosts = 0, hooks = 0;
    for (const {module, name, kind} of WebAssembly.Module.imports(this.module)) {
      const fields = all[module] ??= Object.create(null);
      if (module === HOOKS && kind === "function") fields[name] = handlers[hooks++];
      else {
        let value = given?.[module]?.[name];
        if (kind === "function") {
          const func = hosts++, [params, results] = this.information.functions[func];
          if (value === undefined && fills) value = zeros(results);
          if (typeof value === "function" && !this.#lacks && !this.#mustStay(func, value)) value = this.#stack.hosted(value, params.length);
        }
        if (value === undefined) missing.push({module, name, kind});
        fields[name] = value;
      }
    }
    if (missing.length > 0) throw new MissingImportError(missing);
    return all;
  }

  /**
   * Whether the host may see again that a function is the one that it gave: an instance's function that the module exports, or that is in
   * its table.
   * @param {number} func
   * @param {Function} value
   */
  #mustStay(func, value) {
    const read = this.#read;
    if (!read || !isOfInstance(value)) return false;
    return exportedFunctions(read).some(([, index]) => index === func) || read.segments.some(it => it.functions.includes(func));
  }

  /** @param {any} imports */
  #calleesOf(imports) {
    const given = WebAssembly.Module.imports(this.module).map(({module, name, kind}) => ({kind, value: imports[module][name]}));
    const globals = given.filter(it => it.kind === "global").map(it => it.value);
    return new Callees(this.information, this.#read, given.find(it => it.kind === "table")?.value, globals);
  }
}

/** @param {string[]} groups that an output lacks */
const lackOf = groups => (groups.length === 0 ? "" : `the output lacks the ${groups.length > 1 ? "groups" : "group"} ${groups.join(", ")}`);

/**
 * Whether a function is one of an instance, which a table takes.
 * @param {Function} func
 */
function isOfInstance(func) {
  try {
    new WebAssembly.Table({element: "anyfunc", initial: 1}).set(0, func);
    return true;
  } catch {
    return false;
  }
}

/**
 * A function of the host that returns zeros.
 * @param {string} results
 */
function zeros(results) {
  const values = [...results].map(letter => (letter === "l" ? 0n : 0));
  return () => (values.length > 1 ? values : values[0]);
}

/**
 * Makes an instance of the output, which runs its start function.
 * @param {WebAssembly.Module | Bytes} output its bytes, or the module that was compiled of them
 * @param {Information | string | Bytes} information what `instrument --info` wrote: as text, as bytes or parsed
 * @param {Callbacks} [callbacks]
 * @param {WebAssembly.Imports} [imports] what the original imports
 * @param {Options} [options]
 */
export async function start(output, information, callbacks = {}, imports = {}, options = {}) {
  const isModule = output instanceof WebAssembly.Module;
  if (!isModule && !isBytes(output)) throw new InformationError("the output is neither bytes nor a WebAssembly.Module");
  const module = isModule ? output : await WebAssembly.compile(viewOf(output));
  const run = new Run(module, information, callbacks, imports, isModule ? options : {...options, bytes: output});
  return run.attach(await WebAssembly.instantiate(module, run.imports));
}
