// Which function of the original is in a slot of the table.
import {exportedFunctions} from "./module.mjs";
import {originalIndex} from "./names.mjs";
import {NONE, UNKNOWN} from "./stack.mjs";

/** @typedef {import("./information.mjs").Information} Information */
/** @typedef {import("./module.mjs").Module} Module */

/**
 * The indices in the output that the module's own segments put into slots; undefined if a global that one begins at is not known.
 * @param {Module} module
 * @param {any[]} globals the imported ones
 * @returns {Map<number, number> | undefined}
 */
function slotsOf({segments}, globals) {
  const slots = new Map();
  for (const {offset, functions} of segments) {
    const given = typeof offset === "number" ? offset : globals[offset.global];
    const first = given instanceof WebAssembly.Global ? given.value : given;
    if (typeof first !== "number") return undefined;
    functions.forEach((func, place) => slots.set((first >>> 0) + place, func));
  }
  return slots;
}

/**
 * A table that is neither imported nor exported stays as the segments made it. In any other table, a function counts as one of the
 * module if it is the very object that a segment put there, or that an export is. If the bytes of the module are not known, the names
 * of functions are believed, which engines give by their indices.
 */
export class Callees {
  #information;
  #module;
  #slots;
  /** @type {WebAssembly.Table | undefined} */
  #table;
  #isAttached = false;
  /** @type {Map<Function, number> | undefined} */
  #own;

  /**
   * @param {Information} information
   * @param {Module | undefined} module
   * @param {WebAssembly.Table | undefined} table the imported one
   * @param {any[]} globals the imported ones
   */
  constructor(information, module, table, globals) {
    this.#information = information;
    this.#module = module;
    this.#table = table;
    this.#slots = module && slotsOf(module, globals);
  }

  /** @param {WebAssembly.Exports} exports */
  attach(exports) {
    this.#isAttached = true;
    this.#table ??= /** @type {any[]} */ (Object.values(exports)).find(value => value instanceof WebAssembly.Table);
    if (this.#table && this.#module && this.#slots) this.#own = this.#functions(this.#table, exports, this.#module, this.#slots);
  }

  /**
   * The function of the original in a slot, NONE or UNKNOWN.
   * @param {number} slot
   */
  at(slot) {
    const index = this.#indexAt(slot);
    return index < 0 ? index : originalIndex(index, this.#information);
  }

  /**
   * The function that a call through the table enters: NONE if the call traps, UNKNOWN if it may.
   * @param {number} type
   * @param {number} func what `at` answered
   */
  entered(type, func) {
    if (func < 0) return func;
    const wanted = this.#module?.types[type], [params, results] = this.#information.functions[func];
    if (!wanted) return UNKNOWN;
    return wanted.params === params && wanted.results === results ? func : NONE;
  }

  /** @param {number} slot */
  #indexAt(slot) {
    const table = this.#table;
    if (!table) return this.#slots ? this.#slots.get(slot) ?? NONE : UNKNOWN;
    const found = slot < table.length ? table.get(slot) : null;
    if (!found) return NONE;
    if (!this.#isAttached) return this.#slots?.get(slot) ?? UNKNOWN; // while the start function runs
    return this.#own ? this.#own.get(found) ?? NONE : Number(found.name);
  }

  /**
   * The functions of the instance that are in its table or exported, with their indices in the output.
   * @param {WebAssembly.Table} table
   * @param {WebAssembly.Exports} exports
   * @param {Module} module
   * @param {Map<number, number>} slots
   */
  #functions(table, exports, module, slots) {
    const found = new Map();
    for (const [slot, index] of slots) {
      const func = slot < table.length ? table.get(slot) : null;
      const isImported = index < this.#information.imports; // and has its own name
      if (func && (isImported || Number(func.name) === index)) found.set(func, index);
    }
    for (const [name, index] of exportedFunctions(module)) found.set(exports[name], index);
    return found;
  }
}
