// Reads the bytes of an output as far as the information is compared with them. An engine has accepted the bytes before.
import {Reader} from "./reader.mjs";

/** The module that hooks are imported from. */
export const HOOKS = "__wasabi_hooks";

/** @typedef {{params: string, results: string}} Type */
/** @typedef {{least: number, most: number | undefined}} Limits */
/**
 * @typedef {object} Import
 * @property {string} module
 * @property {string} name
 * @property {"function" | "table" | "memory" | "global"} kind
 * @property {number} type of a function, its index
 * @property {Limits} limits of a table or a memory
 * @property {string} letter of a global, its type
 * @property {boolean} isMutable of a global
 */
/** @typedef {{name: string, kind: number, index: number}} Export */
/** @typedef {{offset: number | {global: number}, functions: number[]}} Segment */
/**
 * @typedef {object} Module
 * @property {Type[]} types
 * @property {Import[]} imports
 * @property {number[]} functions the types of the functions that it defines
 * @property {Export[]} exports
 * @property {number | undefined} start
 * @property {Segment[]} segments those of the table
 * @property {Reader[]} bodies
 */

const LETTERS = new Map([[0x7F, "i"], [0x7E, "l"]]);
const EXTERNAL = /** @type {const} */ (["function", "table", "memory", "global"]);

/** @param {Reader} reader */
const letterOf = reader => LETTERS.get(reader.byte()) ?? "?";
/** @param {Reader} reader */
const lettersOf = reader => reader.list(letterOf).join("");

/**
 * @param {Reader} reader
 * @returns {Type}
 */
function typeOf(reader) {
  reader.byte();
  return {params: lettersOf(reader), results: lettersOf(reader)};
}

/**
 * @param {Reader} reader
 * @returns {Limits}
 */
function limitsOf(reader) {
  const hasMost = reader.byte() & 1, least = reader.number();
  return {least, most: hasMost ? reader.number() : undefined};
}

/**
 * @param {Reader} reader
 * @returns {Import}
 */
function importOf(reader) {
  const module = reader.text(), name = reader.text(), kind = EXTERNAL[reader.byte()];
  const found = {module, name, kind, type: 0, limits: {least: 0, most: undefined}, letter: "", isMutable: false};
  switch (kind) {
    case "function": return {...found, type: reader.number()};
    case "table": reader.byte(); return {...found, limits: limitsOf(reader)};
    case "memory": return {...found, limits: limitsOf(reader)};
    case "global": return {...found, letter: letterOf(reader), isMutable: reader.byte() === 1};
    default: throw new RangeError("an import is of no kind of version 1");
  }
}

/**
 * @param {Reader} reader
 * @returns {Segment}
 */
function segmentOf(reader) {
  if (reader.number() !== 0) throw new RangeError("a segment is not of version 1");
  const isConstant = reader.byte() === 0x41;
  const offset = isConstant ? reader.signed() >>> 0 : {global: reader.number()};
  if (reader.byte() !== 0x0B) throw new RangeError("an offset is not of version 1");
  return {offset, functions: reader.list(it => it.number())};
}

/**
 * The parts of a module of version 1.
 * @param {Uint8Array} bytes
 * @returns {Module}
 */
export function readModule(bytes) {
  /** @type {Module} */
  const found = {types: [], imports: [], functions: [], exports: [], start: undefined, segments: [], bodies: []};
  const reader = new Reader(bytes, 8);
  while (reader.left > 0) {
    const id = reader.byte(), part = reader.take(reader.number());
    switch (id) {
      case 1: found.types = part.list(typeOf); break;
      case 2: found.imports = part.list(importOf); break;
      case 3: found.functions = part.list(it => it.number()); break;
      case 7: found.exports = part.list(it => ({name: it.text(), kind: it.byte(), index: it.number()})); break;
      case 8: found.start = part.number(); break;
      case 9: found.segments = part.list(segmentOf); break;
      case 10: found.bodies = part.list(it => it.take(it.number())); break;
    }
  }
  return found;
}

/**
 * The exported functions with their indices.
 * @param {Module} module
 * @returns {[name: string, index: number][]}
 */
export const exportedFunctions = ({exports}) => exports.filter(it => it.kind === 0).map(it => [it.name, it.index]);

const CONST = 0x41, CALL = 0x10, BR_TABLE = 0x0E, WRAP = 0xA7;
const PUSHES = new Set([0x20, 0x23, 0x42]); // local.get, global.get, i64.const
const SHIFTS = new Set([0x87, 0x88]); // i64.shr_s and i64.shr_u, by which the high word is made

/** How many numbers follow an opcode; undefined for opcodes that are not of version 1, or that have other fields. */
const NUMBERS = Array.from({length: 256}, (_, op) => {
  if ([0x00, 0x01, 0x05, 0x0B, 0x0F, 0x1A, 0x1B].includes(op) || (op >= 0x45 && op <= 0xC4)) return 0;
  if ([0x02, 0x03, 0x04, 0x0C, 0x0D, 0x3F, 0x40].includes(op) || (op >= 0x20 && op <= 0x24)) return 1;
  return op === 0x11 || (op >= 0x28 && op <= 0x3E) ? 2 : undefined;
});

/**
 * Tells each call, in a body, of a function from `first` to before `first + counts.length`: its place among these, and its last
 * arguments, each a constant or undefined. Answers false if an instruction is not of version 1; nothing behind it is told.
 * @param {Reader} body
 * @param {number} first
 * @param {number[]} counts how many arguments each of these functions has
 * @param {(place: number, args: (number | undefined)[]) => void} tell
 */
export function callsIn(body, first, counts, tell) {
  const reader = new Reader(body.bytes, body.at, body.end);
  reader.list(it => (it.skip(), it.byte())); // locals
  /** @type {(number | undefined)[]} */
  let pushed = []; // by the instructions behind the last one that is neither a constant nor moves or splits a value
  while (reader.left > 0) {
    const op = reader.byte();
    if (op === CONST) pushed.push(reader.signed());
    else if (PUSHES.has(op)) {
      reader.skip();
      pushed.push(undefined);
    } else if (op === WRAP) pushed.splice(-1, 1, undefined);
    else if (SHIFTS.has(op)) pushed.splice(-2, 2, undefined);
    else {
      if (op === CALL) {
        const place = reader.number() - first, count = counts[place];
        if (count !== undefined) tell(place, pushed.length < count ? Array(count).fill(undefined) : pushed.slice(pushed.length - count));
      } else if (op === BR_TABLE) {
        reader.list(it => it.skip());
        reader.skip();
      } else {
        const numbers = NUMBERS[op];
        if (numbers === undefined) return false;
        for (let left = numbers; left > 0; left--) reader.skip();
      }
      pushed = [];
    }
  }
  return true;
}
