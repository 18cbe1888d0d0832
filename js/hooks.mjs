// What the name of a hook says: which event its calls tell, and which values they have. docs/HOOKS.md has the rules.
import {InformationError} from "./errors.mjs";

/**
 * @typedef {object} Hook
 * @property {string} name
 * @property {string} event
 * @property {string} op the name of the instruction, or "" if the event has none
 * @property {number} kind the place of a part's kind in KINDS, or -1
 * @property {string} letters the types of the values behind the function and the position, i for i32 and l for i64
 * @property {string} types the letters at the end of the name
 */

export const KINDS = /** @type {const} */ (["function", "block", "loop", "if", "else"]);

/** The events, in the order of their tags in a trace. */
export const EVENTS = /** @type {const} */ ([
  "start", "nop", "unreachable", "if", "br", "br_if", "br_table", "begin", "end", "const", "unary", "binary", "drop", "select",
  "local", "global", "load", "store", "memory_size", "memory_grow", "call_pre", "call_indirect_pre", "call_post", "return",
]);

/**
 * The group whose hooks tell an event.
 * @param {string} event
 */
export const groupOf = event => (event.startsWith("call_") ? "call" : event);

export const GROUPS = [...new Set(EVENTS.map(groupOf))];

/**
 * The opcodes of the instructions that give hooks their names.
 * @type {Map<string, number>}
 */
export const OPCODES = new Map();

/**
 * @param {number} first the opcode of the first name
 * @param {string} prefix
 * @param {string} names
 */
const numbered = (first, prefix, names) => names.split(" ").forEach((name, place) => OPCODES.set(prefix + name, first + place));
const COMPARED = "eqz eq ne lt_s lt_u gt_s gt_u le_s le_u ge_s ge_u";
const COMPUTED = "clz ctz popcnt add sub mul div_s div_u rem_s rem_u and or xor shl shr_s shr_u rotl rotr";
numbered(0x28, "", "i32.load i64.load");
numbered(0x2C, "i32.", "load8_s load8_u load16_s load16_u");
numbered(0x30, "i64.", "load8_s load8_u load16_s load16_u load32_s load32_u");
numbered(0x36, "", "i32.store i64.store");
numbered(0x3A, "i32.", "store8 store16");
numbered(0x3C, "i64.", "store8 store16 store32");
numbered(0x41, "", "i32.const i64.const");
numbered(0x45, "i32.", COMPARED);
numbered(0x50, "i64.", COMPARED);
numbered(0x67, "i32.", COMPUTED);
numbered(0x79, "i64.", COMPUTED);
numbered(0xA7, "", "i32.wrap_i64");
numbered(0xAC, "i64.", "extend_i32_s extend_i32_u");
numbered(0xC0, "i32.", "extend8_s extend16_s");
numbered(0xC2, "i64.", "extend8_s extend16_s extend32_s");

/**
 * How many bytes a load or a store uses.
 * @param {string} op
 */
export const bytesOf = op => Number(/(?:load|store)(\d+)/.exec(op)?.[1] ?? op.slice(1, 3)) / 8;

/**
 * How many words values of these types are.
 * @param {string} letters
 */
export const wordsOf = letters => letters.length + (letters.split("l").length - 1);

/**
 * Hooks of one name each: the event, and the letters of the values.
 * @type {Map<string, [event: string, letters: string]>}
 */
const SINGLE = new Map([
  ["start", ["start", ""]], ["nop", ["nop", ""]], ["unreachable", ["unreachable", ""]], ["if", ["if", "i"]], ["br", ["br", "ii"]],
  ["br_if", ["br_if", "iii"]], ["br_table", ["br_table", "i"]], ["memory.size", ["memory_size", "i"]], ["memory.grow", ["memory_grow", "ii"]],
]);

/**
 * Hooks whose names end in one letter: the event, and the letters of the values.
 * @type {Map<string, [event: string, lettersOf: (type: string) => string]>}
 */
const OF_ONE_TYPE = new Map([
  ["drop", ["drop", type => type]],
  ["select", ["select", type => `${type}${type}i`]],
  ...["local.get", "local.set", "local.tee", "global.get", "global.set"].map(
    op => /** @type {[string, [string, (type: string) => string]]} */ ([op, [op.split(".")[0], type => `i${type}`]])),
]);

/**
 * Hooks whose names end in the letters of a list: the letters of the values before the list.
 * @type {Map<string, string>}
 */
const OF_A_LIST = new Map([["call_pre", "i"], ["call_indirect_pre", "ii"], ["call_post", ""], ["return", ""]]);

const OPERANDS = new Map([["i32.wrap_i64", "l"], ["i64.extend_i32_s", "i"], ["i64.extend_i32_u", "i"]]);

/**
 * The event and the letters of a hook that is named as its instruction is.
 * @param {string} op
 * @returns {[event: string, letters: string]}
 */
function ofInstruction(op) {
  const own = op.startsWith("i32.") ? "i" : "l";
  if (op.endsWith(".const")) return ["const", own];
  const [, access] = /\.(load|store)/.exec(op) ?? [];
  if (access) return [access, `ii${own}`];
  const operand = OPERANDS.get(op) ?? own;
  const result = /\.(eqz?|ne|[lg][te]_[su])$/.test(op) ? "i" : own;
  return /\.(clz|ctz|popcnt|eqz|wrap_i64|extend\w*)$/.test(op) ? ["unary", operand + result] : ["binary", operand + operand + result];
}

/**
 * What the calls of a hook of this name tell.
 * @param {string} name
 * @returns {Hook}
 */
export function hookNamed(name) {
  const hook = {name, event: "", op: "", kind: -1, letters: "", types: ""};
  const [, part, kind] = /^(begin|end)_(function|block|loop|if|else)$/.exec(name) ?? [];
  if (part) return {...hook, event: part, kind: KINDS.findIndex(it => it === kind), letters: part === "end" ? "i" : ""};
  const single = SINGLE.get(name);
  if (single) return {...hook, event: single[0], letters: single[1]};
  if (OPCODES.has(name)) {
    const [event, letters] = ofInstruction(name);
    return {...hook, event, op: name, letters};
  }
  const [, stem = "", types = ""] = /^(.*)_([il]*)$/.exec(name) ?? [];
  const ofOne = types.length === 1 ? OF_ONE_TYPE.get(stem) : undefined;
  if (ofOne) return {...hook, event: ofOne[0], op: stem.includes(".") ? stem : "", letters: ofOne[1](types), types};
  const before = OF_A_LIST.get(stem);
  if (before === undefined) throw new InformationError(`no hook is named ${name}`);
  return {...hook, event: stem, letters: before + types, types};
}
