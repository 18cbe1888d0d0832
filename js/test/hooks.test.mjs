// What names of hooks say, compared with docs/HOOKS.md and with the words of the calculator's hooks counted by hand.
import assert from "node:assert/strict";
import test from "node:test";
import {EVENTS, GROUPS, KINDS, OPCODES, bytesOf, groupOf, hookNamed, wordsOf} from "../hooks.mjs";
import {joined, listerOf, valuesOf} from "../values.mjs";

test("each name says the event, the types of the values, and the instruction", () => {
  /** @type {Record<string, [event: string, letters: string, op?: string]>} */
  const told = {
    start: ["start", ""], nop: ["nop", ""], unreachable: ["unreachable", ""], if: ["if", "i"], br: ["br", "ii"], br_if: ["br_if", "iii"], br_table: ["br_table", "i"],
    begin_function: ["begin", ""], begin_else: ["begin", ""], end_loop: ["end", "i"], "i32.const": ["const", "i", "i32.const"], "i64.const": ["const", "l", "i64.const"],
    "i32.clz": ["unary", "ii", "i32.clz"], "i64.eqz": ["unary", "li", "i64.eqz"], "i32.wrap_i64": ["unary", "li", "i32.wrap_i64"], "i64.extend_i32_u": ["unary", "il", "i64.extend_i32_u"],
    "i64.extend32_s": ["unary", "ll", "i64.extend32_s"], "i32.add": ["binary", "iii", "i32.add"], "i64.lt_s": ["binary", "lli", "i64.lt_s"], "i64.ne": ["binary", "lli", "i64.ne"],
    "i64.rotr": ["binary", "lll", "i64.rotr"], drop_l: ["drop", "l"], select_i: ["select", "iii"], select_l: ["select", "lli"], "local.get_i": ["local", "ii", "local.get"],
    "local.tee_l": ["local", "il", "local.tee"], "global.set_l": ["global", "il", "global.set"], "i32.load8_u": ["load", "iii", "i32.load8_u"], "i64.store32": ["store", "iil", "i64.store32"],
    "memory.size": ["memory_size", "i"], "memory.grow": ["memory_grow", "ii"], call_pre_: ["call_pre", "i"], call_pre_il: ["call_pre", "iil"], call_indirect_pre_l: ["call_indirect_pre", "iil"],
    call_post_: ["call_post", ""], call_post_l: ["call_post", "l"], return_: ["return", ""], return_il: ["return", "il"],
  };
  for (const [name, [event, letters, op = ""]] of Object.entries(told)) {
    const hook = hookNamed(name);
    assert.deepEqual([hook.name, hook.event, hook.letters, hook.op], [name, event, letters, op]);
  }
  assert.equal(hookNamed("begin_else").kind, KINDS.indexOf("else"));
  assert.equal(hookNamed("call_pre_il").types, "il");
  assert.equal(hookNamed("nop").kind, -1);
});

test("a name of no hook is refused", () => {
  for (const name of ["", "noop", "f32.add", "i32.wrap", "i32.store32", "drop", "drop_", "drop_ii", "select_f", "begin_", "begin_loops", "call_pre", "constructor_", "__proto___", "toString"]) {
    assert.throws(() => hookNamed(name), {name: "InformationError", message: `no hook is named ${name}`});
  }
});

test("events, groups and opcodes are those of the documents", () => {
  assert.equal(EVENTS.length, 24);
  assert.equal(GROUPS.length, 22);
  assert.deepEqual(["call_pre", "call_post", "br_table"].map(groupOf), ["call", "call", "br_table"]);
  /** @type {Record<string, number>} opcodes of the standard, 5.4 */
  const standard = {"i32.load": 0x28, "i64.load": 0x29, "i32.load16_u": 0x2F, "i64.load32_u": 0x35, "i32.store": 0x36, "i64.store": 0x37, "i32.store16": 0x3B, "i64.store32": 0x3E,
    "i32.const": 0x41, "i64.const": 0x42, "i32.eqz": 0x45, "i32.ge_u": 0x4F, "i64.eqz": 0x50, "i64.ge_u": 0x5A, "i32.clz": 0x67, "i32.rotr": 0x78, "i64.clz": 0x79, "i64.rotr": 0x8A,
    "i32.wrap_i64": 0xA7, "i64.extend_i32_s": 0xAC, "i64.extend_i32_u": 0xAD, "i32.extend8_s": 0xC0, "i32.extend16_s": 0xC1, "i64.extend32_s": 0xC4};
  for (const [name, code] of Object.entries(standard)) assert.equal(OPCODES.get(name), code, name);
  assert.equal(OPCODES.size, 12 + 7 + 2 + 22 + 36 + 3 + 5); // loads, stores, constants, comparisons, computations, conversions, extensions
  assert.equal(new Set(OPCODES.values()).size, OPCODES.size);
});

test("values are read from words", () => {
  assert.deepEqual(["i32.load", "i64.load", "i32.load8_s", "i64.store16", "i64.load32_u"].map(bytesOf), [4, 8, 1, 2, 4]);
  assert.deepEqual(["", "i", "l", "ilil"].map(wordsOf), [0, 1, 2, 6]);
  assert.deepEqual([joined(0, 0), joined(-1, -1), joined(-1, 0), joined(0, -2147483648), joined(1, 2)], [0n, -1n, 4294967295n, -(2n ** 63n), 8589934593n]);
  const words = [7, -1, -1, 3, 1, 0];
  assert.deepEqual(valuesOf("ilil", words), [7, -1n, 3, 1n]);
  for (const letters of ["", "i", "l", "ii", "il", "li", "ll", "iii", "iiii", "lil", "ilil", "iil"]) {
    const [a, b, c, d, ...more] = words;
    assert.deepEqual(listerOf(letters)(a, b, c, d, more), valuesOf(letters, words), letters);
  }
});
