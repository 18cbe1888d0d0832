// The fields of each event, and what a run is when its callback is called.
import assert from "node:assert/strict";
import test from "node:test";
import {host, sample, telling} from "../fixtures/modules.mjs";
import {EVENTS, Run, start} from "../wasabi.mjs";

const MINUS = [-1, -1]; // an i64
const at = {location: {func: 0, position: 5}};
/** @type {[hook: string, words: number[], group: string, event: string, fields: object][]} */
const TOLD = [
  ["start", [0, -1], "start", "start", {location: {func: 0, position: -1}}],
  ["nop", [0, 5], "nop", "nop", at],
  ["unreachable", [0, 5], "unreachable", "unreachable", at],
  ["if", [0, 5, -7], "if", "if", {...at, condition: -7}],
  ["br", [0, 5, 1, 10], "br", "br", {...at, label: 1, target: 10}],
  ["br_if", [0, 5, 0, 9, 0], "br_if", "br_if", {...at, label: 0, target: 9, condition: 0}],
  ["br_table", [0, 5, -1], "br_table", "br_table", {...at, index: 4294967295, label: 1, target: 10,
    left: [{kind: "block", begin: 1, end: 8, target: 9}, {kind: "function", begin: -1, end: 9, target: 10}]}],
  ["br_table", [0, 5, 0], "br_table", "br_table", {...at, index: 0, label: 0, target: 9, left: [{kind: "block", begin: 1, end: 8, target: 9}]}],
  ["begin_block", [0, 1], "begin", "begin", {location: {func: 0, position: 1}, kind: "block"}],
  ["end_block", [0, 8, 1], "end", "end", {location: {func: 0, position: 8}, kind: "block", begin: 1}],
  ["i32.const", [0, 5, -3], "const", "const", {...at, value: -3}],
  ["i64.const", [0, 5, ...MINUS], "const", "const", {...at, value: -1n}],
  ["i32.eqz", [0, 5, 0, 1], "unary", "unary", {...at, op: "i32.eqz", operand: 0, result: 1}],
  ["i64.eqz", [0, 5, ...MINUS, 0], "unary", "unary", {...at, op: "i64.eqz", operand: -1n, result: 0}],
  ["i64.extend_i32_s", [0, 5, -1, ...MINUS], "unary", "unary", {...at, op: "i64.extend_i32_s", operand: -1, result: -1n}],
  ["i64.ctz", [0, 5, 2, 0, 1, 0], "unary", "unary", {...at, op: "i64.ctz", operand: 2n, result: 1n}],
  ["i32.sub", [0, 5, 1, 2, -1], "binary", "binary", {...at, op: "i32.sub", first: 1, second: 2, result: -1}],
  ["i64.sub", [0, 5, 1, 0, 2, 0, ...MINUS], "binary", "binary", {...at, op: "i64.sub", first: 1n, second: 2n, result: -1n}],
  ["i64.lt_u", [0, 5, 1, 0, ...MINUS, 1], "binary", "binary", {...at, op: "i64.lt_u", first: 1n, second: -1n, result: 1}],
  ["drop_i", [0, 5, 4], "drop", "drop", {...at, value: 4}],
  ["drop_l", [0, 5, ...MINUS], "drop", "drop", {...at, value: -1n}],
  ["select_i", [0, 5, 1, 2, 3], "select", "select", {...at, first: 1, second: 2, condition: 3}],
  ["select_l", [0, 5, 1, 0, 2, 0, 3], "select", "select", {...at, first: 1n, second: 2n, condition: 3}],
  ["local.get_i", [0, 5, 2, -3], "local", "local", {...at, op: "local.get", index: 2, value: -3}],
  ["local.tee_l", [0, 5, 2, ...MINUS], "local", "local", {...at, op: "local.tee", index: 2, value: -1n}],
  ["global.set_i", [0, 5, 2, -3], "global", "global", {...at, op: "global.set", index: 2, value: -3}],
  ["global.get_l", [0, 5, 2, ...MINUS], "global", "global", {...at, op: "global.get", index: 2, value: -1n}],
  ["i32.load8_u", [0, 5, -4, -8, 255], "load", "load", {...at, op: "i32.load8_u", offset: 4294967292, address: 4294967288, bytes: 1, value: 255}],
  ["i64.load", [0, 5, 4, 8, ...MINUS], "load", "load", {...at, op: "i64.load", offset: 4, address: 8, bytes: 8, value: -1n}],
  ["i32.store", [0, 5, 4, 8, -1], "store", "store", {...at, op: "i32.store", offset: 4, address: 8, bytes: 4, value: -1}],
  ["i64.store16", [0, 5, 4, 8, ...MINUS], "store", "store", {...at, op: "i64.store16", offset: 4, address: 8, bytes: 2, value: -1n}],
  ["memory.size", [0, 5, 3], "memory_size", "memory_size", {...at, pages: 3}],
  ["memory.grow", [0, 5, -1, -1], "memory_grow", "memory_grow", {...at, pages: 4294967295, answer: -1}],
  ["call_pre_", [0, 5, 0], "call", "call_pre", {...at, callee: 0, args: []}],
  ["call_indirect_pre_il", [0, 5, 1, 7, -2, ...MINUS], "call", "call_indirect_pre", {...at, type: 1, slot: 7, callee: null, args: [-2, -1n]}],
  ["call_post_li", [0, 5, ...MINUS, 4], "call", "call_post", {...at, results: [-1n, 4]}],
  ["call_post_lil", [0, 5, ...MINUS, 4, 1, 0], "call", "call_post", {...at, results: [-1n, 4, 1n]}],
  ["return_", [0, 9], "return", "return", {location: {func: 0, position: 9}, results: []}],
];

test("each event is tried", () => assert.deepEqual(new Set(TOLD.map(([, , , event]) => event)), new Set(EVENTS)));

for (const [hook, words, group, event, fields] of TOLD) {
  test(`${hook} has its fields, and its words if they are asked for`, async () => {
    const {output, information} = telling([[hook, words]], [group]);
    const options = group === "begin" || group === "end" ? {check: false} : {}; // the function has more parts, and a table
    for (const given of [output, new WebAssembly.Module(output)]) {
      /** @type {any[]} */
      const told = [], raw = [];
      const run = await start(given, information, {[event]: (/** @type {any} */ fields, /** @type {Run} */ it) => told.push(fields, it)}, {}, options);
      run.exports.f();
      if (event === "call_indirect_pre" && given !== output) /** @type {any} */ (fields).callee = undefined; // without bytes, and without a table
      assert.deepEqual(told[0], fields);
      assert.equal(told[1], run);
      const bare = await start(given, information, {raw: {[event]: (/** @type {any} */ hook) => (/** @type {any[]} */ ...all) => raw.push([hook.name, ...all])}}, {}, options);
      bare.exports.f();
      const {label, target, left, callee} = /** @type {any} */ (fields);
      const more = event === "br_table" ? [label, target, left] : [];
      const words2 = event === "call_indirect_pre" ? [...words.slice(0, 4), callee === null ? -1 : -2, ...words.slice(4)] : words;
      assert.deepEqual(raw, [[hook, ...words2, ...more]]);
    }
  });
}

test("a br_table tells the ends of the parts that it leaves, the innermost first, whichever of its groups are there", async () => {
  const end = (/** @type {string} */ kind, /** @type {number} */ position, /** @type {number} */ begin) => ({location: {func: 0, position}, kind, begin});
  for (const groups of [["end"], ["br_table", "end"], ["begin", "end", "br_table"]]) {
    /** @type {any[]} */
    const told = [];
    const hooks = /** @type {[string, number[]][]} */ ([["begin_function", [0, -1]], ["begin_block", [0, 1]], ["br_table", [0, 5, 1]]]);
    const {output, information} = telling(groups.includes("begin") ? hooks : hooks.slice(2), groups);
    const run = await start(output, information, {end: event => told.push(event), br_table: ({label}, {information: it}) => told.push([label, it.version])}, {}, {unselected: "ignore"});
    run.exports.f();
    assert.deepEqual(told, [...(groups.includes("br_table") ? [[1, 1]] : []), end("block", 8, 1), end("function", 9, -1)]);
    if (groups.includes("begin")) assert.deepEqual(run.parts, []);
  }
});

test("a hook call that the information does not explain is a stray, and is kept from callbacks", async () => {
  const {output, information} = telling([["nop", [0, 5]], ["nop", [7, 5]], ["br_table", [0, 5, 0]], ["br_table", [0, 4, 0]]], ["nop", "br_table"]);
  /** @type {any[]} */
  const told = [], raw = [];
  const callbacks = {nop: () => told.push("nop"), br_table: () => told.push("br_table"), stray: (/** @type {any} */ call) => told.push(call)};
  (await start(output, information, callbacks, {}, {check: false})).exports.f();
  assert.deepEqual(told, ["nop", {hook: 0, words: [7, 5]}, "br_table", {hook: 1, words: [0, 4, 0]}]);
  (await start(output, information, {raw: {nop: () => (/** @type {any[]} */ ...words) => raw.push(words)}}, {}, {check: false})).exports.f();
  assert.deepEqual(raw, [[0, 5]]);
  await (await start(output, information, {stray() { told.length = 0; }}, {}, {check: false})).exports.f();
  assert.deepEqual(told, []);
  await assert.rejects(start(output, information), {name: "InformationError"}); // as it is found, if it is looked for
});

test("callbacks for events and for words get along, and are called in the order that keeps a part open", async () => {
  const {output, information} = sample();
  /** @type {any[]} */
  const told = [];
  const run = await start(output, information, {
    begin: (_, {stack}) => told.push(["begin", ...stack]),
    end: (_, {stack}) => told.push(["end", ...stack]),
    raw: {begin: (_, it) => func => told.push(["raw begin", func, ...it.stack]), end: (_, it) => func => told.push(["raw end", func, ...it.stack]), binary: hook => () => told.push(hook.op)},
  }, host);
  run.exports.h(1);
  assert.deepEqual(told, [["begin", 3], ["raw begin", 3, 3], ["begin", 3, 1], ["raw begin", 1, 3, 1], "i32.add", ["raw end", 1, 3, 1], ["end", 3, 1], ["raw end", 3, 3], ["end", 3]]);
  const none = await start(output, information, {raw: {begin: () => undefined}}, host);
  assert.equal(none.exports.h(1), 6);
});
