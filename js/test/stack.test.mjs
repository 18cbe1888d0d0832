// The stack of open functions follows traps and re-entries by itself, and exports are the instance's own.
import assert from "node:assert/strict";
import test from "node:test";
import {host, informationWith, moduleOf, op, sample} from "../fixtures/modules.mjs";
import {start} from "../wasabi.mjs";

test("exports are the instance's own", async () => {
  const {output, information} = sample();
  const run = await start(output, information, {}, host);
  assert.equal(run.exports, run.instance?.exports);
  assert.equal(run.exports.f.length, 1);
  run.exports.table.set(1, run.exports.h);
  assert.equal(run.exports.table.get(1), run.exports.h);
  assert.deepEqual(run.partsOf(1), [{kind: "function", begin: -1, end: 3, target: 4}]);
  assert.deepEqual([run.partsOf(0), run.partsOf(9)], [[], []]);
});

for (const calls of [false, true]) {
  test(`the stack follows traps and re-entries ${calls ? "by calls" : "by the engine's stack"}`, async () => {
    const {output, information} = sample({calls});
    /** @type {number[][]} */
    const seen = [];
    let back = () => {};
    const run = await start(output, information, {begin(_, {stack}) { seen.push([...stack]); }}, {env: {back: () => back()}});
    const {f, g, h, r} = run.exports;
    const traps = (/** @type {() => any} */ called) => assert.throws(called, WebAssembly.RuntimeError);
    const during = (/** @type {() => any} */ called) => {
      seen.length = 0;
      called();
      return structuredClone(seen);
    };
    assert.deepEqual(during(() => h(1)), [[3], [3, 1]]);
    traps(g);
    assert.deepEqual(run.stack, []);
    assert.deepEqual(during(() => h(1)), [[3], [3, 1]]);
    traps(g);
    assert.deepEqual(during(() => f(1)), [[1]]);
    back = () => {
      traps(g);
      assert.deepEqual(run.stack, [4]);
      assert.deepEqual(run.parts, [{func: 4, kind: "function", begin: -1}]);
      f(1);
    };
    assert.deepEqual(during(r), [[4], [4, 2], [4, 1]]);
    assert.deepEqual(run.parts, []);
    back = () => { throw new Error("of the host"); };
    assert.throws(r, /of the host/);
    assert.deepEqual(during(() => h(1)), [[3], [3, 1]]);
    back = () => {
      back = () => { throw new Error("inner"); };
      assert.throws(r, /inner/);
      assert.deepEqual(run.stack, [4]);
      h(1);
    };
    assert.deepEqual(during(r), [[4], [4, 4], [4, 3], [4, 3, 1]]);
    traps(g);
    run.exports.table.set(1, h);
    assert.deepEqual(during(() => run.exports.table.get(1)(1)), [[3], [3, 1]]);
  });
}

test("if a callback threw, the stack shows where, until the next call", async () => {
  const {output, information} = sample();
  let fails = true;
  const run = await start(output, information, {binary() { if (fails) throw new Error("mine"); }}, host);
  assert.throws(() => run.exports.h(1), /mine/);
  assert.deepEqual(run.stack, [3, 1]);
  fails = false;
  run.exports.f(1);
  assert.deepEqual(run.stack, []);
});

test("functions of the host keep their arguments, their results and what they throw", async () => {
  for (const [params, results] of [["", ""], ["i", "i"], ["il", "l"], ["iii", "il"]]) {
    const output = moduleOf({types: [[params, results], ["iii", ""], ["ii", ""]], imports: [["env", "e", 0], ["__wasabi_hooks", "begin_function", 2], ["__wasabi_hooks", "end_function", 1]],
      functions: [[0, [op.const(1), op.const(-1), op.call(1), ...[...params].map((_, at) => op.get(at)), op.call(0), op.const(1), op.const(params.length + 1), op.const(-1), op.call(2)]]], exports: [["f", 0, 3]]});
    const information = informationWith({functions: [[params, results], [params, results, [[0, -1, params.length + 1, params.length + 2]], []]], hooks: ["begin_function", "end_function"], imports: 1});
    const args = [...params].map((letter, at) => (letter === "l" ? BigInt(at) : at)), values = [...results].map((letter, at) => (letter === "l" ? BigInt(at + 5) : at + 5));
    const answer = values.length > 1 ? values : values[0];
    /** @type {any[]} */
    const seen = [];
    const run = await start(output, information, {}, {env: {e(/** @type {any[]} */ ...given) { seen.push(...given); return answer; }}});
    assert.deepEqual(run.exports.f(...args), answer);
    assert.deepEqual(seen, args);
  }
});

test("deep stacks grow", async () => {
  const output = moduleOf({types: [["i", "i"], ["ii", ""], ["iii", ""]], imports: [["__wasabi_hooks", "begin_function", 1], ["__wasabi_hooks", "end_function", 2]],
    functions: [[0, [op.const(0), op.const(-1), op.call(0), op.get(0), [0x04, 0x40], op.get(0), op.const(-1), op.add, op.call(2), op.drop, op.end, op.get(0),
      op.const(0), op.const(9), op.const(-1), op.call(1)]]],
    exports: [["f", 0, 2]]});
  const information = informationWith({functions: [["i", "i", [[0, -1, 9, 10]], []]], hooks: ["begin_function", "end_function"]});
  let deepest = 0;
  const run = await start(output, information, {begin(_, {stack}) { deepest = Math.max(deepest, stack.length); }}, {}, {check: false});
  run.exports.f(500); // calls itself 500 times
  assert.equal(deepest, 501);
  assert.deepEqual(run.stack, []);
});

/**
 * An output in which f(slot) calls through the table, with the group call.
 * @param {{imported?: boolean, exported?: boolean}} given
 */
function through({imported = false, exported = false}) {
  const output = moduleOf({
    types: [["i", ""], ["", ""], ["iiii", ""]],
    imports: [...(imported ? /** @type {[string, string, "table"][]} */ ([["env", "table", "table"]]) : []), ["__wasabi_hooks", "call_indirect_pre_", 2]],
    functions: [[1, []], [0, [op.const(1), op.const(1), op.const(1), op.get(0), op.call(0), op.get(0), op.indirect(1)]]],
    ...(imported ? {} : {table: 4}), elements: [1],
    exports: [["f", 0, 2], ["e", 0, 1], ...(exported ? /** @type {[string, number, number][]} */ ([["t", 1, 0]]) : [])],
  });
  return {output, information: informationWith({functions: [["", "", [[0, -1, 0, 1]], []], ["i", "", [[0, -1, 2, 3]], []]], groups: ["call"], hooks: ["call_indirect_pre_"]})};
}

test("a function of another instance in the table is no function of this module", async () => {
  const other = moduleOf({types: [["", ""]], functions: [[0, []], [0, []]], exports: [["a", 0, 0], ["b", 0, 1]]});
  const foreign = /** @type {any} */ (new WebAssembly.Instance(new WebAssembly.Module(other)).exports);
  for (const given of [{imported: true}, {exported: true}, {}]) {
    const {output, information} = through(given);
    /** @type {any[]} */
    const told = [];
    const table = new WebAssembly.Table({element: "anyfunc", initial: 4});
    const run = await start(output, information, {call_indirect_pre: ({callee}) => told.push(callee)}, {env: {table}});
    const shared = run.exports.t ?? (given.imported ? table : undefined);
    run.exports.f(0);
    if (shared) {
      shared.set(1, foreign.b); // its name is 1, as that of the first function of the output
      run.exports.f(1);
      shared.set(2, run.exports.e);
      run.exports.f(2);
    }
    assert.throws(() => run.exports.f(3), WebAssembly.RuntimeError);
    assert.throws(() => run.exports.f(9), WebAssembly.RuntimeError);
    assert.deepEqual(told, shared ? [0, null, 0, null, null] : [0, null, null]);
  }
  const {output, information} = through({});
  /** @type {any[]} */
  const told = [];
  (await start(new WebAssembly.Module(output), information, {call_indirect_pre: ({callee}) => told.push(callee)})).exports.f(0);
  assert.deepEqual(told, [undefined]); // without bytes, a table that is not exported is not known
});

test("a call through the table that traps is not taken for the next call of the host", async () => {
  const told = (/** @type {number} */ hook, /** @type {number[]} */ ...words) => [...words.flatMap(op.const), ...op.call(hook)];
  const output = moduleOf({
    types: [["i", ""], ["", ""], ["ii", ""], ["iii", ""], ["iiii", ""]],
    imports: [["__wasabi_hooks", "begin_function", 2], ["__wasabi_hooks", "end_function", 3], ["__wasabi_hooks", "call_indirect_pre_", 4]],
    functions: [[0, [told(0, 0, -1), told(1, 0, 0, -1)]],
      [0, [told(0, 1, -1), [...op.const(1), ...op.const(1), ...op.const(1), ...op.get(0), ...op.call(2)], op.get(0), op.indirect(1), told(1, 1, 2, -1)]]],
    table: 2, elements: [3], exports: [["g", 0, 3], ["f", 0, 4]],
  });
  const information = informationWith({functions: [["i", "", [[0, -1, 0, 1]], []], ["i", "", [[0, -1, 2, 3]], []]], groups: ["begin", "end", "call"],
    hooks: ["begin_function", "end_function", "call_indirect_pre_"]});
  for (const given of [output, new WebAssembly.Module(output)]) {
    for (const callbacks of [{}, {call_indirect_pre() {}}]) {
      /** @type {number[][]} */
      const seen = [];
      const run = await start(given, information, {...callbacks, begin(_, {stack}) { seen.push([...stack]); }});
      assert.throws(() => run.exports.f(0), WebAssembly.RuntimeError); // the function in the slot takes an argument
      run.exports.g(1);
      assert.deepEqual(seen, [[1], [0]]);
    }
  }
});

test("functions without hooks, which were not selected, are passed over", async () => {
  const told = (/** @type {number} */ hook, /** @type {number[]} */ ...words) => [...words.flatMap(op.const), ...op.call(hook)];
  const facts = [["", "", [[0, -1, 1, 2]], []], ["", "", [[0, -1, 2, 3], [1, 0, 1, 2]], []], ["", "", [[0, -1, 1, 2]], []]];
  for (const calls of [[], told(2, 2, 0, 1)]) { // with the group call, and without it
    const output = moduleOf({
      types: [["", ""], ["ii", ""], ["iii", ""]],
      imports: [["__wasabi_hooks", "begin_function", 1], ["__wasabi_hooks", "end_function", 2], ["__wasabi_hooks", "call_pre_", 2]],
      functions: [[0, [told(0, 0, -1), told(1, 0, 1, -1)]], [0, [op.block, op.end, op.call(3), op.call(3)]], [0, [told(0, 2, -1), calls, op.call(4), told(1, 2, 1, -1)]]],
      exports: [["inner", 0, 3], ["outer", 0, 5]],
    });
    const information = informationWith({functions: facts, groups: ["begin", "end", "call"], hooks: ["begin_function", "end_function", "call_pre_"]});
    /** @type {number[][]} */
    const seen = [];
    const run = await start(output, information, {begin(_, {stack}) { seen.push([...stack]); }});
    run.exports.outer(); // calls the function without hooks, which calls the inner one twice
    assert.deepEqual(seen, [[2], [2, 0], [2, 0]]);
    assert.deepEqual(run.stack, []);
  }
});
