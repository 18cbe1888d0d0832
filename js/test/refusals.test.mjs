// Each refusal of the runtime, by its class and its sentence.
import assert from "node:assert/strict";
import test from "node:test";
import {host, informationWith, moduleOf, op, sample} from "../fixtures/modules.mjs";
import {CallError, CallbackError, InformationError, MissingImportError, OptionError, Run, StackError, WasabiError, start} from "../wasabi.mjs";

/**
 * @param {Promise<any> | (() => any)} given
 * @param {any} kind
 * @param {RegExp} form
 */
async function refused(given, kind, form) {
  const error = await (typeof given === "function" ? Promise.resolve().then(given) : given).then(() => assert.fail("it is not refused"), it => it);
  assert.ok(error instanceof kind, String(error.stack));
  assert.match(error.message, form);
  assert.equal(error.name, kind.name);
}

/** @param {(information: any) => any} change */
async function other(change) {
  const {output, information} = sample();
  return start(output, change(structuredClone(information)) ?? assert.fail(), {}, host);
}

/** @param {(information: any) => void} edit */
const edited = edit => other(information => (edit(information), information));

test("information that is none is refused, with what it lacks", async () => {
  const {output} = sample();
  const given = (/** @type {any} */ information) => start(output, information, {}, host);
  await refused(given({}), InformationError, /lacks dropped, functions, groups, hooks, imports, version; it is what instrument --info writes/);
  await refused(given("{"), InformationError, /is not JSON: /);
  await refused(given(undefined), InformationError, /is no object/);
  await refused(given("[]"), InformationError, /is no object/);
  await refused(given(new TextEncoder().encode("3")), InformationError, /is no object/);
  await refused(other(it => ({...it, version: 2})), InformationError, /has version 2, and this runtime reads version 1/);
  await refused(other(it => ({...it, dropped: [1]})), InformationError, /dropped, groups and hooks are lists of texts/);
  await refused(other(it => ({...it, groups: ["begin", "begin"]})), InformationError, /is there twice/);
  await refused(other(it => ({...it, groups: ["begun"]})), InformationError, /no group is named begun/);
  await refused(other(it => ({...it, imports: 9})), InformationError, /at most the number of functions/);
  await refused(other(it => ({...it, imports: 0})), InformationError, /not of its form at function 0/);
  await refused(edited(it => { it.functions[1][1] = "f"; }), InformationError, /not of its form at function 1: its types/);
  for (const blocks of [[], 3, [[0, -1, 3, 5]], [[1, -1, 3, 4]], [[0, -1, 3, 4], [1, 2, 5, 6]], [[0, -1, 3, 4], [0, 1, 2, 3]], [[0, -1, 3, 4], [2, 1, 2, 3]],
    [[0, -1, 3, 4], [5, 1, 2, 3]], [[0, -1, 9, 10], [1, 3, 5, 6], [1, 2, 7, 8]], [[0, -1, 9]]]) {
    await refused(edited(it => { it.functions[1][2] = blocks; }), InformationError, /not of its form at function 1: its blocks/);
  }
  for (const tables of [3, [[1, [3]]], [[1, []]], [[9, [0]]], [[1, [0]], [1, [0]]], [[-1, [0]]]]) {
    await refused(edited(it => { it.functions[1][3] = tables; }), InformationError, /not of its form at function 1: its tables of labels/);
  }
});

test("information of another module is refused, with the difference", async () => {
  const foreign = (/** @type {RegExp} */ form) => new RegExp(`^the information does not belong to the module: .*${form.source}`);
  await refused(edited(it => { it.functions.pop(); }), InformationError, foreign(/has 5 functions besides hooks, and the information has 4/));
  await refused(edited(it => { it.functions[1][0] = "l"; }), InformationError, foreign(/function 1 is of type \(i\) to \(i\), and by the information of type \(l\) to \(i\)/));
  await refused(edited(it => { it.functions[1][2] = [[0, -1, 1, 2]]; }), InformationError, foreign(/function 1 has no i32.add at 2/));
  await refused(edited(it => { it.functions[1][2] = [[0, -1, 4, 5]]; }), InformationError, foreign(/function 1 has no end_function at 3/));
  await refused(edited(it => { it.functions[1][2].push([1, 0, 2, 3]); }), InformationError, foreign(/function 1 begins 1 parts, and by the information 2/));
  await refused(edited(it => { it.functions[1][3] = [[1, [0]]]; }), InformationError, foreign(/function 1 has 0 tables of labels, and by the information 1/));
  await refused(edited(it => { it.hooks[2] = "i32.sub"; }), InformationError, foreign(/hook 2 of the module is i32.add, and by the information i32.sub/));
  await refused(edited(it => { it.hooks.pop(); }), InformationError, foreign(/the module has 3 hooks, and the information has 2/));
  await refused(other(it => ({...it, imports: 2, functions: [["", ""], ...it.functions]})), InformationError, foreign(/imports 1 functions besides hooks, and the information has 2/));
  await start(sample().output, informationWith({...sample().information, functions: sample().information.functions.with?.(2, ["", "", [[0, -1, 1, 2]], []]) ?? sample().information.functions}), {}, host);
});

test("positions are compared only if that is not switched off, and if there are bytes", async () => {
  const {output, information} = sample();
  const stale = structuredClone(information);
  stale.functions[1][2] = [[0, -1, 7, 8]];
  await refused(start(output, stale, {}, host), InformationError, /has no end_function at 3/);
  await start(output, stale, {}, host, {check: false});
  const module = new WebAssembly.Module(output);
  await start(module, stale, {}, host);
  await refused(start(module, stale, {}, host, {bytes: output}), InformationError, /has no end_function at 3/);
});

test("branches, called functions, results and hooks of other functions are compared too", async () => {
  /** @type {[name: string, words: number[], group: string, form: RegExp | undefined][]} */
  const cases = [
    ["br", [0, 3, 0, 9], "br", undefined], ["br", [0, 3, 0, 8], "br", /has no br at 3/], ["br", [0, 3, 2, 9], "br", /has no br at 3/],
    ["br_if", [0, 3, 1, 10, 1], "br_if", undefined], ["br_if", [0, 3, 1, 9, 1], "br_if", /has no br_if at 3/],
    ["br_table", [0, 5, 0], "br_table", undefined], ["br_table", [0, 4, 0], "br_table", /has no br_table at 4/],
    ["end_block", [0, 8, 1], "nop", undefined], ["end_block", [0, 8, 2], "nop", /has no end_block at 8/], ["end_loop", [0, 8, 1], "nop", /has no end_loop at 8/],
    ["call_pre_", [0, 2, 0], "call", undefined], ["call_pre_i", [0, 2, 0, 1], "call", /has no call_pre_i at 2/], ["call_pre_", [0, 2, 7], "call", /has no call_pre_ at 2/],
    ["return_", [0, 9], "return", undefined], ["return_i", [0, 9, 1], "return", /has no return_i at 9/],
    ["nop", [0, 10], "nop", /has no nop at 10/], ["nop", [0, -1], "nop", /has no nop at -1/], ["nop", [1, 3], "nop", /function 0 tells events of function 1/],
    ["nop", [0, 3, 3], "nop", /the hook nop is of type \(iii\) to \(\), and takes 2 words/], ["noop", [0, 3], "nop", /no hook is named noop/],
  ];
  const {telling} = await import("../fixtures/modules.mjs");
  for (const [name, words, group, form] of cases) {
    const {output, information} = telling([[name, words]], [group]);
    if (form) await refused(start(output, information), InformationError, form);
    else await start(output, information);
  }
});

test("what is no output, and the original, are told apart", async () => {
  const {information} = sample();
  await refused(start(/** @type {any} */ ("text"), information, {}, host), InformationError, /neither bytes nor a WebAssembly.Module/);
  const original = moduleOf({types: [["", ""]], imports: [["env", "back", 0]]});
  await refused(start(original, information, {}, host), InformationError, /the module may be the original, not its output/);
  await refused(() => new Run(/** @type {any} */ (original), information), InformationError, /no WebAssembly.Module; start takes bytes too/);
  const before = moduleOf({types: [["", ""], ["ii", ""]], imports: [["__wasabi_hooks", "nop", 1], ["env", "back", 0]]});
  await refused(start(before, informationWith({functions: [["", ""]], hooks: ["nop"], imports: 1}), {}, host), InformationError, /a hook of the module comes before another import/);
});

test("information is taken as text, as bytes and parsed, and so is the module", async () => {
  const {output, information} = sample();
  const text = JSON.stringify(information);
  for (const given of [information, text, new TextEncoder().encode(text), new TextEncoder().encode(text).buffer]) {
    assert.equal((await start(output, given, {}, host)).exports.f(1), 2);
    assert.equal(new Run(new WebAssembly.Module(output), given, {}, host).information.version, 1);
  }
  for (const given of [output, output.buffer, new DataView(output.buffer), new WebAssembly.Module(output)]) {
    assert.equal((await start(given, information, {}, host)).exports.f(1), 2);
  }
});

test("a missing import is a LinkError that names all of them, and zeros are to be asked for", async () => {
  const {output, information} = sample();
  await refused(start(output, information), MissingImportError, /^the imports lack the function env\.back$/);
  await assert.rejects(start(output, information, {}, {env: {bakc() {}}}), it => it instanceof WebAssembly.LinkError && it.missing[0].name === "back");
  assert.equal((await start(output, information, {}, {}, {missing: "zeros"})).exports.r(), undefined);
  const own = moduleOf({types: [["", "il"]], imports: [["env", "two", 0], ["env", "table", "table"]], functions: [[0, [op.call(0)]]], exports: [["f", 0, 1]]});
  const facts = informationWith({functions: [["", "il"], ["", "il", [[0, -1, 1, 2]], []]], groups: [], imports: 1});
  await refused(start(own, facts), MissingImportError, /the function env\.two, the table env\.table/);
  await refused(start(own, facts, {}, {}, {missing: "zeros"}), MissingImportError, /^the imports lack the table env\.table$/);
  const table = new WebAssembly.Table({element: "anyfunc", initial: 1});
  assert.deepEqual((await start(own, facts, {}, {env: {table}}, {missing: "zeros"})).exports.f(), [0, 0n]);
});

test("a module that imports from __proto__ changes no object", async () => {
  const output = moduleOf({types: [["", ""]], imports: [["__proto__", "f", 0]], functions: [[0, []]], exports: [["__proto__", 0, 1]]});
  const information = informationWith({functions: [["", ""], ["", "", [[0, -1, 0, 1]], []]], imports: 1, groups: []});
  const run = await start(output, information, {}, JSON.parse('{"__proto__": {}}'), {missing: "zeros"});
  assert.equal(/** @type {any} */ ({}).f, undefined);
  assert.equal(run.call("__proto__"), undefined);
  assert.equal(typeof Object.getOwnPropertyDescriptor(run.exports, "__proto__")?.value, "function");
});

test("a misspelt callback is refused on objects and classes, and state is allowed", async () => {
  const {output, information} = sample();
  class Counting {
    count = 0;
    places = [];
    begin() { this.add(); }
    add() { this.count++; }
    summary() { return this.count; }
  }
  class Ending extends Counting {
    end() { this.count += 10; }
  }
  const plain = {count: 0, begin() { this.count++; }}, counting = new Counting(), ending = new Ending();
  for (const callbacks of [plain, counting, ending]) (await start(output, information, callbacks, host)).exports.f(1);
  assert.deepEqual([plain.count, counting.summary(), ending.summary()], [1, 1, 11]);
  const wrong = (/** @type {any} */ callbacks) => refused(start(output, information, callbacks, host), CallbackError, /^no event is named /);
  await wrong({begn() {}});
  await wrong(new class { begn() {} }());
  await wrong(new class extends Counting { onBegin() {} }());
  for (const name of ["callPre", "call", "begin_function", "i32.add", "memory.grow", "brTable", "retrun", "Load", "ends", "on_end", "strays"]) await wrong({[name]() {}});
  await wrong({raw: {binry: () => () => {}}});
  for (const name of ["add", "log", "print", "count", "of", "toJSON", "reset"]) await start(output, information, {[name]() {}, begun: 3}, host);
  await refused(start(output, information, {begin: /** @type {any} */ (3)}, host), CallbackError, /^begin is named as an event, and is no function$/);
  await refused(start(output, information, {raw: {begin: /** @type {any} */ (3)}}, host), CallbackError, /^raw.begin is named as an event/);
  await refused(start(output, information, /** @type {any} */ (3), host), CallbackError, /^the callbacks are no object$/);
  await refused(start(output, information, {raw: /** @type {any} */ (3)}, host), CallbackError, /^raw is no object$/);
});

test("a callback whose group the output lacks is refused", async () => {
  const {output, information} = sample();
  await refused(start(output, information, {load() {}}, host), CallbackError, /^the output does not tell load: it was instrumented without the group load$/);
  await refused(start(output, information, {call_pre() {}, call_post() {}, nop() {}}, host), CallbackError, /does not tell nop, call_pre, call_post: .* the groups nop, call$/);
  await refused(start(output, information, {raw: {call_post: () => () => {}}}, host), CallbackError, /without the group call$/);
  await refused(start(output, information, {br_table() {}}, host), CallbackError, /without the group br_table$/);
  await start(output, information, {raw: {br_table: () => () => {}}}, host); // with the group end, its hook tells which parts it leaves
  await start(output, information, {load() {}}, host, {unselected: "ignore"});
});

test("a stack that can't be kept is an error", async () => {
  const bare = moduleOf({types: [["", ""]], functions: [[0, []]], exports: [["f", 0, 0]]});
  const facts = (/** @type {string[]} */ ...groups) => informationWith({functions: [["", "", [[0, -1, 0, 1]], []]], groups});
  const none = await start(bare, facts());
  await refused(() => none.stack, StackError, /^there is no stack: the output lacks the groups begin, end$/);
  await refused(() => none.parts, StackError, /^there are no open parts: the output lacks the groups begin, end$/);
  const half = await start(bare, facts("end"));
  await refused(() => half.stack, StackError, /lacks the group begin$/);
  const {output, information} = sample();
  const off = await start(output, information, {}, host, {stack: false});
  await refused(() => off.stack, StackError, /the option stack is false$/);
});

test("options that there are not are refused", async () => {
  const {output, information} = sample();
  const given = (/** @type {any} */ options) => start(output, information, {}, host, options);
  await refused(given({mising: "zeros"}), OptionError, /^no option is named mising; options are missing, unselected, stack, check, bytes$/);
  await refused(given({missing: "zero"}), OptionError, /^the option missing can't be zero$/);
  await refused(given({unselected: true}), OptionError, /^the option unselected can't be true$/);
  await refused(given({stack: "no"}), OptionError, /^the option stack can't be no$/);
  await refused(() => new Run(new WebAssembly.Module(output), information, {}, host, {bytes: /** @type {any} */ (3)}), OptionError, /^the option bytes can't be 3$/);
});

test("a call that can't be made is refused", async () => {
  const {output, information} = sample();
  const run = await start(output, information, {}, host);
  /** @type {[text: string, form: RegExp][]} */
  const cases = [["f", /^f takes 1 argument, and 0 were given$/], ["k", /^no call: k; a call is written as f\(1, 2\)$/], ["k()", /^no exported function k$/],
    ["table(1)", /^no exported function table$/], ["f(1, 2)", /^f takes 1 argument, and 2 were given$/], ["f(,4)", /^f takes 1 argument, and 2 were given$/],
    ["f(x)", /^no whole number: x$/], ["f(1.5)", /^no whole number: 1.5$/], ["f( , )", /2 were given/], ["r( 1 )", /^r takes 0 arguments, and 1 was given$/],
    ["f(4294967296)", /^4294967296 is no i32$/], ["f(-2147483649)", /is no i32$/]];
  for (const [text, form] of cases) await refused(() => run.call(text), CallError, form);
  await refused(() => run.call("f", 2 ** 60), CallError, /no whole number that JavaScript keeps exactly/);
  await refused(() => run.call("f", 0.5), CallError, /no whole number that JavaScript keeps exactly/);
  assert.deepEqual([run.call("f(4)"), run.call("f", 4), run.call("f(0x10)"), run.call(" f( 4n ) "), run.call("f(4294967295)"), run.call("f", 4n)], [5, 5, 17, 5, 0, 5]);
  const unattached = new Run(new WebAssembly.Module(output), information, {}, host);
  await refused(() => unattached.call("f(1)"), CallError, /there is no instance to call/);
  unattached.attach(new WebAssembly.Instance(unattached.module, unattached.imports));
  assert.equal(unattached.call("f(1)"), 2);
});

test("an error of a callback stays what it is, and is no trap", async () => {
  const {output, information} = sample();
  const running = (/** @type {any} */ callbacks) => start(output, information, callbacks, host);
  const thrown = (/** @type {() => any} */ call) => { try { call(); } catch (error) { return error; } return assert.fail(); };
  const mine = new RangeError("mine");
  const run = await running({binary() { throw mine; }});
  for (const call of [() => run.exports.f(1), () => run.call("f(1)")]) {
    assert.equal(thrown(call), mine);
    assert.equal(run.isTrap(mine), false);
  }
  const trap = thrown(() => run.exports.g()); // no callback runs between
  assert.ok(trap instanceof WebAssembly.RuntimeError && run.isTrap(trap));
  const alike = await running({binary() { throw new WebAssembly.RuntimeError("no trap"); }});
  assert.equal(alike.isTrap(thrown(() => alike.exports.f(1))), false);
  const endless = await running({binary() { const again = () => { again(); return 1; }; again(); }});
  assert.equal(endless.isTrap(thrown(() => endless.exports.f(1))), false);
  assert.equal(run.isTrap(new Error("unreachable")), false);
  assert.equal(run.isTrap(undefined), false);
  assert.ok(new MissingImportError([]) instanceof WebAssembly.LinkError && new CallError("") instanceof WasabiError);
});
