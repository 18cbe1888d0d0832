// What the recorder writes of small runs, counted by hand by docs/FORMATS.md; and how counts are read and added up.
import assert from "node:assert/strict";
import test from "node:test";
import {host, informationWith, sample, telling} from "../fixtures/modules.mjs";
import {Counts, Recorder, Tree} from "../recorder.mjs";
import {start} from "../wasabi.mjs";

const REPORT = "report blocks 2\nblock 1:-1 function 1\nblock 3:-1 function 1\nreport branches 0\nreport calls 1\ncall 3 1 1\nreport memory 0\nevents 7 stray 0\n";
const hex = (/** @type {Uint8Array} */ bytes) => Buffer.from(bytes).toString("hex");

test("the trace, the report and the tree of a call of a call", async () => {
  const {output, information} = sample({calls: true});
  const recorder = new Recorder(JSON.stringify(information));
  const run = await start(output, information, recorder.callbacks, host);
  assert.equal(hex(recorder.trace()), "57545231" + "00" + "00");
  run.exports.h(1);
  const TRACE = "57545231" + "08037f00" + "15030101017f05" + "08017f00" + "0c01026a7f057f017f06" + "090103007f" + "170301017f06" + "090302007f" + "0007";
  assert.equal(hex(recorder.trace()), TRACE);
  assert.equal(hex(recorder.trace()), TRACE); // asking for it does not end it
  assert.equal(recorder.report(), REPORT);
  assert.equal(recorder.report(["calls"]), "report calls 1\ncall 3 1 1\nevents 7 stray 0\n");
  assert.equal(recorder.tree(), "tree 2\nnode 0 3 1\nnode 1 1 1\n");
  assert.deepEqual(recorder.counts.rows("calls").map(({func, at, times}) => [func, at, times]), [[3, 1, 1]]);
});

test("each event is written by its tag", async () => {
  /** @type {[hook: string, words: number[], group: string, bytes: string][]} */
  const cases = [
    ["start", [0, -1], "start", "01007f"], ["nop", [0, 5], "nop", "020005"], ["unreachable", [0, 5], "unreachable", "030005"], ["if", [0, 5, -1], "if", "040005ffffffff0f"],
    ["br", [0, 5, 1, 10], "br", "050005010a"], ["br_if", [0, 5, 0, 9, 0], "br_if", "0600050009" + "00"], ["br_table", [0, 5, 200], "br_table", "070005c801010a"],
    ["i32.const", [0, 5, -65], "const", "0a00057fbf7f"], ["i64.const", [0, 5, 0, -2147483648], "const", "0a00057e8080808080808080807f"], ["i32.wrap_i64", [0, 5, -1, 0, -1], "unary", "0b0005a77effffffff0f7f7f"],
    ["i64.lt_s", [0, 5, 1, 0, 2, 0, 1], "binary", "0c0005537e017e027f01"], ["drop_l", [0, 5, 64, 0], "drop", "0d00057ec000"], ["select_i", [0, 5, 1, 2, 3], "select", "0e00057f017f0203"],
    ["select_l", [0, 5, 1, 0, 2, 0, -1], "select", "0e00057e017e02ffffffff0f"], ["local.tee_i", [0, 5, 3, 4], "local", "0f000502037f04"], ["global.get_l", [0, 5, 3, -1, -1], "global", "10000500037e7f"],
    ["i64.load32_u", [0, 5, 4, -1, 7, 0], "load", "110005" + "35" + "04ffffffff0f7e07"], ["i32.store8", [0, 5, 0, 8, 300], "store", "120005" + "3a" + "00087fac02"],
    ["memory.size", [0, 5, 3], "memory_size", "13000503"], ["memory.grow", [0, 5, 1, -1], "memory_grow", "14000501ffffffff0f"], ["call_pre_", [0, 5, 0], "call", "1500050000"],
    ["call_indirect_pre_i", [0, 5, 1, 7, -2], "call", "160005010700017f7e"], ["call_post_li", [0, 5, -1, -1, 4], "call", "170005027e7f7f04"], ["return_", [0, 9], "return", "18000900"],
  ];
  for (const [hook, words, group, bytes] of cases) {
    const {output, information} = telling([[hook, words]], [group]);
    const recorder = new Recorder(information);
    (await start(output, information, recorder.callbacks)).exports.f();
    assert.equal(hex(recorder.trace()), `57545231${bytes}0001`, hook);
    assert.match(recorder.report(), /events 1 stray 0\n$/);
  }
});

test("reports count branches by their choice, and addresses by the least and the greatest", async () => {
  const {output, information} = telling([["if", [0, 3, 0]], ["if", [0, 3, 7]], ["br", [0, 4, 1, 10]], ["br_if", [0, 6, 0, 9, 0]], ["br_if", [0, 6, 0, 9, 2]], ["br_table", [0, 5, 9]], ["br_table", [0, 5, 0]],
    ["i32.load", [0, 7, 4, 8, 1]], ["i32.load", [0, 7, 4, -1, 1]], ["i64.store", [0, 2, 0, 0, 1, 0]], ["call_indirect_pre_", [0, 8, 0, 3]], ["call_pre_", [0, 8, 0]]],
  ["if", "br", "br_if", "br_table", "load", "store", "call"]);
  const recorder = new Recorder(information);
  (await start(output, information, recorder.callbacks, {}, {check: false})).exports.f(); // the table is asked twice
  assert.equal(recorder.report(), `report blocks 0
report branches 7
branch 0:3 if 0 1
branch 0:3 if 1 1
branch 0:4 br 1 1
branch 0:5 br_table 0 1
branch 0:5 br_table 1 1
branch 0:6 br_if 0 1
branch 0:6 br_if 1 1
report calls 2
call 0 none 1
call 0 0 1
report memory 2
memory 0:2 i64.store 1 0 0
memory 0:7 i32.load 2 12 4294967299
events 12 stray 0
`);
  const again = Counts.of(recorder.report());
  again.add(recorder.counts);
  assert.match(again.text(), /branch 0:4 br 1 2\n/);
  assert.match(again.text(), /call 0 none 2\n/);
  assert.match(again.text(), /memory 0:7 i32.load 4 12 4294967299\nevents 24 stray 0\n$/);
});

test("counts and trees of several runs add up", () => {
  const counts = Counts.of(`call 0 f: ok\npages 0\nhost 0\n${REPORT}`);
  assert.equal(counts.text(), REPORT);
  counts.add(Counts.of("report blocks 1\nblock 1:-1 function 4\nreport branches 0\nreport calls 0\nreport memory 1\nmemory 1:2 i32.load 1 8 8\nevents 5 stray 2\n"));
  assert.equal(counts.text(), "report blocks 2\nblock 1:-1 function 5\nblock 3:-1 function 1\nreport branches 0\nreport calls 1\ncall 3 1 1\nreport memory 1\nmemory 1:2 i32.load 1 8 8\nevents 12 stray 2\n");
  const tree = Tree.of("start: ok\ntree 3\nnode 0 3 1\nnode 1 1 2\nnode 2 1 1\n");
  tree.add(Tree.of("tree 2\nnode 0 2 7\nnode 0 3 1\n"));
  assert.equal(tree.text(), "tree 4\nnode 0 2 7\nnode 0 3 2\nnode 1 1 2\nnode 2 1 1\n");
  for (const wrong of [() => Counts.of("report blocks 0\n"), () => Counts.of(""), () => Tree.of("tree 2\nnode 1 3 1\n"), () => Tree.of("tree 1\nnode\n"), () => Tree.of("report")]) {
    assert.throws(wrong, {name: "RecordError"});
  }
});

test("strays are recorded with their hook", async () => {
  const {output, information} = telling([["nop", [0, 5]], ["nop", [7, 5]]], ["nop"]);
  const recorder = new Recorder(information);
  (await start(output, information, recorder.callbacks, {}, {check: false})).exports.f();
  assert.equal(hex(recorder.trace()), "57545231" + "020005" + "1900" + "0002");
  assert.match(recorder.report(), /events 1 stray 1\n$/);
});

test("a recorder says what it has not recorded", async () => {
  const {output, information} = sample();
  const silent = new Recorder(information, {trace: false, tree: false});
  assert.throws(() => silent.trace(), {name: "RecordError", message: /^no trace was written/});
  assert.throws(() => silent.tree(), {name: "RecordError", message: /^paths of calls were not counted/});
  assert.throws(() => new Recorder(informationWith({groups: ["end"]}), {tree: true}), {name: "StackError", message: /lacks the group begin or end$/});
  assert.throws(() => new Recorder("{}"), {name: "InformationError"});
  const small = new Recorder(information, {mostBytes: 20});
  const run = await start(output, information, small.callbacks, host);
  run.exports.f(1);
  assert.throws(() => small.trace(), {name: "RecordError", message: "the trace is longer than 20 bytes"});
  const large = new Recorder(information, {mostBytes: 100000});
  const longer = await start(output, information, large.callbacks, host);
  for (let turn = 0; turn < 20000; turn++) longer.exports.f(1); // goes on when the trace is full
  assert.throws(() => large.trace(), {name: "RecordError", message: "the trace is longer than 100000 bytes"});
  assert.match(large.report(), /events 60000 stray 0\n$/);
});
