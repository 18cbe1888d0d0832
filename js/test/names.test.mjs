// Names of functions: reading them ends on each input, and they are those that docs/FORMATS.md says.
import assert from "node:assert/strict";
import test from "node:test";
import {host, sample, text} from "../fixtures/modules.mjs";
import {namesIn, originalIndex} from "../names.mjs";
import {Reader} from "../reader.mjs";
import {start} from "../wasabi.mjs";

const part = (/** @type {number} */ id, /** @type {number[]} */ ...bytes) => [id, bytes.length, ...bytes];
const ABC = part(1, 1, 0, ...text("abc"));

test("the first part of each kind is read, and all of a section must be of its form", () => {
  const names = (/** @type {number[]} */ ...bytes) => namesIn(Uint8Array.from(bytes));
  assert.deepEqual(names(...ABC), [[0, "abc"]]);
  assert.deepEqual(names(...part(0, ...text("m")), ...ABC, ...part(2, 1, 0, 1, 0, ...text("x")), ...part(9, 7)), [[0, "abc"]]);
  assert.deepEqual(names(...ABC, ...part(1, 1, 0, ...text("second"))), [[0, "abc"]]);
  assert.deepEqual(names(...part(1, 2, 0, ...text("a"), 3, ...text("\u{FEFF}é"))), [[0, "a"], [3, "\u{FEFF}é"]]);
  assert.deepEqual(names(), []);
  const none = [[...ABC, 5], part(1, 2, 0, ...text("a"), 0, ...text("b")), part(1, 1, 0, 1, 0xFF), part(1, 1, 0, ...text("a"), 0), [...ABC, ...part(0, 9)], [...ABC, ...part(2, 1, 0, 2, 0, 0, 0, 0)]];
  for (const bytes of none) assert.deepEqual(names(...bytes), [], String(bytes));
  for (let length = 1; length < ABC.length; length++) assert.deepEqual(names(...ABC.slice(0, length)), []);
});

test("reading ends on each input", async () => {
  let state = 1;
  const drawn = () => (state = Math.imul(state, 1103515245) + 12345 >>> 0) >>> 23 & 255;
  for (let turn = 0; turn < 20000; turn++) namesIn(Uint8Array.from({length: turn % 17}, drawn));
  for (const bytes of [[1], [1, 128], [1, 200, 1], [1, 5, 255, 255, 255, 255, 15], [1, 5, 255, 255, 255, 255, 255]]) {
    const {output, information} = sample({customs: [["name", bytes]]});
    const run = await start(output, information, {}, host);
    assert.deepEqual([run.nameOf(0), run.nameOf(1), run.nameOf(9)], ["env.back", "f", "function 9"]);
  }
});

test("the module's own names come before those of exports and imports, and hooks have none", async () => {
  const {output, information} = sample({customs: [["name", part(1, 3, 1, ...text("hook"), 4, ...text("own"), 99, ...text("far"))]]});
  for (const given of [output, new WebAssembly.Module(output)]) {
    const run = await start(given, information, {}, host);
    assert.deepEqual([...run.names].sort(([a], [b]) => a - b), [[0, "env.back"], [1, "own"], [2, "g"], [3, "h"], [4, "r"]]);
  }
  assert.deepEqual([0, 1, 3, 4].map(index => originalIndex(index, information)), [0, -1, -1, 1]);
});

test("numbers are read as the standard says, and end", () => {
  const reader = (/** @type {number[]} */ ...bytes) => new Reader(Uint8Array.from(bytes));
  assert.deepEqual([reader(0).number(), reader(0xE5, 0x8E, 0x26).number(), reader(255, 255, 255, 255, 15).number()], [0, 624485, 4294967295]);
  assert.deepEqual([reader(0x7F).signed(), reader(0xC0, 0xBB, 0x78).signed(), reader(128, 128, 128, 128, 0x78).signed(), reader(255, 255, 255, 255, 7).signed()], [-1, -123456, -2147483648, 2147483647]);
  for (const read of [() => reader().byte(), () => reader(128).number(), () => reader(128, 128, 128, 128, 128).number(), () => reader(128, 128, 128, 128, 128).signed(), () => reader(1).take(2), () => reader(128).skip()]) {
    assert.throws(read, RangeError);
  }
});
