// Values out of words: an i32 is one word, an i64 two, of which the low one comes first.

const halves = new Int32Array(2), whole = new BigInt64Array(halves.buffer);
const LOW = new Uint8Array(Int32Array.of(1).buffer)[0] === 1 ? 0 : 1; // where the low word is in the machine's order

/**
 * Two words as one number, without arithmetic of large numbers.
 * @param {number} low
 * @param {number} high
 * @returns {bigint}
 */
export function joined(low, high) {
  halves[LOW] = low;
  halves[1 - LOW] = high;
  return whole[0];
}

/**
 * The values of these types in words.
 * @param {string} letters
 * @param {number[]} words
 */
export function valuesOf(letters, words) {
  /** @type {(number | bigint)[]} */
  const values = [];
  let at = 0;
  for (const letter of letters) {
    values.push(letter === "i" ? words[at] : joined(words[at], words[at + 1]));
    at += letter === "i" ? 1 : 2;
  }
  return values;
}

/** @typedef {(a: number, b: number, c: number, d: number, more: number[]) => (number | bigint)[]} Lister */

/**
 * Lists of few values, which are made without a loop.
 * @type {Map<string, Lister>}
 */
const SHORT = new Map([
  ["", () => []],
  ["i", a => [a]],
  ["l", (a, b) => [joined(a, b)]],
  ["ii", (a, b) => [a, b]],
  ["il", (a, b, c) => [a, joined(b, c)]],
  ["li", (a, b, c) => [joined(a, b), c]],
  ["ll", (a, b, c, d) => [joined(a, b), joined(c, d)]],
  ["iii", (a, b, c) => [a, b, c]],
  ["iiii", (a, b, c, d) => [a, b, c, d]],
]);

/**
 * The function that makes values of these types, of four words and the words behind these.
 * @param {string} letters
 * @returns {Lister}
 */
export const listerOf = letters => SHORT.get(letters) ?? ((a, b, c, d, more) => valuesOf(letters, [a, b, c, d, ...more]));
