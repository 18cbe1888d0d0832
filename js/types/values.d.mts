/**
 * Two words as one number, without arithmetic of large numbers.
 * @param {number} low
 * @param {number} high
 * @returns {bigint}
 */
export function joined(low: number, high: number): bigint;
/**
 * The values of these types in words.
 * @param {string} letters
 * @param {number[]} words
 */
export function valuesOf(letters: string, words: number[]): (number | bigint)[];
export function listerOf(letters: string): Lister;
export type Lister = (a: number, b: number, c: number, d: number, more: number[]) => (number | bigint)[];
