/**
 * The name and the arguments of a call as it is written in JavaScript, such as "f(1, 2)".
 * @param {string} text
 * @returns {[name: string, args: string[]]}
 */
export function callIn(text: string): [name: string, args: string[]];
/**
 * The values that a function of these parameters takes for these arguments.
 * @param {string} name
 * @param {(string | number | bigint)[]} args
 * @param {string} params
 */
export function valuesFor(name: string, args: (string | number | bigint)[], params: string): (number | bigint)[];
