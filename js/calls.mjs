// Calls of exports with numbers, as a script or a command line has them.
import {CallError} from "./errors.mjs";

/** The least and the greatest number that an argument of a type may be: signed or unsigned. */
const RANGES = {i: [-(2n ** 31n), 2n ** 32n - 1n], l: [-(2n ** 63n), 2n ** 64n - 1n]};

/**
 * The name and the arguments of a call as it is written in JavaScript, such as "f(1, 2)".
 * @param {string} text
 * @returns {[name: string, args: string[]]}
 */
export function callIn(text) {
  const [, name, list = ""] = /^\s*([^(]*?)\s*\((.*)\)\s*$/s.exec(text) ?? [];
  if (name === undefined) throw new CallError(`no call: ${text}; a call is written as f(1, 2)`);
  return [name, list.trim() === "" ? [] : list.split(",")];
}

/**
 * The value of a type that a number is, which may have either sign's range and is written as in JavaScript.
 * @param {string | number | bigint} given
 * @param {string} letter
 * @returns {number | bigint}
 */
function valueOf(given, letter) {
  if (typeof given === "number" && !Number.isSafeInteger(given)) {
    throw new CallError(`${given} is no whole number that JavaScript keeps exactly; give it as a BigInt or as text`);
  }
  const word = String(given).trim(), digits = word.replace(/(?<=.)n$/, "");
  if (!/^(-?\d+|0x[\da-f]+)$/i.test(digits)) throw new CallError(`no whole number: ${word || "an empty argument"}`);
  const number = BigInt(digits), [least, greatest] = letter === "l" ? RANGES.l : RANGES.i;
  if (number < least || number > greatest) throw new CallError(`${word} is no ${letter === "l" ? "i64" : "i32"}`);
  return letter === "l" ? BigInt.asIntN(64, number) : Number(BigInt.asIntN(32, number));
}

/**
 * The values that a function of these parameters takes for these arguments.
 * @param {string} name
 * @param {(string | number | bigint)[]} args
 * @param {string} params
 */
export function valuesFor(name, args, params) {
  if (args.length !== params.length) {
    const wanted = `${params.length} argument${params.length === 1 ? "" : "s"}`, given = `${args.length} ${args.length === 1 ? "was" : "were"}`;
    throw new CallError(`${name} takes ${wanted}, and ${given} given`);
  }
  return args.map((arg, place) => valueOf(arg, params[place]));
}
