// Where modules come from: the name of the file or the address that bytes were read from, which is found again by the bytes.
import {viewOf} from "./reader.mjs";

/** @typedef {import("./wasabi.mjs").Bytes} Bytes */

/** @type {Map<number, string>} */
const known = new Map();

/** @param {Uint8Array} bytes */
function keyOf(bytes) {
  let hash = bytes.length;
  for (const byte of bytes) hash = Math.imul(hash ^ byte, 16777619);
  return hash;
}

/** @param {Uint8Array} bytes */
const isModule = ([zero, a, s, m]) => zero === 0 && a === 0x61 && s === 0x73 && m === 0x6D;

/**
 * Remembers where bytes were read, if they are those of a module.
 * @param {Bytes} read
 * @param {string} origin
 */
export function noteOrigin(read, origin) {
  const bytes = viewOf(read);
  if (isModule(bytes)) known.set(keyOf(bytes), origin);
}

/**
 * Where bytes were read the last time.
 * @param {Uint8Array | undefined} bytes
 */
export const originOf = bytes => (bytes ? known.get(keyOf(bytes)) : undefined);

/**
 * The names that information beside an output can have.
 * @param {string} origin
 */
export const besideOf = origin => [...new Set([origin.replace(/\.wasm(?=$|[?#])/, ".json"), `${origin}.json`])].filter(it => it !== origin);
