// The names of functions, by their indices in the original: of the section `name`, of exports, and of imports.
import {HOOKS} from "./module.mjs";
import {Reader} from "./reader.mjs";

/** @typedef {{imports: number, hooks: string[], functions: unknown[]}} Indices what the indices of an output are read with */

/** @param {Reader} reader */
function nameIn(reader) {
  const {bytes, at, end} = reader.take(reader.number());
  return new TextDecoder("utf-8", {fatal: true, ignoreBOM: true}).decode(bytes.subarray(at, end));
}

/**
 * Pairs of an index and what `one` reads behind it, in strictly ascending order of the indices.
 * @template T
 * @param {Reader} reader
 * @param {(reader: Reader) => T} one
 * @returns {[index: number, value: T][]}
 */
function mapIn(reader, one) {
  let last = -1;
  return reader.list(it => {
    const index = it.number();
    if (index <= last) throw new RangeError("the indices do not ascend");
    last = index;
    return [index, one(it)];
  });
}

/**
 * The names of functions in a section, or none if the section is not exactly of its form.
 * @param {Uint8Array} section
 * @returns {[index: number, name: string][]}
 */
export function namesIn(section) {
  /** @type {[index: number, name: string][]} */
  let names = [];
  /** @type {((part: Reader) => void)[]} */
  const forms = [nameIn, part => { names = mapIn(part, nameIn); }, part => mapIn(part, it => mapIn(it, nameIn))];
  try {
    const reader = new Reader(section), seen = new Set();
    while (reader.left > 0) {
      const id = reader.byte(), part = reader.take(reader.number());
      if (seen.has(id) || id >= forms.length) continue;
      seen.add(id);
      forms[id](part);
      if (part.left > 0) return [];
    }
    return names;
  } catch {
    return [];
  }
}

/**
 * The index in the original; -1 for a hook. In the output, the functions that the original defines come after the hooks.
 * @param {number} index
 * @param {Indices} indices
 */
export function originalIndex(index, {imports, hooks}) {
  if (index < imports) return index;
  return index < imports + hooks.length ? -1 : index - hooks.length;
}

/**
 * The names of functions. If one has several, the first one of these counts: the module's own, an export's, an import's.
 * @param {WebAssembly.Module} module
 * @param {[name: string, index: number][]} exported functions with their indices in the output
 * @param {Indices} indices
 */
export function namesOf(module, exported, indices) {
  const [section] = WebAssembly.Module.customSections(module, "name");
  const own = section ? namesIn(new Uint8Array(section)) : [];
  const imported = WebAssembly.Module.imports(module).filter(it => it.kind === "function" && it.module !== HOOKS);
  /** @type {Map<number, string>} */
  const names = new Map();
  const add = (/** @type {number} */ func, /** @type {string} */ name) => {
    if (func >= 0 && func < indices.functions.length && !names.has(func)) names.set(func, name);
  };
  for (const [index, name] of own) add(originalIndex(index, indices), name);
  for (const [name, index] of exported) add(originalIndex(index, indices), name);
  imported.forEach((it, func) => add(func, `${it.module}.${it.name}`));
  return names;
}
