// Whether information is that of an output. Each difference is an InformationError.
import {hookNamed, wordsOf} from "./hooks.mjs";
import {blocksAround, must} from "./information.mjs";
import {HOOKS, callsIn, readModule} from "./module.mjs";

/** @typedef {import("./hooks.mjs").Hook} Hook */
/** @typedef {import("./information.mjs").Information} Information */
/** @typedef {import("./information.mjs").Defined} Defined */
/** @typedef {import("./information.mjs").Block} Block */
/** @typedef {import("./module.mjs").Module} Module */
/** @typedef {import("./module.mjs").Type} Type */

const FOREIGN = "the information does not belong to the module";

/**
 * Compares the information with what an engine tells of a module: the number of its imports and the names of its hooks.
 * @param {WebAssembly.Module} module
 * @param {Information} information
 */
export function checkImports(module, {hooks, imports}) {
  const functions = WebAssembly.Module.imports(module).filter(it => it.kind === "function");
  const found = functions.filter(it => it.module === HOOKS).map(it => it.name);
  must(found.length > 0 || hooks.length === 0,
    "the module has no hooks, and the information has: the module may be the original, not its output");
  const own = functions.length - found.length;
  must(own === imports, `${FOREIGN}: the module imports ${own} functions besides hooks, and the information has ${imports}`);
  must(found.length === hooks.length, `${FOREIGN}: the module has ${found.length} hooks, and the information has ${hooks.length}`);
  found.forEach((name, place) => {
    must(name === hooks[place], `${FOREIGN}: hook ${place} of the module is ${name}, and by the information ${hooks[place]}`);
  });
  must(functions.slice(imports).every(it => it.module === HOOKS), `${FOREIGN}: a hook of the module comes before another import`);
}

/** @param {Type | undefined} type */
const spelt = type => (type ? `(${type.params}) to (${type.results})` : "none");

/**
 * Compares the information with the types in an output: those of all functions, and those of the hooks.
 * @param {Module} module
 * @param {Information} information
 */
export function checkTypes(module, {functions, hooks, imports}) {
  const indices = [...module.imports.filter(it => it.kind === "function").map(it => it.type), ...module.functions];
  const own = indices.length - hooks.length;
  must(own === functions.length,
    `${FOREIGN}: the module has ${own} functions besides hooks, and the information has ${functions.length}`);
  functions.forEach(([params, results], func) => {
    const type = module.types[indices[func < imports ? func : func + hooks.length]];
    must(type?.params === params && type.results === results,
      `${FOREIGN}: function ${func} is of type ${spelt(type)}, and by the information of type ${spelt({params, results})}`);
  });
  hooks.forEach((name, place) => {
    const type = module.types[indices[imports + place]], words = 2 + wordsOf(hookNamed(name).letters);
    must(type?.results === "" && type.params === "i".repeat(words),
      `${FOREIGN}: the hook ${name} is of type ${spelt(type)}, and takes ${words} words`);
  });
}

/** @typedef {{results: string, blocks: Block[], byBegin: Map<number, Block>, tables: Map<number, number[]>}} Body what the information says of it */

/**
 * Whether a hook call with these words can tell an event of a function.
 * @param {Hook} hook
 * @param {number} position
 * @param {(number | undefined)[]} values
 * @param {Body} body
 * @param {Information["functions"]} functions
 */
function fits({event, kind, letters, types}, position, [first, second], {results, blocks, byBegin, tables}, functions) {
  const isEntry = position === -1 && (event === "begin" || event === "start");
  if (!isEntry && (position < 0 || position > blocks[0][2])) return false;
  switch (event) {
    case "begin": return byBegin.get(position)?.[0] === kind;
    case "br_table": return tables.has(position);
    case "return": return letters === results;
  }
  if (first === undefined) return true;
  switch (event) {
    case "end": return byBegin.get(first)?.[0] === kind && byBegin.get(first)?.[2] === position;
    case "br": case "br_if": return blocksAround(blocks, position)[first >>> 0]?.[3] === second;
    case "call_pre": return functions[first >>> 0]?.[0] === types;
    default: return true;
  }
}

/**
 * Compares the information with the words that the hook calls in a body tell as constants: the function, the position, the kind of
 * a part, its begin and its end, labels and targets, tables, called functions. A call whose words are not constants, because
 * another tool changed the output, is passed over; and so is a function without hook calls, which may not have been selected.
 * @param {Module} module
 * @param {Information} information
 * @param {Hook[]} hooks
 * @param {number} place of the body
 * @returns {boolean} whether no call was passed over
 */
function checkBody(module, {functions, groups, imports}, hooks, place) {
  const index = imports + place, counts = hooks.map(hook => 2 + wordsOf(hook.letters));
  const [, results, blocks, tables] = /** @type {Defined} */ (functions[index]);
  const own = {results, blocks, byBegin: new Map(blocks.map(block => [block[1], block])), tables: new Map(tables)};
  let calls = 0, begins = 0, branches = 0, isWhole = true;
  const isRead = callsIn(module.bodies[place], imports, counts, (at, [func, position, ...values]) => {
    if (func === undefined || position === undefined) {
      isWhole = false;
      return;
    }
    const hook = hooks[at];
    calls++;
    must(func >>> 0 === index, `${FOREIGN}: function ${index} tells events of function ${func >>> 0}`);
    must(fits(hook, position, values, own, functions),
      `${FOREIGN}: by the information, function ${index} has no ${hook.name} at ${position}`);
    if (hook.event === "begin") begins++;
    if (hook.event === "br_table") branches++;
  });
  if (!isWhole || !isRead) return false;
  if (calls === 0) return true;
  if (groups.includes("begin")) {
    must(begins === blocks.length,
      `${FOREIGN}: function ${index} begins ${begins} parts, and by the information ${blocks.length}`);
  }
  if (groups.includes("br_table") || groups.includes("end")) {
    must(branches === tables.length,
      `${FOREIGN}: function ${index} has ${branches} tables of labels, and by the information ${tables.length}`);
  }
  return true;
}

/**
 * @param {Module} module
 * @param {Information} information
 * @returns {boolean} whether each hook call was seen to tell a place of its own function
 */
export function checkBodies(module, information) {
  const hooks = information.hooks.map(hookNamed);
  return module.bodies.map((_, place) => checkBody(module, information, hooks, place)).every(Boolean);
}

/**
 * Compares the information with all that is known of an output, and reads its bytes, if they are given.
 * @param {WebAssembly.Module} compiled
 * @param {Uint8Array | undefined} bytes
 * @param {Information} information
 * @param {boolean} comparesBodies whether the bodies of functions are compared too
 * @returns {{module: Module | undefined, isVerified: boolean}} verified: each hook call was seen to tell a place of its own function
 */
export function checkOutput(compiled, bytes, information, comparesBodies = true) {
  checkImports(compiled, information);
  if (bytes === undefined) return {module: undefined, isVerified: false};
  const module = readModule(bytes);
  checkTypes(module, information);
  return {module, isVerified: comparesBodies && checkBodies(module, information)};
}
