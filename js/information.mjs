// Reads information, the JSON text that `instrument --info` writes, and finds the parts around a position. docs/FORMATS.md has its form.
import {InformationError} from "./errors.mjs";
import {GROUPS, KINDS} from "./hooks.mjs";
import {isBytes, viewOf} from "./reader.mjs";

/** @typedef {[kind: number, begin: number, end: number, target: number]} Block */
/** @typedef {[position: number, labels: number[]]} Table */
/** @typedef {[params: string, results: string]} Imported */
/** @typedef {[params: string, results: string, blocks: Block[], tables: Table[]]} Defined */
/**
 * @typedef {object} Information
 * @property {string[]} dropped
 * @property {(Imported | Defined)[]} functions
 * @property {string[]} groups
 * @property {string[]} hooks
 * @property {number} imports
 * @property {number} version
 */
/** @typedef {Readonly<{kind: typeof KINDS[number], begin: number, end: number, target: number}>} Part */
/** @typedef {Readonly<{label: number, target: number, left: readonly Part[]}>} Choice what a br_table does by one of its labels */

const FUNCTION = KINDS.indexOf("function"), LOOP = KINDS.indexOf("loop"), IF = KINDS.indexOf("if"), ELSE = KINDS.indexOf("else");

/**
 * @param {unknown} condition
 * @param {string} sentence
 * @returns {asserts condition}
 */
export function must(condition, sentence) {
  if (!condition) throw new InformationError(sentence);
}

/** @param {unknown} value */
const isIndex = value => Number.isInteger(value) && Number(value) >= 0;
/** @param {unknown} value */
const isLetters = value => typeof value === "string" && /^[il]*$/.test(value);
/** @param {unknown} value */
const areTexts = value => Array.isArray(value) && value.every(it => typeof it === "string");
/** @param {unknown[]} list */
const areDifferent = list => new Set(list).size === list.length;

/**
 * Of each list of blocks, the place of the block around each block, or -1.
 * @type {WeakMap<Block[], Int32Array>}
 */
const parentsOf = new WeakMap();

/** @param {Block[]} blocks in ascending order of their begins */
function parents(blocks) {
  const known = parentsOf.get(blocks);
  if (known) return known;
  const found = new Int32Array(blocks.length);
  for (let place = 0, around = -1; place < blocks.length; around = place++) {
    while (around >= 0 && blocks[around][2] <= blocks[place][1]) around = found[around];
    found[place] = around;
  }
  parentsOf.set(blocks, found);
  return found;
}

/**
 * The blocks around a position, the innermost first.
 * @param {Block[]} blocks
 * @param {number} position
 * @returns {Block[]}
 */
export function blocksAround(blocks, position) {
  let low = 0, high = blocks.length; // blocks before `low` begin before the position
  while (low < high) {
    const middle = (low + high) >> 1;
    if (blocks[middle][1] < position) low = middle + 1;
    else high = middle;
  }
  const found = [], above = parents(blocks);
  for (let place = low - 1; place >= 0; place = above[place]) if (position < blocks[place][2]) found.push(blocks[place]);
  return found;
}

/**
 * @param {Block} block
 * @returns {Part}
 */
export const partOf = ([kind, begin, end, target]) => Object.freeze({kind: KINDS[kind], begin, end, target});

/**
 * Finds what each label of the br_table at a position does, the default last; undefined if there is no such table.
 * @param {Information} information
 * @returns {(func: number, position: number) => readonly Choice[] | undefined}
 */
export function choicesOf({functions}) {
  /** @type {Map<number, readonly Choice[]>[]} */
  const known = [];
  return (func, position) => {
    const ofFunction = known[func] ??= new Map();
    const found = ofFunction.get(position);
    if (found) return found;
    const blocks = functions[func]?.[2] ?? [], tables = functions[func]?.[3] ?? [];
    const labels = tables.find(([at]) => at === position)?.[1];
    if (!labels) return undefined;
    const parts = blocksAround(blocks, position).map(partOf);
    const byLabel = parts.map(({target}, label) => Object.freeze({label, target, left: Object.freeze(parts.slice(0, label + 1))}));
    const choices = labels.map(label => byLabel[label]);
    ofFunction.set(position, choices);
    return choices;
  };
}

/**
 * Whether blocks are those of one function: the function first, and each of the others inside one that began before it.
 * @param {unknown} blocks
 * @returns {blocks is Block[]}
 */
function areNested(blocks) {
  if (!Array.isArray(blocks) || blocks.length === 0) return false;
  /** @type {Block[]} */
  const open = [];
  return blocks.every((block, place) => {
    if (!Array.isArray(block) || block.length !== 4) return false;
    const [kind, begin, end, target] = block;
    if (![kind, end, target].every(isIndex) || !Number.isInteger(begin) || kind >= KINDS.length || begin >= end) return false;
    if (place === 0) return kind === FUNCTION && begin === -1 && target === end + 1 && open.push(/** @type {any} */ (block)) === 1;
    if (kind === FUNCTION || begin <= blocks[place - 1][1]) return false;
    const isOver = (/** @type {Block} */ it) => (kind === ELSE ? it[2] <= begin : it[2] < begin); // an else begins where its if ends
    while (open.length > 0 && isOver(open[open.length - 1])) open.pop();
    const outer = open[open.length - 1];
    open.push(/** @type {any} */ (block));
    return outer !== undefined && end < outer[2] && (kind === IF ? target > end : target === (kind === LOOP ? begin : end + 1));
  });
}

/**
 * Whether tables are those of a function with these blocks, each label of which names a block around it.
 * @param {unknown} tables
 * @param {Block[]} blocks
 */
function areTables(tables, blocks) {
  let last = -1;
  return Array.isArray(tables) && tables.every(table => {
    if (!Array.isArray(table) || table.length !== 2) return false;
    const [position, labels] = table;
    if (!isIndex(position) || position <= last || position >= blocks[0][2] || !Array.isArray(labels) || labels.length === 0) return false;
    last = position;
    const count = blocksAround(blocks, position).length;
    return labels.every(label => isIndex(label) && label < count);
  });
}

/**
 * @param {any[]} functions
 * @param {number} imports
 */
function checkFunctions(functions, imports) {
  functions.forEach((func, index) => {
    const refused = `the information is not of its form at function ${index}`;
    must(Array.isArray(func) && func.length === (index < imports ? 2 : 4), refused);
    const [params, results, blocks, tables] = func;
    must(isLetters(params) && isLetters(results), `${refused}: its types`);
    if (index < imports) return;
    must(areNested(blocks), `${refused}: its blocks`);
    must(areTables(tables, blocks), `${refused}: its tables of labels`);
  });
}

/** @param {string} text */
function parsed(text) {
  try {
    return JSON.parse(text);
  } catch (error) {
    throw new InformationError(`the information is not JSON: ${/** @type {Error} */ (error).message}`);
  }
}

/**
 * The information, which is given as text, as the bytes of a text, or parsed. What is none is refused.
 * @param {unknown} given
 * @returns {Information}
 */
export function informationOf(given) {
  const text = isBytes(given) ? new TextDecoder().decode(viewOf(given)) : given;
  const value = typeof text === "string" ? parsed(text) : text;
  const sentence = "it is what instrument --info writes, as text or parsed";
  must(value !== null && typeof value === "object" && !Array.isArray(value), `the information is no object; ${sentence}`);
  const {dropped, functions, groups, hooks, imports, version} = value;
  const lacks = Object.entries({dropped, functions, groups, hooks, imports, version}).filter(([, it]) => it === undefined);
  must(lacks.length === 0, `the information lacks ${lacks.map(([key]) => key).join(", ")}; ${sentence}`);
  must(version === 1, `the information has version ${JSON.stringify(version)}, and this runtime reads version 1`);
  const form = "the information is not of its form";
  must(areTexts(dropped) && areTexts(groups) && areTexts(hooks), `${form}: dropped, groups and hooks are lists of texts`);
  must(areDifferent(groups) && areDifferent(hooks), `${form}: a group or a hook is there twice`);
  for (const group of groups) must(GROUPS.includes(group), `${form}: no group is named ${group}`);
  must(Array.isArray(functions) && isIndex(imports) && imports <= functions.length, `${form}: imports is at most the number of functions`);
  checkFunctions(functions, imports);
  return value;
}
