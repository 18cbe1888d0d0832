// Whether callbacks are functions for events that an output tells. State is allowed, a misspelt name is not.
import {CallbackError} from "./errors.mjs";
import {EVENTS, groupOf, hookNamed} from "./hooks.mjs";

/** @type {readonly string[]} */
const NAMES = [...EVENTS, "stray"];

/**
 * How many letters differ, if a swap of two neighbours is one difference.
 * @param {string} first
 * @param {string} second
 */
function distance(first, second) {
  /** @type {number[]} */
  let before = [];
  let row = Array.from({length: second.length + 1}, (_, at) => at);
  for (let i = 1; i <= first.length; i++) {
    const next = [i];
    for (let j = 1; j <= second.length; j++) {
      const isSame = first[i - 1] === second[j - 1];
      const isSwap = i > 1 && j > 1 && first[i - 1] === second[j - 2] && first[i - 2] === second[j - 1];
      next[j] = Math.min(row[j] + 1, next[j - 1] + 1, row[j - 1] + (isSame ? 0 : 1), isSwap ? before[j - 2] + 1 : Infinity);
    }
    [before, row] = [row, next];
  }
  return row[second.length];
}

/**
 * Whether a word is this name with few letters wrong: two in a long name, one in a short one, which begins with the right letter.
 * @param {string} word
 * @param {string} name
 */
function isMisspelt(word, name) {
  const most = name.length > 6 ? 2 : name.length > 2 ? 1 : 0;
  return (name.length > 4 || word[0] === name[0]) && distance(word, name) <= most;
}

/**
 * The event that a name was meant for, if it looks like one: but for case and separators, by `on` in front, by the name of a hook,
 * or by a slip.
 * @param {string} name
 */
export function eventLike(name) {
  const word = name.replace(/([a-z])([A-Z])/g, "$1_$2").toLowerCase().replace(/[.-]/g, "_").replace(/^on_?(?=.)/, "");
  if (NAMES.includes(word)) return word;
  if (word === "call") return "call_pre, call_indirect_pre or call_post";
  try {
    return hookNamed(name).event;
  } catch {
    return NAMES.find(it => isMisspelt(word, it));
  }
}

/**
 * The names of an object's functions, its own and those of its classes.
 * @param {object} object
 */
function functionsOf(object) {
  /** @type {Set<string>} */
  const names = new Set();
  for (let at = object; at !== null && at !== Object.prototype && at !== Function.prototype; at = Object.getPrototypeOf(at)) {
    for (const [name, {value}] of Object.entries(Object.getOwnPropertyDescriptors(at))) {
      if (typeof value === "function" && name !== "constructor") names.add(name);
    }
  }
  return names;
}

/**
 * Refuses a function that looks like one for an event and is none, and an event that is no function.
 * @param {any} object
 * @param {string} where
 */
function checkNames(object, where) {
  if (object === null || (typeof object !== "object" && typeof object !== "function")) {
    throw new CallbackError(`${where ? "raw is" : "the callbacks are"} no object`);
  }
  for (const name of functionsOf(object)) {
    const like = NAMES.includes(name) ? undefined : eventLike(name);
    if (like === undefined) continue;
    const sentence = `the name looks like ${like}, and a function that is no callback needs another one`;
    throw new CallbackError(`no event is named ${where}${name}; ${sentence}`);
  }
  for (const name of NAMES) {
    const value = object[name];
    if (value === undefined || typeof value === "function") continue;
    throw new CallbackError(`${where}${name} is named as an event, and is no function`);
  }
}

/**
 * Refuses what can't be meant: names that look like events, and callbacks for events that the output does not tell.
 * @param {any} callbacks
 * @param {string[]} groups the groups of the output
 * @param {"refuse" | "ignore"} unselected what is done about a callback whose group is not among them
 */
export function checkCallbacks(callbacks, groups, unselected) {
  checkNames(callbacks, "");
  const {raw} = callbacks;
  if (raw !== undefined) checkNames(raw, "raw.");
  const isTold = (/** @type {string} */ event) => groups.includes(groupOf(event));
  const isToldRaw = (/** @type {string} */ event) => isTold(event) || (event === "br_table" && groups.includes("end")); // by its one hook
  const lacking = EVENTS.filter(it => (callbacks[it] !== undefined && !isTold(it)) || (raw?.[it] !== undefined && !isToldRaw(it)));
  if (lacking.length === 0 || unselected === "ignore") return;
  const lacked = [...new Set(lacking.map(groupOf))];
  const phrase = `the ${lacked.length > 1 ? "groups" : "group"} ${lacked.join(", ")}`;
  throw new CallbackError(`the output does not tell ${lacking.join(", ")}: it was instrumented without ${phrase}`);
}
