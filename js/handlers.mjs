// The functions that are imported as hooks. Each is made once for its hook, by its types, with as many parameters as the hook has words.
import {KINDS, bytesOf, wordsOf} from "./hooks.mjs";
import {NONE, UNKNOWN} from "./stack.mjs";
import {joined, listerOf} from "./values.mjs";

/** @typedef {import("./hooks.mjs").Hook} Hook */
/** @typedef {import("./information.mjs").Choice} Choice */
/** @typedef {(func: number, position: number, ...words: number[]) => void} Handler */
/**
 * What handlers are made with.
 * @typedef {object} Context
 * @property {any} run
 * @property {any} callbacks
 * @property {Set<string>} groups
 * @property {import("./stack.mjs").Stack} stack
 * @property {boolean} keeps whether the stack is kept
 * @property {boolean} isVerified whether each hook call in the output was seen to tell a place of its own function
 * @property {(func: number) => boolean} isDefined whether the original defines a function
 * @property {(func: number, position: number) => readonly Choice[] | undefined} choicesAt of a br_table, the default last
 * @property {(slot: number) => number} calleeAt the function in a slot of the table, NONE or UNKNOWN
 * @property {(type: number, callee: number) => number} entered the function that a call through the table enters, NONE or UNKNOWN
 */

/**
 * For each event, the function that makes its fields and calls its callback. All look alike, and still none shares code with another:
 * a callback that is called by its name in code of its own is compiled into it, and its fields are then not even made. Code that calls
 * the callbacks of all events takes twice the time. For the same reason no error is caught here; `telling` stays set if a callback throws.
 * @type {Record<string, (hook: Hook, context: Context) => Handler>}
 */
const TELLERS = {
  start: (_, {callbacks, run, stack}) => (func, position) => {
    stack.telling = true;
    callbacks.start({location: {func, position}}, run);
    stack.telling = false;
  },
  nop: (_, {callbacks, run, stack}) => (func, position) => {
    stack.telling = true;
    callbacks.nop({location: {func, position}}, run);
    stack.telling = false;
  },
  unreachable: (_, {callbacks, run, stack}) => (func, position) => {
    stack.telling = true;
    callbacks.unreachable({location: {func, position}}, run);
    stack.telling = false;
  },
  if: (_, {callbacks, run, stack}) => (func, position, condition) => {
    stack.telling = true;
    callbacks.if({location: {func, position}, condition}, run);
    stack.telling = false;
  },
  br: (_, {callbacks, run, stack}) => (func, position, label, target) => {
    stack.telling = true;
    callbacks.br({location: {func, position}, label: label >>> 0, target}, run);
    stack.telling = false;
  },
  br_if: (_, {callbacks, run, stack}) => (func, position, label, target, condition) => {
    stack.telling = true;
    callbacks.br_if({location: {func, position}, label: label >>> 0, target, condition}, run);
    stack.telling = false;
  },
  begin(hook, {callbacks, run, stack, keeps}) {
    const kind = KINDS[hook.kind];
    return (func, position) => {
      if (keeps) stack.open(func, position);
      stack.telling = true;
      callbacks.begin({location: {func, position}, kind}, run);
      stack.telling = false;
    };
  },
  end(hook, {callbacks, run, stack, keeps}) {
    const kind = KINDS[hook.kind];
    return (func, position, begin) => {
      stack.telling = true;
      callbacks.end({location: {func, position}, kind, begin}, run);
      stack.telling = false;
      if (keeps) stack.close(begin);
    };
  },
  const({letters}, {callbacks, run, stack}) {
    const isLong = letters === "l";
    return (func, position, a, b) => {
      stack.telling = true;
      callbacks.const({location: {func, position}, value: isLong ? joined(a, b) : a}, run);
      stack.telling = false;
    };
  },
  unary({op, letters}, {callbacks, run, stack}) {
    const takesLong = letters[0] === "l", givesLong = letters[1] === "l";
    if (!takesLong) return (func, position, operand, a, b) => {
      stack.telling = true;
      callbacks.unary({location: {func, position}, op, operand, result: givesLong ? joined(a, b) : a}, run);
      stack.telling = false;
    };
    return (func, position, low, high, a, b) => {
      stack.telling = true;
      const operand = joined(low, high);
      callbacks.unary({location: {func, position}, op, operand, result: givesLong ? joined(a, b) : a}, run);
      stack.telling = false;
    };
  },
  binary({op, letters}, {callbacks, run, stack}) {
    const givesLong = letters[2] === "l";
    if (letters === "iii") return (func, position, first, second, result) => {
      stack.telling = true;
      callbacks.binary({location: {func, position}, op, first, second, result}, run);
      stack.telling = false;
    };
    return (func, position, a, b, c, d, e, f) => {
      stack.telling = true;
      const first = joined(a, b), second = joined(c, d);
      callbacks.binary({location: {func, position}, op, first, second, result: givesLong ? joined(e, f) : e}, run);
      stack.telling = false;
    };
  },
  drop({letters}, {callbacks, run, stack}) {
    const isLong = letters === "l";
    return (func, position, a, b) => {
      stack.telling = true;
      callbacks.drop({location: {func, position}, value: isLong ? joined(a, b) : a}, run);
      stack.telling = false;
    };
  },
  select({types}, {callbacks, run, stack}) {
    if (types === "i") return (func, position, first, second, condition) => {
      stack.telling = true;
      callbacks.select({location: {func, position}, first, second, condition}, run);
      stack.telling = false;
    };
    return (func, position, a, b, c, d, condition) => {
      stack.telling = true;
      const first = joined(a, b), second = joined(c, d);
      callbacks.select({location: {func, position}, first, second, condition}, run);
      stack.telling = false;
    };
  },
  local({op, types}, {callbacks, run, stack}) {
    const isLong = types === "l";
    return (func, position, index, a, b) => {
      stack.telling = true;
      callbacks.local({location: {func, position}, op, index: index >>> 0, value: isLong ? joined(a, b) : a}, run);
      stack.telling = false;
    };
  },
  global({op, types}, {callbacks, run, stack}) {
    const isLong = types === "l";
    return (func, position, index, a, b) => {
      stack.telling = true;
      callbacks.global({location: {func, position}, op, index: index >>> 0, value: isLong ? joined(a, b) : a}, run);
      stack.telling = false;
    };
  },
  load({op, letters}, {callbacks, run, stack}) {
    const bytes = bytesOf(op), isLong = letters[2] === "l";
    return (func, position, offset, address, a, b) => {
      stack.telling = true;
      const value = isLong ? joined(a, b) : a;
      callbacks.load({location: {func, position}, op, offset: offset >>> 0, address: address >>> 0, bytes, value}, run);
      stack.telling = false;
    };
  },
  store({op, letters}, {callbacks, run, stack}) {
    const bytes = bytesOf(op), isLong = letters[2] === "l";
    return (func, position, offset, address, a, b) => {
      stack.telling = true;
      const value = isLong ? joined(a, b) : a;
      callbacks.store({location: {func, position}, op, offset: offset >>> 0, address: address >>> 0, bytes, value}, run);
      stack.telling = false;
    };
  },
  memory_size: (_, {callbacks, run, stack}) => (func, position, pages) => {
    stack.telling = true;
    callbacks.memory_size({location: {func, position}, pages: pages >>> 0}, run);
    stack.telling = false;
  },
  memory_grow: (_, {callbacks, run, stack}) => (func, position, pages, answer) => {
    stack.telling = true;
    callbacks.memory_grow({location: {func, position}, pages: pages >>> 0, answer}, run);
    stack.telling = false;
  },
  call_pre({types}, {callbacks, run, stack}) {
    const list = listerOf(types);
    return (func, position, callee, a, b, c, d, ...more) => {
      stack.expected = callee;
      stack.telling = true;
      callbacks.call_pre({location: {func, position}, callee: callee >>> 0, args: list(a, b, c, d, more)}, run);
      stack.telling = false;
    };
  },
  call_indirect_pre({types}, {callbacks, run, stack, calleeAt, entered}) {
    const list = listerOf(types);
    return (func, position, type, slot, a, b, c, d, ...more) => {
      const found = calleeAt(slot >>> 0);
      stack.expected = entered(type, found);
      const callee = found === NONE ? null : found === UNKNOWN ? undefined : found;
      const args = list(a, b, c, d, more);
      stack.telling = true;
      callbacks.call_indirect_pre({location: {func, position}, type: type >>> 0, slot: slot >>> 0, callee, args}, run);
      stack.telling = false;
    };
  },
  call_post({types}, {callbacks, run, stack}) {
    const list = listerOf(types);
    return (func, position, a, b, c, d, ...more) => {
      stack.telling = true;
      callbacks.call_post({location: {func, position}, results: list(a, b, c, d, more)}, run);
      stack.telling = false;
    };
  },
  return({types}, {callbacks, run, stack}) {
    const list = listerOf(types);
    return (func, position, a, b, c, d, ...more) => {
      stack.telling = true;
      callbacks.return({location: {func, position}, results: list(a, b, c, d, more)}, run);
      stack.telling = false;
    };
  },
};

/**
 * What keeps the stack if the event has no callback.
 * @type {Record<string, (hook: Hook, context: Context) => Handler>}
 */
const KEEPERS = {
  begin: (_, {stack}) => (func, position) => stack.open(func, position),
  end: (_, {stack}) => (_func, _position, begin) => stack.close(begin),
  call_pre: (_, {stack}) => (_func, _position, callee) => { stack.expected = callee; },
  call_indirect_pre: (_, {stack, calleeAt, entered}) => (_func, _position, type, slot) => {
    stack.expected = entered(type, calleeAt(slot >>> 0));
  },
};

/**
 * Finds what a br_table does by its index, and remembers the last table, which is often the next one too.
 * @param {Context} context
 */
function choicesFinder({choicesAt}) {
  let func = -1, position = -1, found = /** @type {readonly Choice[]} */ ([]);
  return (/** @type {number} */ f, /** @type {number} */ p, /** @type {number} */ index) => {
    if (f !== func || p !== position) {
      found = choicesAt(f, p) ?? [];
      func = f;
      position = p;
    }
    return found[Math.min(index, found.length - 1)];
  };
}

/**
 * A hook call of a br_table also tells the ends of the parts that it leaves.
 * @param {Context} context
 * @returns {Handler | undefined}
 */
function branchTeller(context) {
  const {callbacks, groups, run, stack, keeps} = context;
  const tells = groups.has("br_table") && callbacks.br_table, ends = groups.has("end");
  if (!tells && !(ends && (callbacks.end || keeps))) return undefined;
  const choiceAt = choicesFinder(context);
  return (func, position, word) => {
    const index = word >>> 0, {label, target, left} = choiceAt(func, position, index);
    stack.telling = true;
    if (tells) callbacks.br_table({location: {func, position}, index, label, target, left}, run);
    for (let place = 0; ends && place < left.length; place++) {
      const {kind, begin, end} = left[place];
      if (callbacks.end) callbacks.end({location: {func, position: end}, kind, begin}, run);
      if (keeps) stack.close(begin);
    }
    stack.telling = false;
  };
}

/**
 * The function that tells the events of a hook's calls, or keeps the stack by them; undefined if there is nothing to do.
 * @param {Hook} hook
 * @param {Context} context
 * @returns {Handler | undefined}
 */
function tellerOf(hook, context) {
  if (hook.event === "br_table") return branchTeller(context);
  const made = context.callbacks[hook.event] ? TELLERS[hook.event] : context.keeps ? KEEPERS[hook.event] : undefined;
  return made?.(hook, context);
}

/**
 * The function that an analysis makes for bare words, with what the runtime adds to them: the label, the target and the parts left by
 * a br_table; the function that is called through a table.
 * @param {Hook} hook
 * @param {Context} context
 * @returns {Handler | undefined}
 */
function rawOf(hook, context) {
  const {callbacks, run, stack, keeps, calleeAt} = context;
  const made = callbacks.raw?.[hook.event]?.(hook, run);
  if (typeof made !== "function") return undefined;
  /** @type {Handler} */
  let raw = made;
  if (hook.event === "br_table") {
    const choiceAt = choicesFinder(context);
    raw = (func, position, index) => {
      const {label, target, left} = choiceAt(func, position, index >>> 0);
      made(func, position, index, label, target, left);
    };
  }
  if (hook.event === "call_indirect_pre") {
    raw = (func, position, type, slot, ...args) => made(func, position, type, slot, calleeAt(slot >>> 0), ...args);
  }
  return keeps ? whileTelling(stack, raw, hook) : raw;
}

/**
 * A function that calls another one with the words of a hook while the run is telling. Common numbers of words have code of their own,
 * so that no list of them is made.
 * @param {import("./stack.mjs").Stack} stack
 * @param {Handler} raw
 * @param {Hook} hook
 * @returns {Handler}
 */
function whileTelling(stack, raw, {letters}) {
  switch (wordsOf(letters)) {
    case 0: return (func, position) => { stack.telling = true; raw(func, position); stack.telling = false; };
    case 1: return (func, position, a) => { stack.telling = true; raw(func, position, a); stack.telling = false; };
    case 3: return (func, position, a, b, c) => { stack.telling = true; raw(func, position, a, b, c); stack.telling = false; };
    default: return (...words) => { stack.telling = true; raw(...words); stack.telling = false; };
  }
}

/**
 * A function that calls two others in turn with the words of a hook.
 * @param {Handler} first
 * @param {Handler} second
 * @param {Hook} hook
 * @returns {Handler}
 */
function inTurn(first, second, {letters}) {
  switch (wordsOf(letters)) {
    case 0: return (func, position) => { first(func, position); second(func, position); };
    case 1: return (func, position, a) => { first(func, position, a); second(func, position, a); };
    case 3: return (func, position, a, b, c) => { first(func, position, a, b, c); second(func, position, a, b, c); };
    default: return (...words) => { first(...words); second(...words); };
  }
}

/**
 * Keeps hook calls that the information does not explain from a handler.
 * @param {Handler | undefined} handler
 * @param {Hook} hook
 * @param {number} place
 * @param {Context} context
 * @returns {Handler | undefined}
 */
function explained(handler, hook, place, {callbacks, run, isVerified, isDefined, choicesAt}) {
  if (isVerified || !(handler || callbacks.stray)) return handler;
  return (...words) => {
    const [func, position] = words;
    if (isDefined(func >>> 0) && (hook.event !== "br_table" || choicesAt(func, position))) handler?.(...words);
    else callbacks.stray?.({hook: place, words}, run);
  };
}

/**
 * The function to import for a hook.
 * @param {Hook} hook
 * @param {number} place of the hook in the information
 * @param {Context} context
 * @returns {Handler}
 */
export function handlerOf(hook, place, context) {
  const teller = tellerOf(hook, context), raw = rawOf(hook, context);
  let handler = teller ?? raw;
  if (teller && raw) { // a part is open when it begins and when it ends
    handler = hook.event === "begin" ? inTurn(teller, raw, hook) : inTurn(raw, teller, hook);
  }
  return explained(handler, hook, place, context) ?? (() => {});
}
