// The stack of open functions and parts. It follows begins, ends and calls by itself, through traps and re-entries.
//
// Nothing tells a trap. What it leaves open is closed when the next function begins that the host calls. That the module calls it is
// known by the hook call of the group `call` before it. If there is none, because the group or the calling function was not selected, or
// because the host calls, the engine's own stack is asked; but only if a function begins that the host can reach, while others are open.
// `floor` is what was open when the innermost open function of the host was called.
import {isCalledByModule} from "./frames.mjs";

/** What stands for the index of a function: there is none, it is not known which. */
export const NONE = -1, UNKNOWN = -2;

const FUNCTION = -1; // where a function begins; no other part begins there

export class Stack {
  /**
   * The open functions, the outermost first.
   * @type {number[]}
   */
  functions = [];
  /** Whether a callback runs, or threw what ended the last call. */
  telling = false;
  /** The function that the module is about to call, by its own hook call. */
  expected = NONE;
  /** The begins of the open parts. */
  #begins = new Int32Array(256);
  #count = 0;
  #floor = 0;
  #isReachable;

  /** @param {(func: number) => boolean} isReachable whether the host can call a function */
  constructor(isReachable) {
    this.#isReachable = isReachable;
  }

  /**
   * @param {number} func
   * @param {number} begin
   */
  open(func, begin) {
    if (begin === FUNCTION) {
      if (this.#count > this.#floor && !this.#isInner(func)) this.#cut(this.#floor);
      this.expected = NONE;
      this.telling = false;
      this.functions.push(func);
    }
    if (this.#count === this.#begins.length) this.#grow();
    this.#begins[this.#count++] = begin;
  }

  /**
   * Closes the part that began at a position, and those inside it that are still open.
   * @param {number} begin
   */
  close(begin) {
    while (this.#count > this.#floor) {
      const closed = this.#begins[--this.#count];
      if (closed === FUNCTION) this.functions.pop();
      if (closed === begin) return;
    }
  }

  /** What is open now: outside of callbacks the host runs, and nothing is open but what it was called from. */
  settle() {
    if (!this.telling) this.#cut(this.#floor);
    return this;
  }

  /** The open parts, the outermost first: the function of each, and where it began. */
  places() {
    let depth = -1;
    return Array.from(this.#begins.subarray(0, this.#count), begin => ({func: this.functions[begin === FUNCTION ? ++depth : depth], begin}));
  }

  /**
   * A function of the host during whose calls the module can be entered again.
   * @param {Function} host
   * @param {number} arity
   * @returns {Function}
   */
  hosted(host, arity) {
    const enter = () => {
      const floor = this.#floor;
      this.#floor = this.#count;
      this.expected = NONE;
      return floor;
    };
    const leave = (/** @type {number} */ floor) => {
      this.#cut(this.#floor);
      this.#floor = floor;
    };
    /** @type {(...args: any[]) => any} */
    const called = /** @type {any} */ (host);
    if (arity === 0) return () => { const floor = enter(); try { return called(); } finally { leave(floor); } };
    if (arity === 1) return (/** @type {any} */ a) => { const floor = enter(); try { return called(a); } finally { leave(floor); } };
    return (/** @type {any[]} */ ...args) => { const floor = enter(); try { return called(...args); } finally { leave(floor); } };
  }

  /**
   * Whether a function that begins was called by the open one, and not by the host.
   * @param {number} func
   */
  #isInner(func) {
    return this.expected === func || !this.#isReachable(func) || isCalledByModule();
  }

  #grow() {
    const begins = new Int32Array(2 * this.#begins.length);
    begins.set(this.#begins);
    this.#begins = begins;
  }

  /** @param {number} count */
  #cut(count) {
    while (this.#count > count) if (this.#begins[--this.#count] === FUNCTION) this.functions.pop();
  }
}
