// Records what a run does as the modes `record`, `report` and `tree` do, so that whatever reads these reads a run in Node or in a page:
//
//     const recorder = new Recorder(information);
//     const run = await start(output, information, recorder.callbacks, imports);
//     run.exports.f(1);
//     recorder.report()    the lines from "report blocks N" to "events N stray M"
//     recorder.tree()      the lines "tree N" and "node DEPTH FUNC COUNT"
//     recorder.trace()     bytes, which `wasabi replay` reads
import {Counts, REPORTS, Tree} from "./counts.mjs";
import {RecordError, StackError} from "./errors.mjs";
import {EVENTS, KINDS, groupOf, hookNamed} from "./hooks.mjs";
import {informationOf} from "./information.mjs";
import {Trace} from "./trace.mjs";

export {Counts, REPORTS, Tree};

/** @typedef {import("./hooks.mjs").Hook} Hook */
/** @typedef {import("./information.mjs").Part} Part */
/** @typedef {import("./wasabi.mjs").Run} Run */
/** @typedef {(...words: any[]) => void} Listener */
/**
 * @typedef {object} RecorderOptions
 * @property {boolean} [trace] whether a trace is written
 * @property {boolean} [tree] whether paths of calls are counted; by default, if the groups begin and end are there
 * @property {number} [mostBytes] how many bytes the trace may have
 */

const MOST_BYTES = 268435456; // what the program reads

export class Recorder {
  /**
   * What `start` takes as callbacks.
   * @type {import("./types.js").Callbacks}
   */
  callbacks;
  counts = new Counts();
  #information;
  #trace;
  #tree;

  /**
   * @param {import("./information.mjs").Information | string | import("./wasabi.mjs").Bytes} information that of the output
   * @param {RecorderOptions} [options]
   */
  constructor(information, options = {}) {
    const {trace = true, tree, mostBytes = MOST_BYTES} = options;
    this.#information = informationOf(information);
    const {groups} = this.#information;
    const nests = groups.includes("begin") && groups.includes("end");
    if (tree && !nests) throw new StackError("paths of calls can't be counted: the information lacks the group begin or end");
    this.#trace = trace ? new Trace(mostBytes) : undefined;
    this.#tree = tree ?? nests ? new Tree() : undefined;
    const told = EVENTS.filter(event => groups.includes(groupOf(event)) || (event === "br_table" && groups.includes("end")));
    const raw = Object.fromEntries(told.map(event => [event, (/** @type {Hook} */ hook, /** @type {Run} */ run) => this.#listener(hook, run)]));
    this.callbacks = {raw, stray: ({hook}) => this.#stray(hook)};
  }

  /** What the mode `report` prints behind the text of the run, for these reports. */
  report(reports = REPORTS) {
    return this.counts.text(reports);
  }

  /** How often each path of calls came; undefined if paths are not counted. */
  get paths() {
    return this.#tree;
  }

  /** What the mode `tree` prints behind the text of the run. */
  tree() {
    if (!this.#tree) throw new RecordError("paths of calls were not counted: the option tree is false, or the information lacks begin or end");
    return this.#tree.text();
  }

  /** What the mode `record` writes of the events so far. */
  trace() {
    if (!this.#trace) throw new RecordError("no trace was written: the option trace is false");
    return this.#trace.bytes();
  }

  /**
   * @param {Hook} hook
   * @param {Run} run
   * @returns {Listener}
   */
  #listener(hook, run) {
    if (hook.event === "br_table") return this.#branchListener(hook);
    const {counts} = this, write = this.#trace?.writerOf(hook), count = counts.counterOf(hook), tree = this.#tree;
    const path = tree && hook.name === "begin_function" ? (/** @type {number} */ func) => tree.begin(func, run.stack.length - 1) : undefined;
    return (func, position, ...words) => {
      counts.events++;
      write?.(func, position, ...words);
      count?.(func, position, ...words);
      path?.(func);
    };
  }

  /**
   * The hook of a br_table also tells the ends of the parts that it leaves.
   * @param {Hook} hook
   * @returns {Listener}
   */
  #branchListener(hook) {
    const {groups} = this.#information, {counts} = this, trace = this.#trace;
    const tells = groups.includes("br_table"), ends = groups.includes("end");
    const write = trace?.writerOf(hook), count = counts.counterOf(hook);
    const enders = new Map(KINDS.map(kind => [kind, trace?.writerOf(hookNamed(`end_${kind}`))]));
    return (func, position, index, label, target, /** @type {readonly Part[]} */ left) => {
      if (tells) {
        counts.events++;
        write?.(func, position, index, label, target);
        count?.(func, position, index, label);
      }
      if (!ends) return;
      for (const {kind, begin, end} of left) {
        counts.events++;
        enders.get(kind)?.(func, end, begin);
      }
    };
  }

  /** @param {number} hook */
  #stray(hook) {
    this.counts.strays++;
    this.#trace?.stray(hook);
  }
}
