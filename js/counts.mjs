// Counts events as the modes `report` and `tree` do, and writes, reads and adds up their texts. docs/CLI.md has their forms.
import {RecordError} from "./errors.mjs";
import {KINDS} from "./hooks.mjs";

/** @typedef {import("./hooks.mjs").Hook} Hook */
/** @typedef {"blocks" | "branches" | "calls" | "memory"} Report */
/**
 * A row of a report.
 * @typedef {object} Row
 * @property {number} func
 * @property {number} at the position, or of calls the callee, -1 if there is none
 * @property {string} word the kind of a part, of a branch, or the name of an instruction
 * @property {number} choice of a branch
 * @property {number} times
 * @property {number} least of the memory, the least sum of address and offset
 * @property {number} greatest
 */
/** @typedef {(func: number, position: number, ...words: number[]) => void} Counter */

export const REPORTS = /** @type {const} */ (["blocks", "branches", "calls", "memory"]);

/**
 * What a row says before its count.
 * @type {Record<Report, (row: Row) => string>}
 */
const SPELT = {
  blocks: ({func, at, word}) => `block ${func}:${at} ${word}`,
  branches: ({func, at, word, choice}) => `branch ${func}:${at} ${word} ${choice}`,
  calls: ({func, at}) => `call ${func} ${at < 0 ? "none" : at}`,
  memory: ({func, at, word}) => `memory ${func}:${at} ${word}`,
};

/** @type {Record<Report, RegExp>} */
const FORMS = {
  blocks: /^block (?<func>\d+):(?<at>-?\d+) (?<word>[a-z]+) (?<times>\d+)$/,
  branches: /^branch (?<func>\d+):(?<at>\d+) (?<word>[a-z_]+) (?<choice>\d+) (?<times>\d+)$/,
  calls: /^call (?<func>\d+) (?<at>\d+|none) (?<times>\d+)$/,
  memory: /^memory (?<func>\d+):(?<at>\d+) (?<word>[a-z0-9_.]+) (?<times>\d+) (?<least>\d+) (?<greatest>\d+)$/,
};

/**
 * @param {number} func
 * @param {number} at
 * @param {string} word
 * @param {number} choice
 * @returns {Row}
 */
const rowOf = (func, at, word = "", choice = 0) => ({func, at, word, choice, times: 0, least: Infinity, greatest: -1});

/**
 * @param {Row} first
 * @param {Row} second
 */
const inOrder = (first, second) => first.func - second.func || first.at - second.at || first.choice - second.choice;

/** The four reports, and how many events they are of. */
export class Counts {
  events = 0;
  strays = 0;
  /** @type {Record<Report, Map<string, Row>>} */
  #books = {blocks: new Map(), branches: new Map(), calls: new Map(), memory: new Map()};

  /**
   * The function that counts the event of a hook's call: by the function, the position, and the words of a raw callback. It is undefined
   * for an event that no report counts.
   * @param {Hook} hook
   * @returns {Counter | undefined}
   */
  counterOf({event, op, kind}) {
    switch (event) {
      case "begin": {
        const rows = this.#rowsAt("blocks", KINDS[kind]);
        return (func, position) => { rows(func, position).times++; };
      }
      case "if": case "br_if": {
        const not = this.#rowsAt("branches", event, 0), taken = this.#rowsAt("branches", event, 1);
        return event === "if" ? (func, position, condition) => { (condition === 0 ? not : taken)(func, position).times++; }
          : (func, position, _label, _target, condition) => { (condition === 0 ? not : taken)(func, position).times++; };
      }
      case "br": case "br_table": {
        /** @type {((func: number, position: number) => Row)[]} */
        const rows = [];
        const count = (/** @type {number} */ func, /** @type {number} */ position, /** @type {number} */ label) => {
          (rows[label] ??= this.#rowsAt("branches", event, label))(func, position).times++;
        };
        return event === "br" ? count : (func, position, _index, label) => count(func, position, label);
      }
      case "load": case "store": {
        const rows = this.#rowsAt("memory", op);
        return (func, position, offset, address) => {
          const row = rows(func, position), sum = (offset >>> 0) + (address >>> 0);
          row.times++;
          if (sum < row.least) row.least = sum;
          if (sum > row.greatest) row.greatest = sum;
        };
      }
      case "call_pre": case "call_indirect_pre": {
        const rows = this.#rowsAt("calls"), none = -1;
        const count = (/** @type {number} */ func, /** @type {number} */ callee) => { rows(func, Math.max(callee, none)).times++; };
        return event === "call_pre" ? (func, _position, callee) => count(func, callee)
          : (func, _position, _type, _slot, callee) => count(func, callee);
      }
      default: return undefined;
    }
  }

  /**
   * The rows of a report, in their order.
   * @param {Report} report
   */
  rows(report) {
    return [...this.#books[report].values()].sort(inOrder);
  }

  /**
   * What the mode `report` prints behind the text of the run.
   * @param {readonly Report[]} [reports]
   */
  text(reports = REPORTS) {
    const lines = [];
    for (const report of REPORTS.filter(it => reports.includes(it))) {
      const rows = this.rows(report);
      lines.push(`report ${report} ${rows.length}`);
      for (const row of rows) lines.push(`${SPELT[report](row)} ${row.times}${report === "memory" ? ` ${row.least} ${row.greatest}` : ""}`);
    }
    return `${[...lines, `events ${this.events} stray ${this.strays}`].join("\n")}\n`;
  }

  /**
   * Adds the counts of another run.
   * @param {Counts} other
   */
  add(other) {
    this.events += other.events;
    this.strays += other.strays;
    for (const report of REPORTS) for (const row of other.rows(report)) this.#addRow(report, row);
  }

  /**
   * The counts in a text that `text` made, or the mode `report`.
   * @param {string} text
   */
  static of(text) {
    const counts = new Counts();
    for (const line of text.split("\n")) {
      const [, events, strays] = /^events (\d+) stray (\d+)$/.exec(line) ?? [];
      if (events !== undefined) {
        counts.events = Number(events);
        counts.strays = Number(strays);
        return counts;
      }
      for (const report of REPORTS) {
        const {func, at, word, choice, times, least, greatest} = FORMS[report].exec(line)?.groups ?? {};
        if (func === undefined) continue;
        const row = rowOf(Number(func), at === "none" ? -1 : Number(at), word, Number(choice ?? 0));
        counts.#addRow(report, {...row, times: Number(times), least: Number(least ?? Infinity), greatest: Number(greatest ?? -1)});
      }
    }
    throw new RecordError("the text is no report: it has no line of the form events N stray M");
  }

  /**
   * @param {Report} report
   * @param {Row} added
   */
  #addRow(report, added) {
    const row = this.#row(report, added.func, added.at, added.word, added.choice);
    row.times += added.times;
    row.least = Math.min(row.least, added.least);
    row.greatest = Math.max(row.greatest, added.greatest);
  }

  /**
   * @param {Report} report
   * @param {number} func
   * @param {number} at
   * @param {string} word
   * @param {number} choice
   */
  #row(report, func, at, word, choice) {
    const row = rowOf(func, at, word, choice), key = SPELT[report](row);
    const known = this.#books[report].get(key);
    if (!known) this.#books[report].set(key, row);
    return known ?? row;
  }

  /**
   * Finds rows by two numbers, without a text.
   * @param {Report} report
   * @param {string} word
   * @param {number} choice
   */
  #rowsAt(report, word = "", choice = 0) {
    /** @type {(Row | undefined)[][]} */
    const found = [];
    return (/** @type {number} */ func, /** @type {number} */ at) => {
      const own = found[func] ??= [];
      return own[at + 1] ??= this.#row(report, func, at, word, choice);
    };
  }
}

/** @typedef {{func: number, times: number, below: Map<number, Node>}} Node a path of calls, by its last function */

/**
 * @param {number} func
 * @returns {Node}
 */
const nodeOf = func => ({func, times: 0, below: new Map()});

/**
 * @param {Node} node
 * @param {number} func
 */
function below(node, func) {
  const found = node.below.get(func) ?? nodeOf(func);
  node.below.set(func, found);
  return found;
}

/** How often each path of calls came. */
export class Tree {
  #root = nodeOf(-1);
  /**
   * The path to the last function that began.
   * @type {Node[]}
   */
  #path = [];

  /**
   * Counts a function that begins.
   * @param {number} func
   * @param {number} depth the number of functions that are open before it
   */
  begin(func, depth) {
    const node = below(depth === 0 ? this.#root : this.#path[depth - 1], func);
    node.times++;
    this.#path[depth] = node;
  }

  /** What the mode `tree` prints behind the text of the run. */
  text() {
    const lines = [];
    /** @type {[node: Node, depth: number][]} */
    const open = [[this.#root, -1]];
    for (let next = open.pop(); next; next = open.pop()) {
      const [node, depth] = next;
      if (depth >= 0) lines.push(`node ${depth} ${node.func} ${node.times}`);
      for (const it of [...node.below.values()].sort((a, b) => b.func - a.func)) open.push([it, depth + 1]);
    }
    return `${[`tree ${lines.length}`, ...lines].join("\n")}\n`;
  }

  /**
   * Adds the counts of another run.
   * @param {Tree} other
   */
  add(other) {
    /** @type {[own: Node, added: Node][]} */
    const open = [[this.#root, other.#root]];
    for (let next = open.pop(); next; next = open.pop()) {
      const [own, added] = next;
      own.times += added.times;
      for (const it of added.below.values()) open.push([below(own, it.func), it]);
    }
  }

  /**
   * The counts in a text that `text` made, or the mode `tree`.
   * @param {string} text
   */
  static of(text) {
    const tree = new Tree();
    const lines = text.split("\n"), first = lines.findIndex(line => /^tree \d+$/.test(line));
    if (first < 0) throw new RecordError("the text is no tree: it has no line of the form tree N");
    for (const line of lines.slice(first + 1, first + 1 + Number(lines[first].slice(5)))) {
      const [depth, func, times] = (/^node (\d+) (\d+) (\d+)$/.exec(line) ?? []).slice(1).map(Number);
      const above = depth === 0 ? tree.#root : tree.#path[depth - 1];
      if (above === undefined) throw new RecordError(`the text is no tree: ${line}`);
      const node = below(above, func);
      node.times += times;
      tree.#path[depth] = node;
    }
    return tree;
  }
}
