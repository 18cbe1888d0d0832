/** @typedef {import("./hooks.mjs").Hook} Hook */
/** @typedef {"blocks" | "branches" | "calls" | "memory"} Report */
/**
 * A row of a report.
 * @typedef {object} Row
 * @property {number} func
 * @property {number} at the position, or of calls the callee, -1 if there is none
 * @property {string} word the kind of a part, of a branch, or the name of an instruction
 * @property {number} choice of a branch
 * @property {number} times
 * @property {number} least of the memory, the least sum of address and offset
 * @property {number} greatest
 */
/** @typedef {(func: number, position: number, ...words: number[]) => void} Counter */
export const REPORTS: readonly ["blocks", "branches", "calls", "memory"];
/** The four reports, and how many events they are of. */
export class Counts {
    /**
     * The counts in a text that `text` made, or the mode `report`.
     * @param {string} text
     */
    static of(text: string): Counts;
    events: number;
    strays: number;
    /**
     * The function that counts the event of a hook's call: by the function, the position, and the words of a raw callback. It is undefined
     * for an event that no report counts.
     * @param {Hook} hook
     * @returns {Counter | undefined}
     */
    counterOf({ event, op, kind }: Hook): Counter | undefined;
    /**
     * The rows of a report, in their order.
     * @param {Report} report
     */
    rows(report: Report): Row[];
    /**
     * What the mode `report` prints behind the text of the run.
     * @param {readonly Report[]} [reports]
     */
    text(reports?: readonly Report[] | undefined): string;
    /**
     * Adds the counts of another run.
     * @param {Counts} other
     */
    add(other: Counts): void;
    #private;
}
/** How often each path of calls came. */
export class Tree {
    /**
     * The counts in a text that `text` made, or the mode `tree`.
     * @param {string} text
     */
    static of(text: string): Tree;
    /**
     * Counts a function that begins.
     * @param {number} func
     * @param {number} depth the number of functions that are open before it
     */
    begin(func: number, depth: number): void;
    /** What the mode `tree` prints behind the text of the run. */
    text(): string;
    /**
     * Adds the counts of another run.
     * @param {Tree} other
     */
    add(other: Tree): void;
    #private;
}
export type Hook = import("./hooks.mjs").Hook;
export type Report = "blocks" | "branches" | "calls" | "memory";
/**
 * A row of a report.
 */
export type Row = {
    func: number;
    /**
     * the position, or of calls the callee, -1 if there is none
     */
    at: number;
    /**
     * the kind of a part, of a branch, or the name of an instruction
     */
    word: string;
    /**
     * of a branch
     */
    choice: number;
    times: number;
    /**
     * of the memory, the least sum of address and offset
     */
    least: number;
    greatest: number;
};
export type Counter = (func: number, position: number, ...words: number[]) => void;
/**
 * a path of calls, by its last function
 */
export type Node = {
    func: number;
    times: number;
    below: Map<number, Node>;
};
/**
 * @param {Node} node
 * @param {number} func
 */
declare function below(node: Node, func: number): Node;
export {};
