export class Trace {
    /** @param {number} mostBytes */
    constructor(mostBytes: number);
    /**
     * The function that writes the event of a hook's call: by the function, the position, and the words of a raw callback.
     * @param {Hook} hook
     * @returns {(func: number, position: number, ...words: number[]) => void}
     */
    writerOf(hook: Hook): (func: number, position: number, ...words: number[]) => void;
    /** @param {number} hook its place in the information */
    stray(hook: number): void;
    /** The trace of the events so far. */
    bytes(): Uint8Array;
    #private;
}
export type Hook = import("./hooks.mjs").Hook;
/**
 * writes the fields of an event by the words behind the function and the position
 */
export type Fields = (...words: number[]) => void;
