/**
 * What the calls of a hook of this name tell.
 * @param {string} name
 * @returns {Hook}
 */
export function hookNamed(name: string): Hook;
/**
 * @typedef {object} Hook
 * @property {string} name
 * @property {string} event
 * @property {string} op the name of the instruction, or "" if the event has none
 * @property {number} kind the place of a part's kind in KINDS, or -1
 * @property {string} letters the types of the values behind the function and the position, i for i32 and l for i64
 * @property {string} types the letters at the end of the name
 */
export const KINDS: readonly ["function", "block", "loop", "if", "else"];
/** The events, in the order of their tags in a trace. */
export const EVENTS: readonly ["start", "nop", "unreachable", "if", "br", "br_if", "br_table", "begin", "end", "const", "unary", "binary", "drop", "select", "local", "global", "load", "store", "memory_size", "memory_grow", "call_pre", "call_indirect_pre", "call_post", "return"];
export function groupOf(event: string): string;
export const GROUPS: string[];
/**
 * The opcodes of the instructions that give hooks their names.
 * @type {Map<string, number>}
 */
export const OPCODES: Map<string, number>;
export function bytesOf(op: string): number;
export function wordsOf(letters: string): number;
export type Hook = {
    name: string;
    event: string;
    /**
     * the name of the instruction, or "" if the event has none
     */
    op: string;
    /**
     * the place of a part's kind in KINDS, or -1
     */
    kind: number;
    /**
     * the types of the values behind the function and the position, i for i32 and l for i64
     */
    letters: string;
    /**
     * the letters at the end of the name
     */
    types: string;
};
