/**
 * The parts of a module of version 1.
 * @param {Uint8Array} bytes
 * @returns {Module}
 */
export function readModule(bytes: Uint8Array): Module;
/**
 * Tells each call, in a body, of a function from `first` to before `first + counts.length`: its place among these, and its last
 * arguments, each a constant or undefined. Answers false if an instruction is not of version 1; nothing behind it is told.
 * @param {Reader} body
 * @param {number} first
 * @param {number[]} counts how many arguments each of these functions has
 * @param {(place: number, args: (number | undefined)[]) => void} tell
 */
export function callsIn(body: Reader, first: number, counts: number[], tell: (place: number, args: (number | undefined)[]) => void): boolean;
/** The module that hooks are imported from. */
export const HOOKS: "__wasabi_hooks";
export function exportedFunctions({ exports }: Module): [name: string, index: number][];
export type Type = {
    params: string;
    results: string;
};
export type Limits = {
    least: number;
    most: number | undefined;
};
export type Import = {
    module: string;
    name: string;
    kind: "function" | "table" | "memory" | "global";
    /**
     * of a function, its index
     */
    type: number;
    /**
     * of a table or a memory
     */
    limits: Limits;
    /**
     * of a global, its type
     */
    letter: string;
    /**
     * of a global
     */
    isMutable: boolean;
};
export type Export = {
    name: string;
    kind: number;
    index: number;
};
export type Segment = {
    offset: number | {
        global: number;
    };
    functions: number[];
};
export type Module = {
    types: Type[];
    imports: Import[];
    /**
     * the types of the functions that it defines
     */
    functions: number[];
    exports: Export[];
    start: number | undefined;
    /**
     * those of the table
     */
    segments: Segment[];
    bodies: Reader[];
};
import { Reader } from "./reader.mjs";
