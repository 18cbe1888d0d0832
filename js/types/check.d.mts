/**
 * Compares the information with what an engine tells of a module: the number of its imports and the names of its hooks.
 * @param {WebAssembly.Module} module
 * @param {Information} information
 */
export function checkImports(module: WebAssembly.Module, { hooks, imports }: Information): void;
/**
 * Compares the information with the types in an output: those of all functions, and those of the hooks.
 * @param {Module} module
 * @param {Information} information
 */
export function checkTypes(module: Module, { functions, hooks, imports }: Information): void;
/**
 * @param {Module} module
 * @param {Information} information
 * @returns {boolean} whether each hook call was seen to tell a place of its own function
 */
export function checkBodies(module: Module, information: Information): boolean;
/**
 * Compares the information with all that is known of an output, and reads its bytes, if they are given.
 * @param {WebAssembly.Module} compiled
 * @param {Uint8Array | undefined} bytes
 * @param {Information} information
 * @param {boolean} comparesBodies whether the bodies of functions are compared too
 * @returns {{module: Module | undefined, isVerified: boolean}} verified: each hook call was seen to tell a place of its own function
 */
export function checkOutput(compiled: WebAssembly.Module, bytes: Uint8Array | undefined, information: Information, comparesBodies?: boolean): {
    module: Module | undefined;
    isVerified: boolean;
};
/**
 * what the information says of it
 */
export type Body = {
    results: string;
    blocks: [kind: number, begin: number, end: number, target: number][];
    byBegin: Map<number, [kind: number, begin: number, end: number, target: number]>;
    tables: Map<number, number[]>;
};
export type Hook = import("./hooks.mjs").Hook;
export type Information = import("./information.mjs").Information;
export type Defined = import("./information.mjs").Defined;
export type Block = import("./information.mjs").Block;
export type Module = import("./module.mjs").Module;
export type Type = import("./module.mjs").Type;
