/**
 * A table that is neither imported nor exported stays as the segments made it. In any other table, a function counts as one of the
 * module if it is the very object that a segment put there, or that an export is. If the bytes of the module are not known, the names
 * of functions are believed, which engines give by their indices.
 */
export class Callees {
    /**
     * @param {Information} information
     * @param {Module | undefined} module
     * @param {WebAssembly.Table | undefined} table the imported one
     * @param {any[]} globals the imported ones
     */
    constructor(information: Information, module: Module | undefined, table: WebAssembly.Table | undefined, globals: any[]);
    /** @param {WebAssembly.Exports} exports */
    attach(exports: WebAssembly.Exports): void;
    /**
     * The function of the original in a slot, NONE or UNKNOWN.
     * @param {number} slot
     */
    at(slot: number): number;
    /**
     * The function that a call through the table enters: NONE if the call traps, UNKNOWN if it may.
     * @param {number} type
     * @param {number} func what `at` answered
     */
    entered(type: number, func: number): number;
    #private;
}
export type Information = import("./information.mjs").Information;
export type Module = import("./module.mjs").Module;
