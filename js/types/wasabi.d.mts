/**
 * Makes an instance of the output, which runs its start function.
 * @param {WebAssembly.Module | Bytes} output its bytes, or the module that was compiled of them
 * @param {Information | string | Bytes} information what `instrument --info` wrote: as text, as bytes or parsed
 * @param {Callbacks} [callbacks]
 * @param {WebAssembly.Imports} [imports] what the original imports
 * @param {Options} [options]
 */
export function start(output: WebAssembly.Module | Bytes, information: Information | string | Bytes, callbacks?: import("./types.js").Callbacks | undefined, imports?: WebAssembly.Imports | undefined, options?: Options | undefined): Promise<Run>;
export * from "./errors.mjs";
export class Run {
    /**
     * @param {WebAssembly.Module} module the output
     * @param {Information | string | Bytes} information what `instrument --info` wrote: parsed, as text or as bytes
     * @param {Callbacks} [callbacks]
     * @param {WebAssembly.Imports} [imports] what the original imports
     * @param {Options} [options]
     */
    constructor(module: WebAssembly.Module, information: Information | string | Bytes, callbacks?: import("./types.js").Callbacks | undefined, imports?: WebAssembly.Imports | undefined, options?: Options | undefined);
    /**
     * The exports of the instance, which are the engine's own.
     * @type {Record<string, any>}
     */
    exports: Record<string, any>;
    /**
     * The names of functions that have names, by their indices in the original.
     * @type {Map<number, string>}
     */
    names: Map<number, string>;
    /**
     * Undefined while the start function runs.
     * @type {WebAssembly.Instance | undefined}
     */
    instance: WebAssembly.Instance | undefined;
    /**
     * All that the output imports: the given imports and the hooks.
     * @type {WebAssembly.Imports}
     */
    imports: WebAssembly.Imports;
    module: WebAssembly.Module;
    information: import("./information.mjs").Information;
    /**
     * Takes the instance that was made of the module and the imports.
     * @param {WebAssembly.Instance} instance
     */
    attach(instance: WebAssembly.Instance): Run;
    /** The functions that are open, the outermost first. Needs the groups begin and end. */
    get stack(): number[];
    /** The parts that are open, functions among them, the innermost last. Needs the groups begin and end. */
    get parts(): {
        func: number;
        kind: "function" | "block" | "loop" | "if" | "else";
        begin: number;
    }[];
    /**
     * The name of a function, or its number if it has no name.
     * @param {number} func
     */
    nameOf(func: number): string;
    /**
     * The parts of a function, itself first, in ascending order of their begins; none if the original imports it.
     * @param {number} func
     */
    partsOf(func: number): Readonly<{
        kind: "function" | "block" | "loop" | "if" | "else";
        begin: number;
        end: number;
        target: number;
    }>[];
    /**
     * Whether an error that a call threw is a trap of the module or a call that was too deep, and not an error of a callback or of the host.
     * @param {unknown} error
     */
    isTrap(error: unknown): boolean;
    /**
     * Calls an export: `call("f", 1, 2)`, or as it is written, `call("f(1, 2)")`. Each number becomes the i32 or i64 that the
     * function takes.
     * @param {string} text
     * @param {(number | bigint)[]} values
     * @returns {any}
     */
    call(text: string, ...values: (number | bigint)[]): any;
    #private;
}
export type Callbacks = import("./types.js").Callbacks;
export type Information = import("./information.mjs").Information;
export type Bytes = ArrayBuffer | SharedArrayBuffer | ArrayBufferView;
export type Options = {
    /**
     * what is done about a function that the imports lack: "zeros" supplies one that returns zeros
     */
    missing?: "refuse" | "zeros" | undefined;
    /**
     * what is done about a callback whose group the output lacks
     */
    unselected?: "refuse" | "ignore" | undefined;
    /**
     * false: the stack is not kept, which makes begins and ends faster
     */
    stack?: boolean | undefined;
    /**
     * false: the bodies of the output are not compared with the information
     */
    check?: boolean | undefined;
    /**
     * the bytes of the output, if a WebAssembly.Module is given
     */
    bytes?: Bytes | undefined;
};
import { EVENTS } from "./hooks.mjs";
import { HOOKS } from "./module.mjs";
import { KINDS } from "./hooks.mjs";
import { hookNamed } from "./hooks.mjs";
import { informationOf } from "./information.mjs";
export { EVENTS, HOOKS, KINDS, hookNamed, informationOf };
