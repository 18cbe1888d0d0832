/**
 * The script, which is given as text or parsed. What is none is refused.
 * @param {unknown} given
 * @returns {Script}
 */
export function scriptOf(given: unknown): Script;
/**
 * The answer of a call, as `run` prints it. An error that is no trap is thrown.
 * @param {() => any} call
 * @param {(error: unknown) => boolean} isTrap
 */
export function answerOf(call: () => any, isTrap: (error: unknown) => boolean): string;
/**
 * Makes the calls of a script in an output, and answers with the run and the text of the mode `run`.
 * @param {Bytes} output
 * @param {import("./information.mjs").Information | string | Bytes} information
 * @param {Script | string} script
 * @param {import("./wasabi.mjs").Callbacks} [callbacks]
 * @param {import("./wasabi.mjs").Options} [options]
 */
export function runScript(output: Bytes, information: import("./information.mjs").Information | string | Bytes, script: Script | string, callbacks?: import("./types.js").Callbacks | undefined, options?: import("./wasabi.mjs").Options | undefined): Promise<{
    run: import("./wasabi.mjs").Run;
    host: Host;
    text: string;
}>;
/**
 * The same for a module without hooks.
 * @param {Bytes} given
 * @param {Script | string} script
 */
export function runPlain(given: Bytes, script: Script | string): Promise<{
    host: Host;
    text: string;
}>;
/** All that a module imports besides hooks, answered by a script. */
export class Host {
    /**
     * @param {import("./module.mjs").Module} module
     * @param {Script} script
     */
    constructor({ imports, types }: import("./module.mjs").Module, { host, globals, pages }: Script);
    /** How many calls of functions were answered. */
    calls: number;
    /**
     * The imported memory, or the one that `attach` found.
     * @type {WebAssembly.Memory | undefined}
     */
    memory: WebAssembly.Memory | undefined;
    /**
     * What `start` takes as imports.
     * @type {Record<string, Record<string, any>>}
     */
    imports: Record<string, Record<string, any>>;
    /** @param {WebAssembly.Exports} exports */
    attach(exports: WebAssembly.Exports): void;
    #private;
}
export type Num = number | bigint;
export type Answer = {
    results: Num[];
    writes: [address: number, digits: string][];
};
export type Script = {
    calls: {
        export: string;
        args: Num[];
    }[];
    host: Answer[];
    globals: Num[];
    pages: number;
};
export type Bytes = import("./wasabi.mjs").Bytes;
