/** @typedef {import("./information.mjs").Information} Information */
/** @typedef {{module: WebAssembly.Module, bytes: Uint8Array | undefined, origin: string | undefined}} Found an output, and where it was read */
/**
 * @typedef {object} Plan
 * @property {(found: Found) => any} informationOf the information of an output: as text, as bytes, parsed, or a promise of these; if it is
 *   undefined, the output is left to its host
 * @property {(information: Information, found: Found) => import("./wasabi.mjs").Callbacks} callbacksOf
 * @property {(run: Run, found: Found) => void} [started] is called with each run when its instance is there
 * @property {import("./wasabi.mjs").Options} [options]
 */
/**
 * The information beside an output in a page: NAME.json beside NAME.wasm.
 * @param {Found} found
 */
export function beside({ origin }: Found): Promise<string>;
/**
 * Patches WebAssembly, and answers with a function that undoes it.
 * @param {Plan} plan
 */
export function patch({ informationOf, callbacksOf, started, options }: Plan): () => void;
export type Information = import("./information.mjs").Information;
/**
 * an output, and where it was read
 */
export type Found = {
    module: WebAssembly.Module;
    bytes: Uint8Array | undefined;
    origin: string | undefined;
};
export type Plan = {
    /**
     * the information of an output: as text, as bytes, parsed, or a promise of these; if it is
     * undefined, the output is left to its host
     */
    informationOf: (found: Found) => any;
    callbacksOf: (information: Information, found: Found) => import("./wasabi.mjs").Callbacks;
    /**
     * is called with each run when its instance is there
     */
    started?: ((run: Run, found: Found) => void) | undefined;
    options?: import("./wasabi.mjs").Options | undefined;
};
import { Run } from "./wasabi.mjs";
