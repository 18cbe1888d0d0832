export class Recorder {
    /**
     * @param {import("./information.mjs").Information | string | import("./wasabi.mjs").Bytes} information that of the output
     * @param {RecorderOptions} [options]
     */
    constructor(information: import("./information.mjs").Information | string | import("./wasabi.mjs").Bytes, options?: RecorderOptions | undefined);
    /**
     * What `start` takes as callbacks.
     * @type {import("./types.js").Callbacks}
     */
    callbacks: import("./types.js").Callbacks;
    counts: Counts;
    /** What the mode `report` prints behind the text of the run, for these reports. */
    report(reports?: readonly ["blocks", "branches", "calls", "memory"]): string;
    /** How often each path of calls came; undefined if paths are not counted. */
    get paths(): Tree | undefined;
    /** What the mode `tree` prints behind the text of the run. */
    tree(): string;
    /** What the mode `record` writes of the events so far. */
    trace(): Uint8Array;
    #private;
}
export type Hook = import("./hooks.mjs").Hook;
export type Part = import("./information.mjs").Part;
export type Run = import("./wasabi.mjs").Run;
export type Listener = (...words: any[]) => void;
export type RecorderOptions = {
    /**
     * whether a trace is written
     */
    trace?: boolean | undefined;
    /**
     * whether paths of calls are counted; by default, if the groups begin and end are there
     */
    tree?: boolean | undefined;
    /**
     * how many bytes the trace may have
     */
    mostBytes?: number | undefined;
};
import { Counts } from "./counts.mjs";
import { REPORTS } from "./counts.mjs";
import { Tree } from "./counts.mjs";
export { Counts, REPORTS, Tree };
