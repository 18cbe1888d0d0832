/**
 * Writes a file whole.
 * @param {string} file
 * @param {string | Uint8Array} content
 */
export function writeWhole(file: string, content: string | Uint8Array): void;
/** The counts of one output in a folder. */
export class CountsFolder {
    /**
     * @param {string} folder which is made if it is not there
     * @param {string} name of the output
     * @param {import("./information.mjs").Information} information that of the output; a folder with counts of another one is refused
     */
    constructor(folder: string, name: string, information: import("./information.mjs").Information);
    /**
     * Adds counts to those that are there.
     * @param {Counts} counts
     * @param {Tree | undefined} tree
     */
    add(counts: Counts, tree: Tree | undefined): void;
    #private;
}
import { Counts } from "./counts.mjs";
import { Tree } from "./counts.mjs";
