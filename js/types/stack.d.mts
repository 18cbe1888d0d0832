export const NONE: -1;
export const UNKNOWN: -2;
export class Stack {
    /** @param {(func: number) => boolean} isReachable whether the host can call a function */
    constructor(isReachable: (func: number) => boolean);
    /**
     * The open functions, the outermost first.
     * @type {number[]}
     */
    functions: number[];
    /** Whether a callback runs, or threw what ended the last call. */
    telling: boolean;
    /** The function that the module is about to call, by its own hook call. */
    expected: number;
    /**
     * @param {number} func
     * @param {number} begin
     */
    open(func: number, begin: number): void;
    /**
     * Closes the part that began at a position, and those inside it that are still open.
     * @param {number} begin
     */
    close(begin: number): void;
    /** What is open now: outside of callbacks the host runs, and nothing is open but what it was called from. */
    settle(): Stack;
    /** The open parts, the outermost first: the function of each, and where it began. */
    places(): {
        func: number;
        begin: number;
    }[];
    /**
     * A function of the host during whose calls the module can be entered again.
     * @param {Function} host
     * @param {number} arity
     * @returns {Function}
     */
    hosted(host: Function, arity: number): Function;
    #private;
}
