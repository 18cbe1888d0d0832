/**
 * The function to import for a hook.
 * @param {Hook} hook
 * @param {number} place of the hook in the information
 * @param {Context} context
 * @returns {Handler}
 */
export function handlerOf(hook: Hook, place: number, context: Context): Handler;
export type Hook = import("./hooks.mjs").Hook;
export type Choice = import("./information.mjs").Choice;
export type Handler = (func: number, position: number, ...words: number[]) => void;
/**
 * What handlers are made with.
 */
export type Context = {
    run: any;
    callbacks: any;
    groups: Set<string>;
    stack: import("./stack.mjs").Stack;
    /**
     * whether the stack is kept
     */
    keeps: boolean;
    /**
     * whether each hook call in the output was seen to tell a place of its own function
     */
    isVerified: boolean;
    /**
     * whether the original defines a function
     */
    isDefined: (func: number) => boolean;
    /**
     * of a br_table, the default last
     */
    choicesAt: (func: number, position: number) => readonly Choice[] | undefined;
    /**
     * the function in a slot of the table, NONE or UNKNOWN
     */
    calleeAt: (slot: number) => number;
    /**
     * the function that a call through the table enters, NONE or UNKNOWN
     */
    entered: (type: number, callee: number) => number;
};
