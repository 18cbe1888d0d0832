/**
 * Whether the function of a module that just called a hook was called by a function of the same module. An engine that tells
 * nothing is taken to say yes. This takes some ten microseconds.
 */
export function isCalledByModule(): boolean;
/**
 * Whether an engine threw an error because of what a module did: it trapped, or it called too deep. An error of JavaScript that was
 * called by a module is none, not even one of the same class, or one of a function that calls itself without end.
 * @param {unknown} error
 * @param {boolean} otherwise the answer if the engine does not tell where the error comes from
 */
export function isOfModule(error: unknown, otherwise: boolean): boolean;
