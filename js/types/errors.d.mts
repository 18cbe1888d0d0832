export class WasabiError extends Error {
}
/** The output is no output, or the information is none, or does not belong to the output. */
export class InformationError extends WasabiError {
}
/** The callbacks have a name that is no event, or an event that the output does not tell. */
export class CallbackError extends WasabiError {
}
/** The stack of open functions can't be kept. */
export class StackError extends WasabiError {
}
/** There is no such option, or it can't have this value. */
export class OptionError extends WasabiError {
}
/** A call of `run.call` can't be made. */
export class CallError extends WasabiError {
}
/** A script is not of its form. */
export class ScriptError extends WasabiError {
}
/** A recorder has no trace, or one that is too long, or a text is no report. */
export class RecordError extends WasabiError {
}
/** Imports of the original are missing. It is a LinkError, as engines throw one. */
export class MissingImportError extends WebAssembly.LinkError {
    /** @param {{module: string, name: string, kind: string}[]} missing */
    constructor(missing: {
        module: string;
        name: string;
        kind: string;
    }[]);
    missing: {
        module: string;
        name: string;
        kind: string;
    }[];
}
