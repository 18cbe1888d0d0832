/** Whatever goes beyond the end, or has no form, is a RangeError; so each use ends, whatever the bytes are. */
export class Reader {
    /** @param {Uint8Array} bytes */
    constructor(bytes: Uint8Array, at?: number, end?: number);
    bytes: Uint8Array;
    at: number;
    end: number;
    get left(): number;
    byte(): number;
    /** An unsigned number of at most five bytes. */
    number(): number;
    /** A signed number of 32 bits. */
    signed(): number;
    /** Goes beyond a number of any length. */
    skip(): void;
    /**
     * A reader of the next bytes.
     * @param {number} length
     */
    take(length: number): Reader;
    text(): string;
    /**
     * @template T
     * @param {(reader: Reader) => T} one
     * @returns {T[]}
     */
    list<T>(one: (reader: Reader) => T): T[];
}
export function viewOf(source: ArrayBuffer | SharedArrayBuffer | ArrayBufferView): Uint8Array;
export function isBytes(value: unknown): value is ArrayBufferView | ArrayBuffer | SharedArrayBuffer;
