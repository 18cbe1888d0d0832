/**
 * Remembers where bytes were read, if they are those of a module.
 * @param {Bytes} read
 * @param {string} origin
 */
export function noteOrigin(read: Bytes, origin: string): void;
export function originOf(bytes: Uint8Array | undefined): string | undefined;
export function besideOf(origin: string): string[];
export type Bytes = import("./wasabi.mjs").Bytes;
