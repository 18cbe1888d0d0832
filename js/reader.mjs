// Reads numbers and texts from the front of bytes.

/** Whatever goes beyond the end, or has no form, is a RangeError; so each use ends, whatever the bytes are. */
export class Reader {
  /** @param {Uint8Array} bytes */
  constructor(bytes, at = 0, end = bytes.length) {
    this.bytes = bytes;
    this.at = at;
    this.end = end;
  }

  get left() { return this.end - this.at; }

  byte() {
    if (this.at >= this.end) throw new RangeError("the bytes end too early");
    return this.bytes[this.at++];
  }

  /** An unsigned number of at most five bytes. */
  number() {
    let value = 0, scale = 1;
    for (let length = 0; length < 5; length++, scale *= 128) {
      const byte = this.byte();
      value += (byte & 127) * scale;
      if (byte < 128) return value;
    }
    throw new RangeError("a number is too long");
  }

  /** A signed number of 32 bits. */
  signed() {
    let value = 0;
    for (let shift = 0; shift < 35; shift += 7) {
      const byte = this.byte();
      value |= (byte & 127) << shift;
      if (byte < 128) return shift < 25 && byte & 64 ? value | -1 << shift + 7 : value;
    }
    throw new RangeError("a number is too long");
  }

  /** Goes beyond a number of any length. */
  skip() {
    while (this.byte() >= 128);
  }

  /**
   * A reader of the next bytes.
   * @param {number} length
   */
  take(length) {
    if (length > this.left) throw new RangeError("the bytes end too early");
    this.at += length;
    return new Reader(this.bytes, this.at - length, this.at);
  }

  text() {
    const {at, end} = this.take(this.number());
    return new TextDecoder("utf-8", {ignoreBOM: true}).decode(this.bytes.subarray(at, end));
  }

  /**
   * @template T
   * @param {(reader: Reader) => T} one
   * @returns {T[]}
   */
  list(one) {
    const found = [];
    for (let count = this.number(); count > 0; count--) found.push(one(this));
    return found;
  }
}

/**
 * The bytes of a buffer or of a view of one, which are not copied.
 * @param {ArrayBuffer | SharedArrayBuffer | ArrayBufferView} source
 */
export const viewOf = source => (ArrayBuffer.isView(source) ? new Uint8Array(source.buffer, source.byteOffset, source.byteLength)
  : new Uint8Array(source));

/**
 * Whether a value is bytes, of this realm or of another one.
 * @param {unknown} value
 * @returns {value is ArrayBuffer | SharedArrayBuffer | ArrayBufferView}
 */
export const isBytes = value => ArrayBuffer.isView(value)
  || /^\[object (Shared)?ArrayBuffer\]$/.test(Object.prototype.toString.call(value));
