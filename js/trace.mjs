// Writes events as a trace. docs/FORMATS.md, "Traces", has its form.
import {RecordError} from "./errors.mjs";
import {EVENTS, OPCODES} from "./hooks.mjs";

/** @typedef {import("./hooks.mjs").Hook} Hook */
/** @typedef {(...words: number[]) => void} Fields writes the fields of an event by the words behind the function and the position */

const HEAD = [0x57, 0x54, 0x52, 0x31], OVER = 0;
/** @type {Map<string, number>} */
const TAGS = new Map([...EVENTS, "stray"].map((event, place) => [event, place + 1]));
const ACCESSES = ["get", "set", "tee"];
const ROOM = 64; // bytes, which an event without a list is shorter than, and a value

/** Bytes that grow, up to a greatest length. What does not fit is dropped, and remembered. */
class Writer {
  bytes = new Uint8Array(65536);
  at = 0;
  isFull = false;

  /** @param {number} most */
  constructor(most) {
    this.most = most;
  }

  /** Makes room for an event without a list, or for one value of a list. */
  room() {
    if (this.at + ROOM <= this.bytes.length) return;
    if (this.bytes.length > this.most) {
      this.isFull = true;
      this.at = 0;
    } else {
      const bytes = new Uint8Array(Math.min(2 * this.bytes.length, this.most + ROOM));
      bytes.set(this.bytes);
      this.bytes = bytes;
    }
  }

  /** @param {number} byte */
  byte(byte) {
    this.bytes[this.at++] = byte;
  }

  /** @param {number} word */
  u32(word) {
    let value = word >>> 0;
    for (; value >= 128; value >>>= 7) this.byte(value & 127 | 128);
    this.byte(value);
  }

  /** @param {number} word */
  s32(word) {
    let value = word;
    for (; value < -64 || value > 63; value >>= 7) this.byte(value & 127 | 128);
    this.byte(value & 127);
  }

  /**
   * @param {number} low
   * @param {number} high
   */
  s64(low, high) {
    while (high !== low >> 31 || low < -64 || low > 63) {
      this.byte(low & 127 | 128);
      low = low >>> 7 | high << 25;
      high >>= 7;
    }
    this.byte(low & 127);
  }

  /**
   * A value of a type, by its word or its two words.
   * @param {string} letter
   * @param {number} low
   * @param {number} high
   */
  value(letter, low, high) {
    if (letter === "i") {
      this.byte(0x7F);
      this.s32(low);
    } else {
      this.byte(0x7E);
      this.s64(low, high);
    }
  }

  /**
   * @param {string} letters
   * @param {number[]} words
   */
  values(letters, words) {
    let at = 0;
    for (const letter of letters) {
      this.room();
      this.value(letter, words[at], words[at + 1]);
      at += letter === "i" ? 1 : 2;
    }
  }

  /**
   * @param {string} letters
   * @param {number[]} words
   */
  list(letters, words) {
    this.u32(letters.length);
    this.values(letters, words);
  }
}

const opcodeOf = (/** @type {string} */ op) => OPCODES.get(op) ?? 0;

/** @type {(hook: Hook, out: Writer) => Fields} */
const accessFields = ({op, types}, out) => {
  const access = ACCESSES.indexOf(op.slice(op.indexOf(".") + 1));
  return (index, a, b) => {
    out.byte(access);
    out.u32(index);
    out.value(types, a, b);
  };
};

/** @type {(hook: Hook, out: Writer) => Fields} */
const memoryFields = ({op, letters}, out) => (offset, address, a, b) => {
  out.byte(opcodeOf(op));
  out.u32(offset);
  out.u32(address);
  out.value(letters[2], a, b);
};

/** @type {(hook: Hook, out: Writer) => Fields} */
const numericFields = ({op, letters}, out) => (...words) => {
  out.byte(opcodeOf(op));
  out.values(letters, words);
};

/** @type {(hook: Hook, out: Writer) => Fields} */
const valueFields = ({letters}, out) => (a, b) => out.value(letters, a, b);

/** @type {(hook: Hook, out: Writer) => Fields} */
const listFields = ({types}, out) => (...words) => out.list(types, words);

/**
 * The fields of each event; those that are not here have none.
 * @type {Record<string, (hook: Hook, out: Writer) => Fields>}
 */
const FIELDS = {
  if: (_, out) => condition => out.u32(condition),
  br: (_, out) => (label, target) => {
    out.u32(label);
    out.s32(target);
  },
  br_if: (_, out) => (label, target, condition) => {
    out.u32(label);
    out.s32(target);
    out.u32(condition);
  },
  br_table: (_, out) => (index, label, target) => {
    out.u32(index);
    out.u32(label);
    out.s32(target);
  },
  begin: ({kind}, out) => () => out.byte(kind),
  end: ({kind}, out) => begin => {
    out.byte(kind);
    out.s32(begin);
  },
  const: valueFields,
  unary: numericFields,
  binary: numericFields,
  drop: valueFields,
  select: ({types}, out) => (...words) => {
    out.values(types + types, words);
    out.u32(words[words.length - 1]);
  },
  local: accessFields,
  global: accessFields,
  load: memoryFields,
  store: memoryFields,
  memory_size: (_, out) => pages => out.u32(pages),
  memory_grow: (_, out) => (pages, answer) => {
    out.u32(pages);
    out.u32(answer);
  },
  call_pre: ({types}, out) => (callee, ...args) => {
    out.u32(callee);
    out.list(types, args);
  },
  call_indirect_pre: ({types}, out) => (type, slot, callee, ...args) => {
    out.u32(type);
    out.u32(slot);
    out.byte(callee < 0 ? 0 : 1);
    if (callee >= 0) out.u32(callee);
    out.list(types, args);
  },
  call_post: listFields,
  return: listFields,
};

export class Trace {
  #out;
  #events = 0;

  /** @param {number} mostBytes */
  constructor(mostBytes) {
    this.#out = new Writer(mostBytes);
    for (const byte of HEAD) this.#out.byte(byte);
  }

  /**
   * The function that writes the event of a hook's call: by the function, the position, and the words of a raw callback.
   * @param {Hook} hook
   * @returns {(func: number, position: number, ...words: number[]) => void}
   */
  writerOf(hook) {
    const out = this.#out, tag = TAGS.get(hook.event) ?? 0, fields = FIELDS[hook.event]?.(hook, out);
    return (func, position, ...words) => {
      this.#events++;
      out.room();
      out.byte(tag);
      out.u32(func);
      out.s32(position);
      fields?.(...words);
    };
  }

  /** @param {number} hook its place in the information */
  stray(hook) {
    this.#events++;
    this.#out.room();
    this.#out.byte(TAGS.get("stray") ?? 0);
    this.#out.u32(hook);
  }

  /** The trace of the events so far. */
  bytes() {
    const out = this.#out, {at} = out;
    out.room();
    out.byte(OVER);
    out.u32(this.#events);
    const bytes = out.bytes.slice(0, out.at);
    out.at = at; // more events may come
    if (out.isFull || bytes.length > out.most) throw new RecordError(`the trace is longer than ${out.most} bytes`);
    return bytes;
  }
}
