// The types of callbacks and events. docs/RUNTIME.md says what the events are.
import type {Hook} from "./hooks.mjs";
import type {Part} from "./information.mjs";
import type {Run} from "./wasabi.mjs";

/** An i32 is a number with its sign, an i64 a BigInt with its sign. */
export type Value = number | bigint;
export type Kind = Part["kind"];

/** A place in the original. The position -1 is the entry of the function. */
export interface Location {
  func: number;
  position: number;
}

export interface Event {
  location: Location;
}

export interface Access extends Event {
  op: string;
  offset: number;
  address: number;
  /** How many bytes are read or written. */
  bytes: number;
  value: Value;
}

export interface Variable extends Event {
  op: string;
  index: number;
  value: Value;
}

/** The fields of each event. */
export interface Events {
  start: Event;
  nop: Event;
  unreachable: Event;
  if: Event & {condition: number};
  br: Event & {label: number; target: number};
  br_if: Event & {label: number; target: number; condition: number};
  /** The parts that it leaves, the innermost first, are frozen, and shared by the events of a place. */
  br_table: Event & {index: number; label: number; target: number; left: readonly Part[]};
  begin: Event & {kind: Kind};
  end: Event & {kind: Kind; begin: number};
  const: Event & {value: Value};
  unary: Event & {op: string; operand: Value; result: Value};
  binary: Event & {op: string; first: Value; second: Value; result: Value};
  drop: Event & {value: Value};
  select: Event & {first: Value; second: Value; condition: number};
  local: Variable;
  global: Variable;
  load: Access;
  store: Access;
  memory_size: Event & {pages: number};
  memory_grow: Event & {pages: number; answer: number};
  call_pre: Event & {callee: number; args: Value[]};
  /** The callee is null if the slot has no function of the original, and undefined if that is not known. */
  call_indirect_pre: Event & {type: number; slot: number; callee: number | null | undefined; args: Value[]};
  call_post: Event & {results: Value[]};
  return: Event & {results: Value[]};
}

/** A hook call that the information does not explain; the hook is its place in the information. */
export interface Stray {
  hook: number;
  words: number[];
}

/** Makes, for a hook, the function that takes the words of its calls: the function, the position, and the values of docs/HOOKS.md. */
export type Raw = (hook: Hook, run: Run) => ((...words: any[]) => void) | undefined;

/** Functions for events, and any state besides. */
export type Callbacks = {[Name in keyof Events]?: (event: Events[Name], run: Run) => void} & {
  stray?: (call: Stray, run: Run) => void;
  raw?: {[Name in keyof Events]?: Raw};
} & {[state: string]: any};
