/**
 * @param {unknown} condition
 * @param {string} sentence
 * @returns {asserts condition}
 */
export function must(condition: unknown, sentence: string): asserts condition;
/**
 * The blocks around a position, the innermost first.
 * @param {Block[]} blocks
 * @param {number} position
 * @returns {Block[]}
 */
export function blocksAround(blocks: Block[], position: number): Block[];
/**
 * Finds what each label of the br_table at a position does, the default last; undefined if there is no such table.
 * @param {Information} information
 * @returns {(func: number, position: number) => readonly Choice[] | undefined}
 */
export function choicesOf({ functions }: Information): (func: number, position: number) => readonly Choice[] | undefined;
/**
 * The information, which is given as text, as the bytes of a text, or parsed. What is none is refused.
 * @param {unknown} given
 * @returns {Information}
 */
export function informationOf(given: unknown): Information;
export function partOf([kind, begin, end, target]: Block): Part;
export type Block = [kind: number, begin: number, end: number, target: number];
export type Table = [position: number, labels: number[]];
export type Imported = [params: string, results: string];
export type Defined = [params: string, results: string, blocks: [kind: number, begin: number, end: number, target: number][], tables: [position: number, labels: number[]][]];
export type Information = {
    dropped: string[];
    functions: (Imported | Defined)[];
    groups: string[];
    hooks: string[];
    imports: number;
    version: number;
};
export type Part = Readonly<{
    kind: (typeof KINDS)[number];
    begin: number;
    end: number;
    target: number;
}>;
/**
 * what a br_table does by one of its labels
 */
export type Choice = Readonly<{
    label: number;
    target: number;
    left: readonly Part[];
}>;
import { KINDS } from "./hooks.mjs";
