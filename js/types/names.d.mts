/**
 * The names of functions in a section, or none if the section is not exactly of its form.
 * @param {Uint8Array} section
 * @returns {[index: number, name: string][]}
 */
export function namesIn(section: Uint8Array): [index: number, name: string][];
/**
 * The index in the original; -1 for a hook. In the output, the functions that the original defines come after the hooks.
 * @param {number} index
 * @param {Indices} indices
 */
export function originalIndex(index: number, { imports, hooks }: Indices): number;
/**
 * The names of functions. If one has several, the first one of these counts: the module's own, an export's, an import's.
 * @param {WebAssembly.Module} module
 * @param {[name: string, index: number][]} exported functions with their indices in the output
 * @param {Indices} indices
 */
export function namesOf(module: WebAssembly.Module, exported: [name: string, index: number][], indices: Indices): Map<number, string>;
/**
 * what the indices of an output are read with
 */
export type Indices = {
    imports: number;
    hooks: string[];
    functions: unknown[];
};
