// Makes a program or a page run outputs as if they were the originals: Module, Instance, compile, instantiate and the streaming forms of
// WebAssembly are patched. Modules without hooks, and all else that is asked of WebAssembly, stay as they are.
//
//     const undo = patch({informationOf: beside, callbacksOf: information => ({begin({location}) { .. }})});
import {InformationError} from "./errors.mjs";
import {informationOf as readInformation} from "./information.mjs";
import {HOOKS} from "./module.mjs";
import {besideOf, noteOrigin, originOf} from "./origins.mjs";
import {isBytes, viewOf} from "./reader.mjs";
import {Run} from "./wasabi.mjs";

/** @typedef {import("./information.mjs").Information} Information */
/** @typedef {{module: WebAssembly.Module, bytes: Uint8Array | undefined, origin: string | undefined}} Found an output, and where it was read */
/**
 * @typedef {object} Plan
 * @property {(found: Found) => any} informationOf the information of an output: as text, as bytes, parsed, or a promise of these; if it is
 *   undefined, the output is left to its host
 * @property {(information: Information, found: Found) => import("./wasabi.mjs").Callbacks} callbacksOf
 * @property {(run: Run, found: Found) => void} [started] is called with each run when its instance is there
 * @property {import("./wasabi.mjs").Options} [options]
 */

/**
 * The information beside an output in a page: NAME.json beside NAME.wasm.
 * @param {Found} found
 */
export async function beside({origin}) {
  if (origin === undefined) throw new InformationError("the address of an output is not known, so there is no information beside it");
  const names = besideOf(origin);
  for (const name of names) {
    const response = await fetch(name);
    if (response.ok) return response.text();
  }
  throw new InformationError(`there is no information beside ${origin}: no ${names.join(", no ")}`);
}

/**
 * Patches WebAssembly, and answers with a function that undoes it.
 * @param {Plan} plan
 */
export function patch({informationOf, callbacksOf, started, options = {}}) {
  /** @type {any} */
  const engine = WebAssembly;
  const own = {
    Module: engine.Module, Instance: engine.Instance, compile: engine.compile, instantiate: engine.instantiate,
    compileStreaming: engine.compileStreaming, instantiateStreaming: engine.instantiateStreaming,
  };
  /** @type {WeakMap<WebAssembly.Module, {bytes: Uint8Array, origin: string | undefined}>} */
  const known = new WeakMap();
  const hasHooks = (/** @type {WebAssembly.Module} */ module) => own.Module.imports(module).some((/** @type {any} */ it) => it.module === HOOKS);
  const copyOf = (/** @type {any} */ source) => (isBytes(source) ? viewOf(source).slice() : undefined); // the host may change its bytes

  /**
   * @param {WebAssembly.Module} module
   * @param {Uint8Array | undefined} bytes
   * @param {string} [origin]
   */
  function noted(module, bytes, origin = originOf(bytes)) {
    if (bytes && hasHooks(module)) known.set(module, {bytes, origin});
    return module;
  }

  /**
   * What is known of an output, or undefined for another module, or one whose hooks the host supplies.
   * @param {WebAssembly.Module} module
   * @param {any} imports
   * @returns {Found | undefined}
   */
  const foundOf = (module, imports) => (hasHooks(module) && imports?.[HOOKS] === undefined
    ? {module, bytes: known.get(module)?.bytes, origin: known.get(module)?.origin} : undefined);

  /**
   * The run of an output, and what takes its instance.
   * @param {Found} found
   * @param {any} given
   * @param {any} imports
   */
  function runOf(found, given, imports) {
    const information = readInformation(given);
    const known = found.bytes ? {...options, bytes: found.bytes} : options;
    const run = new Run(found.module, information, callbacksOf(information, found), imports ?? {}, known);
    const attached = (/** @type {WebAssembly.Instance} */ instance) => {
      run.attach(instance);
      started?.(run, found);
      return instance;
    };
    return {imports: run.imports, attached};
  }

  /**
   * @param {WebAssembly.Module} module
   * @param {any} imports
   */
  async function instantiated(module, imports) {
    const found = foundOf(module, imports), given = found && await informationOf(found);
    if (!found || given === undefined) return own.instantiate(module, imports);
    const made = runOf(found, given, imports);
    return made.attached(await own.instantiate(module, made.imports));
  }

  /** @param {any} source */
  async function streamed(source) {
    const response = await source;
    const type = response?.headers?.get("Content-Type") ?? "";
    const isWasm = type.split(";")[0].trim().toLowerCase() === "application/wasm";
    if (!response?.ok || !isWasm) return own.compileStreaming(response); // which refuses it
    const bytes = new Uint8Array(await response.arrayBuffer());
    return noted(await own.compile(bytes), bytes, response.url || undefined);
  }

  engine.Module = new Proxy(own.Module, {
    construct(target, [source, ...rest], as) {
      const bytes = copyOf(source);
      return noted(Reflect.construct(target, [source, ...rest], as === engine.Module ? target : as), bytes);
    },
  });
  engine.Instance = new Proxy(own.Instance, {
    construct(target, [module, imports], as) {
      const making = as === engine.Instance ? target : as;
      const found = module instanceof own.Module ? foundOf(module, imports) : undefined, given = found && informationOf(found);
      if (!found || given === undefined) return Reflect.construct(target, [module, imports], making);
      if (typeof given.then === "function") {
        throw new InformationError("new WebAssembly.Instance can't wait for the information; it has to be there");
      }
      const made = runOf(found, given, imports);
      return made.attached(Reflect.construct(target, [module, made.imports], making));
    },
  });
  engine.compile = async function compile(/** @type {any} */ source, /** @type {any[]} */ ...rest) {
    const bytes = copyOf(source);
    return bytes ? noted(await own.compile(bytes, ...rest), bytes) : own.compile(source, ...rest);
  };
  engine.instantiate = async function instantiate(/** @type {any} */ source, /** @type {any} */ imports, /** @type {any[]} */ ...rest) {
    if (source instanceof own.Module) return instantiated(source, imports);
    if (!isBytes(source)) return own.instantiate(source, imports, ...rest);
    const module = await engine.compile(source, ...rest);
    return {module, instance: await instantiated(module, imports)};
  };
  if (own.compileStreaming) engine.compileStreaming = streamed;
  if (own.instantiateStreaming) {
    engine.instantiateStreaming = async function instantiateStreaming(/** @type {any} */ source, /** @type {any} */ imports) {
      const module = await streamed(source);
      return {module, instance: await instantiated(module, imports)};
    };
  }
  const unpatched = notesResponses();
  return () => {
    unpatched();
    for (const [name, value] of Object.entries(own)) if (value !== undefined) engine[name] = value;
  };
}

/** Notes the addresses of modules that a host reads by fetch before it compiles them; answers with a function that undoes it. */
function notesResponses() {
  if (typeof Response !== "function") return () => {};
  const {arrayBuffer} = Response.prototype;
  Response.prototype.arrayBuffer = async function noting() {
    const buffer = await arrayBuffer.call(this);
    if (this.url) noteOrigin(buffer, this.url);
    return buffer;
  };
  return () => { Response.prototype.arrayBuffer = arrayBuffer; };
}
