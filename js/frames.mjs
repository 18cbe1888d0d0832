// What the engine's own stack tells of a call or of an error. All engines name a frame of WebAssembly "wasm-function[N]".

const IS_WASM = /wasm-function\[/;

/**
 * @param {unknown} _error
 * @param {any[]} sites
 */
const asSites = (_error, sites) => sites;

/**
 * Whether the function of a module that just called a hook was called by a function of the same module. An engine that tells
 * nothing is taken to say yes. This takes some ten microseconds.
 */
export function isCalledByModule() {
  /** @type {any} */
  const own = Error;
  const {stackTraceLimit: limit, prepareStackTrace: prepare} = own;
  const holder = /** @type {{stack: any}} */ ({stack: undefined});
  let frames;
  try {
    own.stackTraceLimit = 8; // the runtime's own, which are at most five, the function that called the hook, and what called that
    own.prepareStackTrace = asSites; // V8 can give sites, which take a tenth of the time of a text
    if (own.captureStackTrace) own.captureStackTrace(holder, isCalledByModule);
    else holder.stack = new Error().stack;
    frames = holder.stack;
  } finally {
    own.stackTraceLimit = limit;
    own.prepareStackTrace = prepare;
  }
  if (Array.isArray(frames)) {
    const files = frames.map(site => site.getFileName() ?? "");
    const first = files.findIndex(file => file.startsWith("wasm://"));
    return first < 0 || files[first + 1] === files[first];
  }
  const lines = String(frames).split("\n");
  const first = lines.findIndex(line => IS_WASM.test(line));
  return first < 0 || IS_WASM.test(lines[first + 1] ?? "");
}

/**
 * Whether an engine threw an error because of what a module did: it trapped, or it called too deep. An error of JavaScript that was
 * called by a module is none, not even one of the same class, or one of a function that calls itself without end.
 * @param {unknown} error
 * @param {boolean} otherwise the answer if the engine does not tell where the error comes from
 */
export function isOfModule(error, otherwise) {
  const isOverflow = error instanceof Error && /call stack size|too much recursion/.test(error.message);
  if (!isOverflow && !(error instanceof WebAssembly.RuntimeError)) return false;
  const frames = String(error.stack ?? "").split("\n").filter(line => /^\s+at |@/.test(line));
  if (frames.length === 0) return otherwise;
  return isOverflow ? frames.some(line => IS_WASM.test(line)) : IS_WASM.test(frames[0]);
}
