// Runs an instrumented examples/crc32.wasm on a text and counts the hook calls by place: node run.js FILE TEXT
const fs = require("fs");
const words = process.argv.slice(2);

function stop(sentence, status) {
  console.error(`run.js: ${sentence}`);
  process.exit(status);
}

if (words.includes("--help")) {
  console.log("Runs an instrumented examples/crc32.wasm on a text and counts the hook calls by place: node run.js FILE TEXT");
  process.exit(0);
}
if (words.length !== 2) stop(`it takes FILE TEXT, and was given ${words.length} words; --help says more`, 2);
const [file, text] = words;

function programOf(name) {
  try {
    return new WebAssembly.Module(fs.readFileSync(name));
  } catch (fault) {
    return stop(`${name}: ${fault.message}`, 1);
  }
}

const program = programOf(file);
const counts = new Map();
const hooks = Object.create(null);
const others = WebAssembly.Module.imports(program).filter(({module}) => module !== "__wasabi_hooks");
const known = WebAssembly.Module.exports(program).map(({name}) => name);
if (others.length > 0 || !["memory", "place", "crc32"].every(name => known.includes(name))) {
  stop(`${file} must be made of examples/crc32.wasm; examples/analysis.js takes other modules`, 1);
}
for (const {name} of WebAssembly.Module.imports(program)) {
  hooks[name] = (func, place) => {
    const key = `${name} at ${func}:${place}`;
    counts.set(key, (counts.get(key) || 0) + 1);
  };
}
const {memory, place, crc32} = new WebAssembly.Instance(program, {__wasabi_hooks: hooks}).exports;
const bytes = Buffer.from(text);
const at = place();
new Uint8Array(memory.buffer).set(bytes, at);
console.log((crc32(at, bytes.length) >>> 0).toString(16));
for (const [key, count] of counts) {
  console.log(`${key}: ${count}`);
}
