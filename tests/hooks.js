// Prints the hook calls of a script's run of an output, as JSON: node hooks.js MODULE SCRIPT. Its own imports answer zeros.
const fs = require("fs");
const program = new WebAssembly.Module(fs.readFileSync(process.argv[2]));
const {calls} = JSON.parse(fs.readFileSync(process.argv[3], "utf8"));
const told = [];
const imports = Object.create(null);
for (const {module, name} of WebAssembly.Module.imports(program)) {
  imports[module] ??= Object.create(null);
  imports[module][name] = module === "__wasabi_hooks"
    ? (...words) => { told.push({hook: name, words: words.map(word => word >>> 0)}); }
    : () => 0;
}
const instance = new WebAssembly.Instance(program, imports);
for (const call of calls) {
  try {
    instance.exports[call.export](...call.args);
  } catch (trap) {
    if (!(trap instanceof WebAssembly.RuntimeError)) {
      throw trap;
    }
  }
}
console.log(JSON.stringify(told));
