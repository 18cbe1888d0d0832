// Runs an export of an instrumented module and prints its result, which blocks of each function were entered, and how often
// which function called which: node coverage.js OUTPUT INFORMATION EXPORT [ARGUMENT ..]. The module's groups are begin, end
// and call; functions of the host answer zero.
const USAGE = "usage: node coverage.js OUTPUT INFORMATION EXPORT [ARGUMENT ..]\nThe output has the groups begin, end and call.";
const KINDS = ["function", "block", "loop", "if", "else"];

const entered = new Set();
const calls = new Map();
const count = key => calls.set(key, (calls.get(key) ?? 0) + 1);
const callbacks = {
  begin({location: {func, position}, kind}, {stack}) {
    entered.add(`${func}:${position}`);
    if (kind === "function") count(`${stack.at(-2) ?? "host"} -> ${func}`);
  },
  // a function of the host has no begin
  call_pre({location, callee}, {information}) {
    if (callee < information.imports) count(`${location.func} -> ${callee}`);
  },
};

async function main() {
  const {command, wordsOf} = await import("../js/command.mjs");
  const [output, file, entry, ...args] = wordsOf(USAGE, 3);
  const {information, names} = await command(USAGE, callbacks, [output, file, `${entry}(${args})`]);
  information.functions.forEach(([params, results, blocks], func) => {
    if (blocks === undefined) return;
    const missing = blocks.filter(([, begin]) => !entered.has(`${func}:${begin}`));
    const name = names.has(func) ? ` ${names.get(func)}` : "";
    console.log(`function ${func}${name}: ${blocks.length - missing.length} of ${blocks.length} blocks entered`);
    for (const [kind, begin, end] of missing) console.log(`  not ${func}:${begin} to ${end}, ${KINDS[kind]}`);
  });
  for (const [call, times] of calls) console.log(`call ${call}: ${times}`);
}

main();
