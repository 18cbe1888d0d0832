// Prints what an instrumented module does, a line for each event: node analysis.js OUTPUT INFORMATION CALL ..
// A call is an export with its arguments, as 'calculate(42, 6, 7)'. Functions of the host answer zero.
const USAGE = "usage: node analysis.js OUTPUT INFORMATION CALL ..\nA call is an export with its arguments, as 'calculate(42, 6, 7)'.";

const letters = values => values.map(value => (typeof value === "bigint" ? "l" : "i")).join("");

// The hook that tells an event.
function hookOf(event, {op, kind, value, first, args, results}) {
  if (args ?? results) return `${event}_${letters(args ?? results)}`;
  if (event === "begin" || event === "end") return `${event}_${kind}`;
  if (event === "local" || event === "global") return `${op}_${letters([value])}`;
  if (event === "drop" || event === "select") return `${event}_${letters([value ?? first])}`;
  if (event === "const") return typeof value === "bigint" ? "i64.const" : "i32.const";
  return op ?? event.replace("memory_", "memory.");
}

// What is printed of an event behind its place and its hook.
function fieldsOf(event, {op, kind, callee, left, ...fields}) {
  if (event === "br_table") {
    const parts = left.map(({kind, begin}) => `${kind} ${begin}`);
    return `${fields.index}: label ${fields.label} to ${fields.target}, out of ${parts.join(", ")}`;
  }
  if (event === "load" || event === "store") return `${fields.value} at ${fields.offset + fields.address}`;
  const values = Object.values(fields).flat();
  return (event === "call_pre" ? [callee, ...values] : values).join(" ");
}

async function main() {
  const {EVENTS} = await import("../js/wasabi.mjs");
  const {command} = await import("../js/command.mjs");
  const print = event => ({location: {func, position}, ...fields}) =>
    console.log(`  ${func}:${position} ${hookOf(event, fields)} ${fieldsOf(event, fields)}`);
  await command(USAGE, Object.fromEntries(EVENTS.map(event => [event, print(event)])), process.argv.slice(2), {unselected: "ignore"});
}

main();
