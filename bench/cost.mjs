// Prints what hooks cost in Node, as two tables: that of docs/HOOKS.md, and what an event costs.
//
//     node bench/cost.mjs                 both tables
//     node bench/cost.mjs --sizes         the sizes of the first table alone, which are the same each time
//     node bench/cost.mjs --events        the second table alone
//
// The first table says, by groups of hooks, on three modules of examples/, how many times larger an output is, and how many times
// longer it runs: with hooks that do nothing, and with the runtime of js/ and callbacks that count. The second one says how many
// nanoseconds an event takes: by hooks that do nothing, by callbacks, and by raw callbacks, which take words. A time is the
// processor time of this process, the least of some batches of at least fifty milliseconds each, taken in turns with the original's.
// Behind the first table stands what the groups begin, end and br_table make of a switch of one hundred cases.
import {execFileSync} from "node:child_process";
import {mkdtempSync, readFileSync, rmSync, writeFileSync} from "node:fs";
import {tmpdir} from "node:os";
import {join} from "node:path";
import {fileURLToPath} from "node:url";
import {EVENTS, start} from "../js/wasabi.mjs";

const TOP = fileURLToPath(new URL("..", import.meta.url));
const BATCHES = 7, LEAST = 50_000; // microseconds
const MODULES = {
  crc32: exported => exported.crc32(1024, 4096),
  queens: exported => exported.queens(7),
  weekday: exported => exported.weekday(2400, 12, 31),
  calculator: exported => exported.calculate(42, 6n, 7n),
};
const IN_FIRST_TABLE = ["crc32", "queens", "weekday"];
const GROUPS = [
  "begin", "begin,end", "begin,end,call", "begin,if,br,br_if,br_table", "begin,end,if,br,br_if,br_table", "load,store", "binary,unary",
  "const", "local", "all",
];
/** What the second table measures: groups, the events that callbacks are for, a module, and options of the runtime. */
const MEASURED = [
  ["begin", ["begin"], "weekday"], ["begin", ["begin"], "crc32"], ["load", ["load"], "crc32"], ["load", ["load"], "weekday"],
  ["binary", ["binary"], "crc32"], ["binary", ["binary"], "queens"], ["binary", ["binary"], "weekday"], ["const", ["const"], "weekday"], ["local", ["local"], "weekday"],
  ["br_table", ["br_table"], "calculator"], ["call", ["call_pre", "call_post"], "queens"], ["begin,end", ["begin", "end"], "weekday"],
  ["begin,end", ["begin", "end"], "weekday", {stack: false}],
];
const folder = mkdtempSync(join(tmpdir(), "wasabi-cost-"));
const fileOf = name => join(TOP, "examples", `${name}.wasm`);

// The output of a module and its information.
function instrumented(input, groups) {
  const [output, information] = [join(folder, "b.wasm"), join(folder, "b.json")];
  execFileSync(join(TOP, "wasabi"), ["instrument", input, "--out", output, "--info", information, "--hooks", groups]);
  return {output: readFileSync(output), information: readFileSync(information, "utf8")};
}

// A function that runs a module once; all that it imports does nothing.
function bareRunner({output}, call) {
  const module = new WebAssembly.Module(output), imports = Object.create(null);
  for (const {module: from, name} of WebAssembly.Module.imports(module)) (imports[from] ??= Object.create(null))[name] = () => 0;
  const {exports: exported} = new WebAssembly.Instance(module, imports);
  return () => call(exported);
}

// A function that runs an output once with callbacks.
async function runtimeRunner({output, information}, call, callbacks, options) {
  const {exports: exported} = await start(output, information, callbacks, {}, {missing: "zeros", ...options});
  return () => call(exported);
}

// Callbacks that count, and add up positions; a function for each event, as an analysis has.
const counting = events => {
  const seen = {events: 0, positions: 0};
  const callbacks = Object.fromEntries(events.map(event => [event, ({location}) => {
    seen.events++;
    seen.positions += location.position;
  }]));
  return {seen, callbacks};
};

const countingWords = events => {
  const seen = {events: 0, positions: 0};
  return {raw: Object.fromEntries(events.map(event => [event, () => (func, position) => {
    seen.events++;
    seen.positions += position;
  }]))};
};

function batch(run) {
  const before = process.cpuUsage();
  let runs = 0, spent = 0;
  while (spent < LEAST) {
    for (let end = runs + 10; runs < end; runs++) run();
    const {user, system} = process.cpuUsage(before);
    spent = user + system;
  }
  return spent / runs;
}

// The least time of each of these, in microseconds.
function times(runs) {
  for (const run of runs) batch(run); // until the engine has optimised it
  const least = runs.map(() => Infinity);
  for (let turn = 0; turn < BATCHES; turn++) runs.forEach((run, at) => { least[at] = Math.min(least[at], batch(run)); });
  return least;
}

const rounded = ratio => (ratio < 10 ? ratio.toFixed(1) : ratio.toFixed(0));
const row = cells => console.log(`| ${cells.join(" | ")} |`);
const head = cells => {
  row(cells);
  console.log(`|${"---|".repeat(cells.length)}`);
};

function number(value) {
  const bytes = [];
  for (; value >= 128; value = Math.floor(value / 128)) bytes.push(128 | value % 128);
  return [...bytes, value];
}

const sized = bytes => [...number(bytes.length), ...bytes];

// A function with a br_table into one hundred blocks, behind each of which a case stands that breaks out of all.
function switchOf(cases) {
  const body = [0x02, 0x40, ...Array(cases).fill([0x02, 0x40]).flat(), 0x20, 0x00, 0x0E, ...number(cases - 1)];
  for (let label = 0; label < cases; label++) body.push(...number(label));
  for (let left = cases - 1; left >= 0; left--) body.push(0x0B, 0x01, 0x0C, ...number(left)); // end; nop; br out of what is left
  body.push(0x0B, 0x0B);
  const code = [1, ...sized([0, ...body])];
  return Uint8Array.from([0, 0x61, 0x73, 0x6D, 1, 0, 0, 0, 1, 5, 1, 0x60, 1, 0x7F, 0, 3, 2, 1, 0, 10, ...sized(code)]);
}

async function cell(name, groups, original, sizesAlone) {
  const call = MODULES[name], made = instrumented(fileOf(name), groups), larger = rounded(made.output.length / original.output.length);
  if (sizesAlone) return larger;
  const {callbacks} = counting(EVENTS);
  const runs = [bareRunner(original, call), bareRunner(made, call), await runtimeRunner(made, call, callbacks, {unselected: "ignore"})];
  const [own, bare, runtime] = times(runs);
  return `${larger}, ${rounded(bare / own)}, ${rounded(runtime / own)}`;
}

async function groupsTable(sizesAlone) {
  head(["Groups", ...IN_FIRST_TABLE]);
  const originals = IN_FIRST_TABLE.map(name => instrumented(fileOf(name), "none"));
  for (const groups of GROUPS) {
    const cells = [];
    for (const [at, name] of IN_FIRST_TABLE.entries()) cells.push(await cell(name, groups, originals[at], sizesAlone));
    row([`\`${groups}\``, ...cells]);
  }
  const cases = join(folder, "cases.wasm");
  writeFileSync(cases, switchOf(100));
  const bytes = ["none", "begin", "br_table", "begin,end"].map(groups => `${groups} ${instrumented(cases, groups).output.length}`);
  console.log(`a switch of 100 cases, in bytes: ${bytes.join(", ")}`);
}

async function eventsTable() {
  head(["Groups, module", "Events", "Bare", "Callbacks", "Raw"]);
  for (const [groups, events, name, options = {}] of MEASURED) {
    const call = MODULES[name], original = instrumented(fileOf(name), "none"), made = instrumented(fileOf(name), groups);
    const {seen, callbacks} = counting(events);
    const told = await runtimeRunner(made, call, callbacks, options), before = seen.events;
    told();
    const count = seen.events - before;
    const raw = await runtimeRunner(made, call, countingWords(events), options);
    const [own, ...all] = times([bareRunner(original, call), bareRunner(made, call), told, raw]);
    const note = options.stack === false ? ", no stack" : "";
    row([`\`${groups}\`, ${name}${note}`, count, ...all.map(time => ((time - own) * 1000 / count).toFixed(0))]);
  }
}

try {
  const [option, ...more] = process.argv.slice(2);
  if (more.length > 0 || ![undefined, "--sizes", "--events"].includes(option)) {
    throw new Error("usage: node bench/cost.mjs [--sizes | --events]");
  }
  if (option !== "--events") await groupsTable(option === "--sizes");
  if (option !== "--sizes") await eventsTable();
} finally {
  rmSync(folder, {recursive: true});
}
