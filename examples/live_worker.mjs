// Runs a module for live.html, and tells it some twenty times a second how often each block began and each call came.
import {KINDS, start} from "../js/wasabi.mjs";

const INTERVAL = 50; // milliseconds between two messages
const SHOWN = 8; // open functions that are shown, the innermost ones

const begun = new Map();
const calls = new Map();
const count = (map, key) => map.set(key, (map.get(key) ?? 0) + 1);
let events = 0, speed = 0, began = 0, told = 0;

function tell(run, state, over = false) {
  const blocks = [];
  run.information.functions.forEach(([, , parts = []], func) => {
    for (const [kind, begin, end] of parts) {
      blocks.push({func, name: run.nameOf(func), kind: KINDS[kind], begin, end, count: begun.get(`${func}:${begin}`) ?? 0});
    }
  });
  const named = [...calls].map(([pair, times]) => {
    const [caller, callee] = pair.split(">").map(func => (func === "host" ? func : run.nameOf(Number(func))));
    return [`${caller} calls ${callee}`, times];
  });
  postMessage({blocks, calls: named, current: run.stack.at(-1), state: `${state}, ${events} events`, over});
}

// Waits until no more events a second came than are asked for, and sends the counts so far when it is time.
function pace(run) {
  events++;
  let now = performance.now();
  do {
    if (now - told > INTERVAL) {
      told = now;
      const open = run.stack.slice(-SHOWN).map(func => run.nameOf(func));
      tell(run, `running ${run.stack.length > SHOWN ? ".. > " : ""}${open.join(" > ")}`);
    }
    now = performance.now();
  } while (speed > 0 && now < began + 1000 * events / speed);
}

const callbacks = {
  begin({location: {func, position}, kind}, run) {
    count(begun, `${func}:${position}`);
    if (kind === "function") count(calls, `${run.stack.at(-2) ?? "host"}>${func}`);
    pace(run);
  },
  end(event, run) {
    pace(run);
  },
  call_pre({location: {func}, callee}, run) {
    if (callee < run.information.imports) count(calls, `${func}>${callee}`);
    pace(run);
  },
};

onmessage = async ({data}) => {
  try {
    began = performance.now();
    ({speed} = data);
    const run = await start(data.output, data.information, callbacks, {}, {missing: "zeros"});
    let answer;
    try {
      answer = `${data.call} = ${run.call(data.call)}`;
    } catch (error) {
      answer = `${data.call}: ${error.message}`;
    }
    tell(run, answer, true);
  } catch (error) {
    postMessage({state: error.message, over: true});
  }
};
