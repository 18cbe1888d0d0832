// Prints how often which function called which: node who_calls_whom.mjs OUTPUT INFORMATION CALL ..
import {command} from "../js/command.mjs";

const calls = new Map();
const count = (caller, callee) => calls.set(`${caller}>${callee}`, (calls.get(`${caller}>${callee}`) ?? 0) + 1);
const usage = "usage: node who_calls_whom.mjs OUTPUT INFORMATION CALL ..\nThe output has the groups begin, end and call.";
const run = await command(usage, {
  begin({location: {func}, kind}, {stack}) {
    if (kind === "function") count(stack.at(-2) ?? "host", func);
  },
  call_pre({location: {func}, callee}, {information}) {
    if (callee < information.imports) count(func, callee); // a function of the host has no begin
  },
});
const nameOf = func => (func === "host" ? func : run.nameOf(Number(func)));
for (const [pair, times] of calls) {
  const [caller, callee] = pair.split(">");
  console.log(`${nameOf(caller)} calls ${nameOf(callee)}: ${times}`);
}
