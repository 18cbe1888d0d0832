// Prints how often each loop turned, the hottest first: node hottest_loop.mjs OUTPUT INFORMATION CALL ..
import {command} from "../js/command.mjs";

const turns = new Map();
const run = await command("usage: node hottest_loop.mjs OUTPUT INFORMATION CALL ..\nThe output has the group begin.", {
  begin({location: {func, position}, kind}) {
    if (kind !== "loop") return;
    const place = `${func}:${position}`;
    turns.set(place, (turns.get(place) ?? 0) + 1);
  },
});
for (const [place, count] of [...turns].sort(([, first], [, second]) => second - first)) {
  const [func, begin] = place.split(":").map(Number);
  const [, , end] = run.information.functions[func][2].find(part => part[1] === begin);
  console.log(`${count} turns of the loop ${place} to ${end} in ${run.nameOf(func)}`);
}
