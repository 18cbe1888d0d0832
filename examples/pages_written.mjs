// Prints how many stores wrote to each page of the memory: node pages_written.mjs OUTPUT INFORMATION CALL ..
import {command} from "../js/command.mjs";

const PAGE = 65536;
const stores = new Map();
await command("usage: node pages_written.mjs OUTPUT INFORMATION CALL ..\nThe output has the group store.", {
  store({offset, address, bytes}) {
    const first = offset + address;
    const last = first + bytes - 1;
    for (const page of new Set([first, last].map(byte => Math.floor(byte / PAGE)))) stores.set(page, (stores.get(page) ?? 0) + 1);
  },
});
for (const [page, count] of [...stores].sort(([first], [second]) => first - second)) console.log(`page ${page}: ${count} stores`);
