// Counts of several processes in one folder of Node: NAME.report and NAME.tree, to which each process adds its own, and NAME.json, the
// information of the output that they count.
import fs from "node:fs";
import path from "node:path";
import {threadId} from "node:worker_threads";
import {Counts, Tree} from "./counts.mjs";
import {RecordError} from "./errors.mjs";

const WAIT = 10, MOST = 30_000; // milliseconds
const sleeper = new Int32Array(new SharedArrayBuffer(4));

/**
 * @template T
 * @param {string} code of an error of the system, which is none here
 * @param {() => T} work
 */
function unless(code, work) {
  try {
    return work();
  } catch (error) {
    if (/** @type {any} */ (error).code !== code) throw error;
    return undefined;
  }
}

/** @param {string} file */
const textAt = file => unless("ENOENT", () => fs.readFileSync(file, "utf8"));

/**
 * Writes a file whole.
 * @param {string} file
 * @param {string | Uint8Array} content
 */
export function writeWhole(file, content) {
  const made = `${file}.${process.pid}.${threadId}.new`;
  fs.writeFileSync(made, content);
  fs.renameSync(made, file);
}

/**
 * Whether a process is no more.
 * @param {number} pid
 */
function isOver(pid) {
  try {
    process.kill(pid, 0);
    return false;
  } catch (error) {
    return /** @type {any} */ (error).code === "ESRCH";
  }
}

/**
 * Whether this thread has got a name, which only one can have, for a file of its own.
 * @param {string} own
 * @param {string} name
 */
const hasGot = (own, name) => unless("EEXIST", () => {
  fs.linkSync(own, name);
  return true;
}) ?? false;

/**
 * Takes a lock file that one thread alone can have. Its text is the holder, and another one each time that it is taken.
 *
 * The lock of a process that is no more is removed, by one thread at a time. The holder is looked at before its lock is read again: a
 * lock that is still the same then is nobody's, and stays until it is removed here. In the other order the holder could release the
 * lock and end in between, and the lock of the next one would be removed.
 * @param {string} lock
 */
function take(lock) {
  const own = `${lock}.${process.pid}.${threadId}`, removal = `${lock}.removal`;
  fs.writeFileSync(own, `${process.pid} ${threadId} ${process.hrtime.bigint()}`);
  try {
    let holder, since = performance.now();
    while (!hasGot(own, lock)) {
      const found = textAt(lock);
      if (found !== holder) [holder, since] = [found, performance.now()];
      if (holder !== undefined && isOver(parseInt(holder)) && hasGot(own, removal)) {
        if (textAt(lock) === holder) fs.rmSync(lock);
        fs.rmSync(removal);
        continue;
      }
      if (performance.now() - since > MOST) {
        const what = `${lock} is held by one process for more than ${MOST / 1000} seconds`;
        throw new RecordError(`${what}; if there is none, remove it, and ${removal}`);
      }
      Atomics.wait(sleeper, 0, 0, WAIT);
    }
  } finally {
    fs.rmSync(own, {force: true});
  }
}

/** The counts of one output in a folder. */
export class CountsFolder {
  #at;

  /**
   * @param {string} folder which is made if it is not there
   * @param {string} name of the output
   * @param {import("./information.mjs").Information} information that of the output; a folder with counts of another one is refused
   */
  constructor(folder, name, information) {
    this.#at = path.join(folder, name);
    fs.mkdirSync(folder, {recursive: true});
    const text = JSON.stringify(information);
    const known = this.#locked(() => {
      const found = textAt(`${this.#at}.json`);
      if (found === undefined) writeWhole(`${this.#at}.json`, text);
      return found ?? text;
    });
    if (known === text) return;
    throw new RecordError(`${folder} has the counts of another output named ${name}, or of an older one: remove the folder, or name another one`);
  }

  /**
   * Adds counts to those that are there.
   * @param {Counts} counts
   * @param {Tree | undefined} tree
   */
  add(counts, tree) {
    this.#locked(() => {
      const [report, paths] = [textAt(`${this.#at}.report`), textAt(`${this.#at}.tree`)];
      const all = report === undefined ? new Counts() : Counts.of(report);
      all.add(counts);
      writeWhole(`${this.#at}.report`, all.text());
      if (!tree) return;
      const known = paths === undefined ? new Tree() : Tree.of(paths);
      known.add(tree);
      writeWhole(`${this.#at}.tree`, known.text());
    });
  }

  /**
   * @template T
   * @param {() => T} work
   */
  #locked(work) {
    const lock = `${this.#at}.lock`;
    take(lock);
    try {
      return work();
    } finally {
      fs.rmSync(lock, {force: true});
    }
  }
}
