#!/usr/bin/env node
// Runs an output by a script in Node, and prints what wasabi report prints of the same run: report.mjs OUTPUT INFORMATION SCRIPT
// The host answers as the script says; depth and steps are the engine's.
import {basename} from "node:path";
import {filesAt, unlessRefused, wordsOf} from "./command.mjs";
import {Recorder} from "./recorder.mjs";
import {runScript} from "./script.mjs";

const [output, information, script] = wordsOf(`usage: ${basename(process.argv[1])} OUTPUT INFORMATION SCRIPT`, 3);

async function report() {
  const [bytes, facts, text] = await filesAt([output, information, script]);
  const recorder = new Recorder(facts, {trace: false});
  const {text: answers} = await runScript(bytes, facts, new TextDecoder().decode(text), recorder.callbacks);
  return answers + recorder.report();
}

process.stdout.write(await unlessRefused(output, report()));
