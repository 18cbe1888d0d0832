// Runs an output by a script in Node, and prints what wasabi report prints of the same run: node reports.mjs OUTPUT INFORMATION SCRIPT
import "../js/report.mjs";
