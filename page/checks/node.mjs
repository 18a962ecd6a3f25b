// Runs the worker of the page under node, with a module: each line of standard input is {words, document}, with the document in
// base64, and each line of standard output {status, answer, ms, spent}, or {trouble}; `spent` is processor time, in milliseconds.
//   node page/checks/node.mjs MODULE < RUNS > ANSWERS
import {readFileSync} from "node:fs";
import {createInterface} from "node:readline";

const said = [];
globalThis.self = {postMessage: (message) => said.push(message)};
await import("../worker.js");
self.onmessage({data: {module: await WebAssembly.compile(readFileSync(process.argv[2]))}});
for await (const line of createInterface({input: process.stdin})) {
    const {words, document} = JSON.parse(line);
    const before = process.cpuUsage();
    self.onmessage({data: {id: 0, words, bytes: new Uint8Array(Buffer.from(document, "base64"))}});
    const {user, system} = process.cpuUsage(before), spent = (user + system) / 1000;
    const {status, bytes, ms, trouble} = said.pop();
    process.stdout.write(`${JSON.stringify(trouble ? {trouble} : {status, answer: Buffer.from(bytes).toString("base64"), ms, spent})}\n`);
}
