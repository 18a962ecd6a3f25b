// The worker in which the program runs. It is started with the compiled module, and then answers questions one after another:
//   {module}                 once, first
//   {id, words, bytes}       a question: the words of the program, and its document
//   {id, status, bytes, ms}  the answer: exit status, the bytes that the program writes, and how long it took
//   {id, trouble}            there is none: "stack", "memory" or "trap"
import {answer, troubleOf} from "./answer.js";

let compiled = null;

self.onmessage = ({data}) => {
    if (data.module) {
        compiled = data.module;
        return;
    }
    const {id, words, bytes} = data, begun = performance.now();
    try {
        const said = answer(compiled, words, bytes);
        self.postMessage({id, ...said, ms: performance.now() - begun}, [said.bytes.buffer]);
    } catch (error) {
        self.postMessage({id, trouble: troubleOf(error)});
    }
};
