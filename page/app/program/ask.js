// The program as a function: questions to a worker, of which the newest counts.
import {say} from "../../words/say.js";

/** A newer question came, or the user ended this one. */
export class Ended extends Error {}

/** The program didn't answer; `trouble` is "stack", "memory" or "trap". */
export class NoAnswerCame extends Error {
    constructor(trouble) {
        super(say(TROUBLES[trouble]));
        this.trouble = trouble;
    }
}

const TROUBLES = {stack: "trouble.stack", memory: "trouble.memory", trap: "trouble.trap"};

export class Program {
    /** The program of a compiled module, in a worker of this text. */
    constructor(module, workerText) {
        this.module = module;
        this.address = URL.createObjectURL(new Blob([workerText], {type: "text/javascript"}));
        this.open = new Map();
        this.count = 0;
        this.worker = null;
    }

    /**
     * Ends all that is asked, and answers a function for the questions of one turn: `ask(words, bytes)` is a promise of
     * `{status, bytes, ms}`. It fails with Ended as soon as the next turn begins, and with NoAnswerCame where the run broke off.
     */
    turn() {
        this.end();
        const turn = this.count += 1;
        return (words, bytes) => turn === this.count ? this.put(words, bytes) : Promise.reject(new Ended());
    }

    /** Ends what is asked, for a reason. The next question starts another worker. */
    end(reason = new Ended()) {
        if (this.open.size === 0) return;
        this.worker.terminate();
        this.worker = null;
        const open = [...this.open.values()];
        this.open.clear();
        for (const {fail} of open) fail(reason);
    }

    put(words, bytes) {
        if (this.worker === null) this.start();
        return new Promise((give, fail) => {
            const id = this.last = (this.last ?? 0) + 1;
            this.open.set(id, {give, fail});
            this.worker.postMessage({id, words, bytes});
        });
    }

    start() {
        this.worker = new Worker(this.address);
        this.worker.onmessage = ({data: {id, trouble, ...said}}) => {
            const asked = this.open.get(id);
            this.open.delete(id);
            if (trouble) asked?.fail(new NoAnswerCame(trouble));
            else asked?.give(said);
        };
        this.worker.onerror = () => this.end(new NoAnswerCame("trap"));
        this.worker.postMessage({module: this.module});
    }
}

/** A question in the form that the sentences and pictures take: `ask(words, text)` is a promise of a text. */
export function inText(ask) {
    return async (words, text) => new TextDecoder().decode((await ask(words, new TextEncoder().encode(text))).bytes);
}
