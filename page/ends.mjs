// The ends of a process under node: reading and writing by its numbers of open files.
import {readSync, writeSync} from "node:fs";
import {ReadFailed, WriteFailed} from "./run.mjs";

/** A source of the bytes of an open file. */
export function sourceOf(file) {
    const room = Buffer.alloc(65536);
    return (most) => {
        try {
            return room.subarray(0, readSync(file, room, 0, Math.min(most, room.length), null));
        } catch (error) {
            if (error.code === "EOF") return room.subarray(0, 0); // (as Windows tells the end of a pipe)
            throw new ReadFailed(error.message);
        }
    };
}

/** A sink of bytes that are written to an open file. */
export function sinkOf(file) {
    return (bytes) => {
        try {
            for (let done = 0; done < bytes.length;) done += writeSync(file, bytes, done);
        } catch (error) {
            throw new WriteFailed(error.message);
        }
    };
}
