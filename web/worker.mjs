// A worker: it runs cycc once for each task, and posts what that writes as it comes. It is ended from outside where a run is stopped.
import { answer, MemoryHost } from "./cycc.mjs";

const OUTPUT_KEPT = 1 << 20;
let module;

/** The header words of the arena of the last run, sixteen for each page (docs/STORES.md), or nothing where there was none. */
function headers(exports, pages) {
    const at = Number(exports.arena_at()), length = Number(exports.arena_length());
    if (!at || length !== pages * 4160) return null;
    return new Uint32Array(exports.memory.buffer.slice(at, at + 64 * pages));
}

/** The program's output, in two streams. Behind the first MiB it is counted and no more kept. */
function streams(id, isLive) {
    const parts = [[], [], []];
    let kept = 0, left = 0;
    return {
        put(stream, bytes) {
            if (kept + bytes.length > OUTPUT_KEPT && stream === 1) {
                left += bytes.length;
                return;
            }
            kept += bytes.length;
            parts[stream].push(bytes);
            if (isLive && stream === 1) postMessage({ id, output: bytes });
        },
        async all() {
            const text = async (stream) => new Blob(parts[stream]).text();
            return { out: await text(1), err: await text(2), left };
        },
    };
}

async function done(task) {
    const files = new Map(Object.entries(task.files ?? {}));
    const written = streams(task.id, task.isLive);
    const host = new MemoryHost(task.words, files, task.input ?? new Uint8Array(), (stream, bytes) => written.put(stream, bytes));
    const began = performance.now();
    const { status, exports } = answer(module, host);
    const seconds = (performance.now() - began) / 1000;
    const pages = task.arenaPages;
    return { status, seconds, files: Object.fromEntries(files), arena: pages ? headers(exports, pages) : null, ...await written.all() };
}

/** What is said of a failure of the browser itself, which is no answer of the program. */
function told(error) {
    if (error instanceof RangeError || error.name === "InternalError") {
        return "This browser's stack is used up: the text nests deeper than it can follow. The native program can.";
    }
    return `The program failed in this browser: ${error.message}`;
}

onmessage = async ({ data }) => {
    if (data.module) {
        module = data.module;
        return;
    }
    try {
        postMessage({ id: data.id, done: await done(data) });
    } catch (error) {
        postMessage({ id: data.id, failed: told(error) });
    }
};
