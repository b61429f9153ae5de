// Does runs of cases with cycc.wasm: what each writes, says and ends with, compared with what its case expects. For a worker of a browser, and for Node.
import { answer, MemoryHost } from "./cycc.mjs";

const EIO = 5;
const bytesOf = (text) => Uint8Array.from(atob(text), (it) => it.charCodeAt(0));

/** The files of a case's run, of which a read or a write may fail by its number. */
class CaseHost extends MemoryHost {
    constructor(run) {
        const source = bytesOf(run.source);
        super(run.words, new Map([["IN", source], ["IMAGE", source]]), bytesOf(run.input), (stream, bytes) => this.written[stream].push(...bytes));
        Object.assign(this, { run, written: [[], [], []], reads: 0, writes: 0, failed: [0, 0] });
    }

    read(file, into) {
        if (file !== 0) return super.read(file, into);
        if (++this.reads !== this.run.read_fails) return super.read(file, into);
        this.failed[0]++;
        return -EIO;
    }

    write(file, bytes) {
        if (file !== 1) return super.write(file, bytes);
        this.writes++;
        if (this.writes === this.run.write_fails) {
            this.failed[1]++;
            return -EIO;
        }
        if (this.writes === this.run.write_takes_nothing) {
            this.failed[1]++;
            return 0;
        }
        return super.write(file, this.run.takes_one ? bytes.subarray(0, 1) : bytes);
    }
}

const isPlain = (it) => it === 10 || (it >= 32 && it < 127);
const asText = (bytes) => Array.from(bytes, (it) => isPlain(it) ? String.fromCharCode(it) : `\\x${it.toString(16).padStart(2, "0")}`).join("");
const same = (bytes, text) => bytes.length === text.length && bytes.every((it, at) => it === text[at]);

/** The pages that an image's header has, or -1 where there is no image. */
function pagesOf(image) {
    return image?.length >= 24 ? new DataView(image.buffer, image.byteOffset).getUint32(20, true) : -1;
}

/** How a run differs from what its case expects, in words; nothing where it doesn't. */
export function difference(module, run) {
    const host = new CaseHost(run);
    let status;
    try {
        ({ status } = answer(module, host));
    } catch (error) {
        return `the engine failed: ${error.message}`;
    }
    const { wanted } = run, isUsage = wanted.status === 9 || run.words.some((it) => it === "--help" || it === "-h" || it === "help" || it === "--version");
    const calls = [host.reads, host.writes, ...host.failed].join(" ");
    const written = [...host.written[1], ...(host.files.get("FILE") ?? [])];
    if (status !== wanted.status) return `status ${status} for ${wanted.status}`;
    if (isUsage) return null;
    if (!same(written, bytesOf(wanted.writes))) return `wrote ${asText(written).slice(0, 300)}`;
    if (!same(host.written[2], bytesOf(wanted.says))) return `said ${asText(host.written[2]).slice(0, 300)}`;
    if (wanted.calls !== null && calls !== wanted.calls) return `calls ${calls}`;
    if (run.words[0] === "compile" && pagesOf(host.files.get("OUT")) !== wanted.pages) return `pages ${pagesOf(host.files.get("OUT"))}`;
    return null;
}

/** All of the runs, of which those that differ are answered. */
export function differences(module, runs) {
    const found = [];
    for (const run of runs) {
        const why = difference(module, run);
        if (why) found.push({ file: run.file, name: run.name, words: run.words.join(" "), why });
    }
    return found;
}
