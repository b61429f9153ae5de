// Runs cycc.wasm, the program cycc as a WebAssembly module. It is the one loader of the page and of the command line: node cycc.mjs run x.cyc
// A host gives the module its arguments, files and streams. MemoryHost keeps files in memory; NodeHost has the real ones.
// It has no syntax that Node 12 doesn't know, so that an older Node than this needs can read it and say so.

const ENOENT = 2, EIO = 5, EBADF = 9, EACCES = 13, EEXIST = 17, EINVAL = 22;
const PATH_MAX = 4096;
const WRITES = 0o3, CREATE = 0o100, EXCLUSIVE = 0o200, TRUNCATE = 0o1000;
const EMPTY_PATH = 0x1000, REGULAR = 0o100000, FOLDER = 0o040000;
/** The oldest Node with which the cases were tried. */
const LEAST_NODE = 18;
const utf8 = new TextEncoder();

/** What the module imports, done by a host. `made` has the module's exports once they are there. */
function environment(host, made) {
    const bytes = (at, length) => new Uint8Array(made.exports.memory.buffer, Number(at), Number(length));
    const path = (at) => {
        const all = new Uint8Array(made.exports.memory.buffer);
        const start = Number(at), end = all.indexOf(0, start);
        return new TextDecoder().decode(all.slice(start, end));
    };
    const answer = (number) => {
        if (number < 0) made.exports.rattle_set_errno(-number);
        return number < 0 ? -1 : number;
    };
    return {
        rattle_arg(which, at, capacity) {
            const word = host.words[Number(which)];
            if (word === undefined) return -1n;
            const text = utf8.encode(word);
            if (text.length > Number(capacity)) return -2n;
            bytes(at, text.length).set(text);
            return BigInt(text.length);
        },
        open: (at, flags) => answer(host.open(path(at), flags)),
        close: (file) => answer(host.close(file)),
        read: (file, at, length) => BigInt(answer(host.read(file, bytes(at, length)))),
        write: (file, at, length) => BigInt(answer(host.write(file, bytes(at, length)))),
        rename: (from, to) => answer(host.rename(path(from), path(to))),
        unlink: (at) => answer(host.unlink(path(at))),
        fchmod: (file, mode) => answer(host.chmod(file, mode)),
        realpath(at, into) {
            const found = host.real(path(at));
            const text = typeof found === "number" ? found : utf8.encode(found);
            if (typeof text === "number" || text.length >= PATH_MAX) {
                answer(typeof text === "number" ? text : -EINVAL);
                return 0n;
            }
            bytes(into, text.length + 1).set([...text, 0]);
            return into;
        },
        // (cycc calls none of these: they come with the library's files)
        fsync: () => 0,
        fdatasync: () => 0,
        flock: () => 0,
        ftruncate: () => answer(-EINVAL),
        statx(folder, at, flags, mask, into) {
            const name = path(at);
            const found = name === "" && flags & EMPTY_PATH ? host.stat(folder) : host.stat(name);
            if (typeof found === "number") return answer(found);
            putStat(new DataView(made.exports.memory.buffer, Number(into), 256), found);
            return 0;
        },
    };
}

/** Writes what Linux's statx says of a file: its kind, its number, its length and its device. */
function putStat(view, found) {
    for (let at = 0; at < 256; at += 8) view.setBigUint64(at, 0n, true);
    view.setUint32(0, 0x7ff, true);
    view.setUint16(28, (found.isFile ? REGULAR : found.isFolder ? FOLDER : 0o020000) | 0o600, true);
    view.setBigUint64(32, BigInt.asUintN(64, found.number), true);
    view.setBigUint64(40, BigInt.asUintN(64, found.length), true);
    view.setUint32(136, Number(BigInt.asUintN(32, found.device >> 32n)), true);
    view.setUint32(140, Number(BigInt.asUintN(32, found.device)), true);
}

/** Runs the program once, over a host. It answers the exit status, and the instance's exports, by which its memory can be looked at. */
export function answer(module, host) {
    const made = {};
    const instance = new WebAssembly.Instance(module, { env: environment(host, made) });
    made.exports = instance.exports;
    const status = instance.exports.main(0, 0n);
    return { status, exports: instance.exports };
}

/** Files in memory: `files` is a Map of paths and bytes. `output` gets the number of a stream, 1 or 2, and bytes. */
export class MemoryHost {
    constructor(words, files, input, output) {
        Object.assign(this, { words: ["cycc", ...words], files, input, output, at: 0, opened: new Map(), next: 3 });
    }

    open(path, flags) {
        const there = this.files.get(path);
        if (!there && !(flags & CREATE)) return -ENOENT;
        if (there && flags & EXCLUSIVE) return -EEXIST;
        if (!there || flags & TRUNCATE) this.files.set(path, new Uint8Array());
        this.opened.set(this.next, { path, at: 0, writes: (flags & WRITES) !== 0 });
        return this.next++;
    }

    close(file) {
        return this.opened.delete(file) ? 0 : -EBADF;
    }

    read(file, into) {
        const opened = file === 0 ? this : this.opened.get(file);
        if (!opened) return -EBADF;
        const from = file === 0 ? this.input : this.files.get(opened.path);
        const length = Math.min(into.length, from.length - opened.at);
        into.set(from.subarray(opened.at, opened.at + length));
        opened.at += length;
        return length;
    }

    write(file, bytes) {
        if (file === 1 || file === 2) {
            this.output(file, bytes.slice());
            return bytes.length;
        }
        const opened = this.opened.get(file);
        if (!opened || !opened.writes) return -EBADF;
        const old = this.files.get(opened.path);
        const text = new Uint8Array(Math.max(old.length, opened.at + bytes.length));
        text.set(old);
        text.set(bytes, opened.at);
        this.files.set(opened.path, text);
        opened.at += bytes.length;
        return bytes.length;
    }

    rename(from, to) {
        if (!this.files.has(from)) return -ENOENT;
        this.files.set(to, this.files.get(from));
        this.files.delete(from);
        return 0;
    }

    unlink(path) {
        return this.files.delete(path) ? 0 : -ENOENT;
    }

    chmod() {
        return 0;
    }

    real(path) {
        return this.files.has(path) ? path : -ENOENT;
    }

    stat(which) {
        const { path } = typeof which === "number" ? this.opened.get(which) || {} : { path: which };
        if (path === ".") return { isFile: false, isFolder: true, number: 0n, length: 0n, device: 0n };
        const names = [...this.files.keys()];
        if (!this.files.has(path)) return -ENOENT;
        return { isFile: true, number: BigInt(names.indexOf(path) + 1), length: BigInt(this.files.get(path).length), device: 0n };
    }
}

/** The errors of Node's file system by their names, as Linux numbers them. */
const NUMBERS = { ENOENT, EIO, EBADF, EACCES, EEXIST, EPERM: 1, EISDIR: 21, ENOTDIR: 20, EINVAL: 22, EPIPE: 32, EROFS: 30, ENOSPC: 28, ELOOP: 40 };

/** The file system, standard streams and arguments of Node. */
export class NodeHost {
    constructor(words, fs) {
        Object.assign(this, { words: ["cycc", ...words], fs });
    }

    /** The number that a call answers, or the error's, below 0. A stream that is not ready is asked again. */
    tried(call) {
        for (;;) {
            try {
                return call();
            } catch (error) {
                if (error.code === "EOF") return 0;
                if (error.code !== "EAGAIN") return -(NUMBERS[error.code] || EIO);
                Atomics.wait(new Int32Array(new SharedArrayBuffer(4)), 0, 0, 5);
            }
        }
    }

    open(path, flags) {
        const { O_RDONLY, O_WRONLY, O_RDWR, O_CREAT, O_EXCL, O_TRUNC } = this.fs.constants;
        const way = [O_RDONLY, O_WRONLY, O_RDWR][flags & WRITES];
        const more = (flags & CREATE ? O_CREAT : 0) | (flags & EXCLUSIVE ? O_EXCL : 0) | (flags & TRUNCATE ? O_TRUNC : 0);
        return this.tried(() => this.fs.openSync(path, way | more, 0o666));
    }

    close(file) {
        return this.tried(() => this.fs.closeSync(file) || 0);
    }

    read(file, into) {
        return this.tried(() => this.fs.readSync(file, into, 0, into.length, null));
    }

    write(file, bytes) {
        return this.tried(() => this.fs.writeSync(file, bytes, 0, bytes.length));
    }

    rename(from, to) {
        return this.tried(() => this.fs.renameSync(from, to) || 0);
    }

    unlink(path) {
        return this.tried(() => this.fs.unlinkSync(path) || 0);
    }

    chmod(file, mode) {
        return this.tried(() => this.fs.fchmodSync(file, mode & 0o7777) || 0);
    }

    real(path) {
        return this.tried(() => this.fs.realpathSync(path));
    }

    stat(which) {
        const how = { bigint: true };
        return this.tried(() => {
            const it = typeof which === "number" && which >= 0 ? this.fs.fstatSync(which, how) : this.fs.statSync(which, how);
            return { isFile: it.isFile(), isFolder: it.isDirectory(), number: it.ino, length: it.size, device: it.dev };
        });
    }
}

/** Ends the command with a sentence, as where the arguments are wrong. */
function stop(why) {
    process.stderr.write(`cycc: ${why}\n`);
    process.exit(9);
}

/** The bytes of a file beside this one, which tools/web has made. */
function beside(fs, name) {
    try {
        return fs.readFileSync(new URL(name, import.meta.url));
    } catch {
        return stop(`${name} isn't there beside cycc.mjs: tools/web makes both`);
    }
}

/** What the module is made of. */
function version(fs) {
    const { build } = JSON.parse(beside(fs, "content.json"));
    return `cycc as WebAssembly${build.replace("This page's program", "")}\n`;
}

/** The command line. The program runs in a thread with as much stack as ./cycc asks for, since texts may nest deep. */
function command(fs, Worker) {
    const words = process.argv.slice(2);
    if (words[0] === "--version" || words[0] === "-V") {
        process.stdout.write(version(fs));
        return;
    }
    const module = new WebAssembly.Module(beside(fs, "cycc.wasm"));
    const worker = new Worker(new URL(import.meta.url), { workerData: { words, module, isCycc: true }, resourceLimits: { stackSizeMb: 64 } });
    worker.on("message", (status) => { process.exitCode = status; });
    worker.on("error", (error) => {
        process.stderr.write(`cycc: ${error.message}\n`);
        process.exitCode = 7;
    });
}

/** In Node this file may be the command, or the thread that it made, or a part of another program. */
async function inNode(release) {
    if (parseInt(release, 10) < LEAST_NODE) stop(`this is Node ${release}, and cycc.mjs needs Node ${LEAST_NODE} or later`);
    const [fs, threads, urls] = await Promise.all([import("fs"), import("worker_threads"), import("url")]);
    const { isMainThread, workerData, parentPort, Worker } = threads;
    if (!isMainThread) {
        if (workerData && workerData.isCycc) parentPort.postMessage(answer(workerData.module, new NodeHost(workerData.words, fs.default)).status);
    } else if (process.argv[1] !== undefined && fs.realpathSync(process.argv[1]) === urls.fileURLToPath(import.meta.url)) {
        command(fs.default, Worker);
    }
}

if (typeof process !== "undefined" && process.versions && process.versions.node) inNode(process.versions.node);
