// Asks the program, in a worker of its own, so that the page stays alive and a run can be stopped.

export class Stopped extends Error {}

/** The address of the worker's script with the loader in it, so that no later start of a worker asks the server for anything. */
export function workerOf(loader, worker) {
    const whole = `${loader}\n${worker.replace(/^import .*$/m, "")}`;
    return URL.createObjectURL(new Blob([whole], { type: "text/javascript" }));
}

export class Program {
    constructor({ module, script }) {
        Object.assign(this, { module, script, worker: null, waiting: new Map(), next: 1 });
    }

    start() {
        this.worker = new Worker(this.script, { type: "module" });
        this.worker.postMessage({ module: this.module });
        this.worker.onmessage = ({ data }) => this.got(data);
        this.worker.onerror = (event) => this.fail(new Error(event.message || "the worker doesn't start"));
    }

    got({ id, output, done, failed }) {
        const asked = this.waiting.get(id);
        if (!asked) return;
        if (output) {
            asked.output?.(output);
            return;
        }
        this.waiting.delete(id);
        if (done) asked.resolve(done);
        else asked.reject(new Error(failed));
    }

    fail(error) {
        for (const { reject } of this.waiting.values()) reject(error);
        this.waiting.clear();
    }

    /** Does a task, `{ words, files, input, arenaPages }`. `output` gets the bytes of standard output as they come. */
    ask(task, output) {
        if (!this.worker) this.start();
        const id = this.next++;
        return new Promise((resolve, reject) => {
            this.waiting.set(id, { resolve, reject, output });
            this.worker.postMessage({ id, isLive: Boolean(output), ...task });
        });
    }

    /** Ends the worker, with all that it does. The next task starts another. */
    stop() {
        this.worker?.terminate();
        this.worker = null;
        this.fail(new Stopped());
    }
}
