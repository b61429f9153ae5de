// Runs the program: its output as it comes, how it ended, and where.
import { inWords, partsOf } from "./endings.mjs";
import { made } from "./markdown.mjs";
import { Output } from "./output.mjs";
import { Stopped } from "./program.mjs";

/** The places in their order, of which those that are the same and stand one behind the other are one, with their count. */
function counted(places) {
    const found = [];
    for (const it of places) {
        const last = found.at(-1);
        if (last && last.line === it.line && last.column === it.column && last.words === it.words) last.count++;
        else found.push({ ...it, count: 1 });
    }
    return found;
}

export class Running {
    constructor(root, editor, program, options) {
        Object.assign(this, { root, editor, program, options, isRunning: false, told: () => {}, ended: () => {} });
        const part = (name) => root.querySelector(name);
        Object.assign(this, { banner: part(".ending"), calls: part(".calls"), output: new Output(part(".output")) });
    }

    say(kind, ...words) {
        this.banner.className = `ending ${kind}`;
        this.banner.replaceChildren(...words);
    }

    /** As if nothing was run yet. A run that goes on is stopped. */
    reset() {
        if (this.isRunning) this.stop();
        this.clear();
        this.say("quiet", "Run the program to see what it writes.");
        this.ended(null);
    }

    clear() {
        this.output.clear();
        this.calls.replaceChildren();
        this.editor.setLines(new Map());
        this.say("plain", "Running. Stop ends it.");
    }

    async run() {
        if (this.isRunning) return;
        this.isRunning = true;
        this.told(true);
        this.clear();
        const { files, input, words } = this.options();
        const began = performance.now();
        try {
            const done = await this.program.ask({ words: ["run", "program.cyc", ...words], files, input }, (bytes) => this.output.put(bytes));
            this.show(done, (performance.now() - began) / 1000);
        } catch (error) {
            this.stopped(error, (performance.now() - began) / 1000);
        }
        this.isRunning = false;
        this.told(false);
    }

    stop() {
        this.program.stop();
    }

    stopped(error, seconds) {
        this.output.end();
        if (error instanceof Stopped) this.say("warn", `You stopped it, after ${seconds.toFixed(1)} seconds.`);
        else this.say("bad", error.message);
        this.ended(null);
    }

    show(done, seconds) {
        const found = partsOf(done.err);
        if (done.status === 8) {
            this.say("bad", "The source is rejected, so there is nothing to run. Its faults are listed below the editor.");
            this.ended(null);
            return;
        }
        const { kind, words } = inWords(found);
        const time = made("span", { className: "quiet" }, ` ${found.ending}, status ${done.status}, ${seconds.toFixed(2)} s`);
        this.say(kind, words, time);
        this.output.end(done.left);
        this.showPlaces(found, kind);
        this.ended({ ...found, done });
    }

    /** The line at which the run stopped is marked, and the calls that led there. */
    showPlaces(found, kind) {
        const [first, ...calls] = found.places;
        const isRaise = first && !first.words.startsWith("call of");
        const lines = new Map();
        for (const it of isRaise ? calls : found.places) lines.set(it.line, "called");
        if (isRaise) lines.set(first.line, "stopped");
        this.editor.setLines(lines);
        const { at, count } = found.between ?? { at: found.places.length, count: 0 };
        const rowsOf = (places) => counted(places).map((it) => this.place(it));
        const between = count ? [made("li", {}, `and ${count} calls between`)] : [];
        const rows = [...rowsOf(found.places.slice(0, at)), ...between, ...rowsOf(found.places.slice(at))];
        for (const it of found.notes) rows.unshift(made("li", {}, it));
        const head = kind === "bad" ? "Where it stopped, and the calls that led there" : "Where it was";
        if (rows.length) this.calls.replaceChildren(made("h3", {}, head), made("ol", {}, ...rows));
    }

    place(it) {
        const times = it.count > 1 ? `, ${it.count} times` : "", before = it.words.startsWith("call of") ? `${it.words}, at ` : "stopped at ";
        const button = made("button", { type: "button" }, `${before}line ${it.line}, column ${it.column}${times}`);
        button.addEventListener("click", () => this.editor.go(it.line, it.column));
        return made("li", {}, button);
    }
}
