// The tabs of numbers: what a run took, and what the source means by itself, beside what the image did.
import { inWords, meaningOf, partsOf } from "./endings.mjs";
import { made } from "./markdown.mjs";

/** How many instructions a run has to have, so that their speed is told. In a shorter one most of the time is the compiler's. */
const LEAST_TIMED = 1e6;

/** The table of what a run took. */
export function showStatistics(root, run) {
    if (!run || run.counts.size === 0) {
        root.replaceChildren(made("p", { className: "quiet" }, "Run the program: what it took is listed here."));
        return;
    }
    const row = ([name, count]) => {
        const cells = [made("td", {}, count === null ? "no bound" : count.toLocaleString("en")), made("td", {}, made("code", {}, name))];
        return made("tr", {}, made("th", { scope: "row" }, meaningOf(name)), ...cells);
    };
    const head = made("tr", {}, ...["What", "How many", "Name"].map((it) => made("th", { scope: "col" }, it)));
    const table = made("table", { className: "counts" }, made("thead", {}, head), made("tbody", {}, ...[...run.counts].map(row)));
    const count = run.counts.get("instructions"), speed = count / run.done.seconds / 1e6;
    const rate = count < LEAST_TIMED ? "" : `: ${speed.toFixed(1)} million instructions a second`;
    const words = `In this browser the run took ${run.done.seconds.toFixed(2)} seconds, with the compiler${rate}. `
        + "A run that is watched, as here, is several times slower than one that isn't.";
    root.replaceChildren(table, made("p", { className: "quiet" }, words));
}

export class Meaning {
    constructor(root, program, options) {
        Object.assign(this, { root, program, options, button: root.querySelector("button"), said: root.querySelector(".said") });
        this.button.addEventListener("click", () => this.evaluate());
    }

    async evaluate() {
        this.button.disabled = true;
        this.said.replaceChildren(made("p", { className: "quiet" }, "Evaluating."));
        const { files, input, fuel } = this.options();
        try {
            const words = ["eval", "program.cyc", "--ending", "--where", "--steps", String(fuel)];
            this.show(await this.program.ask({ words, files, input }), this.last);
        } catch (error) {
            this.said.replaceChildren(made("p", {}, error.message || "It was stopped."));
        }
        this.button.disabled = false;
    }

    /** What the evaluation wrote and ended with, and whether the last run of the same source did the same. */
    show(done, run) {
        const found = partsOf(done.err), { kind, words } = inWords(found);
        const ending = made("span", { className: "quiet" }, ` ${found.ending}`);
        const parts = [made("p", { className: `ending ${kind}` }, done.status === 8 ? "The source is rejected." : words, ending)];
        if (run && done.status !== 8) {
            const isSame = run.done.out === done.out && run.ending === found.ending;
            const other = "The last run wrote something else or ended otherwise: another text, input, or a limit.";
            const told = isSame ? "The image wrote the same, and ended alike." : other;
            parts.push(made("p", { className: isSame ? "same" : "quiet" }, told));
        }
        parts.push(made("pre", { className: "output", tabIndex: 0 }, done.out));
        this.said.replaceChildren(...parts);
    }
}
