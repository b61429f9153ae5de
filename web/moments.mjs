// Looks at a run at several moments. Each moment is a run of its own, from the start to a number of steps: a run depends on its image and input alone.
// What is there at the end of such a run is read from the headers of the arena's pages, and from what --where and --stats say.
import { partsOf } from "./endings.mjs";
import { compiled } from "./map.mjs";

const HEAP = 4097, TAKEN = 4098;
/** Moments are looked at for so long; then at least so many, but no longer than that. */
const SECONDS = 4, LEAST = 12, LONGEST = 30;

/** How the pages of the arena are used, by their headers (docs/STORES.md, The pool): for each page up to the last one that was ever used its owner. */
export function pagesOf(headers) {
    const count = headers.length / 16, word = (page, field) => headers[16 * page + field];
    const pages = Array.from({ length: count }, () => ({ kind: "never" }));
    for (let page = 0; page < count; page++) {
        const owner = word(page, 1), isUsed = headers.subarray(16 * page, 16 * page + 16).some((it) => it !== 0);
        if (isUsed) pages[page] = { kind: "free" };
        if (owner === HEAP) pages[page] = { kind: "heap", used: word(page, 2) };
        if (owner === TAKEN) pages[page] = { kind: "unique", size: word(page, 4), live: word(page, 9) };
    }
    for (let first = 0; first < count; first++) {
        if (word(first, 1) !== first + 1) continue;
        const kind = word(first, 5) ? "key" : "region";
        let at = word(first, 3);
        for (let left = word(first, 4); left > 0 && at < count; left--) {
            pages[at] = { kind, number: first + 1, used: word(at, 2), isOpen: word(first, 5) === 2 };
            at = word(at, 0);
        }
    }
    let last = count;
    while (last > 0 && pages[last - 1].kind === "never") last--;
    return pages.slice(0, last);
}

/** The functions that are active at a moment, innermost first, by what exec --where says in addresses; and the bytes of their frames. */
function activeAt(said, map) {
    const named = (address) => map.functions.find((it) => it.first <= address && address <= it.last);
    const stop = /^step limit at 0x(\w+)$/m.exec(said) ?? /^[^:\n]*:0x(\w+): (?!call of )/m.exec(said);
    const inner = stop ? named(parseInt(stop[1], 16)) : undefined;
    const calls = [...said.matchAll(/^[^:\n]*:0x(\w+): call of 0x\w+$/gm)].map((it) => parseInt(it[1], 16));
    const active = [inner, ...calls.map(named)].filter((it) => it);
    const more = Number(/^\.\. (\d+) calls$/m.exec(said)?.[1] ?? 0);
    return { names: active.map((it) => it.name), places: calls.map((it) => map.points.get(it)), stack: active.reduce((sum, it) => sum + it.frame, 0), more };
}

/** The order in which moments are looked at: the ends first, and then always between those that are known, until enough are there. */
function* bisected(last, most) {
    yield last;
    yield 0;
    const seen = new Set([0, last]);
    for (let parts = 2; seen.size <= Math.min(most, last); parts *= 2) {
        for (let part = 1; part < parts; part += 2) {
            const at = Math.round((last * part) / parts);
            if (!seen.has(at)) {
                seen.add(at);
                yield at;
            }
        }
        if (parts > 4 * most) return;
    }
}

export class Moments {
    constructor(program, options) {
        Object.assign(this, { program, options, known: [], map: null, wanted: 0 });
    }

    /** What a run is after so many steps. */
    async look(image, steps) {
        const { input, pages } = this.options();
        const words = ["exec", "program.img", "--ending", "--where", "--stats", "--steps", String(steps)];
        const done = await this.program.ask({ words, files: { "program.img": image }, input, arenaPages: pages });
        const { ending, counts } = partsOf(done.err);
        const active = activeAt(done.err, this.map);
        return { steps, ending, counts, ...active, deepest: counts.get("stack") ?? 0, pages: done.arena ? pagesOf(done.arena) : [] };
    }

    /** Looks at moments of a run of so many steps, until `most` are known or the time is over. `told` is called with each. */
    async sample(last, most, told) {
        const wanted = ++this.wanted, began = performance.now();
        this.known = [];
        const { said, image, map } = await compiled(this.program, this.options);
        if (said) return;
        this.map = map;
        for (const steps of bisected(last, most)) {
            const moment = await this.look(image, steps);
            if (wanted !== this.wanted) return;
            this.known.push(moment);
            this.known.sort((a, b) => a.steps - b.steps);
            const seconds = (performance.now() - began) / 1000;
            const isOver = seconds > LONGEST || (seconds > SECONDS && this.known.length >= LEAST);
            told(isOver);
            if (isOver) return;
        }
        told(true);
    }
}
