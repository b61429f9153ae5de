// The picture of memory: a column for each moment of the run, in it the pages of the arena, and below them how deep the stack is.
import { made } from "./markdown.mjs";
import { Moments } from "./moments.mjs";

const MOST = 120;
const SIZES = [32, 64, 128, 256, 512, 1024, 2048, 4096];

/** What a page is, in words. */
function wordsOf(page) {
    if (page.kind === "heap") return `heap, ${page.used} bytes used`;
    if (page.kind === "region") return `region ${page.number}, ${page.used} bytes used`;
    if (page.kind === "key") return `dynamic region ${page.number}, ${page.isOpen ? "open" : "closed"}, ${page.used} bytes used`;
    if (page.kind === "unique") return `unique blocks of ${page.size} bytes, ${page.live} live`;
    return page.kind === "free" ? "given back" : "never used";
}

function lettersOf(page) {
    const letters = { heap: "H", free: "–", never: "" };
    if (page.kind === "region") return `R${page.number}`;
    if (page.kind === "key") return `K${page.number}`;
    return page.kind === "unique" ? `U${page.size}` : letters[page.kind];
}

/** The colour of a page. Regions differ in hue by their numbers. */
function colourOf(page, isDark) {
    const light = isDark ? 62 : 48;
    if (page.kind === "heap") return isDark ? "#9aa5b1" : "#5c6773";
    if (page.kind === "region") return `hsl(${(205 + 47 * (page.number - 1)) % 360} 65% ${light}%)`;
    if (page.kind === "key") return `hsl(${(30 + 47 * (page.number - 1)) % 360} 85% ${light + 4}%)`;
    if (page.kind === "unique") return `hsl(160 ${35 + 8 * SIZES.indexOf(page.size)}% ${light - 4}%)`;
    return page.kind === "free" ? (isDark ? "#3b434d" : "#d3d8de") : "transparent";
}

/** How many pages there are of each owner, in the order of their numbers. */
function sums(pages) {
    const found = new Map();
    for (const it of pages) {
        const name = { heap: "the heap", free: "given back", never: "never used" }[it.kind]
            ?? (it.kind === "unique" ? `unique blocks of ${it.size} bytes` : `${it.kind === "key" ? "dynamic region" : "region"} ${it.number}`);
        const old = found.get(name) ?? { count: 0, used: 0, page: it };
        found.set(name, { page: it, count: old.count + 1, used: old.used + (it.used ?? (it.live ?? 0) * (it.size ?? 0)) });
    }
    return found;
}

export class Picture {
    constructor(root, program, options) {
        Object.assign(this, { root, options, moments: new Moments(program, options), last: 0, at: 0, shownFor: null });
        const part = (name) => root.querySelector(name);
        Object.assign(this, { canvas: part("canvas"), slider: part("input"), words: part(".moment") });
        Object.assign(this, { legend: part(".legend"), grid: part(".grid"), state: part(".made") });
        this.slider.addEventListener("input", () => this.choose(Number(this.slider.value)));
        this.canvas.addEventListener("pointerdown", (event) => this.point(event));
        this.canvas.addEventListener("pointermove", (event) => event.buttons && this.point(event));
        new ResizeObserver(() => this.draw()).observe(this.canvas);
    }

    /** Takes up a run: how many instructions it made. The picture is made when its tab is looked at. */
    take(run) {
        this.last = run?.counts.get("instructions") ?? 0;
        this.shownFor = null;
        this.moments.known = [];
        this.state.textContent = this.last ? "" : "Run the program: then its memory is looked at, moment by moment.";
        this.show();
    }

    async show() {
        if (this.root.hidden || !this.last || this.shownFor === this.last) return;
        this.shownFor = this.last;
        const told = (isOver) => {
            const count = this.moments.known.length;
            const more = isOver ? "" : ", and more to come";
            this.state.textContent = `${count} moments${more}. Each is a run of its own up to that step; what lies between them isn't seen.`;
            this.slider.max = count - 1;
            this.choose(isOver && this.at === 0 ? this.fullest() : Math.min(this.at, count - 1));
        };
        try {
            await this.moments.sample(this.last, MOST, told);
        } catch (error) {
            this.state.textContent = error.message || "It was stopped.";
        }
    }

    /** The moment with the most pages in use, and of those the one with the most bytes. */
    fullest() {
        const bytes = (page) => page.kind === "unique" ? page.live * page.size : page.used ?? 0;
        const inUse = (it) => it.pages.reduce((sum, page) => sum + (page.kind === "free" ? 0 : 65536 + bytes(page)), 0);
        const known = this.moments.known;
        return known.reduce((best, it, index) => inUse(it) > inUse(known[best]) ? index : best, 0);
    }

    point(event) {
        const known = this.moments.known;
        if (!known.length) return;
        const box = this.canvas.getBoundingClientRect();
        this.choose(Math.max(0, Math.min(known.length - 1, Math.floor(((event.clientX - box.left) / box.width) * known.length))));
    }

    choose(which) {
        this.at = which;
        this.slider.value = which;
        this.draw();
        this.tell(this.moments.known[which]);
    }

    get rows() {
        return Math.max(4, ...this.moments.known.map((it) => it.pages.length));
    }

    draw() {
        const known = this.moments.known, box = this.canvas.getBoundingClientRect(), ratio = devicePixelRatio || 1;
        if (!box.width) return;
        Object.assign(this.canvas, { width: Math.round(box.width * ratio), height: Math.round(box.height * ratio) });
        const pen = this.canvas.getContext("2d");
        pen.scale(ratio, ratio);
        if (!known.length) return;
        const isDark = getComputedStyle(this.root).colorScheme.includes("dark");
        const top = box.height * 0.68, wide = box.width / known.length;
        known.forEach((it, index) => this.column(pen, it, { left: index * wide, wide, top, isDark }));
        this.stack(pen, known, { wide, top: top + 14, height: box.height - top - 14, isDark });
        pen.strokeStyle = isDark ? "#fff" : "#000";
        pen.lineWidth = 1.5;
        pen.strokeRect(this.at * wide + 0.75, 0.75, Math.max(wide - 1.5, 2), box.height - 1.5);
    }

    column(pen, moment, { left, wide, top, isDark }) {
        const high = top / this.rows;
        moment.pages.forEach((page, row) => {
            pen.fillStyle = colourOf(page, isDark);
            pen.fillRect(left, top - (row + 1) * high, wide - (wide > 6 ? 1 : 0), Math.max(high - (high > 4 ? 1 : 0), 0.5));
        });
        pen.fillStyle = isDark ? "#3b434d" : "#d3d8de";
        pen.fillRect(left, top, wide, 1);
    }

    stack(pen, known, { wide, top, height, isDark }) {
        const most = Math.max(16, ...known.map((it) => Math.max(it.deepest, it.stack)));
        known.forEach((it, index) => {
            pen.fillStyle = isDark ? "#c08457" : "#a85a1c";
            const tall = (Math.max(it.stack, 0) / most) * (height - 2);
            pen.fillRect(index * wide, top + height - tall, wide - (wide > 6 ? 1 : 0), tall);
            pen.fillStyle = isDark ? "#ffd0a8" : "#6b3206";
            pen.fillRect(index * wide, top + height - (it.deepest / most) * (height - 2) - 1.5, wide, 1.5);
        });
    }

    /** Says the chosen moment in words, and shows its pages one by one. */
    tell(moment) {
        if (!moment) return;
        const inner = moment.names.slice(0, 6).join(", called from ") || "the start";
        const deep = moment.more ? `at least ${moment.stack}` : `${moment.stack}`;
        this.words.replaceChildren(made("b", {}, `Step ${moment.steps.toLocaleString("en")}`), ` in ${inner}${moment.names.length > 6 ? " and further" : ""}. `
            + `The stack is ${deep} bytes deep; its deepest so far is ${moment.deepest}.`);
        const isDark = getComputedStyle(this.root).colorScheme.includes("dark");
        const found = [...sums(moment.pages)];
        const chip = ([name, { count, used, page }]) => {
            const dot = made("span", { className: "dot" });
            dot.style.background = colourOf(page, isDark);
            return made("li", {}, dot, `${name}: ${count} ${count === 1 ? "page" : "pages"}${used ? `, ${used.toLocaleString("en")} bytes` : ""}`);
        };
        this.legend.replaceChildren(...found.map(chip), ...(found.length ? [] : [made("li", {}, "No page of the arena was used yet.")]));
        this.grid.replaceChildren(...moment.pages.slice(0, 256).map((page, index) => this.cell(page, index, isDark)));
    }

    cell(page, index, isDark) {
        const it = made("span", { className: `cell ${page.kind}`, title: `page ${index}: ${wordsOf(page)}` }, lettersOf(page));
        it.style.borderColor = colourOf(page, isDark);
        const part = page.kind === "unique" ? (page.live * page.size) / 4096 : (page.used ?? 0) / 4096;
        it.style.setProperty("--part", `${Math.round(100 * Math.min(part, 1))}%`);
        it.style.setProperty("--colour", colourOf(page, isDark));
        return it;
    }
}
