// The instructions of the image, function by function and statement by statement, and what of them the cursor's line of the source is made of.
import { compiled, headOf, stretchesOf } from "./map.mjs";
import { made } from "./markdown.mjs";

/** How many milliseconds after the last key a list that is seen is made anew. */
const PAUSE = 400;

/** The instructions of a dump: their addresses, words and texts. */
function instructionsOf(lines) {
    return lines.map((line) => {
        const [, address, word, text] = /^(\w+) (\w+) (.*)$/.exec(line) ?? [];
        return { at: parseInt(address, 16), address, word, text };
    });
}

/** The functions of a map, each with the line at which it begins. */
function headed(source, { functions, statements }) {
    return functions.map((it) => {
        const first = [...statements].find(([at]) => it.first <= at && at <= it.last);
        return Object.assign(it, { head: headOf(source, it.name, first?.[1].line ?? Infinity) });
    });
}

export class Instructions {
    constructor(root, editor, program, options) {
        Object.assign(this, { root, editor, program, options, body: root.querySelector(".listing"), isFresh: false, timer: 0 });
        this.empty();
        const rowAt = (event) => this.rows.find((it) => it.it === event.target.closest("tr"));
        document.addEventListener("selectionchange", () => document.activeElement === editor.field && this.follow());
        // (a list that moves below the mouse isn't pointed at)
        this.body.addEventListener("mousemove", (event) => (event.movementX || event.movementY) && this.look(rowAt(event)));
        this.body.addEventListener("mouseleave", () => this.followed());
        this.body.addEventListener("click", (event) => this.isSelected() || this.go(rowAt(event)));
        this.body.addEventListener("keydown", (event) => this.key(event));
    }

    empty() {
        Object.assign(this, { rows: [], functions: [], stretches: [], lit: "" });
    }

    async show() {
        if (this.isFresh) {
            this.follow();
            return;
        }
        this.isFresh = true;
        const source = this.editor.text;
        if (!this.body.querySelector("table")) this.say("Compiling.", "quiet");
        this.busy(true);
        try {
            const { said, image, map } = await compiled(this.program, this.options);
            const dump = said ? "" : (await this.program.ask({ words: ["dump", "program.img"], files: { "program.img": image } })).out;
            if (source !== this.editor.text) return;
            if (said) this.say("The source is rejected, so there are no instructions.");
            else this.list(source, map, dump);
        } catch (error) {
            this.say(error.message);
        }
    }

    /** Tells whether the list isn't that of the source as it is. */
    busy(is) {
        this.body.setAttribute("aria-busy", String(is));
    }

    say(words, kind = "") {
        this.empty();
        this.busy(false);
        this.body.replaceChildren(made("p", { className: kind }, words));
    }

    /** Leaves the tab: no line of the source stays lit. */
    leave() {
        this.editor.light(new Map());
        this.lit = "";
    }

    /** The source was changed: a list that is seen is made anew. */
    stale() {
        this.isFresh = false;
        this.empty();
        this.busy(true);
        clearTimeout(this.timer);
        if (!this.root.hidden) this.timer = setTimeout(() => this.show(), PAUSE);
    }

    list(source, map, dump) {
        const [head, ...lines] = dump.trimEnd().split("\n");
        const texts = source.split("\n"), sections = [made("p", { className: "quiet" }, head)];
        this.empty();
        Object.assign(this, { functions: headed(source, map), stretches: stretchesOf(source) });
        let table = null, own, place;
        for (const it of instructionsOf(lines)) {
            const of = map.functions.find(({ first, last }) => first <= it.at && it.at <= last) ?? null;
            if (!table || of !== own) {
                [own, place, table] = [of, null, made("tbody", {})];
                sections.push(this.heading(own), made("table", { className: "code" }, table));
            }
            const next = map.statements.get(it.at);
            if (next) table.append(this.row({ place: next, own }, "place", this.placed(next, texts[next.line - 1])));
            place = next ?? place;
            table.append(this.row({ place, own, isCode: true }, "", ...this.cells(it, map.points.get(it.at))));
        }
        this.body.replaceChildren(...sections);
        this.busy(false);
        this.follow();
    }

    heading(own) {
        const frame = own ? made("span", { className: "quiet" }, `frame of ${own.frame} bytes`) : "";
        return made("h3", {}, own ? `${own.name}: ` : "the start and the ends", frame);
    }

    /** What stands before the instructions of a statement: its position, and the text of its line. */
    placed({ line, column }, text) {
        return made("td", { colSpan: 3 }, `${line}:${column} `, made("span", {}, text?.trim() ?? ""));
    }

    cells({ address, word, text }, point) {
        const what = point ? made("span", { className: "point" }, `${point.kind === "call" ? "call of " : ""}${point.name}`) : "";
        return [made("td", {}, address), made("td", { className: "word" }, word), made("td", {}, text, what)];
    }

    /** A row of the list, which is kept with what it is of. */
    row(of, kind, ...cells) {
        const it = made("tr", { className: kind, tabIndex: -1 }, ...cells);
        this.rows.push({ it, kind, ...of });
        return it;
    }

    /** Lights what an instruction is of. */
    look(row) {
        if (row) this.light(row.place?.line ?? 0, row.own);
    }

    /** Lights all instructions of what stands at a line of the source, and its lines; and marks the function. */
    light(line, own) {
        const [first, last] = this.stretches[line] ?? [0, -1], key = JSON.stringify([line, own?.first]);
        if (this.lit === key) return;
        this.lit = key;
        const isOf = (row) => row.place && first <= row.place.line && row.place.line <= last;
        const lines = new Map(own?.head ? [[own.head, "function"]] : []);
        const isLit = this.rows.some(isOf);
        for (let it = first; isLit && it <= last; it++) lines.set(it, it === own?.head ? "lit function" : "lit");
        for (const row of this.rows) row.it.className = `${row.kind} ${isOf(row) ? "lit" : own && row.own === own ? "function" : ""}`.trim();
        this.editor.light(lines);
    }

    /** Lights what belongs to the line of the cursor: the rows of it. */
    followed() {
        if (this.root.hidden || !this.rows.length) return [];
        const line = this.editor.line, [first, last] = this.stretches[line] ?? [line, line];
        const heads = this.functions.filter((it) => it.head && it.head <= line).sort((a, b) => b.head - a.head);
        const lit = this.rows.filter(({ place }) => place && first <= place.line && place.line <= last);
        this.light(line, lit[0]?.own ?? heads[0] ?? null);
        return lit;
    }

    /** The same, and its rows come into view: those that stand together, of which one is seen already, or else the first ones. */
    follow() {
        const lit = this.followed(), box = this.body.getBoundingClientRect();
        const edge = (row) => row.it.getBoundingClientRect(), isSeen = (row) => edge(row).bottom > box.top && edge(row).top < box.bottom;
        let from = this.rows.indexOf(lit.find(isSeen) ?? lit[0]), to = from;
        if (from < 0) return;
        while (lit.includes(this.rows[from - 1])) from--;
        while (lit.includes(this.rows[to + 1])) to++;
        const below = Math.max(edge(this.rows[to]).bottom - box.bottom, 0), above = edge(this.rows[from]).top - box.top;
        this.body.scrollTop += Math.min(below, above);
    }

    /** Whether instructions are selected, by a mouse that was dragged. */
    isSelected() {
        const selected = getSelection();
        return !selected.isCollapsed && this.body.contains(selected.anchorNode);
    }

    /** Goes to what an instruction is of, in the source. */
    go(row) {
        if (row?.place) this.editor.go(row.place.line, row.place.column);
        else if (row?.own?.head) this.editor.go(row.own.head, 1);
    }

    choose(row) {
        row.it.focus();
        this.look(row);
    }

    /** The arrow keys go from instruction to instruction, from the first one that is lit on; Enter goes to the source. */
    key(event) {
        if (event.ctrlKey || event.metaKey || event.altKey) return;
        const rows = this.rows.filter((it) => it.isCode), at = rows.findIndex(({ it }) => it === document.activeElement);
        const lit = rows.findIndex(({ it }) => it.classList.contains("lit"));
        const next = { ArrowDown: at < 0 ? Math.max(lit, 0) : at + 1, ArrowUp: at < 0 ? Math.max(lit, 0) : at - 1 }[event.key];
        if (event.key === "Enter") this.go(rows[at]);
        else if (rows[next]) this.choose(rows[next]);
        else return;
        event.preventDefault();
    }
}
