// The editor: a plain text field over a layer that has the colours, the marks and the words beside a line. The field does all of the editing.
import { tokensOf } from "./tokens.mjs";

/** A text longer than this is shown without colours. */
const LONGEST_COLOURED = 200000;
const INDENT = "    ";

/** The character of a line at which a column stands, which counts bytes from 1. */
export function characterAt(line, column) {
    let bytes = 1, at = 0;
    for (const it of line) {
        if (bytes >= column) break;
        const code = it.codePointAt(0);
        bytes += code < 0x80 ? 1 : code < 0x800 ? 2 : code < 0x10000 ? 3 : 4;
        at += it.length;
    }
    return at;
}

/** Where the token that begins at a character ends. */
function endOfToken(line, at) {
    const token = /[A-Za-z_`][A-Za-z0-9_]*|[0-9]\w*|:=:|->|<<|>>|<=|>=|==|!=|&&|\|\||\S/y;
    token.lastIndex = at;
    return at + (token.exec(line)?.[0].length ?? 1);
}

function span(text, kind) {
    const made = document.createElement("span");
    if (kind) made.className = kind;
    made.textContent = text;
    return made;
}

/** The classes that hold at each boundary of a line: its tokens', and those of marks in it. */
function* pieces(length, tokens, marks) {
    const ends = new Set([0, length]);
    for (const { start, end } of [...tokens, ...marks]) ends.add(start).add(Math.min(end, length));
    const sorted = [...ends].filter((it) => it <= length).sort((a, b) => a - b);
    for (let which = 0; which + 1 < sorted.length; which++) {
        const start = sorted[which], end = sorted[which + 1];
        const over = (it) => it.start <= start && it.end >= end;
        const token = tokens.findLast(over), mark = marks.find(over);
        yield { start, end, kind: [token?.name?.replaceAll(".", "-"), mark?.kind].filter(Boolean).join(" ") };
    }
}

export class Editor {
    constructor(root, grammar) {
        const part = (name) => root.querySelector(name);
        Object.assign(this, { root, grammar, field: part("textarea"), layer: part(".colours"), numbers: part(".numbers") });
        Object.assign(this, { shown: [], marks: [], lines: new Map(), lit: new Map(), changed: () => {} });
        this.field.addEventListener("input", () => this.edited());
        this.field.addEventListener("scroll", () => this.scrolled());
        this.field.addEventListener("keydown", (event) => this.key(event));
        this.field.addEventListener("click", (event) => this.clicked(event.clientX, event.clientY));
    }

    get text() {
        return this.field.value;
    }

    set text(text) {
        this.field.value = text;
        this.field.setSelectionRange(0, 0);
        this.field.scrollTop = this.field.scrollLeft = 0;
        this.edited();
    }

    /** What was said of the text as it was goes. */
    edited() {
        this.marks = [];
        this.lines = new Map();
        this.lit = new Map();
        this.draw();
        this.changed();
    }

    scrolled() {
        this.layer.style.transform = `translate(${-this.field.scrollLeft}px, ${-this.field.scrollTop}px)`;
        this.numbers.style.transform = `translateY(${-this.field.scrollTop}px)`;
    }

    /** Enter keeps the indentation, and makes it deeper behind a brace. Tab is left to the browser, which goes on to the next part of the page. */
    key(event) {
        if (event.key !== "Enter" || event.ctrlKey || event.metaKey || event.shiftKey || event.altKey || event.isComposing) return;
        const before = this.text.slice(0, this.field.selectionStart);
        const line = before.slice(before.lastIndexOf("\n") + 1);
        const indent = /^[ \t]*/.exec(line)[0] + (/\{\s*$/.test(line) ? INDENT : "");
        if (!indent) return;
        event.preventDefault();
        document.execCommand("insertText", false, `\n${indent}`);
    }

    /** A click on the words beside a line goes to what they are about. The field lies above them, so it gets the click. */
    clicked(x, y) {
        const isOver = ({ left, right, top, bottom }) => left <= x && x < right && top <= y && y < bottom;
        const words = [...this.layer.querySelectorAll(".beside")].find((it) => isOver(it.getBoundingClientRect()));
        if (words) this.go(Number(words.dataset.line), Number(words.dataset.column));
    }

    /** Sets the marks, `{ line, column, kind, words }`, all of one group in place of the earlier ones. */
    setMarks(marks) {
        this.marks = marks;
        this.draw();
    }

    /** Sets the lines at which a run stopped or was, a class for each. */
    setLines(lines) {
        this.lines = lines;
        this.draw();
    }

    /** Sets the lines that are lit beside the instructions, a class for each. */
    light(lines) {
        this.lit = lines;
        this.draw();
    }

    marksOf(number, text) {
        return this.marks.filter((it) => it.line === number).map((it) => {
            const start = Math.min(characterAt(text, it.column), Math.max(text.length - 1, 0));
            return { ...it, start, end: endOfToken(text, start) };
        });
    }

    draw() {
        const lines = this.text.split("\n");
        const isColoured = this.text.length <= LONGEST_COLOURED;
        let open = null;
        lines.forEach((text, index) => {
            const found = isColoured ? tokensOf(this.grammar, text, open) : { tokens: [], open: null };
            const marks = this.marksOf(index + 1, text);
            const kind = [this.lines, this.lit].map((it) => it.get(index + 1)).filter(Boolean).join(" ");
            const key = JSON.stringify([text, open !== null, marks, kind]);
            if (this.shown[index] !== key) this.drawLine(index, text, found.tokens, marks, kind);
            this.shown[index] = key;
            open = found.open;
        });
        while (this.layer.childElementCount > lines.length) this.layer.lastElementChild.remove();
        this.shown.length = lines.length;
        this.drawNumbers(lines.length);
    }

    drawLine(index, text, tokens, marks, kind) {
        const made = document.createElement("div");
        const words = marks.find((it) => it.words), code = words ? span("", "code") : made;
        made.className = `line ${kind}`;
        for (const it of pieces(text.length, tokens, marks)) code.append(span(text.slice(it.start, it.end), it.kind));
        if (!text) code.append(span("\u200b", marks[0]?.kind));
        if (words) {
            const beside = span(words.words, `beside ${words.kind}`);
            Object.assign(beside.dataset, { line: words.line, column: words.column });
            made.classList.add("told");
            made.append(code, beside);
        }
        const old = this.layer.children[index];
        if (old) old.replaceWith(made);
        else this.layer.append(made);
    }

    drawNumbers(count) {
        const kinds = new Map(this.lines);
        for (const it of this.marks) kinds.set(it.line, it.kind);
        const key = JSON.stringify([count, [...kinds]]);
        if (this.numbered === key) return;
        this.numbered = key;
        this.numbers.replaceChildren(...Array.from({ length: count }, (_, index) => {
            const made = document.createElement("div");
            made.className = kinds.get(index + 1) ?? "";
            made.textContent = index + 1;
            return made;
        }));
    }

    /** Puts the cursor at a position, and shows it. */
    go(line, column) {
        const lines = this.text.split("\n"), number = Math.min(line, lines.length);
        const text = lines[number - 1];
        const start = lines.slice(0, number - 1).reduce((sum, it) => sum + it.length + 1, 0) + characterAt(text, column);
        this.field.focus();
        this.field.setSelectionRange(start, start + (text ? endOfToken(text, characterAt(text, column)) - characterAt(text, column) : 0));
        const height = this.field.scrollHeight / Math.max(lines.length, 1);
        const top = (number - 1) * height;
        if (top < this.field.scrollTop || top > this.field.scrollTop + this.field.clientHeight - 3 * height) {
            this.field.scrollTop = Math.max(top - this.field.clientHeight / 3, 0);
        }
        this.scrolled();
    }

    /** The line at which the cursor stands. */
    get line() {
        return this.text.slice(0, this.field.selectionStart).split("\n").length;
    }
}
