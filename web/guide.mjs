// The side of the page that one reads: the ten steps of the tutorial, each with its program, refusals and cures, and the documents.
import { laidOut } from "./layout.mjs";
import { inline, made, shown } from "./markdown.mjs";

/** The first words, for who has just come: headings, paragraphs and the places of buttons. They follow the rejected source of the step on regions. */
const BEGIN = [
    ["h2", "Begin here"],
    ["p", "cycc compiles a safe C with regions to RISC-V, and runs it, all in this page: nothing you write leaves your browser."],
    ["p", "The source is checked as you type. A fault is underlined: its words stand in the list below, and in short beside the line, where there is room."],
    ["h3", "What is different from C"],
    ["p", "A **region** is memory that is freed all at once. ``region<`r> h;`` opens the region `` `r `` to the end of its block, `rnew(h) 3` makes a number "
        + "in it, and ``int *`r`` is the type of a pointer into it."],
    ["p", "No pointer leads into freed memory: where one could, the source is rejected."],
    ["rejected"],
    ["p", "1. **Why.** The type of `p`, `int *`, names no region. So `p` points into the heap, `` `H ``, which lasts for the whole run. The region `` `r `` "
        + "ends before that: after its block `*p` would read freed memory. A click on the fault's words goes to its place."],
    ["p", "2. **Mend it.** In line 2 write `int n = 0;` in place of `p`. In line 5 make a pointer into the region, ``int *`r p = rnew(h) 3;``, and behind it "
        + "take the number out while the region is there: `n = *p;`. At the end return `n`."],
    ["p", "3. **Run it**, by the button or Ctrl+Enter: `main` returns 3."],
    ["mended"],
    ["h3", "And then"],
    ["p", "An index out of bounds and a `NULL` that is followed stop a run, and nothing is read or written there. The tab **Memory** shows regions come "
        + "and go: run the example `requests.cyc`."],
    ["tutorial"],
    ["p", "Keys: Ctrl+Enter runs, F8 goes to the next fault, Tab goes on to the next part of the page."],
];

/** The name of a program that is loaded from a row of a table. */
function rowButton(words, choose) {
    const it = made("button", { type: "button" }, words);
    it.addEventListener("click", choose);
    return it;
}

export class Guide {
    constructor(root, content, load) {
        Object.assign(this, { root, content, load, choice: root.querySelector("select"), body: root.querySelector(".reading") });
        const steps = content.lessons.map((it, index) => made("option", { value: `lesson ${index}` }, it.title));
        const pages = Object.keys(content.documents).map((it) => made("option", { value: `document ${it}` }, it));
        const lessons = made("optgroup", { label: "Tutorial" }, ...steps), documents = made("optgroup", { label: "Documents" }, ...pages);
        this.choice.replaceChildren(made("option", { value: "start" }, "Begin here"), lessons, documents);
        this.choice.addEventListener("change", () => this.show(this.choice.value));
    }

    /** The documents that a text may lead to. */
    get links() {
        return { knows: (name) => name in this.content.documents, open: (name) => this.show(`document ${name}`) };
    }

    show(which) {
        this.choice.value = which;
        const [kind, name] = which.split(" ");
        if (kind === "lesson") this.body.replaceChildren(...this.lesson(Number(name)));
        else if (kind === "document") this.body.replaceChildren(...shown(this.content.documents[name], this.links));
        else this.body.replaceChildren(...this.start());
        this.root.scrollTop = this.body.scrollTop = 0;
    }

    /** The first words, for who has just come. */
    start() {
        const row = this.content.lessons.flatMap((it) => it.rows).find((it) => it.what.includes("Outlives"));
        const buttons = {
            rejected: ["Show a pointer that is rejected", ({ target }) => {
                this.try(row.refused, "a source that is rejected");
                this.body.scrollTop += target.getBoundingClientRect().top - this.body.getBoundingClientRect().top;
            }],
            mended: ["Show it mended", () => this.try(row.accepted, "the same, accepted")],
            tutorial: ["The first step of the tutorial", () => this.show("lesson 0")],
        };
        const shownAs = ([kind, words]) => kind in buttons ? made("p", {}, rowButton(...buttons[kind])) : made(kind, {}, ...inline(words, this.links));
        return BEGIN.map(shownAs);
    }

    /** Loads a short source of a table, which stands there in one line, and may leave an empty main out. */
    try(source, name) {
        const whole = /\bmain\s*\(/.test(source) ? source : `${source} int main() { }`;
        this.load({ source: laidOut(whole), name });
    }

    lesson(index) {
        const it = this.content.lessons[index], file = `${it.program}`;
        const example = this.content.examples[file];
        const begin = it.program ? [rowButton(`Load ${file}`, () => this.load({ ...example, input: it.input, pages: it.pages, name: file }))] : [];
        const told = it.expected ? [made("p", { className: "quiet" }, `Run writes: ${it.expected}`)] : [];
        const rows = it.rows.flatMap((row) => this.row(row));
        const next = index + 1 < this.content.lessons.length ? [rowButton("Next step", () => this.show(`lesson ${index + 1}`))] : [];
        const table = rows.length ? [made("h3", {}, "Rejected, and mended"), ...rows] : [];
        return [made("h2", {}, it.title), made("p", {}, ...begin), ...told, ...shown(it.text, this.links), ...table, made("p", {}, ...next)];
    }

    /** A refusal with its cure. */
    row(row) {
        const refused = rowButton("Load the rejected source", () => this.try(row.refused, "a source that is rejected"));
        const cured = rowButton("Load the accepted one", () => this.try(row.accepted, "the same, accepted"));
        return [made("p", {}, ...inline(row.what, this.links)), made("p", { className: "pair" }, refused, cured)];
    }
}
