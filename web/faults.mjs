// The faults of a source: they are found as one types, underlined, and listed below the editor.

/** The faults that check --all --why prints: each with its position, its name and the words behind. */
export function faultsOf(said) {
    const found = [];
    const lines = said.replace(/\n$/, "").split("\n");
    for (let at = 0; at < lines.length; at++) {
        const head = /^[^:]*:(\d+):(\d+): (\w+)$/.exec(lines[at]);
        if (head) {
            found.push({ line: Number(head[1]), column: Number(head[2]), name: head[3], words: [] });
            at += 2;
        } else {
            found.at(-1)?.words.push(lines[at]);
        }
    }
    return found;
}

const HEAP = "`H is the heap, which lasts for the whole run. Where a pointer's type names no region, it may be the heap's.";
const MARKS = "* is a pointer that may be NULL, @ one that never is, ? one that knows how many elements there are.";

/** What a newcomer may not know of the words of a fault: what `H is, and the marks of pointers. */
function notesOn(text) {
    const found = text.includes("`H") ? [HEAP] : [];
    return /^(Found|Wanted):.*[@?]/m.test(text) ? [...found, MARKS] : found;
}

/** What is said of two regions, in as few words as there is place for beside a line: without their positions, and with what `H is. */
function briefly(regions) {
    const bare = regions.replace(/^The region /, "").replace(/ \(\d+:\d+\)/g, "").replace("has to outlive", "must outlive");
    return bare.replace(/`H\.$/, "`H, the heap.").replace(/^`H /, "`H, the heap, ");
}

/** A fault in one line: which region has to outlive which, what was found and wanted, or else what the fault means. */
function inShort(fault) {
    const own = fault.words.slice(1).filter((it) => it), regions = own.find((it) => it.startsWith("The region "));
    return `${fault.name}: ${regions ? briefly(regions) : (own.join("; ").replace(/: +/g, ": ") || fault.words[0] || "")}`;
}

function note(text) {
    const made = document.createElement("p");
    Object.assign(made, { className: "quiet", textContent: text });
    return made;
}

export class Faults {
    constructor(root, editor, program) {
        Object.assign(this, { root, editor, program, list: root.querySelector("ol"), state: root.querySelector(".state") });
        Object.assign(this, { found: [], timer: 0, isChecking: false, isStale: false, told: () => {} });
    }

    /** Checks the text, `delay` milliseconds after the last call. One check runs at a time. */
    soon(delay = 200) {
        this.say("", "Checking");
        clearTimeout(this.timer);
        this.timer = setTimeout(() => this.check(), delay);
    }

    async check() {
        if (this.isChecking) {
            this.isStale = true;
            return;
        }
        this.isChecking = true;
        const text = this.editor.text;
        const files = { "program.cyc": new TextEncoder().encode(text) };
        try {
            const done = await this.program.ask({ words: ["check", "program.cyc", "--all", "--why"], files });
            if (text === this.editor.text) this.show(done);
        } catch (error) {
            this.say("failed", error.message);
        }
        this.isChecking = false;
        if (this.isStale || text !== this.editor.text) {
            this.isStale = false;
            this.check();
        }
    }

    say(kind, words) {
        this.state.className = `state ${kind}`;
        this.state.textContent = words;
    }

    show({ status, err }) {
        this.found = status === 8 ? faultsOf(err) : [];
        const count = this.found.length;
        if (status === 0) this.say("good", "Accepted");
        else if (count) this.say("bad", count === 1 ? "1 fault" : `${count} faults`);
        else this.say("bad", err.trim());
        this.editor.setMarks(this.found.map((it) => ({ ...it, kind: "fault", words: inShort(it) })));
        this.list.replaceChildren(...this.found.map((it) => this.row(it)));
        this.told(this.found);
    }

    row(fault) {
        const made = document.createElement("li");
        const button = document.createElement("button");
        button.type = "button";
        button.innerHTML = "<b></b> <span></span>";
        button.firstChild.textContent = fault.name;
        button.lastChild.textContent = `line ${fault.line}, column ${fault.column}`;
        button.addEventListener("click", () => this.editor.go(fault.line, fault.column));
        const text = fault.words.filter((it) => it).join("\n");
        made.append(button, this.words(text));
        made.append(...notesOn(text).map(note));
        return made;
    }

    /** The words of a fault. A position in them leads there. */
    words(text) {
        const made = document.createElement("p");
        for (const part of text.split(/((?<=\(|\bat )\d+:\d+\b)/)) {
            const [line, column] = part.split(":").map(Number), is = /^\d+:\d+$/.test(part);
            made.append(is ? this.link(`line ${line}, column ${column}`, line, column) : part);
        }
        return made;
    }

    link(words, line, column) {
        const made = document.createElement("button");
        Object.assign(made, { type: "button", className: "link", textContent: words });
        made.addEventListener("click", () => this.editor.go(line, column));
        return made;
    }

    /** Goes to the next fault behind the cursor, or to the first one. */
    next() {
        const sorted = [...this.found].sort((a, b) => a.line - b.line || a.column - b.column);
        const fault = sorted.find((it) => it.line > this.editor.line) ?? sorted[0];
        if (fault) this.editor.go(fault.line, fault.column);
    }
}
