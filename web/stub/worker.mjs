// Stands in place of worker.mjs in a test of the page alone: it answers with the words of CANNED, which web/stub.py puts in front, and compiles nothing.

const bare = (text) => text.replace(/\s/g, "");

/** The line and the column of a source at which so many characters, not counting gaps, lie before. */
function positionOf(text, before) {
    let line = 1, column = 1;
    for (const it of text) {
        if (/\S/.test(it) && before-- === 0) break;
        if (it === "\n") [line, column] = [line + 1, 1];
        else column++;
    }
    return { line, column };
}

/** The fault that a source has by the canned words: one of a source that is known whole, or a name that is known to be unknown. */
function faultOf(text) {
    const known = CANNED.rejected[bare(text)];
    if (known) return { name: known.name, ...positionOf(text, known.before) };
    const found = new RegExp(`\\breturn (${CANNED.unknown.join("|")});`).exec(text);
    return found ? { name: "Name", ...positionOf(text, bare(text.slice(0, found.index + 7)).length) } : null;
}

function checked(text) {
    const fault = faultOf(text);
    if (!fault) return { status: 0, err: "" };
    const { name, line, column } = fault;
    return { status: 8, err: `program.cyc:${line}:${column}: ${name}\n${text.split("\n")[line - 1]}\n${" ".repeat(column - 1)}^\nThe words of the stub.\n` };
}

function ran(text, id) {
    if (faultOf(text)) return checked(text);
    while (bare(text) === bare(CANNED.endless));
    const known = CANNED.runs[bare(text)] ?? { out: "", err: "ended 0\n", status: 0 };
    postMessage({ id, output: new TextEncoder().encode(known.out) });
    return known;
}

/** The image and the map of the source whose instructions are known. The image is its dump. */
function compiled(text) {
    if (bare(text) !== CANNED.listed.source) return { status: 8, err: "The stub doesn't.\n" };
    const bytes = (it) => new TextEncoder().encode(it);
    return { status: 0, err: "", files: { "program.img": bytes(CANNED.listed.dump), "program.map": bytes(CANNED.listed.map) } };
}

/** What is answered to each command. */
const ANSWERS = { check: checked, run: ran, compile: compiled, dump: (text) => ({ status: 0, err: "", out: text }) };

onmessage = ({ data }) => {
    if (data.module) return;
    const text = new TextDecoder().decode(Object.values(data.files ?? {})[0]);
    const answered = ANSWERS[data.words[0]]?.(text, data.id) ?? { status: 8, err: "The stub doesn't.\n" };
    postMessage({ id: data.id, done: { out: "", left: 0, seconds: 0.01, arena: null, files: {}, ...answered } });
};
