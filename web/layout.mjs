// Lays a source that stands in one line out over several: a line for each statement. Only the gaps between tokens change.

const TOKEN = /"(?:\\.|[^"\\])*"|'(?:\\.|[^'\\])*'|\/\/.*|\/\*[\s\S]*?\*\/|`?[A-Za-z_]\w*|[^\s]/g;

/** Whether a brace that opens here is a block's, and no comprehension, pattern or empty block. */
function isBlock(source, at) {
    return !/^\{\s*(for\b|\.|<|\})/.test(source.slice(at));
}

/** The source with a line for each statement and each brace of a block. */
export function laidOut(source) {
    let out = "", depth = 0, inner = 0, last = 0, isFresh = true;
    const braces = [];
    const newLine = () => { out = `${out.trimEnd()}\n`; isFresh = true; };
    for (const it of source.matchAll(TOKEN)) {
        const token = it[0], gap = source.slice(last, it.index);
        last = it.index + token.length;
        const closes = token === "}" ? braces.pop() : null;
        if (closes === "block") {
            depth--;
            if (!isFresh) newLine();
        }
        out += (isFresh ? "    ".repeat(Math.max(depth, 0)) : gap) + token;
        isFresh = false;
        if (token === "(" || token === "[") inner++;
        if (token === ")" || token === "]") inner--;
        if (token === "{") {
            const isOne = inner === 0 && isBlock(source, it.index);
            braces.push(isOne ? "block" : "part");
            if (isOne) depth++;
            if (isOne) newLine();
        } else if (inner === 0 && braces.at(-1) !== "part" && (token === ";" || (closes === "block" && !/^\s*(;|else\b)/.test(source.slice(last))))) {
            newLine();
        }
    }
    return `${out.trimEnd()}\n`;
}
