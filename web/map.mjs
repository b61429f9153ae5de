// The map that compile writes beside an image: its functions, and what of the source each of its instructions is of.

/** The lines of a map: the functions, and by their addresses where statements begin, and which checks and calls there are. */
export function mapOf(text) {
    const functions = [], statements = new Map(), points = new Map();
    for (const row of text.split("\n")) {
        const [kind, first, second, ...rest] = row.split(" "), at = parseInt(first, 16);
        if (kind === "function") functions.push({ first: at, last: parseInt(second, 16), frame: Number(rest[1]), name: rest[2] });
        if (!["line", "raise", "call"].includes(kind)) continue;
        const [line, column] = second.split(":").map(Number);
        if (kind === "line") statements.set(at, { line, column });
        else points.set(at, { kind, line, column, name: rest[0] });
    }
    return { functions, statements, points };
}

/** Compiles the source: the image's bytes and its map, or what is said against it. */
export async function compiled(program, options) {
    const { files, limits } = options();
    const done = await program.ask({ words: ["compile", "program.cyc", "program.img", "--map", "program.map", ...limits], files });
    if (done.status !== 0) return { said: done.err };
    return { image: done.files["program.img"], map: mapOf(new TextDecoder().decode(done.files["program.map"])) };
}

/** The line at which a function begins: of those that declare it, from their first column on, the last one before its first statement. */
export function headOf(source, name, first) {
    const head = new RegExp(`^(?:[A-Za-z_@].*)?\\b${name}\\s*\\(`);
    const found = source.split("\n").flatMap((it, index) => head.test(it) ? [index + 1] : []);
    return found.findLast((it) => it <= first) ?? found[0] ?? 0;
}

/** For each line of a source, counted from 1, the first and the last line of what it belongs to: a statement can go on over several lines. */
export function stretchesOf(source) {
    const token = /\/\/.*|\/\*[^]*?\*\/|"(?:\\.|[^"\\\n])*"|'(?:\\.|[^'\\\n])*'|\n|\S/g;
    const found = [null, [1, 1]];
    let depth = 0, last = ";";
    for (const [it] of source.matchAll(token)) {
        const isGap = it === "\n" || it.startsWith("//") || it.startsWith("/*");
        for (const _ of it.matchAll(/\n/g)) {
            const line = found.length, goesOn = depth > 0 || !";{}):".includes(last);
            if (goesOn) found.at(-1)[1] = line;
            found.push(goesOn ? found.at(-1) : [line, line]);
        }
        if (!isGap) last = it;
        if (it === "(") depth++;
        if (it === ")" && depth > 0) depth--;
    }
    return found;
}
