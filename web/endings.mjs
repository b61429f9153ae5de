// What cycc prints of a run on standard error, taken apart, and said in words.

const COUNTS = {
    instructions: "instructions executed",
    calls: "calls of functions",
    stack: "bytes of the stack at its deepest",
    stack_need: "bytes of the stack that the calls need",
    pages: "pages of the arena taken at once, at most",
    putchar: "bytes written",
    getchar: "bytes read, or ends of the input",
    region_new: "regions made",
    region_alloc: "blocks made in regions and the heap",
    region_free: "regions freed",
    unique_alloc: "unique blocks made",
    unique_free: "unique blocks freed",
    key_new: "dynamic regions made",
    key_open: "times a key was opened",
    key_close: "times a key was closed",
    key_free: "dynamic regions freed",
    raise: "checks that failed",
    exit: "ends",
};

const RAISED = { "raised Array_bounds": "an index is outside of its array", "raised Null_Exception": "NULL was followed" };

/** What a count of --stats means. */
export function meaningOf(name) {
    return COUNTS[name] ?? name;
}

/** The lines of a run with --ending, --where and --stats: the ending, the positions and how many lie between them, the counts, and what else there is. */
export function partsOf(said) {
    const found = { ending: "", places: [], between: null, counts: new Map(), lacking: "", notes: [] };
    for (const line of said.split("\n").filter((it) => it)) {
        const place = /^[^ :]+:(\d+):(\d+): (.*)$/.exec(line), count = /^([a-z_]+) (\d+|none)$/.exec(line), more = /^\.\. (\d+) calls$/.exec(line);
        if (place) found.places.push({ line: Number(place[1]), column: Number(place[2]), words: place[3] });
        else if (more) found.between = { at: found.places.length, count: Number(more[1]) };
        else if (!found.ending) found.ending = line;
        else if (count && count[1] in COUNTS) found.counts.set(count[1], count[2] === "none" ? null : Number(count[2]));
        else if (/^(arena|stack): /.test(line)) found.lacking = line;
        else found.notes.push(line);
    }
    return found;
}

/** What had no space, in a sentence, and what may help. */
function lackInWords(lacking) {
    const frame = /^stack: frame of (\d+) bytes in ([^ ;]+)(?:; (\d+) bytes are left)?$/.exec(lacking);
    if (frame) {
        const left = frame[3] ? `; ${frame[3]} are left` : "";
        return `Stopped: the stack has no space for a frame of ${frame[1]} bytes, which a call of ${frame[2]} needs${left}. More stack pages may help.`;
    }
    const request = /^arena: (\S+)( of \d+ bytes)? in ([^ ,;]+)(, which takes [^;]+)?(; .*)?$/.exec(lacking);
    if (request) {
        const [, call, bytes = "", by, takes = "", left = ""] = request;
        return `Stopped: the arena has no space for what ${by} asked for, by ${call}${bytes}${takes}${left}.${takes ? " More pages may help." : ""}`;
    }
    return "Stopped: the memory is used up. More pages or stack pages may help.";
}

/** The kind of an ending and what it means, in a sentence. */
export function inWords({ ending, lacking }) {
    const ended = /^ended (-?\d+)$/.exec(ending);
    if (ended?.[1] === "0") return { kind: "good", words: "The program ended by itself. main returned 0." };
    if (ended) return { kind: "plain", words: `The program ended by itself. main returned ${ended[1]}, so the exit status is 1.` };
    if (ending in RAISED) return { kind: "bad", words: `Stopped by a check: ${RAISED[ending]}. Nothing was read or written there.` };
    if (ending === "exhausted") return { kind: "warn", words: lackInWords(lacking) };
    if (/^step limit/.test(ending)) return { kind: "warn", words: "Stopped: the steps are used up. It may run for ever, or need more steps." };
    if (ending === "stuck" || ending.startsWith("fault")) return { kind: "bad", words: "The machine stopped at a fault." };
    return { kind: "bad", words: ending || "The program said nothing of its end." };
}
