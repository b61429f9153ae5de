// The tokens of a line, by the TextMate grammar of the editors' folder. Of TextMate it reads what that grammar uses: match, begin with end, patterns and
// include.

/** The grammar with its expressions made, each of which matches at one place only. */
export function grammarOf(json) {
    const made = new Map();
    const rule = (it) => {
        if (it.include) return { include: it.include.slice(1) };
        const name = it.name?.replace(/\.cycc$/, "");
        const patterns = it.patterns?.map(rule);
        const expression = (text) => text === undefined ? undefined : new RegExp(text, "y");
        return { name, patterns, match: expression(it.match), begin: expression(it.begin), end: expression(it.end) };
    };
    for (const [name, it] of Object.entries(json.repository)) made.set(name, rule(it));
    return { patterns: json.patterns.map(rule), named: made };
}

/** The rules of a list, with those that it includes in their place. */
function* flat(grammar, patterns) {
    for (const it of patterns ?? []) {
        const own = it.include ? grammar.named.get(it.include) : it;
        if (own.match || own.begin) yield own;
        else yield* flat(grammar, own.patterns);
    }
}

function matched(expression, line, at) {
    expression.lastIndex = at;
    return expression.exec(line)?.[0].length ?? -1;
}

/** The tokens of a line, `{ start, end, name }`, and the rule that goes on into the next line, if one does. */
export function tokensOf(grammar, line, open) {
    const found = [];
    let at = 0, start = 0, inside = open;
    while (at < line.length || inside) {
        if (inside) {
            const length = matched(inside.end, line, at);
            if (length < 0 && at < line.length) {
                at = behindInner(grammar, inside, line, at, found);
                continue;
            }
            const isOver = length > 0 || (length === 0 && inside.end.source.includes("$"));
            at += Math.max(length, 0);
            found.push({ start, end: at, name: inside.name });
            if (!isOver) return { tokens: found, open: inside };
            inside = null;
            continue;
        }
        const next = begun(grammar, line, at);
        if (next.begins) [inside, start] = [next.rule, at];
        else if (next.rule) found.push({ start: at, end: at + next.length, name: next.rule.name });
        at += next.length;
    }
    return { tokens: found.sort((a, b) => a.start - b.start), open: null };
}

/** The first rule that matches at a place, and how long that is; one character where none does. */
function begun(grammar, line, at) {
    for (const rule of flat(grammar, grammar.patterns)) {
        const length = matched(rule.match ?? rule.begin, line, at);
        if (length > 0) return { rule, length, begins: Boolean(rule.begin) };
    }
    return { rule: null, length: 1, begins: false };
}

/** Goes on inside of a rule that has a beginning and an end, past one of its own patterns or a character. */
function behindInner(grammar, inside, line, at, found) {
    for (const rule of flat(grammar, inside.patterns)) {
        const length = matched(rule.match, line, at);
        if (length > 0) {
            found.push({ start: at, end: at + length, name: rule.name, isInner: true });
            return at + length;
        }
    }
    return at + 1;
}
