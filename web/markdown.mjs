// Shows the documents: as much of Markdown as they use. All text goes in as text, never as HTML.

/** A made element, with children that are elements or texts. */
export function made(name, properties, ...children) {
    const it = Object.assign(document.createElement(name), properties);
    it.append(...children);
    return it;
}

const INLINE = /(`+)(.+?)\1(?!`)|\*\*(.+?)\*\*|\[([^\]]+)\]\(([^)]+)\)|\bdocs\/([A-Z_]+\.md)|\b([A-Z_]{4,}\.md)\b/g;

/** The inline parts of a text. `open` is called with the name of a document that a reader chooses. */
export function inline(text, open) {
    const parts = [];
    let at = 0;
    for (const found of text.matchAll(INLINE)) {
        parts.push(text.slice(at, found.index));
        at = found.index + found[0].length;
        const [whole, , code, bold, words, url, inDocs, plain] = found;
        const document = inDocs ?? plain ?? (/^(?:docs\/)?([A-Z_]+\.md)/.exec(url ?? "") ?? [])[1];
        if (code !== undefined) parts.push(made("code", {}, code.trim()));
        else if (bold !== undefined) parts.push(made("strong", {}, ...inline(bold, open)));
        else if (document && open?.knows(document)) parts.push(link(words ?? whole, () => open.open(document)));
        else parts.push(words ?? whole);
    }
    parts.push(text.slice(at));
    return parts.filter((it) => it !== "");
}

function link(words, choose) {
    const it = made("button", { type: "button", className: "link" }, words);
    it.addEventListener("click", choose);
    return it;
}

/** The cells of a row of a table. A bar within code divides nothing. */
export function cells(line) {
    const found = [""];
    let fence = null;
    for (const part of line.trim().replace(/^\|/, "").replace(/\|$/, "").split(/(`+|\\\||\|)/)) {
        if (part === "|" && !fence) found.push("");
        else {
            if (/^`+$/.test(part)) fence = fence === part ? null : fence ?? part;
            found[found.length - 1] += part === "\\|" ? "|" : part;
        }
    }
    return found.map((it) => it.trim());
}

function table(lines, open) {
    const row = (line, kind) => made("tr", {}, ...cells(line).map((it) => made(kind, {}, ...inline(it, open))));
    const head = made("thead", {}, row(lines[0], "th"));
    const body = made("tbody", {}, ...lines.slice(2).map((it) => row(it, "td")));
    return made("div", { className: "wide", tabIndex: 0 }, made("table", {}, head, body));
}

function list(lines, open) {
    const it = made("ul", {});
    for (const line of lines) {
        const item = /^(\s*)- (.*)$/.exec(line);
        if (!item) it.lastChild?.append(" ", ...inline(line.trim(), open));
        else if (item[1].length >= 2 && it.lastChild) it.lastChild.append(made("ul", {}, made("li", {}, ...inline(item[2], open))));
        else it.append(made("li", {}, ...inline(item[2], open)));
    }
    return it;
}

function code(lines, isFenced) {
    const text = lines.map((it) => isFenced ? it : it.slice(4)).join("\n").replace(/\n+$/, "");
    return made("pre", { tabIndex: 0 }, made("code", {}, text));
}

/** The lines from one on that belong to one block, by a test of each. */
function run(lines, at, isIn) {
    let end = at;
    while (end < lines.length && isIn(lines[end], end)) end++;
    return end;
}

/** The block that begins at a line, and where it ends. */
function block(lines, at, open) {
    const line = lines[at];
    const heading = /^(#+) (.*)$/.exec(line);
    if (heading) return [made(`h${Math.min(heading[1].length + 1, 5)}`, {}, ...inline(heading[2], open)), at + 1];
    if (line.startsWith("```")) {
        const end = run(lines, at + 1, (it) => !it.startsWith("```"));
        return [code(lines.slice(at + 1, end), true), end + 1];
    }
    if (line.startsWith("    ")) {
        const end = run(lines, at, (it, where) => it.startsWith("    ") || (it === "" && lines[where + 1]?.startsWith("    ")));
        return [code(lines.slice(at, end), false), end];
    }
    if (line.startsWith("|")) {
        const end = run(lines, at, (it) => it.startsWith("|"));
        return [table(lines.slice(at, end), open), end];
    }
    if (line.startsWith("- ")) {
        const end = run(lines, at, (it) => it.startsWith("- ") || it.startsWith("  "));
        return [list(lines.slice(at, end), open), end];
    }
    const end = run(lines, at, (it) => it !== "" && !/^(#|```|\||- )/.test(it));
    return [made("p", {}, ...inline(lines.slice(at, Math.max(end, at + 1)).join(" "), open)), Math.max(end, at + 1)];
}

/** The elements of a text. */
export function shown(text, open) {
    const lines = text.split("\n"), parts = [];
    let at = 0;
    while (at < lines.length) {
        if (lines[at].trim() === "") {
            at++;
            continue;
        }
        const [it, end] = block(lines, at, open);
        parts.push(it);
        at = end;
    }
    return parts;
}
