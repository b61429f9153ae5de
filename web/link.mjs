// A link that holds a source: behind the # of the page's address, compressed. The part behind the # is never sent to a server.

async function through(stream, bytes) {
    return new Uint8Array(await new Response(new Blob([bytes]).stream().pipeThrough(stream)).arrayBuffer());
}

function base64url(bytes) {
    let text = "";
    for (const byte of bytes) text += String.fromCharCode(byte);
    return btoa(text).replaceAll("+", "-").replaceAll("/", "_").replace(/=+$/, "");
}

function bytesOf(text) {
    return Uint8Array.from(atob(text.replaceAll("-", "+").replaceAll("_", "/")), (it) => it.charCodeAt(0));
}

/** What stands behind the # for a program: its source, input and options. */
export async function packed(program) {
    const bytes = new TextEncoder().encode(JSON.stringify(program));
    return `program=${base64url(await through(new CompressionStream("deflate-raw"), bytes))}`;
}

/** The program that stands behind the #, or nothing. */
export async function unpacked(hash) {
    const found = /^#program=([\w-]+)$/.exec(hash);
    if (!found) return null;
    try {
        const bytes = await through(new DecompressionStream("deflate-raw"), bytesOf(found[1]));
        const program = JSON.parse(new TextDecoder().decode(bytes));
        return typeof program?.source === "string" ? program : null;
    } catch {
        return null;
    }
}
