// Places in texts, policies in a text, and a link that holds texts.

/** What turns a place in bytes of UTF-8 into one in a text of JavaScript. */
export function places(text) {
    const bytes = new TextEncoder().encode(text);
    if (bytes.length === text.length) return (place) => place;
    const found = new Uint32Array(bytes.length + 1);
    let at = 0, byte = 0;
    for (const letter of text) {
        const code = letter.codePointAt(0), size = code < 0x80 ? 1 : code < 0x800 ? 2 : code < 0x10000 ? 3 : 4;
        found.fill(at, byte, byte + size);
        byte += size;
        at += letter.length;
    }
    found[byte] = at;
    return (place) => found[Math.min(place, byte)];
}

/** What turns a place into its line and its column, from 1. */
export function lines(text) {
    const starts = [0];
    for (let at = text.indexOf("\n"); at >= 0; at = text.indexOf("\n", at + 1)) starts.push(at + 1);
    return (place) => {
        let low = 0, high = starts.length;
        while (high - low > 1) {
            const middle = (low + high) >> 1;
            if (starts[middle] <= place) low = middle;
            else high = middle;
        }
        return [low + 1, [...text.slice(starts[low], place)].length + 1];
    };
}

const TOKEN = /\/\/[^\n]*|"(?:[^"\\]|\\.)*"?|\?(?:principal|resource)\b|;|\s+|[^\s;"\/?]+|./gs;

/** The policies of a text: where each begins and ends, its name, its id in a call, and whether it has a slot. */
export function policiesOf(text) {
    const found = [], counts = { policy: 0, template: 0 };
    let begin = null, end = 0, hasSlot = false;
    const close = () => {
        const own = text.slice(begin, end), name = /^(?:@\w+(?:\("[^"]*"\))?\s*)*?@id\("([^"]+)"\)/.exec(own);
        const kind = hasSlot ? "template" : "policy", id = `${kind}${counts[kind]++}`;
        found.push({ begin, end, hasSlot, id, text: own, name: name ? name[1] : id });
        begin = null;
        hasSlot = false;
    };
    for (const { 0: token, index } of text.matchAll(TOKEN)) {
        if (/^(?:\s|\/\/)/.test(token)) continue;
        begin ??= index;
        end = index + token.length;
        hasSlot ||= token.startsWith("?p") || token.startsWith("?r");
        if (token === ";") close();
    }
    if (begin !== null) close();
    return found;
}

/** The policies of a text as a set of Cedar's FFI. Templates are blank in the text of the others, so that places stay. */
export function policySet(text, policies) {
    const templates = {};
    let fixed = text;
    // (from the last to the first, because a blank may be longer than what it replaces)
    for (const it of policies.filter((one) => one.hasSlot).reverse()) {
        templates[it.id] = it.text;
        fixed = fixed.slice(0, it.begin) + " ".repeat(new TextEncoder().encode(it.text).length) + fixed.slice(it.end);
    }
    return { staticPolicies: fixed, templates };
}

async function through(bytes, stream) {
    return new Uint8Array(await new Response(new Blob([bytes]).stream().pipeThrough(stream)).arrayBuffer());
}

/** What stands behind `#` in a link that holds these values. */
export async function packed(values) {
    const bytes = await through(new TextEncoder().encode(JSON.stringify(values)), new CompressionStream("deflate-raw"));
    const letters = Array.from(bytes, (byte) => String.fromCharCode(byte)).join("");
    return btoa(letters).replaceAll("+", "-").replaceAll("/", "_").replaceAll("=", "");
}

/** The values that a link holds, or null where it holds none. */
export async function unpacked(text) {
    try {
        const bytes = Uint8Array.from(atob(text.replaceAll("-", "+").replaceAll("_", "/")), (letter) => letter.charCodeAt(0));
        return JSON.parse(new TextDecoder().decode(await through(bytes, new DecompressionStream("deflate-raw"))));
    } catch {
        return null;
    }
}
