// The calls of libcedar as WebAssembly. It needs 64-bit memories: Chromium and Chrome from 133, Firefox from 134, Node from 24.
const CALLS = { validate: "cedar_validate", checkData: "cedar_check_data", typedConditions: "cedar_typed_conditions" };
const WORD = 8;

/** The calls of a module. Each blocks the thread that calls it. */
export class Cedar {
    #module;
    #exports;

    constructor(module) {
        this.#module = module;
        this.#begin();
    }

    /** Opens a module that is packed by gzip. */
    static async open(url) {
        const response = await fetch(url);
        if (!response.ok) throw new Error(`${url}: ${response.status}`);
        const bytes = response.body.pipeThrough(new DecompressionStream("gzip"));
        return new Cedar(await WebAssembly.compile(await new Response(bytes).arrayBuffer()));
    }

    #begin() {
        this.#exports = new WebAssembly.Instance(this.#module, {}).exports;
    }

    get abi() {
        return this.#exports.cedar_abi();
    }

    /** The names of what the module exports. */
    get names() {
        return Object.keys(this.#exports);
    }

    /** The answer to a call of this name, such as "cedar_validate", both texts of JSON in UTF-8. */
    answerText(name, call) {
        try {
            return this.#answer(name, call);
        } catch (error) {
            // (a call that ended early, by the stack of the engine, leaves its memory behind)
            if (!(error instanceof Refused)) this.#begin();
            throw error;
        }
    }

    #answer(name, call) {
        const { cedar_room, cedar_give, memory } = this.#exports;
        const held = [];
        const room = (size) => {
            const at = cedar_room(BigInt(size));
            if (at === 0n) throw new Refused("memory was refused");
            held.push(at);
            return at;
        };
        try {
            const text = room(call.length + 1), needed = room(WORD);
            new Uint8Array(memory.buffer).set(call, Number(text));
            for (let size = 4 * call.length + 4096; ;) {
                const answer = room(size);
                const status = this.#exports[name](text, BigInt(call.length), answer, BigInt(size), needed);
                const count = Number(new DataView(memory.buffer).getBigUint64(Number(needed), true));
                if (status === 0) return new Uint8Array(memory.buffer).slice(Number(answer), Number(answer) + count);
                if (status !== 1) throw new Refused(status === 2 ? "memory was refused" : "the call is no text in UTF-8");
                size = count;
            }
        } finally {
            for (const at of held) cedar_give(at);
        }
    }

    #answered(name, call) {
        const text = new TextEncoder().encode(typeof call === "string" ? call : JSON.stringify(call));
        return JSON.parse(new TextDecoder().decode(this.answerText(CALLS[name], text)));
    }

    validate(call) {
        return this.#answered("validate", call);
    }

    checkData(call) {
        return this.#answered("checkData", call);
    }

    typedConditions(call) {
        return this.#answered("typedConditions", call);
    }
}

/** Why the module does not answer; it may be called again. */
export class Refused extends Error {}
