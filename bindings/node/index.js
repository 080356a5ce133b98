// The validator of Cedar policies, by the C library libcedar. Each function takes a call, an object or a text of JSON, and answers
// an object; those of `promises` answer a promise of one, and other code runs meanwhile. The addon is the file that CEDAR_ADDON
// names, or cedar.node beside this one.
const native = require(process.env.CEDAR_ADDON || "./cedar.node");

const given = (call) => Buffer.from(typeof call === "string" ? call : JSON.stringify(call));
const answered = (name) => (call) => JSON.parse(native[name](given(call)));
const later = (name) => async (call) => JSON.parse(await native[`${name}Later`](given(call)));
const each = (kind) => ({ validate: kind("validate"), checkData: kind("checkData"), typedConditions: kind("typedConditions") });

/** An error that says why a schema cannot be read; `failure` is the answer. */
class SchemaError extends Error {
    constructor(failure) {
        super(failure.errors.map((it) => it.message).join("; "));
        this.name = "SchemaError";
        this.failure = failure;
    }
}

/** A schema that is read once. Its calls name no schema. It stays in its thread. */
class Schema {
    #handle;

    constructor(schema) {
        const opened = native.open(given({ schema }));
        if (Buffer.isBuffer(opened)) throw new SchemaError(JSON.parse(opened));
        this.#handle = opened;
    }

    validate(call) { return JSON.parse(native.validateBy(this.#handle, given(call))); }
    checkData(call) { return JSON.parse(native.checkDataBy(this.#handle, given(call))); }
    typedConditions(call) { return JSON.parse(native.typedConditionsBy(this.#handle, given(call))); }
    close() { native.close(this.#handle); }
}
if (Symbol.dispose) Schema.prototype[Symbol.dispose] = Schema.prototype.close;

module.exports = { ...each(answered), promises: each(later), Schema, SchemaError, native };
