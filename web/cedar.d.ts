import type { CheckedData, Conditions, ConditionsCall, DataCall, Failure, Success, ValidationCall } from "../index.js";

/** The calls of a module of WebAssembly. Each blocks the thread that calls it. */
export class Cedar {
    constructor(module: WebAssembly.Module);
    /** Opens a module that is packed by gzip. */
    static open(url: string | URL): Promise<Cedar>;
    readonly abi: number;
    /** The answer to a call of this name, such as "cedar_validate", both texts of JSON in UTF-8. */
    answerText(name: string, call: Uint8Array): Uint8Array;
    validate(call: ValidationCall | string): Success | Failure;
    checkData(call: DataCall | string): CheckedData | Failure;
    typedConditions(call: ConditionsCall | string): Conditions | Failure;
}

/** Why the module does not answer; it may be called again. */
export class Refused extends Error {}
