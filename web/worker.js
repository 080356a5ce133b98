// Makes the calls that the page asks for, one after the other, so that typing never waits.
import { Cedar } from "./cedar.js";

const opened = Cedar.open("cedar.wasm.gz");

onmessage = async ({ data: { number, name, given } }) => {
    try {
        postMessage({ number, answer: (await opened)[name](...given) });
    } catch (error) {
        postMessage({ number, error: error.message });
    }
};
