// The calls from Node: answers, odd texts, schemas that are read once, promises, memory, and four workers.
const assert = require("assert"), { Worker, isMainThread } = require("worker_threads");
const cedar = require("./index.js");

const schema = "entity U{a?:Long};action v appliesTo{principal:U,resource:U};", scope = "permit(principal,action,resource)";
const call = { schema, policies: { staticPolicies: { x: `${scope} when {principal.a == 1};` } } };
const wanted = JSON.stringify(cedar.validate(call)), CALLS = 10000;
const run = (count) => { for (let i = 0; i < count; i++) assert.strictEqual(JSON.stringify(cedar.validate(call)), wanted); };

function answers() {
    const [error] = cedar.validate(call).validationErrors;
    assert.deepStrictEqual([error.policyId, error.error.code], ["x", "unguarded-attribute"]);
    const entities = [{ uid: { type: "U", id: "x" }, attrs: {}, parents: [] }];
    assert.strictEqual(cedar.checkData({ schema, entities }).entities.conforms, true);
    const [only] = cedar.typedConditions({ schema, policy: `${scope} when {principal == resource};` }).conditions;
    const same = { "==": { left: { Var: "principal" }, right: { Var: "resource" } } };
    assert(JSON.stringify(only.condition).includes(JSON.stringify(same)));
}

function oddTexts() {
    for (const text of ["", "\0", "[".repeat((1 << 26) + 1)]) assert.strictEqual(cedar.validate(text).type, "failure");
    assert.throws(() => cedar.native.validate(Buffer.from([0xff])), /UTF-8/);
    assert.throws(() => cedar.native.validate("x"), /Buffer/);
}

function schemas() {
    const opened = new cedar.Schema(schema), { schema: named, ...by } = call;
    for (let i = 0; i < 3; i++) assert.deepStrictEqual(opened.validate(by), cedar.validate(call));
    assert.strictEqual(opened.validate(call).type, "failure");
    assert.deepStrictEqual(opened.checkData({ entities: [] }), cedar.checkData({ schema, entities: [] }));
    const policy = `${scope} when {principal == resource};`, policies = `${scope} when {principal.a == 1};`.repeat(300);
    assert.deepStrictEqual(opened.typedConditions({ policy }), cedar.typedConditions({ schema, policy }));
    assert.deepStrictEqual(opened.validate({ policies }), cedar.validate({ schema, policies }));
    assert.throws(() => cedar.native.validateBy({}, Buffer.from("")), /schema is wanted/);
    opened.close();
    opened.close();
    assert.throws(() => opened.validate(by), /closed/);
    for (const wrong of ["entity", { "": 1 }, 1]) assert.throws(() => new cedar.Schema(wrong), (error) => error.failure.type === "failure");
    assert.throws(() => cedar.native.open(Buffer.from([0xff])), /UTF-8/);
}

async function promises() {
    let turns = 0;
    const ticks = setInterval(() => turns++, 0), calls = Array.from({ length: 200 }, () => cedar.promises.validate(call));
    for (const answer of await Promise.all(calls)) assert.strictEqual(JSON.stringify(answer), wanted);
    clearInterval(ticks);
    assert(turns > 0);
    await assert.rejects(cedar.native.validateLater(Buffer.from([0xff])), /UTF-8/);
    assert.throws(() => cedar.native.validateLater("x"), /Buffer/);
    assert.strictEqual((await cedar.promises.checkData("")).type, "failure");
    const { conditions } = await cedar.promises.typedConditions({ schema, policy: `${scope};` });
    assert.strictEqual(conditions.length, 1);
}

function memory() {
    run(CALLS / 2);
    gc();
    const before = process.memoryUsage().rss;
    run(CALLS);
    for (let i = 0; i < CALLS / 10; i++) new cedar.Schema(schema);
    gc();
    assert(process.memoryUsage().rss - before < 1 << 26);
}

if (isMainThread) {
    memory();
    answers();
    oddTexts();
    schemas();
    promises().then(() => 0, (error) => { throw error; });
    for (let i = 0; i < 4; i++) new Worker(__filename).on("exit", (code) => assert.strictEqual(code, 0));
} else {
    run(CALLS / 4);
    schemas();
}
