// The page: it asks the worker for verdicts while one types, and shows them at their places.
import { lines, packed, places, policiesOf, policySet, unpacked } from "./texts.js";

const at = (id) => document.getElementById(id);
const AREAS = { schema: at("schema"), policies: at("policies") };
// A text is checked once nobody has typed for so many milliseconds.
const QUIET = 120;
// So many lines stand above a place that is shown.
const ABOVE = 3;

/** An element with these attributes and children; a child is an element or a text. */
function made(tag, attributes, ...children) {
    const it = document.createElement(tag);
    Object.assign(it, attributes);
    it.append(...children.filter((child) => child !== null));
    return it;
}

// Calls, which the worker makes in their order.
const worker = new Worker("worker.js", { type: "module" });
const waiting = new Map();
let count = 0;

worker.onmessage = ({ data: { number, answer, error } }) => {
    const { resolve, reject } = waiting.get(number);
    waiting.delete(number);
    error === undefined ? resolve(answer) : reject(new Error(error));
};

function ask(name, ...given) {
    return new Promise((resolve, reject) => {
        waiting.set(++count, { resolve, reject });
        worker.postMessage({ number: count, name, given });
    });
}

/** Where the fault stands for which a call has failed, with the texts that it names. */
async function faultsOf(state, policies, answer) {
    const alone = await ask("validate", { schema: state.schema, policies: "" });
    if (alone.type === "failure") return { area: "schema", begin: 0, errors: alone.errors };
    for (const it of policies.filter((one) => one.hasSlot)) {
        const own = await ask("validate", { schema: state.schema, policies: { templates: { [it.id]: it.text } } });
        if (own.type === "failure") return { area: "policies", begin: it.begin, text: it.text, errors: own.errors };
    }
    return { area: "policies", begin: 0, errors: answer.errors };
}

/** All that is found against the texts: of each finding its area, its place and what it says, and the verdicts of policies. */
async function judged(state) {
    const policies = policiesOf(state.policies), set = policySet(state.policies, policies);
    const validationSettings = { mode: state.mode, details: true, ...(state.level === "" ? {} : { level: Number(state.level) }) };
    const answer = await ask("validate", { schema: state.schema, policies: set, validationSettings });
    if (answer.type === "failure") {
        const { area, begin, text, errors } = await faultsOf(state, policies, answer);
        return { findings: errors.flatMap((error) => placed(error, area, begin, places(text ?? state[area]))), verdicts: null };
    }
    const byId = new Map(policies.map((it) => [it.id, it])), inText = places(state.policies);
    const findings = [...answer.validationErrors, ...answer.validationWarnings].flatMap((it) => {
        const policy = byId.get(it.policyId), [begin, place] = policy?.hasSlot ? [policy.begin, places(policy.text)] : [0, inText];
        return placed(it.error, "policies", begin, place).map((one) => ({ ...one, id: it.policyId, also: it.also, environments: it.environments }));
    });
    const verdicts = answer.policies.map((it) => ({ ...it, policy: byId.get(it.policyId) }));
    return { findings: [...findings, ...answer.otherWarnings.flatMap((it) => placed(it, "policies", 0, inText))], verdicts };
}

function placed(error, area, begin, place) {
    return error.sourceLocations.slice(0, 1).map(({ start, end }) => ({
        area, error, start: begin + place(start), end: begin + place(end), also: [], environments: [],
    }));
}

/** A text in Cedar's quotes. */
function quoted(text) {
    return `"${text.replace(/["\\\p{Cc}]/gu, (letter) => `\\u{${letter.codePointAt(0).toString(16)}}`)}"`;
}

/** The environments of a policy that is accepted, each with whether the policy is never true in it. */
async function environmentsOf(state, policy) {
    const validationSettings = { mode: state.mode };
    const typed = await ask("typedConditions", { schema: state.schema, policy: policy.text, validationSettings });
    if (!typed.accepted) return [];
    const found = typed.conditions.map((it) => ({ ...it, action: `${it.action.type}::${quoted(it.action.id)}` }));
    // (narrowed to one environment, a policy is impossible exactly if it is never true there)
    const narrowed = found.map((it, number) => [`environment${number}`, policy.text.replace(/;\s*$/,
        `\nwhen { action == ${it.action} && principal is ${it.principalType} && resource is ${it.resourceType} };`)]);
    const kind = policy.hasSlot ? "templates" : "staticPolicies";
    const answer = await ask("validate", { schema: state.schema, policies: { [kind]: Object.fromEntries(narrowed) }, validationSettings });
    if (answer.type === "failure") return [];
    const never = new Set(answer.validationWarnings.filter((it) => it.error.code === "impossible").map((it) => it.policyId));
    return found.map((it, number) => ({ text: `${it.action} by ${it.principalType} on ${it.resourceType}`, isNever: never.has(`environment${number}`) }));
}

/** Underlines findings in the text below an area. */
function underline(area, findings) {
    const text = area.value, under = area.previousElementSibling, parts = [];
    let done = 0;
    for (const it of findings.toSorted((one, other) => one.start - other.start || other.end - one.end)) {
        // (nothing can be underlined at the end of a text or of a line, but what stands before)
        const isEmpty = it.end <= it.start || text.slice(it.start, it.end).trim() === "";
        const start = Math.max(done, isEmpty ? Math.max(0, it.start - 1) : it.start), end = isEmpty ? it.start + 1 : it.end;
        if (end <= start) continue;
        parts.push(text.slice(done, start), made("mark", { className: it.error.severity }, text.slice(start, end)));
        done = end;
    }
    under.replaceChildren(...parts, text.slice(done), "\n");
    area.setAttribute("aria-invalid", String(findings.some((it) => it.error.severity === "error")));
    follow(area);
}

function follow(area) {
    area.previousElementSibling.scrollTop = area.scrollTop;
    area.previousElementSibling.scrollLeft = area.scrollLeft;
}

/** Shows and selects a place in an area. */
function show(area, start, end) {
    const height = parseFloat(getComputedStyle(area).lineHeight);
    area.focus();
    area.setSelectionRange(start, end);
    area.scrollTop = Math.max(0, (lines(area.value)(start)[0] - 1 - ABOVE) * height);
}

function findingItem(it) {
    const area = AREAS[it.area], [line, column] = it.line, word = it.error.severity;
    const place = made("button", { type: "button", className: "place", onclick: () => show(area, it.start, it.end) }, `${it.area}, line ${line}, column ${column}`);
    const more = [...(it.error.help ? [it.error.help] : []), ...it.also.map((one) => `also on ${one}`), ...it.environments.map((one) => `only for ${one}`)];
    return made("li", { className: word }, made("b", {}, word), " at ", place, `: ${it.error.message}`, ...more.flatMap((one) => [made("br", {}), one]));
}

const opened = new Set();

/** The environments of a policy, which are asked for once they are opened. */
function environmentsItem(state, policy) {
    const list = made("ul", {});
    const fill = async () => {
        const found = await environmentsOf(state, policy);
        list.replaceChildren(...found.map((it) => made("li", { className: it.isNever ? "never" : "" }, it.text, it.isNever ? ": impossible, it is never true here" : "")));
    };
    const item = made("details", { open: opened.has(policy.name) }, made("summary", {}, "Environments"), list);
    item.ontoggle = () => {
        item.open ? opened.add(policy.name) : opened.delete(policy.name);
        if (item.open && !list.hasChildNodes()) fill();
    };
    return item;
}

function verdictItem(state, { accepted, level, moreFindings, policy }, own) {
    const isImpossible = own.some((it) => it.error.code === "impossible");
    const needed = level === undefined ? "" : level === null ? ", no level is enough" : `, level ${level}`;
    const verdict = `${accepted ? "accepted" : "refused"}${needed}${isImpossible ? ", impossible" : ""}`;
    const area = AREAS.policies, name = made("button", { type: "button", className: "place name", onclick: () => show(area, policy.begin, policy.end) }, policy.name);
    return made("li", { className: accepted ? "accepted" : "refused" },
        made("h3", {}, name, ": ", made("span", { className: "verdict" }, verdict)),
        own.length ? made("ul", {}, ...own.map(findingItem)) : null,
        moreFindings ? made("p", {}, `${moreFindings} more findings`) : null,
        accepted ? environmentsItem(state, policy) : null);
}

/** Shows what was found: the verdicts, or the fault for which nothing was checked. */
function shown(state, { findings, verdicts }) {
    const lineOf = { schema: lines(state.schema), policies: lines(state.policies) };
    for (const it of findings) it.line = lineOf[it.area](it.start);
    for (const [name, area] of Object.entries(AREAS)) underline(area, findings.filter((it) => it.area === name));
    const refused = verdicts?.filter((it) => !it.accepted).length;
    const text = verdicts === null ? `The ${findings[0]?.area ?? "text"} cannot be read: nothing is checked.`
        : `${verdicts.length} ${verdicts.length === 1 ? "policy" : "policies"}: ${verdicts.length - refused} accepted, ${refused} refused.`;
    say(text, refused === 0 ? "accepted" : "refused");
    const alone = findings.filter((it) => it.id === undefined).map(findingItem);
    const known = verdicts?.filter((it) => it.policy) ?? [];
    const byId = Map.groupBy(findings, (it) => it.id);
    at("verdicts").replaceChildren(...alone, ...known.map((it) => verdictItem(state, it, byId.get(it.policyId) ?? [])));
}

function say(text, kind) {
    const status = at("status");
    status.className = kind;
    if (status.textContent !== text) status.textContent = text;
}

function state() {
    return { schema: AREAS.schema.value, policies: AREAS.policies.value, mode: at("mode").value, level: at("level").value };
}

let isBusy = false, isAsked = false, timer = 0;

/** Checks the texts as they are; a check that is asked for meanwhile comes once behind it. */
async function check() {
    isAsked = true;
    if (isBusy) return;
    isBusy = true;
    while (isAsked) {
        isAsked = false;
        const now = state();
        try {
            const found = await judged(now);
            if (!isAsked) shown(now, found);
        } catch (error) {
            say(`The validator does not answer: ${error.message}`, "refused");
        }
        // (what stands here has been checked; a test waits for it)
        document.body.dataset.checked = JSON.stringify(now);
    }
    isBusy = false;
}

function soon() {
    clearTimeout(timer);
    timer = setTimeout(check, QUIET);
}

function open({ schema, policies, mode = "strict", level = "" }) {
    AREAS.schema.value = schema;
    AREAS.policies.value = policies;
    at("mode").value = mode;
    at("level").value = level;
    check();
}

/** Opens the texts that stand behind `#`. Whether there are any. */
async function openLink() {
    const found = await unpacked(location.hash.slice(1));
    const isState = found !== null && ["schema", "policies"].every((name) => typeof found[name] === "string");
    if (isState) open(found);
    return isState;
}

async function example(names) {
    const [schema, policies] = await Promise.all(names.split(" ").map(async (name) => (await fetch(`tour/${name}`)).text()));
    open({ ...state(), schema, policies });
}

async function link() {
    history.replaceState(null, "", `#${await packed(state())}`);
    const isCopied = await navigator.clipboard?.writeText(location.href).then(() => true, () => false);
    at("copied").textContent = isCopied ? "The link is copied." : "The link is in the address bar.";
}

async function sayBuild() {
    const { text, isProved } = await (await fetch("build.json")).json();
    const it = at("build");
    it.textContent = isProved ? `The validator is proved: ${text}.` : `The validator of this page is NOT proved, so nothing is promised: ${text}.`;
    it.className = isProved ? "" : "unproved";
}

for (const area of Object.values(AREAS)) {
    area.addEventListener("input", soon);
    area.addEventListener("scroll", () => follow(area));
}
at("mode").addEventListener("change", check);
at("level").addEventListener("input", soon);
at("settings").addEventListener("submit", (event) => event.preventDefault());
at("example").addEventListener("change", (event) => event.target.value && example(event.target.value));
at("link").addEventListener("click", link);
addEventListener("hashchange", openLink);
sayBuild();
if (!(await openLink())) {
    at("example").selectedIndex = 1;
    example(at("example").value);
}
