#!/usr/bin/env python3
"""Tries the page in Chromium without a window: scripts/web_cases.py [--gate] [PICTURE].

The page is built by scripts/web.py, without a proof, or with --gate by one. The module must answer the calls of caller_cases.py and
odd texts byte for byte as the library does, also where memory is refused. Then come the stories of a user, what a keyboard and a
screen reader find, colours, and what the page asks the network for. PICTURE gets a screenshot, and PICTURE.dark.png another one.
Without Chromium all is skipped, which is said. The last line counts what went well and what did not.
"""
import base64
import json
import os
import sys
import tempfile
from pathlib import Path

import caller_cases
import library
import unproved
import web
from editor_cases import Counts
from gate.browser import Browser, Missing, Server

TOP = unproved.TOP
# What may go over the wire, in bytes, and how long a check of 1,000 policies may take, in milliseconds.
MOST_BYTES, MOST_TIME = 700_000, 1000
TOUR = TOP / "examples" / "tour"
# Waits until the texts of the page, as they are, have been checked.
CHECKED = "document.body.dataset.checked === JSON.stringify({schema: schema.value, policies: policies.value, mode: mode.value, level: level.value})"
# Answers the calls of a file in a worker of its own, each by its bytes in base 64 or by why there is none.
ANSWERS = """(async () => {
    const worker = new Worker("worker.js", {type: "module"}), said = [];
    for (const [name, call] of await (await fetch("calls.json")).json()) {
        const given = Uint8Array.from(atob(call), (it) => it.charCodeAt(0));
        const {answer, error} = await new Promise((go) => { worker.onmessage = ({data}) => go(data); worker.postMessage({number: 0, name: "answerText", given: [name, given]}); });
        said.push(error ?? btoa(Array.from(answer, (it) => String.fromCharCode(it)).join("")));
    }
    return said;
})()"""
# A module whose memory is all taken refuses a call, and answers again once memory is given back.
REFUSED = """(async () => {
    const {Cedar} = await import("./cedar.js");
    const bytes = await new Response((await fetch("cedar.wasm.gz")).body.pipeThrough(new DecompressionStream("gzip"))).arrayBuffer();
    const {cedar_room, cedar_give, cedar_validate, memory} = (await WebAssembly.instantiate(bytes, {})).instance.exports;
    const text = new TextEncoder().encode('{"schema":"entity U;","policies":""}'), call = cedar_room(4096n), answer = cedar_room(4096n), needed = cedar_room(8n);
    new Uint8Array(memory.buffer).set(text, Number(call));
    const made = () => [cedar_validate(call, BigInt(text.length), answer, 4096n, needed), Number(new DataView(memory.buffer).getBigUint64(Number(needed), true))];
    const before = made(), held = [];
    for (let size = 1n << 32n; size >= 16n; size /= 2n) for (let at; (at = cedar_room(size)) !== 0n;) held.push(at);
    const refused = made();
    held.forEach((at) => cedar_give(at));
    return [before[0], refused, JSON.stringify(before) === JSON.stringify(made())];
})()"""
# How many milliseconds the call of the page takes.
ONE_CALL = """(async () => {
    const {Cedar} = await import("./cedar.js"), {policiesOf, policySet} = await import("./texts.js"), cedar = await Cedar.open("cedar.wasm.gz");
    const call = {schema: schema.value, policies: policySet(policies.value, policiesOf(policies.value)), validationSettings: {details: true}};
    cedar.validate(call);
    const begun = performance.now();
    cedar.validate(call);
    return performance.now() - begun;
})()"""
# The names of what the keyboard reaches, and whether an outline shows it.
FOCUSED = "(document.activeElement.id || document.activeElement.className || document.activeElement.tagName) + (getComputedStyle(document.activeElement).outlineStyle === 'none' ? ' without outline' : '')"
# The least contrast of texts and their grounds, by WCAG.
CONTRAST = """(() => {
    const light = (text) => { const [r, g, b] = text.match(/[\\d.]+/g).map((it) => { const c = it / 255; return c <= 0.04045 ? c / 12.92 : ((c + 0.055) / 1.055) ** 2.4; }); return 0.2126 * r + 0.7152 * g + 0.0722 * b; };
    const ground = (it) => { for (; it; it = it.parentElement) { const found = getComputedStyle(it).backgroundColor; if (!/, 0\\)$|transparent/.test(found)) return found; } };
    const ratios = [...document.querySelectorAll("h1, h2, p, label, #status, .verdict, .place, .error > b, .warning > b, summary, textarea")].map((it) => {
        const [one, other] = [light(getComputedStyle(it).color), light(ground(it))].sort((a, b) => b - a); return (one + 0.05) / (other + 0.05); });
    return Math.min(...ratios);
})()"""


# The calls that the page makes; the module has those by a handle too, which no page makes.
OF_PAGE = ("validate", "check_data", "typed_conditions")


def calls():
    """The calls of caller_cases.py but those by a handle, and odd texts: a name and bytes."""
    for name, text in (("validate", b""), ("validate", b"\0"), ("validate", b"\xff"), ("validate", b"[" * (1 << 20)), ("check_data", b"{"), ("typed_conditions", b"{}")):
        yield f"cedar_{name}", text
    for _, _, call in caller_cases.application_calls():
        yield "cedar_validate", json.dumps(call).encode()
    for call in caller_cases.refused_calls().values():
        yield from ((f"cedar_{name}", json.dumps(call).encode()) for name in OF_PAGE)
    for _, name, texts in caller_cases.deep_calls():
        if (call := name.replace("-", "_")) in OF_PAGE:
            yield from ((f"cedar_{call}", text.encode()) for text in texts)


def native(lib, asked):
    """The answers of the library, or why there is none."""
    os.environ["CEDAR_LIBRARY"] = str(lib)
    sys.path.insert(0, str(caller_cases.BINDINGS / "python"))
    import cedar_validator
    for name, text in asked:
        try:
            yield base64.b64encode(cedar_validator.answer_text(name, text)).decode()
        except (MemoryError, ValueError) as why:
            yield str(why)


def answers(counts, tab, page, lib):
    """The module answers as the library."""
    asked = list(calls())
    (page / "calls.json").write_text(json.dumps([(name, base64.b64encode(text).decode()) for name, text in asked]))
    for (name, text), found, wanted in zip(asked, tab.run(ANSWERS), native(lib, asked), strict=True):
        counts.want(f"{name} of {len(text)} bytes {text[:120]}", found == wanted, (found, wanted))
    counts.want("memory is refused, and given back", (got := tab.run(REFUSED)) == [0, [2, 0], True], got)


def put(tab, area, text):
    """Types a text in the place of all that stands in an area, and waits until it is checked."""
    tab.run(f"{area}.focus(), {area}.select()")
    tab.ask("Input.insertText", text=text)
    tab.wait(CHECKED)


def marks(tab, area):
    return tab.run(f"[...{area}.previousElementSibling.querySelectorAll('mark')].map((it) => it.textContent)")


def verdicts(tab):
    return tab.run("[...document.querySelectorAll('#verdicts h3')].map((it) => it.textContent)")


def an_error(counts, tab):
    """An error stands at its place, with its hint, and the keyboard comes there from its words."""
    tab.wait(f"policies.value !== '' && {CHECKED}")
    counts.want("the marks of the tour", (got := marks(tab, "policies")) == ["resource.isPubic", "principal.vip", "context.now", 'datetime("2020-13-01")'], got)
    counts.want("its verdicts", (got := verdicts(tab)) == ["public: refused", "lead: accepted, level 3", "marked: refused", "old: refused"], got)
    said = tab.run("document.querySelector('#verdicts .error').innerText")
    counts.want("its words", said == "error at policies, line 4, column 8: attribute `isPubic` does not exist on `Photo`\ndid you mean `isPublic`?", said)
    counts.want("its environments", 'only for Action::"edit" by User on Photo' in (got := tab.run("verdicts.innerText")), got)
    tab.run("document.querySelector('#verdicts .error .place').focus()")
    tab.press("Enter")
    counts.want("its place is chosen", (got := tab.run("policies.value.slice(policies.selectionStart, policies.selectionEnd)")) == "resource.isPubic", got)


def mended(counts, tab):
    """Who types over the place that is chosen mends the policy, and it turns green."""
    tab.ask("Input.insertText", text="resource.isPublic")
    tab.wait(CHECKED)
    counts.want("the mended policy", (got := verdicts(tab)[0]) == "public: accepted, level 1", got)
    counts.want("it is green", (got := tab.run("document.querySelector('#verdicts li').className")) == "accepted", got)
    counts.want("what is said aloud", (got := tab.run("document.getElementById('status').textContent")) == "4 policies: 2 accepted, 2 refused.", got)


def schema_fault(counts, tab):
    """A schema's fault stands at its place, and no policy has a verdict."""
    schema = (TOUR / "photos.cedarschema").read_text(encoding="utf8")
    put(tab, "schema", schema.replace("lead: User", "lead: Usr"))
    counts.want("the schema's mark", (got := marks(tab, "schema")) == ["Usr"], got)
    counts.want("no verdict", verdicts(tab) == [] and marks(tab, "policies") == [], verdicts(tab))
    counts.want("its status", "schema" in (got := tab.run("document.getElementById('status').textContent")), got)
    put(tab, "schema", schema)
    counts.want("verdicts are there again", len(got := verdicts(tab)) == 4, got)


def many(counts, tab):
    """1,000 policies are checked in less than a second, from the key to the screen."""
    text = "".join(f'@id("p{it}")\npermit(principal, action == Action::"view", resource) when {{ resource.owner.name == "{it}" || resource.isPubic }};\n' for it in range(1000))
    tab.run("policies.focus(), policies.select(), globalThis.seen = 0, globalThis.begun = 0, policies.addEventListener('input', () => { begun ||= performance.now(); })")
    tab.run("new MutationObserver(() => requestAnimationFrame(() => { seen = performance.now(); })).observe(verdicts, {childList: true})")
    tab.ask("Input.insertText", text=text)
    tab.wait(f"{CHECKED} && seen > begun && begun > 0")
    took = tab.run("seen - begun")
    call = tab.run(ONE_CALL)
    counts.want(f"1,000 policies in {took:.0f} ms", took < MOST_TIME and len(verdicts(tab)) == 1000 and len(marks(tab, "policies")) == 1000, len(verdicts(tab)))
    print(f"1,000 policies, each refused: {took:.0f} ms from the last key to the screen, of which the call takes {call:.0f} ms, and 120 ms pass to see whether another key comes", flush=True)


def a_link(counts, tab, browser):
    """A link opens the same texts, and nothing of them is in what a server sees."""
    odd = 'permit(principal, action, resource) when { principal.name == "é𝒳" && principal.vip };\npermit(principal == ?principal, action, resource) when { principal.vp };'
    put(tab, "policies", odd)
    counts.want("places behind letters of several bytes, and in a template", (got := marks(tab, "policies")) == ["principal.vip", "principal.vp"], got)
    tab.run("document.getElementById('level').value = '2', document.getElementById('link').click()")
    tab.wait("location.hash.length > 1")
    other = browser.open(tab.run("location.href"))
    other.wait(CHECKED)
    state = "[schema.value, policies.value, level.value]"
    counts.want("the same texts", other.run(state) == tab.run(state) and other.run("policies.value") == odd, other.run(state))
    counts.want("the same marks", marks(other, "policies") == marks(tab, "policies"), marks(other, "policies"))


def more(counts, tab):
    """Levels, warnings, and the environments of a policy, of which some are impossible."""
    put(tab, "policies", 'permit(principal, action == Action::"view", resource) when { resource.owner.name == "x" };\nforbid(principal, action, resource) when { false };')
    counts.want("an impossible policy", (got := verdicts(tab)) == ["policy0: accepted, level 2", "policy1: accepted, level 0, impossible"], got)
    tab.run("document.querySelector('#verdicts details').open = true")
    tab.wait("document.querySelectorAll('#verdicts details li').length === 3")
    never = ": impossible, it is never true here"
    found = tab.run("[...document.querySelectorAll('#verdicts details li')].map((it) => it.textContent)")
    counts.want("its environments", found == [f'Action::"{it}" by User on Photo{"" if it == "view" else never}' for it in ("view", "edit", "delete")], found)
    tab.run("document.getElementById('level').focus()")
    tab.ask("Input.insertText", text="1")
    tab.wait(CHECKED)
    counts.want("the maximum level", (got := verdicts(tab)[0]) == "policy0: refused, level 2", got)


def reached(counts, tab):
    """The keyboard reaches all in its order, each with a name for a screen reader; the colours have contrast."""
    tab.run("scrollTo(0, 0), example.focus()")
    found = [tab.run(FOCUSED)]
    for _ in range(6):
        tab.press("Tab")
        found.append(tab.run(FOCUSED))
    counts.want("the order of the keyboard", found == ["example", "mode", "level", "link", "schema", "policies", "place name"], found)
    tree = tab.ask("Accessibility.getFullAXTree")["nodes"]
    named = {it["role"]["value"]: it.get("name", {}).get("value", "") for it in tree if it.get("role", {}).get("value") in ("textbox", "combobox", "spinbutton", "button")}
    counts.want("each control has a name", set(named) == {"textbox", "combobox", "spinbutton", "button"} and all(named.values()), named)
    for scheme in ("light", "dark"):
        tab.ask("Emulation.setEmulatedMedia", features=[{"name": "prefers-color-scheme", "value": scheme}])
        counts.want(f"contrast, {scheme}", (got := tab.run(CONTRAST)) >= 4.5, got)


def network(counts, browser, server, page):
    """The page asks its own server alone, for less than 700 KB, reports no error, and runs no script that stands in it."""
    asked = [it["params"]["request"]["url"] for it in browser.events if it.get("method") == "Network.requestWillBeSent"]
    counts.want("all comes from its server", asked and all(it.startswith((server.url, "data:")) for it in asked), [it for it in asked if not it.startswith(server.url)])
    counts.want("no text is in a request", not any("permit" in json.dumps(it["params"]["request"]) for it in browser.events if it.get("method") == "Network.requestWillBeSent"))
    faults = [it for it in browser.events if it.get("method") in ("Log.entryAdded", "Runtime.exceptionThrown")]
    counts.want("no error is reported", not faults, faults)
    size = sum((page / it).stat().st_size for it in (*web.FILES, "cedar.wasm.gz", "build.json", "tour/photos.cedarschema", "tour/share.cedar"))
    counts.want("its bytes", size < MOST_BYTES, size)
    print(f"the page takes {size / 1000:.0f} KB over the wire", flush=True)
    tab = browser.open(server.url)
    tab.run("document.head.append(Object.assign(document.createElement('script'), {textContent: 'globalThis.wasRun = true'}))")
    policy = tab.run("document.querySelector('meta[http-equiv]').content")
    counts.want("no script in the page runs", tab.run("globalThis.wasRun") is None and "unsafe-inline" not in policy and "default-src 'none'" in policy, policy)


def build_said(counts, tab, is_proved):
    tab.wait("!build.textContent.includes('loading')")
    words = "The validator is proved" if is_proved else "NOT proved"
    counts.want("the page says whether its build is proved", words in (got := tab.run("build.textContent")), got)


def tried(counts, room, is_proved, pictures):
    page = room / "page"
    with Server(page) as server, Browser(room) as browser:
        web.build(page, library.GATE if is_proved else None)
        library.build(room / "library", library.over_gate if is_proved else library.without_proof)
        tab = browser.open(server.url)
        build_said(counts, tab, is_proved)
        an_error(counts, tab)
        for file, scheme in zip(pictures, ("light", "dark")):
            tab.ask("Emulation.setEmulatedMedia", features=[{"name": "prefers-color-scheme", "value": scheme}])
            tab.picture(file)
        for story in (mended, schema_fault, many, more):
            story(counts, tab)
        reached(counts, tab)
        a_link(counts, tab, browser)
        network(counts, browser, server, page)
        answers(counts, tab, page, room / "library/lib/libcedar.so")


def main(words):
    is_proved = words[:1] == ["--gate"]
    pictures = [Path(it).resolve() for name in words[is_proved:] for it in (name, f"{name}.dark.png")]
    counts = Counts()
    with tempfile.TemporaryDirectory(prefix="web-") as held:
        try:
            tried(counts, Path(held), is_proved, pictures)
        except Missing as tool:
            print(f"the page: skipped, as the machine has no {tool}", flush=True)
        except (OSError, ValueError, LookupError) as error:
            counts.want("the page", False, error)
    print(f"{counts.passed} passed, {counts.failed} failed")
    return 1 if counts.failed else 0


if __name__ == "__main__":
    try:
        sys.exit(main(sys.argv[1:]))
    except (library.NotBuilt, unproved.KitDoesNotFit, unproved.DoesNotCompile) as error:
        print(f"{error}\n0 passed, 1 failed")
        sys.exit(1)
