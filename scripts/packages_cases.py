#!/usr/bin/env python3
"""Installs each package by the tool of its language, and calls it: scripts/packages_cases.py [RELEASE].

RELEASE is a folder of scripts/release, by default one that is made here without a proof. Each package is installed into a fresh
folder outside of the repository, without the network, and a program there validates a policy. A language that the machine has not
is skipped, which is said. The last line counts what went well and what did not.
"""
import hashlib
import json
import subprocess
import sys
import tarfile
import tempfile
from pathlib import Path

import library
import packages
import release
import stamp
import unproved
from caller_cases import DEBIAN, Missing, need, ran
from gate import browser

SCHEMA = "entity U{a?:Long};action v appliesTo{principal:U,resource:U};"
CALL = {"schema": SCHEMA, "policies": {"staticPolicies": {"x": "permit(principal,action,resource) when {principal.a == 1};"}}}
TEXT = json.dumps(CALL)
# What each program prints.
WANTED = "x unguarded-attribute\n"

PYTHON = f"""import cedar_validator
for it in cedar_validator.validate({CALL!r})["validationErrors"]:
    print(it["policyId"], it["error"]["code"])
"""
NODE = f"""const cedar = require("cedar-validator"), call = {TEXT};
const [now] = cedar.validate(call).validationErrors;
cedar.promises.validate(call).then(({{ validationErrors: [later] }}) => console.log(now.policyId, later.error.code));
"""
TYPED = f"""import {{ validate, promises }} from "cedar-validator";
import {{ Cedar }} from "cedar-validator/browser";
const now = validate({TEXT});
const code: string | null = now.type === "success" ? now.validationErrors[0].error.code : null;
const later: Promise<ReturnType<typeof validate>> = promises.validate({TEXT});
export const opened: Promise<Cedar> = Cedar.open("x");
export {{ code, later }};
"""
BROWSER = f"""<!doctype html><script type="module">
import {{ Cedar }} from "./node_modules/cedar-validator/browser/cedar.js";
const cedar = await Cedar.open("node_modules/cedar-validator/browser/cedar.wasm.gz"), [it] = cedar.validate({TEXT}).validationErrors;
document.title = `${{it.policyId}} ${{it.error.code}}`;
</script>"""
JAVA = """import carrotknife.cedar.Validation;
public class Program {
    public static void main(String[] none) {
        String answer = new Validation("%s").policy("x", "permit(principal,action,resource) when {principal.a == 1};").answer();
        System.out.println((answer.contains("\\"policyId\\":\\"x\\"") ? "x " : "") + (answer.contains("\\"code\\":\\"unguarded-attribute\\"") ? "unguarded-attribute" : answer));
    }
}
""" % SCHEMA
GO = """package main

import (
	"encoding/json"
	"fmt"

	cedar "%s"
)

func main() {
	answer, err := cedar.Validate([]byte(`%s`))
	if err != nil {
		panic(err)
	}
	var said struct{ ValidationErrors []struct {
		PolicyID string `json:"policyId"`
		Error    struct{ Code string }
	} }
	if err := json.Unmarshal(answer, &said); err != nil {
		panic(err)
	}
	fmt.Println(said.ValidationErrors[0].PolicyID, said.ValidationErrors[0].Error.Code)
}
""" % (packages.GO_PATH, TEXT)
RUST = """use cedar_validator::types::{validate, PolicySet, Settings, ValidationAnswer, ValidationCall};
fn main() {
    let policy = "permit(principal,action,resource) when {principal.a == 1};".into();
    let policies = PolicySet { static_policies: [("x".to_string(), policy)].into(), ..PolicySet::default() };
    let call = ValidationCall { schema: "%s".into(), policies, validation_settings: Settings::default() };
    if let Ok(ValidationAnswer::Success { validation_errors, .. }) = validate(&call) {
        println!("{} {}", validation_errors[0].policy_id, validation_errors[0].error.code.as_deref().unwrap());
    }
}
""" % SCHEMA


class Uses:
    def __init__(self, made, version, folder, room):
        self.made, self.version, self.folder, self.room = made, version, folder, room

    def fresh(self, name, **files):
        """A fresh folder with these files."""
        made = self.room / name
        made.mkdir()
        for it, text in files.items():
            (made / it.replace("_", ".")).write_text(text, encoding="utf8")
        return made

    def one(self, pattern):
        """The package of this name, if it was made."""
        found = list(self.made.glob(pattern))
        if not found:
            raise Missing(f"package {pattern}")
        return found[0]

    def python(self):
        wheel, fresh = self.one("*.whl"), self.fresh("python", program_py=PYTHON)
        ran(sys.executable, "-m", "venv", fresh / "venv")
        ran(fresh / "venv/bin/python", "-m", "pip", "install", "--no-index", wheel)
        return ran(fresh / "venv/bin/python", "program.py", folder=fresh, env={"PYTHONPATH": "", "CEDAR_LIBRARY": ""})

    def node(self):
        pack, fresh = self.one("*.tgz"), self.fresh("node", program_js=NODE, index_html=BROWSER, typed_mts=TYPED)
        (fresh / "package.json").write_text('{"private": true}\n')
        ran("npm", "install", "--offline", "--no-audit", "--no-fund", pack, folder=fresh)
        return ran("node", "program.js", folder=fresh)

    def types(self):
        """The declarations, in the folder that npm has made."""
        need("tsc")
        ran("tsc", "--noEmit", "--strict", "--module", "node16", "--moduleResolution", "node16", "--target", "es2022", "--lib", "es2022,dom", "typed.mts", folder=self.room / "node")
        return WANTED

    def in_browser(self):
        """The module of the package of npm, in a browser."""
        self.one("*.tgz")
        with browser.Server(self.room / "node") as server, browser.Browser(self.room) as opened:
            tab = opened.open(server.url)
            tab.wait("document.title !== ''")
            return tab.run("document.title") + "\n"

    def java(self):
        need("java", "javac")
        jar, fresh = self.one("*.jar"), self.fresh("java", Program_java=JAVA)
        ran("javac", "-cp", jar, "Program.java", folder=fresh)
        return ran("java", "-cp", f"{jar}:{fresh}", "Program", folder=fresh)

    def go(self):
        need("go", "cc")
        fresh = self.fresh("go", main_go=GO, go_mod="module program\n\ngo 1.19\n")
        env = {"GOPROXY": (self.made / "go").as_uri(), "GOSUMDB": "off", "GOFLAGS": "-modcacherw", "GOPATH": str(fresh / "path"), "GOCACHE": str(fresh / "cache")}
        ran("go", "get", f"{packages.GO_PATH}@v{self.version}", folder=fresh, env=env)
        return ran("go", "run", ".", folder=fresh, env=env)

    def rust(self):
        """The crate beside those of Debian, in a folder that stands for crates.io."""
        need("cargo", "pkg-config")
        if not any(DEBIAN.glob("serde_json-*")):
            raise Missing("librust-serde-json-dev")
        crate, fresh = self.one("*.crate"), self.fresh("rust")
        vendor = fresh / "vendor"
        vendor.mkdir()
        for it in DEBIAN.iterdir():
            (vendor / it.name).symlink_to(it)
        with tarfile.open(crate) as pack:
            pack.extractall(vendor)
        sums = {"package": hashlib.sha256(crate.read_bytes()).hexdigest(), "files": {}}
        (vendor / crate.stem / ".cargo-checksum.json").write_text(json.dumps(sums))
        for name, text in (("src/main.rs", RUST), (".cargo/config.toml", '[source.crates-io]\nreplace-with = "vendor"\n[source.vendor]\ndirectory = "vendor"\n')):
            (fresh / name).parent.mkdir()
            (fresh / name).write_text(text)
        wanted = f'cedar-validator = {{ version = "={self.version}", features = ["serde"] }}'
        (fresh / "Cargo.toml").write_text(f'[package]\nname = "program"\nversion = "0.0.0"\nedition = "2021"\n[dependencies]\n{wanted}\n')
        env = {"PKG_CONFIG_PATH": str(self.folder / "lib/pkgconfig"), "LD_LIBRARY_PATH": str(self.folder / "lib")}
        return ran("cargo", "run", "--offline", "--quiet", folder=fresh, env=env)


def named(made, version):
    """Each package has the version in its name, and is there as often as there are tools."""
    odd = [it.name for it in made.iterdir() if it.is_file() and version not in it.name.replace("+", "-")]
    return f"{odd}" if odd else WANTED


def main(words):
    passed = failed = 0
    with tempfile.TemporaryDirectory(prefix="packages-") as held:
        room = Path(held)
        if not words:
            release.make(room / "release", is_proved=False)
        folder = Path(words[0]).resolve() if words else next(it for it in (room / "release").iterdir() if it.is_dir())
        version = packages.make(folder, room / "made")
        uses = Uses(room / "made", version, folder, room)
        for part in (lambda: named(room / "made", version), uses.python, uses.node, uses.types, uses.in_browser, uses.java, uses.go, uses.rust):
            try:
                said = part()
                passed, failed = passed + (said == WANTED), failed + (said != WANTED)
                if said != WANTED:
                    print(f"{part.__name__}: {said}", flush=True)
            except (Missing, browser.Missing) as tool:
                print(f"{part.__name__}: skipped, as the machine has no {tool}", flush=True)
            except (OSError, ValueError, LookupError, subprocess.SubprocessError) as error:
                print(f"{part.__name__}: {error}", flush=True)
                failed += 1
    print(f"{passed} passed, {failed} failed")
    return 1 if failed or not passed else 0


if __name__ == "__main__":
    try:
        sys.exit(main(sys.argv[1:]))
    except (OSError, ValueError, release.NotMade, stamp.NotStamped, library.NotBuilt, unproved.KitDoesNotFit, unproved.DoesNotCompile) as error:
        print(f"{error}\n0 passed, 1 failed")
        sys.exit(1)
