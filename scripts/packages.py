#!/usr/bin/env python3
"""Makes the packages of languages: scripts/packages.py RELEASE DIR, where RELEASE is a folder that scripts/release has made.

DIR gets a wheel for Python, a package for npm, a jar, a crate, and a folder for GOPROXY. Each but the crate has the library of the
release inside; the crate finds it by pkg-config. The version of an unproved release is that of the release with `unproved`, and
each package has a file BUILD. A package is left out where the machine lacks its tool, which is said. Nothing is published.
"""
import re
import shutil
import subprocess
import sys
import tempfile
import zipfile
from pathlib import Path

import library
import release
import unproved
from caller_cases import BINDINGS, Missing, need, ran

TOP = unproved.TOP
FLAGS = ["-O2", "-Wall", "-Wextra", "-Werror", "-shared", "-fPIC", "-Wl,-z,now", "-Wl,-z,relro"]
# The oldest glibc of a common tag of wheels; the library wants no later one.
WHEELS = "manylinux_2_17_x86_64"
GO_PATH = "carrotknife.example/cedar"
# The time of each file in a zip.
WHEN = (1980, 1, 1, 0, 0, 0)
MANIFEST = """Manifest-Version: 1.0
Automatic-Module-Name: carrotknife.cedar
Implementation-Title: cedar-validator
Implementation-Version: {version}
"""


def python_with(*modules):
    """A Python that has these modules."""
    for it in (sys.executable, "/usr/bin/python3"):
        if Path(it).exists() and subprocess.run([it, "-c", f"import {', '.join(modules)}"], stderr=subprocess.DEVNULL).returncode == 0:
            return it
    raise Missing(" and ".join(modules))


def node_headers():
    found = next((it for it in ("/usr/include/node", "/usr/local/include/node") if Path(it, "node_api.h").is_file()), None)
    if found is None:
        raise Missing("node_api.h")
    return found


def java_headers():
    need("javac")
    home = Path(shutil.which("javac")).resolve().parent.parent / "include"
    if not (home / "jni.h").is_file():
        raise Missing("jni.h")
    return [f"-I{home}", f"-I{home / 'linux'}"]


def zipped(file, parts):
    """Writes a zip of files by their names, whose bytes depend only on these."""
    with zipfile.ZipFile(file, "w", zipfile.ZIP_DEFLATED) as pack:
        for name, content in sorted(parts.items()):
            info = zipfile.ZipInfo(name, WHEN)
            info.external_attr, info.compress_type = 0o644 << 16, zipfile.ZIP_DEFLATED
            pack.writestr(info, content)


class Packages:
    def __init__(self, folder, out, room):
        self.folder, self.out, self.room = folder, out, room
        self.archive = folder / "lib/libcedar.a"
        self.build = re.search(r"^This is (commit .*proved)\.", (folder / "PROVED.md").read_text(encoding="utf8"), re.M)[1]
        self.version = library.version() + ("-unproved" if self.build.endswith("not proved") else "")
        self.texts = {"BUILD": self.build + "\n"} | {it: (TOP / it).read_text(encoding="utf8") for it in ("LICENSE", "NOTICE")}

    def copied(self, name, *kept):
        """A copy of the sources of a language, with its version, the licences and the build."""
        made = self.room / name
        shutil.copytree(BINDINGS / name, made, ignore=shutil.ignore_patterns("__pycache__", "target", "*test*.js", "*test*.py", "*_test.go", "tests"))
        for it in kept:
            text = (made / it).read_text(encoding="utf8")
            # (a version of Python has a word of its own behind `+`)
            version = self.version.replace("-", "+") if name == "python" else self.version
            (made / it).write_text(text.replace(library.version(), version, 1), encoding="utf8")
        for it, text in self.texts.items():
            (made / it).write_text(text, encoding="utf8")
        return made

    def python(self):
        """The wheel, by setuptools."""
        python = python_with("setuptools", "wheel", "pip")
        made = self.copied("python", "pyproject.toml")
        soname = f"libcedar.so.{library.abi()}"
        shutil.copyfile(self.folder / "lib" / soname, made / "cedar_validator" / soname)
        # (a wheel with a library is for one platform, though no module of it is compiled)
        (made / "setup.cfg").write_text(f"[bdist_wheel]\nplat_name = {WHEELS}\n[metadata]\nlicense_files = LICENSE, NOTICE, BUILD\n")
        env = {"SOURCE_DATE_EPOCH": str(release.epoch())}
        ran(python, "-m", "pip", "wheel", "--no-build-isolation", "--no-index", "--no-deps", "--wheel-dir", self.out, made, env=env)

    def node(self):
        """The package of npm: the addon, and the module for browsers."""
        need("npm", "cc")
        made = self.copied("node", "package.json")
        ran("cc", *FLAGS, f"-I{node_headers()}", *sorted((BINDINGS / "node").glob("*.c")), self.archive, "-o", made / "cedar.node")
        (made / "browser").mkdir()
        for it in (TOP / "web/cedar.d.ts", *[self.folder / "share/cedar/page" / it for it in ("cedar.js", "cedar.wasm.gz")]):
            shutil.copyfile(it, made / "browser" / it.name)
        (made / "browser/package.json").write_text('{"type": "module"}\n')
        ran("npm", "pack", "--offline", "--pack-destination", self.out, folder=made)

    def java(self):
        """The jar, with its JNI library."""
        headers = java_headers()
        made, classes = self.copied("java", "pom.xml"), self.room / "classes"
        native = made / "libcedar_jni.so"
        ran("cc", *FLAGS, *headers, BINDINGS / "java/cedar_jni.c", self.archive, "-o", native)
        ran("javac", "-encoding", "UTF-8", "--release", "11", "-d", classes, *sorted((made / "src").rglob("*.java")))
        parts = {str(it.relative_to(classes)): it.read_bytes() for it in classes.rglob("*.class")}
        parts |= {"carrotknife/cedar/libcedar_jni.so": native.read_bytes(), "META-INF/MANIFEST.MF": MANIFEST.format(version=self.version)}
        parts |= {"META-INF/maven/carrotknife/cedar-validator/pom.xml": (made / "pom.xml").read_bytes()}
        zipped(self.out / f"cedar-validator-{self.version}.jar", parts | {f"META-INF/{it}": text for it, text in self.texts.items()})

    def go(self):
        """The folder for GOPROXY, with the module, which has the archive inside."""
        made = self.copied("go")
        is_linked = False
        for path in sorted(made.glob("*.go")):
            text = path.read_text(encoding="utf8")
            is_linked |= "// #cgo pkg-config: cedar\n" in text
            linked = text.replace("// #cgo pkg-config: cedar\n", "// #cgo LDFLAGS: ${SRCDIR}/libcedar.a\n").replace("#include <cedar.h>", '#include "cedar.h"')
            path.write_text(f"//go:build linux && amd64\n\n{linked}", encoding="utf8")
        if not is_linked:
            raise ValueError("no file of Go says how it links")
        shutil.copyfile(self.archive, made / "libcedar.a")
        shutil.copyfile(self.folder / "include/cedar.h", made / "cedar.h")
        place, version = self.out / "go" / GO_PATH / "@v", f"v{self.version}"
        place.mkdir(parents=True, exist_ok=True)
        (place / "list").write_text(f"{version}\n")
        (place / f"{version}.info").write_text(f'{{"Version":"{version}"}}\n')
        shutil.copyfile(made / "go.mod", place / f"{version}.mod")
        zipped(place / f"{version}.zip", {f"{GO_PATH}@{version}/{it.name}": it.read_bytes() for it in made.iterdir() if it.is_file()})

    def rust(self):
        """The crate."""
        made = self.copied("rust", "Cargo.toml")
        made = made.rename(made.with_name(f"cedar-validator-{self.version}"))
        release.packed(made, self.out / f"{made.name}.crate")

    def make(self):
        """Makes each package whose tools are there."""
        self.out.mkdir(parents=True, exist_ok=True)
        for part in (self.python, self.node, self.java, self.go, self.rust):
            try:
                part()
            except Missing as tool:
                print(f"the package of {part.__name__} is left out: the machine has no {tool}", flush=True)


def make(folder, out):
    with tempfile.TemporaryDirectory(prefix="packages-") as held:
        packages = Packages(folder, out.resolve(), Path(held))
        packages.make()
        return packages.version


def main(words):
    if len(words) != 2 or any(it.startswith("-") for it in words):
        print("usage: scripts/packages.py RELEASE DIR", file=sys.stderr)
        return 2
    try:
        version = make(Path(words[0]), Path(words[1]))
    except (OSError, ValueError, TypeError) as error:
        print(f"scripts/packages.py: {error}", file=sys.stderr)
        return 70
    print(f"{words[1]} has the packages, version {version}")
    return 0


if __name__ == "__main__":
    sys.exit(main(sys.argv[1:]))
