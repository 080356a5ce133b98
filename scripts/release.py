#!/usr/bin/env python3
"""Makes a release for Linux on x86-64: scripts/release [--unproved] DIR, or scripts/release --verify FILE.

DIR gets a folder and a tar.gz of it: cedar-validate, cedar-language-server, libcedar, the manual page, completions, the files of
editors, the page for browsers, the example of the tour, licences, PROVED.md, an SBOM (SPDX 2.3) and SHA256SUMS. All is proved first, as far as this
machine keeps no proof of the texts, and the checkout must have no change. --unproved makes a release to be tried: its name, its
programs, its library and its PROVED.md say so.

The bytes depend on the commit, the kit, and the C compiler and binutils that link libcedar. Each time in them is that of
SOURCE_DATE_EPOCH, or of the commit. --verify clones the commit of a release, makes it again there, and names each file that differs.
"""
import gzip
import hashlib
import io
import json
import os
import re
import shutil
import subprocess
import sys
import tarfile
import tempfile
from datetime import datetime, timezone
from pathlib import Path

import install
import library
import proved
import stamp
import unproved
import web
from gate import gate_line

TOP = unproved.TOP
NAME = "carrotknife"
CRATES = ("cedar_validate", "cedar_language_server", library.CRATE)
PLACES = {"bash": "bash-completion/completions/cedar-validate", "zsh": "zsh/site-functions/_cedar-validate",
          "fish": "fish/vendor_completions.d/cedar-validate.fish"}
# Licences by words that only their texts have.
LICENCES = {"Apache-2.0": "Apache License", "MIT": r"free of charge, to any\s+person obtaining a\s+copy\s+of\s+this\s+software", "Unicode-3.0": "UNICODE LICENSE V3"}
# Of these two files a user may choose one.
CHOICE = ("LICENSE-APACHE", "LICENSE-MIT")
USAGE = """usage: scripts/release [--unproved] DIR
       scripts/release --verify FILE
Makes a folder and a tar.gz in DIR: programs, the C library, and PROVED.md, which says what is proved of them.
With --verify it makes the release of FILE again, in a clone of its commit, and compares each file.
"""
README = """# {name}

A validator of [Cedar](https://www.cedarpolicy.com) policies, for Linux on x86-64 with glibc {glibc} or later. [PROVED.md](PROVED.md)
says what is proved. This is {build}.

```console
$ sha256sum --check --quiet SHA256SUMS
$ bin/cedar-validate share/cedar/tour/photos.cedarschema share/cedar/tour/share.cedar
```

Copy `bin`, `include`, `lib` and `share` to `/usr/local` or `~/.local`. `man cedar-validate` has all options, `share/cedar/editors`
the files of editors, and `include/cedar.h` the calls of the C library. `share/cedar/page` is a page that validates in the browser: any
server of files can serve it.
"""
NOTHING = """# Nothing is proved of this release

This is {build}. It is built without a proof, to be tried: **nothing is promised of it**.
A release that is proved has another name and another PROVED.md.
"""
PROVED = """# What is proved of this release

This is {build}. The commit's README, PROMISE and THEOREMS have the exact statements.

{proved}

**Trusted besides**: the C compiler and the binutils that link libcedar. For the page: the kit's clang, which compiles the proved
module of libcedar to WebAssembly, web/memory.c with its memory, the scripts of the page, and the browser.
"""


class NotMade(Exception):
    """Why there is no release."""


class Wrong(Exception):
    """Why an argument is wrong."""


def say(text):
    print(f"scripts/release: {text}", file=sys.stderr, flush=True)


def epoch():
    """The time of all that is made, in seconds."""
    return int(os.environ.get("SOURCE_DATE_EPOCH") or stamp.output_of("git", "log", "-1", "--format=%ct"))


def name_of(is_proved):
    return f"{NAME}-{library.version()}-{'' if is_proved else 'unproved-'}linux-x86_64"


def unproved_parts():
    """The two programs and the calls, built without a proof."""
    return *map(unproved.program, CRATES[:2]), library.without_proof()


def proved_parts():
    """The two programs and the calls, once they and all that they stand on are proved."""
    if re.search(r"-dirty|\?", stamp.text(is_proved=True)):
        raise NotMade("no commit has the texts as they are (--unproved makes a release to be tried)")
    crates = [*unproved.below(CRATES), *CRATES]
    say(f"proving what this machine keeps no proof of: {' '.join(crates)}")
    say(install.forecast(install.minutes_of(crates, gate_line.rows_of(gate_line.TABLE.read_text()))))
    if not proved.prove_copy(crates, proved.COPY):
        raise NotMade("not all was proved, as said above (--unproved makes a release to be tried)")
    return *[proved.COPY / "crates" / it / "out" / it for it in CRATES[:2]], library.over(proved.COPY)


def put(folder, inner, content, mode=0o644):
    """Writes a file of the release."""
    path = folder / inner
    path.parent.mkdir(parents=True, exist_ok=True)
    path.write_bytes(content.encode() if isinstance(content, str) else content)
    path.chmod(mode)


def programs(folder, validate, server, build):
    """The programs, and what cedar-validate says of itself: each says of which build it is."""
    put(folder, "bin/cedar-validate", validate.read_bytes(), 0o755)
    stamp.put(folder / "bin/cedar-validate", build)
    put(folder, "bin/cedar-language-server", server.read_bytes(), 0o755)
    library.note_build(folder / "bin/cedar-language-server", build)

    def said(*words):
        return subprocess.run([folder / "bin/cedar-validate", *words], stdin=subprocess.DEVNULL, capture_output=True, check=True, text=True).stdout

    put(folder, "share/man/man1/cedar-validate.1", said("--man") + f'.\\" {build}\n')
    for shell, inner in PLACES.items():
        put(folder, f"share/{inner}", said("--completion", shell) + f"# {build}\n")


def kit_libraries():
    """The libraries of the kit that are linked, each with the texts of its licences."""
    folder = unproved.kit() / "rattle"
    names = unproved.of_kit([*unproved.below(CRATES), *CRATES])
    return {name: {it.name: it.read_bytes() for it in sorted((folder / name).glob("LICEN*"))} for name in sorted(names)}


def licence_of(texts):
    """The licences of a library, as SPDX says them."""
    def one(name):
        return next((it for it, words in LICENCES.items() if re.search(words, texts[name].decode())), "NOASSERTION")

    is_choice = all(it in texts for it in CHOICE)
    others = [one(it) for it in texts if not (is_choice and it in CHOICE)]
    choice = " OR ".join(map(one, CHOICE)) if is_choice else None
    return " AND ".join(([f"({choice})" if others else choice] if choice else []) + others) or "NOASSERTION"


def sbom(name, build, libraries):
    """What is in the release, as SPDX 2.3 says it."""
    kit = stamp.output_of("rt", "version")

    def package(it, version, licence):
        return {"SPDXID": f"SPDXRef-{it.replace('_', '-')}", "name": it, "versionInfo": version, "downloadLocation": "NOASSERTION", "filesAnalyzed": False,
                "licenseConcluded": licence, "licenseDeclared": licence, "copyrightText": "NOASSERTION"}

    packages = [package(NAME, library.version(), "Apache-2.0")] + [package(it, kit, licence_of(texts)) for it, texts in libraries.items()]
    packages[0]["comment"] = build
    whole, *parts = [it["SPDXID"] for it in packages]
    links = [("SPDXRef-DOCUMENT", "DESCRIBES", whole)] + [(whole, "STATIC_LINK", it) for it in parts]
    return json.dumps({
        "spdxVersion": "SPDX-2.3", "dataLicense": "CC0-1.0", "SPDXID": "SPDXRef-DOCUMENT", "name": name,
        "documentNamespace": f"https://spdx.org/spdxdocs/{name}-{hashlib.sha256(build.encode()).hexdigest()[:16]}",
        "creationInfo": {"created": datetime.fromtimestamp(epoch(), timezone.utc).strftime("%Y-%m-%dT%H:%M:%SZ"), "creators": ["Tool: scripts/release"]},
        "packages": packages,
        "relationships": [{"spdxElementId": one, "relationshipType": how, "relatedSpdxElement": other} for one, how, other in links],
    }, indent=1) + "\n"


def what_is_proved():
    """README's words on what is proved, tested and trusted, without links."""
    section = (TOP / "README.md").read_text(encoding="utf8").split("\n## What is proved\n")[1].split("\n## ")[0]
    kept = section.split("\n<!-- made")[0] + section.split("<!-- end -->")[1]
    return re.sub(r"\n{3,}", "\n\n", re.sub(r"\[([^\]]*)\]\([^)]*\)", r"\1", kept).strip())


def glibc(folder):
    """The oldest version of glibc with which each program and the library run."""
    found = set()
    for it in [*(folder / "bin").iterdir(), folder / f"lib/libcedar.so.{library.abi()}"]:
        found |= set(re.findall(r"GLIBC_([\d.]+)", library.run("objdump", "-T", it)))
    return max(found, key=lambda it: [int(part) for part in it.split(".")])


def texts(folder, name, build, is_proved):
    """What people read, and what tools read of the whole."""
    put(folder, "README.md", README.format(name=name, build=build, glibc=glibc(folder)))
    put(folder, "PROVED.md", PROVED.format(build=build, proved=what_is_proved()) if is_proved else NOTHING.format(build=build))
    libraries = kit_libraries()
    for licence in ("LICENSE", "NOTICE"):
        put(folder, f"licences/{licence}", (TOP / licence).read_bytes())
    for it, each in libraries.items():
        for licence, text in each.items():
            put(folder, f"licences/{it}/{licence}", text)
    for kept in ("editors", "examples/tour"):
        for path in sorted(it for it in (TOP / kept).rglob("*") if it.is_file() and "node_modules" not in it.parts):
            put(folder, f"share/cedar/{Path(kept).name}/{path.relative_to(TOP / kept)}", path.read_bytes())
    put(folder, "sbom.spdx.json", sbom(name, build, libraries))


def files_of(folder):
    return sorted(it for it in folder.rglob("*") if it.is_file() or it.is_symlink())


def packed(folder, file):
    """Packs a folder, so that the bytes depend only on names, modes and contents."""
    held = io.BytesIO()
    with tarfile.open(fileobj=held, mode="w", format=tarfile.USTAR_FORMAT) as pack:
        for path in [folder, *sorted(folder.rglob("*"))]:
            it = pack.gettarinfo(path, str(path.relative_to(folder.parent)))
            it.uid = it.gid = 0
            it.uname = it.gname = "root"
            it.mtime, it.mode = epoch(), 0o755 if path.is_dir() or os.access(path, os.X_OK) else 0o644
            pack.addfile(it, open(path, "rb") if it.isreg() else None)
    file.write_bytes(gzip.compress(held.getvalue(), mtime=epoch()))


def make(room, is_proved):
    """Makes the folder and the tar.gz in a folder. The place of the tar.gz."""
    lacking = library.lacking()
    if lacking:
        raise NotMade(f"{lacking} is wanted, of a compiler of C and binutils")
    validate, server, calls = proved_parts() if is_proved else unproved_parts()
    name, build = name_of(is_proved), stamp.text(is_proved)
    room.mkdir(parents=True, exist_ok=True)
    folder = room / name
    shutil.rmtree(folder, ignore_errors=True)
    library.put(calls, folder, build)
    programs(folder, validate, server, build)
    web.build(folder / "share/cedar/page", proved.COPY if is_proved else None)
    texts(folder, name, build, is_proved)
    sums = [f"{hashlib.sha256(it.read_bytes()).hexdigest()}  {it.relative_to(folder)}\n" for it in files_of(folder)]
    put(folder, "SHA256SUMS", "".join(sums))
    file = room / f"{name}.tar.gz"
    packed(folder, file)
    return file


def contents(file):
    """The kind, the mode and the bytes of each file of a tar.gz."""
    with tarfile.open(file, "r:gz") as pack:
        return {it.name: (it.type, it.mode, it.mtime, it.linkname, pack.extractfile(it).read() if it.isreg() else b"") for it in pack}


def verify(file):
    """Makes the release of a file again, in a clone of its commit, and says what differs. Whether all is the same."""
    old = contents(file)
    name = next(iter(old))
    said = old.get(f"{name}/PROVED.md", [b""])[-1].decode()
    found = re.search(r"^This is commit (\w+)(-dirty)?, (.*), (not )?proved\.", said, re.M)
    if not found or found[2]:
        raise Wrong(f"{file} is no release of a commit")
    if found[3] != stamp.output_of("rt", "version"):
        raise NotMade(f"the release is by {found[3]}, and this kit is {stamp.output_of('rt', 'version')}")
    with tempfile.TemporaryDirectory(prefix="release-") as held:
        room = Path(held)
        library.run("git", "clone", "--quiet", TOP, room / "clone")
        library.run("git", "-C", room / "clone", "checkout", "--quiet", found[1])
        env = {**os.environ, "SOURCE_DATE_EPOCH": str(old[name][2])}
        words = [room / "clone/scripts/release", *["--unproved"] * bool(found[4]), room / "made"]
        if subprocess.run([str(it) for it in words], stdin=subprocess.DEVNULL, stdout=sys.stderr, env=env).returncode:
            raise NotMade("the release was not made again, as said above")
        [made] = (room / "made").glob("*.tar.gz")
        new, is_same = contents(made), made.read_bytes() == Path(file).read_bytes()
    for it in sorted({*old, *new}):
        if old.get(it) != new.get(it):
            print(f"differs: {it}")
    print(f"{file} was made again: {'all bytes are the same' if is_same else 'NOT the same bytes'}")
    return is_same


def main(words):
    if words == ["--help"]:
        print(USAGE, end="")
        return 0
    is_proved = words[:1] != ["--unproved"]
    *flags, place = (words if is_proved else words[1:]) or ["-"]
    if flags not in ([], ["--verify"]) or place.startswith("-") or not place or (flags and not is_proved):
        say(f"one folder is wanted, or --verify and a file\n{USAGE.rstrip()}")
        return 2
    if flags:
        return 0 if verify(place) else 1
    print(f"made {make(Path(place), is_proved)}, which is {'proved' if is_proved else 'NOT proved'}")
    return 0


if __name__ == "__main__":
    proved.stopping()
    try:
        sys.exit(main(sys.argv[1:]))
    except Wrong as why:
        say(why)
        sys.exit(2)
    except proved.Stopped:
        say("stopped; nothing was made")
    except (OSError, ValueError, tarfile.TarError, subprocess.SubprocessError, NotMade, stamp.NotStamped, library.NotBuilt, unproved.KitDoesNotFit, unproved.DoesNotCompile) as why:
        say(why)
    sys.exit(70)
