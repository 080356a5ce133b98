#!/usr/bin/env python3
"""Tries a release: scripts/release_cases.py [--again] [--roots] [FILE].

FILE is a tar.gz of scripts/release, by default one that is made here without a proof. It is unpacked into a fresh folder, and used
from there with nothing else: sums, README's first command, texts that name the build, the manual page, completions, the library by
its pkg-config file, the language server, and the time in which cedar-validate starts. --again makes it again in a clone and
compares the bytes. --roots runs its programs in bare roots of Debian stable and oldstable, which debootstrap makes; this needs root
and the network. What the machine has not is skipped, which is said. The last line counts what went well and what did not.
"""
import json
import os
import re
import shutil
import subprocess
import sys
import tarfile
import tempfile
import time
from pathlib import Path
from unittest import mock

import library
import proved
import release
import stamp
import unproved
from editor_cases import Counts

TOP = unproved.TOP
SECONDS = 900
# A release that is made again builds all, which takes so long at most on a busy machine.
AGAIN = 3600
# How long cedar-validate may take to start, in milliseconds; the best of so many runs counts.
MOST_START, RUNS = 20, 20
ROOTS = ("stable", "oldstable")
INCLUDES = """#include <cedar.h>
int main(void) { return cedar_abi() != CEDAR_ABI; }
"""


def ran(*words, timeout=SECONDS, **given):
    return subprocess.run([str(it) for it in words], stdin=subprocess.DEVNULL, stdout=subprocess.PIPE, stderr=subprocess.STDOUT, text=True, timeout=timeout, **given)


def first_example():
    """README's first example: what the release's own first command must print."""
    shown = (TOP / "docs" / "TOUR.md").read_text(encoding="utf8").split("$ scripts/validate examples/tour/photos.cedarschema examples/tour/share.cedar\n")[1].split("```")[0]
    return shown.replace("examples/tour/", "share/cedar/tour/")


def command(folder):
    """The command of the release's README."""
    return re.search(r"^\$ (bin/cedar-validate .*)$", (folder / "README.md").read_text(encoding="utf8"), re.M)[1]


def contents(counts, folder, is_proved):
    """Sums, README's command, and what each part says of its build."""
    done = ran("sha256sum", "--check", "--quiet", "SHA256SUMS", cwd=folder)
    listed = {line.split("  ")[1] for line in (folder / "SHA256SUMS").read_text(encoding="utf8").splitlines()}
    there = {str(it.relative_to(folder)) for it in release.files_of(folder)} - {"SHA256SUMS"}
    counts.want("the sums", done.returncode == 0 and listed == there, (done.stdout, listed ^ there))
    done = ran("sh", "-c", command(folder), cwd=folder, env={})
    counts.want("README's command", (done.stdout, done.returncode) == (first_example(), 1), done.stdout)
    build = ran(folder / "bin/cedar-validate", "--version").stdout.splitlines()[-1]
    counts.want("--version names the build", build.endswith(", proved" if is_proved else ", not proved") and build.startswith("commit "), build)
    for name in ("bin/cedar-language-server", "lib/libcedar.so", "lib/libcedar.a"):
        said = ran("readelf", f"--string-dump={library.NOTE}", folder / name).stdout
        counts.want(f"{name} names the build", build in said, said)
    for name in ("README.md", "PROVED.md", "include/cedar.h", "lib/pkgconfig/cedar.pc", "share/man/man1/cedar-validate.1", "sbom.spdx.json", "share/cedar/page/build.json", *[f"share/{it}" for it in release.PLACES.values()]):
        counts.want(f"{name} names the build", build in (folder / name).read_text(encoding="utf8"))
    is_named = ("-unproved-" in folder.name, "Nothing is proved" in (folder / "PROVED.md").read_text(encoding="utf8"))
    counts.want("an unproved release is named so", is_named == (not is_proved,) * 2, is_named)


def sbom(counts, folder):
    """Each package has a licence that SPDX knows, and its text lies in the release; each relation names packages of the list."""
    said = json.loads((folder / "sbom.spdx.json").read_text(encoding="utf8"))
    ids = {it["SPDXID"]: it for it in said["packages"]}
    named = {it[key] for it in said["relationships"] for key in ("spdxElementId", "relatedSpdxElement")}
    counts.want("the relations of the SBOM", named == {*ids, "SPDXRef-DOCUMENT"}, named ^ set(ids))
    odd = [it for it in ids if not re.fullmatch(r"SPDXRef-[A-Za-z0-9.-]+", it)]
    counts.want("the names of the SBOM", not odd, odd)
    kept = {it.parent.name for it in (folder / "licences").glob("*/*")}
    unread = [it["name"] for it in said["packages"][1:] if (it["licenseDeclared"] == "NOASSERTION") == (it["name"] in kept)]
    counts.want("each licence that lies there is read", not unread, unread)


def uses(counts, folder, room):
    """The manual page, the completions, the library and the language server, as a user has them."""
    for name, words in (("man", ["man", "--warnings", "-l"]), ("bash", ["bash", "-n"]), ("zsh", ["zsh", "-n"]), ("fish", ["fish", "-n"])):
        file = folder / "share" / (release.PLACES.get(name) or "man/man1/cedar-validate.1")
        if shutil.which(words[0]) is None:
            print(f"{name}: skipped, as the machine has no {words[0]}", flush=True)
            continue
        done = ran(*words, file, env={**os.environ, "MANPAGER": "cat", "MANWIDTH": "100", "LC_ALL": "C.UTF-8"})
        counts.want(f"{name} reads its file", done.returncode == 0 and (name != "man" or "--schema" in done.stdout or "SCHEMA" in done.stdout), done.stdout[:300])
    (room / "it.c").write_text(INCLUDES)
    flags = ran("pkg-config", "--cflags", "--libs", "cedar", env={**os.environ, "PKG_CONFIG_PATH": str(folder / "lib/pkgconfig")}).stdout.split()
    done = ran("cc", room / "it.c", "-o", room / "it", *flags)
    counts.want("a program links by pkg-config", done.returncode == 0, done.stdout)
    counts.want("and runs", ran(room / "it", env={"LD_LIBRARY_PATH": str(folder / "lib")}).returncode == 0)
    asked = json.dumps({"jsonrpc": "2.0", "id": 1, "method": "initialize", "params": {"capabilities": {}}})
    done = subprocess.run([folder / "bin/cedar-language-server"], input=f"Content-Length: {len(asked)}\r\n\r\n{asked}", capture_output=True, text=True, timeout=SECONDS)
    counts.want("the language server answers", '"hoverProvider":true' in done.stdout, done)


def start(counts, folder):
    """cedar-validate starts in less than 20 ms."""
    times = []
    for _ in range(RUNS):
        begun = time.perf_counter()
        subprocess.run([folder / "bin/cedar-validate", "--version"], stdin=subprocess.DEVNULL, stdout=subprocess.DEVNULL, check=True)
        times.append((time.perf_counter() - begun) * 1000)
    counts.want("it starts in time", min(times) < MOST_START, times)
    print(f"cedar-validate starts and ends in {min(times):.1f} ms, the best of {RUNS} runs; glibc {release.glibc(folder)} is wanted", flush=True)


def bare(counts, folder, room):
    """README's command where there is nothing but the release, the loader and the C library of this machine."""
    if os.geteuid() != 0:
        print("a bare root: skipped, as this is not root", flush=True)
        return
    root = room / "bare"
    shutil.copytree(folder, root, symlinks=True)
    loaded = re.findall(r"(/\S+) \(", ran("ldd", folder / "bin/cedar-validate", folder / "bin/cedar-language-server").stdout)
    for it in set(loaded):
        (root / it[1:]).parent.mkdir(parents=True, exist_ok=True)
        shutil.copyfile(it, root / it[1:])
        (root / it[1:]).chmod(0o755)
    done = ran("chroot", root, *[f"/{it}" if it.startswith("bin/") else it for it in command(folder).split()], env={"PATH": "/usr/sbin:/usr/bin"})
    counts.want("a bare root", (done.stdout, done.returncode) == (first_example(), 1) and len(set(loaded)) == 2, (loaded, done.stdout))


def in_root(counts, suite, folder, room):
    """README's command in a bare root, which has nothing but the release beside Debian's smallest system."""
    root = room / suite
    made = ran("debootstrap", "--variant=minbase", suite, root)
    if made.returncode:
        counts.want(f"debootstrap {suite}", False, made.stdout[-900:])
        return
    shutil.copytree(folder, root / "release", symlinks=True)
    version = (root / "etc/debian_version").read_text().strip()
    loaded = ran("chroot", root, "ldd", "/release/bin/cedar-validate", "/release/bin/cedar-language-server", "/release/lib/libcedar.so").stdout
    needs = set(re.findall(r"^\s+(\S+?)(?: => .*)? \(", loaded, re.M))
    counts.want(f"what is loaded in Debian {version}", needs <= {"linux-vdso.so.1", "libc.so.6", "/lib64/ld-linux-x86-64.so.2"} and "libc.so.6" in needs, loaded)
    sums = ran("chroot", root, "sh", "-c", "cd /release && sha256sum --check --quiet SHA256SUMS", env={"PATH": "/usr/sbin:/usr/bin:/sbin:/bin"})
    counts.want(f"the sums in Debian {version}", sums.returncode == 0, sums.stdout)
    done = ran("chroot", root, "sh", "-c", f"cd /release && {command(folder)}", env={"PATH": "/usr/sbin:/usr/bin:/sbin:/bin"})
    counts.want(f"README's command in Debian {version}", (done.stdout, done.returncode) == (first_example(), 1), done.stdout)
    print(f"Debian {version} ({suite}) runs it", flush=True)


def roots(counts, folder, room):
    if shutil.which("debootstrap") is None or os.geteuid() != 0:
        print("bare roots: skipped, as the machine has no debootstrap, or this is not root", flush=True)
        return
    for suite in ROOTS:
        in_root(counts, suite, folder, room)
        shutil.rmtree(room / suite, ignore_errors=True)


def signed(counts, file, room):
    """The commands of SECURITY sign a release, and see that a file was changed."""
    if shutil.which("ssh-keygen") is None:
        print("signatures: skipped, as the machine has no ssh-keygen", flush=True)
        return
    ran("ssh-keygen", "-q", "-t", "ed25519", "-N", "", "-C", "", "-f", room / "key")
    (room / "signers").write_text(f"release {(room / 'key.pub').read_text()}")
    copy = Path(shutil.copy(file, room / "signed.tar.gz"))
    ran("ssh-keygen", "-Y", "sign", "-f", room / "key", "-n", release.NAME, copy)

    def verified():
        words = ["ssh-keygen", "-Y", "verify", "-f", room / "signers", "-I", "release", "-n", release.NAME, "-s", f"{copy}.sig"]
        return subprocess.run([str(it) for it in words], input=copy.read_bytes(), capture_output=True).returncode == 0

    counts.want("a signature", verified())
    copy.write_bytes(copy.read_bytes()[:-1] + b"x")
    counts.want("a signature of another file", not verified())


def refused(counts, room):
    """Words that name no release, a file that is none, and a proof that fails: nothing is made."""
    stamped = mock.patch.object(stamp, "text", lambda is_proved: "commit 1, a kit, proved")
    with mock.patch.object(proved, "prove_copy", lambda crates, folder: False), mock.patch.object(release, "say", lambda text: None), stamped:
        try:
            is_refused = not release.make(room / "none", is_proved=True)
        except release.NotMade:
            is_refused = not (room / "none").exists()
    counts.want("nothing is made where the proof fails", is_refused)
    said = release.what_is_proved()
    counts.want("what PROVED.md says", all(it in said for it in ("do not go wrong", "A slice is enough", "**Only tested**", "**Trusted**")) and "](" not in said, said)
    for words in ((), ("--unproved",), ("--verify",), ("--unproved", "--verify", "x"), ("--no", "x"), ("a", "b")):
        done = ran(TOP / "scripts/release", *words)
        counts.want(f"scripts/release {' '.join(words)}", done.returncode == 2, done)
    with tarfile.open(room / "odd.tar.gz", "w:gz") as pack:
        pack.add(TOP / "LICENSE", "odd/LICENSE")
    counts.want("no release", ran(TOP / "scripts/release", "--verify", room / "odd.tar.gz").returncode == 2)


def main(words):
    flags = [it for it in words if it.startswith("--")]
    files = [it for it in words if it not in flags]
    if len(files) > 1 or set(flags) - {"--again", "--roots"}:
        print(__doc__, file=sys.stderr)
        return 2
    counts = Counts()
    with tempfile.TemporaryDirectory(prefix="release-") as held:
        room = Path(held)
        file = Path(files[0]).resolve() if files else release.make(room / "made", is_proved=False)
        with tarfile.open(file) as pack:
            pack.extractall(room / "fresh")
        [folder] = (room / "fresh").iterdir()
        contents(counts, folder, "-unproved-" not in folder.name)
        sbom(counts, folder)
        uses(counts, folder, room)
        start(counts, folder)
        bare(counts, folder, room)
        signed(counts, file, room)
        refused(counts, room)
        if "--again" in flags:
            done = ran(TOP / "scripts/release", "--verify", file, timeout=AGAIN)
            counts.want("it is made again", done.returncode == 0, done.stdout)
            print(done.stdout, end="", flush=True)
        if "--roots" in flags:
            roots(counts, folder, room)
    print(f"{counts.passed} passed, {counts.failed} failed")
    return 1 if counts.failed or not counts.passed else 0


if __name__ == "__main__":
    try:
        sys.exit(main(sys.argv[1:]))
    except (OSError, ValueError, tarfile.TarError, subprocess.SubprocessError, release.NotMade, stamp.NotStamped, library.NotBuilt, unproved.KitDoesNotFit, unproved.DoesNotCompile) as error:
        print(f"{error}\n0 passed, 1 failed")
        sys.exit(1)
