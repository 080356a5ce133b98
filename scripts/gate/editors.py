"""Editors with the server, each set up as docs/EDITORS.md says: its blocks are what is put into the files of a home. For editor_cases.py."""
import os
import re
import shutil
import subprocess
from pathlib import Path

import unproved

TOP = Path(__file__).resolve().parents[2]
EXAMPLES = TOP / "examples" / "editors"
PAGE = TOP / "docs" / "EDITORS.md"
# What Neovim shows, which scripts/pages.py puts into the page.
TRANSCRIPT = EXAMPLES / "neovim.txt"
SECONDS = 600
# The name of a clone in the page.
CLONE = "carrotknife"
# What the session of Emacs prints of examples/editors/photos.
EMACS = """\
mode cedar-mode
face id font-lock-preprocessor-face
face guarded font-lock-string-face
face permit font-lock-keyword-face
face principal font-lock-builtin-face
face Action font-lock-type-face
face when font-lock-keyword-face
face has font-lock-keyword-face
face device font-lock-variable-name-face
face owner font-lock-variable-name-face
face // font-lock-comment-delimiter-face
comment // @id("public")
-- opened
4 `resource.isPubic`
8 `principal.vip`
15 `Usr`
15 `Action::"viw"`
mode cedar-schema-mode
face entity font-lock-keyword-face
face User font-lock-type-face
face name font-lock-variable-name-face
face String font-lock-builtin-face
face vip font-lock-variable-name-face
face Bool font-lock-builtin-face
indented again t
servers 1
-- after the schema was edited, unsaved
8 `principal.vip`
15 `Usr`
15 `Action::"viw"`
stopped t
-- at level 0
4 `resource.isPubic`
8 `principal.vip`
12 `resource.owner.team.lead`
15 `Usr`
15 `Action::"viw"`
"""
# What the session of the extension prints: a server is started by the defaults, and again where a setting changes; one that did not
# start is not stopped; and of two changes at once both settings count.
EXTENSION = """\
start cedar-language-server {"mode":"strict"}
stop cedar-language-server
start cedar-language-server {"mode":"permissive","schema":"/photos/app.cedarschema","level":1}
stop cedar-language-server
start missing {"mode":"permissive","schema":"/etc/app.cedarschema","level":0}
start last {"mode":"permissive","schema":"/etc/app.cedarschema"}
stop last
start last {"mode":"permissive","schema":"/etc/app.cedarschema"}
stop last
disposables 1
"""


class Missing(Exception):
    """An editor that the machine has not."""


def block(heading, language):
    """The first block of a language below a heading of the page."""
    section = PAGE.read_text(encoding="utf8").split(f"\n## {heading}\n")[1].split("\n## ")[0]
    return re.search(rf"^```{language}\n(.*?)^```$", section, re.M | re.S)[1]


class Home:
    """A home of an editor, with a program on the PATH under the name that the page gives to it, and a copy of photos/."""

    def __init__(self, folder, program, name):
        self.folder, self.photos = folder, folder / "photos"
        shutil.copytree(EXAMPLES / "photos", self.photos)
        (folder / "bin").mkdir()
        shutil.copy(program, folder / "bin" / name)
        places = {"HOME": folder, "FOLDER": self.photos, "XDG_CONFIG_HOME": folder / ".config", "XDG_STATE_HOME": folder, "XDG_DATA_HOME": folder}
        self.env = {**os.environ, **{key: str(it) for key, it in places.items()}, "PATH": f"{folder / 'bin'}:{os.environ['PATH']}", "LC_ALL": "C.UTF-8"}

    def put(self, name, text):
        path = self.folder / name
        path.parent.mkdir(parents=True, exist_ok=True)
        path.write_text(text, encoding="utf8")
        return path

    def run(self, *words):
        return subprocess.run([str(it) for it in words], cwd=self.photos, env=self.env, stdin=subprocess.DEVNULL, capture_output=True, text=True, timeout=SECONDS)


def found(tool):
    if shutil.which(tool) is None:
        raise Missing(tool)
    return tool


def neovim(counts, program, room, is_recorded):
    """The transcript of Neovim."""
    found("nvim")
    home = Home(room / "of_neovim", program, "cedar-language-server")
    home.put(".config/nvim/init.lua", block("Neovim", "lua"))
    done = home.run("nvim", "--headless", "-i", "NONE", "-c", f"luafile {EXAMPLES / 'session.lua'}", "-c", "qall!")
    seen = done.stdout.replace("\r\n", "\n")
    if is_recorded:
        TRANSCRIPT.write_text(seen, encoding="utf8")
    counts.want("the transcript examples/editors/neovim.txt", TRANSCRIPT.read_text(encoding="utf8") == seen, seen + done.stderr)
    counts.want("Neovim has one server", "-- servers for the policies and the schema: 1\n" in seen, seen + done.stderr)
    counts.want("Neovim stops the server", seen.endswith("stopped: true\n"), seen + done.stderr)


def vim(counts, room):
    """Vim jumps to the first finding by `:make`, behind letters of several bytes."""
    found("vim")
    home = Home(room / "of_vim", unproved.program("cedar_validate"), "cedar-validate")
    (home.photos / "photos.cedarschema").rename(home.photos / "app.cedarschema")
    home.put(".vimrc", block("Without a server", "vim"))
    script = home.put("make.vim", "edit edit.cedar\nsilent make\ncall writefile([line('.') . ':' . strpart(getline('.'), col('.') - 1, 16)], 'at')\nqall!\n")
    home.run("vim", "-es", "-u", home.folder / ".vimrc", "-i", "NONE", "-S", script)
    at = (home.photos / "at").read_text(encoding="utf8") if (home.photos / "at").exists() else "nothing"
    counts.want("Vim stands at the finding", at == "4:resource.isPubic\n", at)


def emacs(counts, program, room):
    """The modes of Emacs, and its session with the server."""
    found("emacs")
    home = Home(room / "of_emacs", program, "cedar-language-server")
    (home.folder / CLONE).symlink_to(TOP)
    init = home.put(".emacs.d/init.el", block("Emacs", "lisp"))
    mode = home.put("compiled/cedar-mode.el", (TOP / "editors" / "emacs" / "cedar-mode.el").read_text(encoding="utf8"))
    done = home.run("emacs", "-Q", "--batch", "--eval", "(setq byte-compile-error-on-warn t)", "-f", "batch-byte-compile", mode)
    counts.want("cedar-mode.el compiles without a warning", done.returncode == 0, done.stderr)
    done = home.run("emacs", "--batch", "--no-init-file", "-f", "package-initialize", "-l", init, "-l", EXAMPLES / "session.el")
    if done.stdout == "no eglot\n":
        raise Missing("Eglot")
    counts.want("the session of Emacs", done.stdout == EMACS, done.stdout + done.stderr)


def vscode(counts):
    """The extension of VS Code, with stand-ins for what it calls."""
    node = found("node")
    done = subprocess.run([node, EXAMPLES / "session.js"], env={**os.environ, "TOP": str(TOP)}, stdin=subprocess.DEVNULL, capture_output=True, text=True, timeout=SECONDS)
    counts.want("the session of the extension", done.stdout == EXTENSION and done.returncode == 0, done.stdout + done.stderr)
