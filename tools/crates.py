"""What tools/edits, tools/prove, tools/record, tools/tried and tools/unproved share: the crates of
crates.txt, and the words by which the kit's tools are called for one. Nothing here is meant to be
called alone."""

import importlib.machinery
import importlib.util
import os
import re
import shutil
import subprocess
import sys

TOP = os.path.dirname(os.path.dirname(os.path.realpath(__file__)))
PARTS = ("src", "specs", "proofs")


def kit():
    """The kit's folder: that of the rt on the PATH, or the first that has one."""
    found = shutil.which("rt")
    named = [os.environ.get("KIT", ""), "/opt/rattle", os.path.expanduser("~/rattle")]
    for rt in [found, *(f"{it}/bin/rt" for it in named if it)]:
        if rt and os.path.isfile(rt):
            return os.path.dirname(os.path.dirname(os.path.realpath(rt)))
    print("the Rattle kit's rt is not on the PATH; set KIT to the kit's folder", file=sys.stderr)
    sys.exit(70)


KIT = kit()
RATTLE = f"{KIT}/bin/rattle"


def load(path):
    """A program in Python as a module, by its path."""
    loader = importlib.machinery.SourceFileLoader(os.path.basename(path), path)
    made = importlib.util.module_from_spec(importlib.util.spec_from_loader(loader.name, loader))
    loader.exec_module(made)
    return made


def load_rt():
    """The kit's rt as a module."""
    return load(f"{KIT}/bin/rt")


def text_of(path):
    with open(path, encoding="utf-8") as it:
        return it.read()


class Crate:
    """A line of crates.txt: a crate's name, its kind, and the libraries that it uses."""

    def __init__(self, name, kind, uses, names):
        self.name, self.folder = name, f"{TOP}/crates/{name}"
        self.is_static = kind == "staticlib"
        self.is_program = os.path.isfile(f"{self.folder}/src/main.rt")
        self.root = "src/main.rt" if self.is_program else "src/lib.rt"
        self.below = [it for it in uses if it in names]
        self.of_kit = ["std", *(it for it in uses if it not in names)]

    def files(self, ending=""):
        """The files of the crate that a check reads, by their path in the crate."""
        found = []
        for part in PARTS:
            for at, _, names in os.walk(f"{self.folder}/{part}"):
                found += [os.path.relpath(f"{at}/{it}", self.folder) for it in names]
        return sorted(it for it in found if it.endswith(ending))

    def lines(self, ending):
        return sum(text_of(f"{self.folder}/{it}").count("\n") for it in self.files(ending))

    def check_words(self, libraries):
        """The words of a check over libraries that are built, of which `libraries` gives the
        path by the name."""
        words = ["--crate-name", self.name, self.root, "-L", f"dependency={KIT}/rlibs"]
        for name in self.of_kit:
            words += ["--extern", f"{name}={KIT}/rlibs/{name}.rlib"]
        for name in self.below:
            path = libraries(name)
            words += ["--extern", f"{name}={path}", "-L", f"dependency={os.path.dirname(path)}"]
        words += ["--antt-project", f"{KIT}/rattle/logic/antt-project.json"]
        words += ["--logic-built", f"{KIT}/logic_built", "--links", f"{self.name}="]
        return words + ["--crate-type", "staticlib"] * self.is_static


def all_crates():
    """The crates by name, lowest first."""
    rows = re.findall(r"^(\w+)( +staticlib)?[^:\n]*:(.*)$", text_of(f"{TOP}/crates.txt"), re.M)
    names = [name for name, _, _ in rows]
    made = [Crate(name, kind.strip(), uses.split(), names) for name, kind, uses in rows]
    return {it.name: it for it in sorted(made, key=lambda it: len(it.below))}


def ask_lib(words):
    """What a function of tools/lib.sh prints, or None where it fails."""
    script = '. "$0/tools/lib.sh" && eval "$1"'
    ran = subprocess.run(["bash", "-c", script, TOP, words], stdout=subprocess.PIPE, text=True)
    return ran.stdout.strip() if ran.returncode == 0 else None
