"""The crates of a repository, and what each stands on.

usage: python3 -m tools.workspace NAME

Prints the crates of this repository that NAME stands on, lowest first, and NAME itself.
"""
import pathlib
import re
import sys

TOP = pathlib.Path(__file__).resolve().parent.parent
# The folders of a crate's sources.
SOURCES = ("src", "specs", "proofs")


class Unknown(Exception):
    """A crate that crates.txt doesn't name."""


class Workspace:
    """A repository of crates: its crates.txt, read once."""

    def __init__(self, top=TOP):
        self.top = pathlib.Path(top)
        self.lines, self.libraries = {}, {}
        path = self.top / "crates.txt"
        for line in path.read_text(encoding="utf-8").splitlines() if path.exists() else []:
            head, _, libraries = line.split("#")[0].partition(":")
            if head.split():
                name = head.split()[0]
                self.lines[name], self.libraries[name] = line, libraries.split()

    def names(self):
        """The crates, in the order of crates.txt."""
        return list(self.lines)

    def folder(self, name):
        return self.top / "crates" / name

    def is_static(self, name):
        """Whether the crate is a static library, of which nothing is kept for crates above."""
        return "staticlib" in self.lines[name].split(":")[0].split()

    def root(self, name):
        """The crate's root file, by its path in the crate's folder."""
        is_program = (self.folder(name) / "src/main.rt").exists()
        return "src/main.rt" if is_program else "src/lib.rt"

    def below(self, *names):
        """The crates of the repository that these stand on, lowest first, and these."""
        found = {}
        for name in names:
            if name not in self.lines:
                raise Unknown(f"crates.txt names no crate {name}")
            for other in self.libraries[name]:
                if other in self.lines:
                    found.update(dict.fromkeys(self.below(other)))
            found[name] = None
        return list(found)

    def sources(self, name, parts=SOURCES):
        """The files in these folders of a crate, in order."""
        folders = [self.folder(name) / part for part in parts]
        paths = [path for folder in folders if folder.is_dir() for path in folder.rglob("*")]
        return sorted(path for path in paths if path.is_file())

    def text(self, path):
        """What a file says."""
        return path.read_text(encoding="utf-8")

    def rlib(self, name):
        """Where the kit leaves a library for the crates above it."""
        return self.folder(name) / "out" / "rlib" / f"{name}.rlib"


def line_of(text, key):
    """What a text says on its line of this key, or None."""
    found = re.search(rf"^{key}: *(.+?) *$", text, re.M)
    return found[1] if found else None


def main(words):
    if len(words) != 1:
        print("usage: python3 -m tools.workspace NAME", file=sys.stderr)
        return 2
    try:
        print(*Workspace().below(*words), sep="\n")
    except Unknown as why:
        print(why, file=sys.stderr)
        return 1
    return 0


if __name__ == "__main__":
    sys.exit(main(sys.argv[1:]))
