"""What the library for C holds of others' code, with the licenses of it.

usage: python3 -m tools.third_party

Prints the crates of the kit whose code the static library circle_c may hold, and the license texts
that the kit has of them.
"""
import sys

from tools import kit
from tools.workspace import Workspace

LIBRARY = "circle_c"
HEAD = """\
The libraries libcircle_c.a and libcircle.so may hold code of the crates below. These belong to the
kit that built them:

    {kit}

Those with a license are ports of crates for Rust, most of the same name, and have their licenses.
liblibc_c.a, which calls the C library's allocator, belongs to the kit too.
"""
UNLICENSED = """\
The kit has no license text of: {names}.
"""


def used_by(name):
    """The libraries of the kit that one of its libraries names in its file `format`, or has beside
    it where a kit writes no such file."""
    library = kit.folder() / "rlibs" / f"{name}.rlib"
    if not (library / "format").is_file():
        return sorted(it.name for it in library.glob("below/*"))
    lines = (library / "format").read_text(encoding="utf-8").splitlines()
    return [line.split()[1] for line in lines if line.startswith("dep ")]


def crates_of_kit(workspace):
    """The libraries of the kit that the library for C stands on, by their names."""
    found, below = set(), workspace.below(LIBRARY)
    left = {"std", *(it for name in below for it in workspace.libraries[name])} - set(below)
    while left:
        name = left.pop()
        found.add(name)
        left |= {*used_by(name)} - found
    return sorted(found)


def licenses_of(name):
    """The files of a crate's licenses."""
    return sorted((kit.folder() / "rattle" / name).glob("LICENSE*"))


def text():
    """The crates, and the texts of their licenses, each once."""
    names, texts = crates_of_kit(Workspace()), {}
    for path in (path for name in names for path in licenses_of(name)):
        of = texts.setdefault(path.read_text(encoding="utf-8").strip(), [])
        of.append(f"{path.parent.name}: {path.name}")
    without = [name for name in names if not licenses_of(name)]
    parts = [HEAD.format(kit=kit.identity()), "".join(f"    {name}\n" for name in names)]
    parts += [UNLICENSED.format(names=", ".join(without))] if without else []
    line = "-" * 80
    parts += ["\n".join([line, *of, line, "", license, ""]) for license, of in texts.items()]
    return "\n".join(parts)


if __name__ == "__main__":
    if sys.argv[1:]:
        sys.exit(__doc__)
    print(text(), end="")
