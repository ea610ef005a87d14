"""Whether what is built is built of the sources that are there, by their contents.

usage: python3 -m tools.freshness sums FILE
       python3 -m tools.freshness record FILE
       python3 -m tools.freshness left NAME FILE
       python3 -m tools.freshness changed NAME BUILT

sums FILE           writes to the file what the sources of each crate and of those below it sum to,
                    and what is built already.
record FILE         notes of each library and program that was built since that it was built of
                    these sources, if they still sum to the same.
left NAME FILE      does so, and ends with status 0 where all libraries below NAME are among them.
changed NAME BUILT  prints why the program or static library crates/NAME/out/BUILT isn't built of
                    the sources that are there, or nothing.

A library has its note in its folder `out/rlib`, as the kit's own stamp, so that one that is built
anew has none. `rt check` writes stamps and `rt ci` doesn't, so bin/test notes what `rt ci` left. A
note says what the sources summed to, and what is built, so it says nothing of any other contents.
"""
import functools
import hashlib
import json
import pathlib
import sys

from tools import kit
from tools.workspace import SOURCES, Workspace

NOTE = "built_of.json"


class Sums:
    """Sums of what a repository's crates are made of. Each file is read once."""

    def __init__(self, workspace):
        self.workspace = workspace
        self.of_crate = functools.lru_cache(maxsize=None)(self.of_crate)
        self.of_sources = functools.lru_cache(maxsize=None)(self.of_sources)

    def of_crate(self, name):
        """The sum of a crate's own line and sources."""
        given = hashlib.sha256(self.workspace.lines[name].encode())
        for path in self.workspace.sources(name):
            inside = path.relative_to(self.workspace.folder(name))
            given.update(f"\0{inside}\0".encode() + path.read_bytes())
        return given.hexdigest()

    def of_sources(self, name):
        """The sum of the crate and of all that it stands on."""
        below = [self.of_crate(it) for it in self.workspace.below(name)]
        return hashlib.sha256("\n".join(below).encode()).hexdigest()


def sum_of(built):
    """The sum of a file's contents, or of a folder's."""
    given = hashlib.sha256()
    for path in sorted(built.rglob("*")) if built.is_dir() else [built]:
        if path.is_file():
            given.update(f"\0{path.relative_to(built)}\0".encode() + path.read_bytes())
    return given.hexdigest()


def is_whole(library):
    """Whether a library is built while `rt ci` runs. Some kits write this file last, and others
    don't write it: of theirs nothing is known before `rt ci` ends."""
    return (library / "format").is_file()


def is_there(library):
    """Whether there is a library, while nothing builds one."""
    return library.is_dir() and any(library.iterdir())


def place_of_note(built):
    return built.parent / (NOTE if built.is_dir() else f"{built.name}.{NOTE}")


def write_note(built, of, cpu=None):
    """Notes that a library or a program was built of sources with this sum, and for which processor
    where that is known."""
    by_kit = kit.identity() if built.is_dir() else None
    note = {"sources": of, "kit": by_kit, "built": sum_of(built), "cpu": cpu}
    place_of_note(built).write_text(json.dumps(note) + "\n", encoding="utf-8")


def note_of(built):
    """The note of what is built, or None."""
    place = place_of_note(built)
    if not place.is_file():
        return None
    note = json.loads(place.read_text(encoding="utf-8"))
    return note if note["built"] == sum_of(built) else None


def has_note(built, of):
    """Whether a note says that what is built was built of sources with this sum; None where there
    is no note of what is built."""
    note = note_of(built)
    if note is None:
        return None
    return note["sources"] == of and (not built.is_dir() or note["kit"] == kit.identity())


@functools.lru_cache(maxsize=None)
def of_kit(top):
    """The kit's own view of the repository's crates, by their names: it knows its stamps."""
    sys.path.insert(0, str(kit.folder() / "bin"))
    import rtlib

    rtlib.Crate.stamp = functools.lru_cache(maxsize=None)(rtlib.Crate.stamp)
    return {crate.name: crate for crate in rtlib.crates_below(str(top))}


def has_stamp(workspace, name):
    """Whether the kit says that the library is built of the sources that are there."""
    if not (workspace.rlib(name).parent / "stamp").is_file():
        return False
    try:
        return of_kit(workspace.top)[name].is_built()
    except (AttributeError, ImportError, KeyError, SystemExit):
        return False


class Built:
    """What is built of a repository's crates."""

    def __init__(self, workspace=None):
        self.workspace = workspace or Workspace()
        self.sums = Sums(self.workspace)
        self.is_left = functools.lru_cache(maxsize=None)(self.is_left)

    def is_left(self, name):
        """Whether the crate's library is built of the sources that are there."""
        built = self.workspace.rlib(name)
        if not is_there(built):
            return False
        return has_stamp(self.workspace, name) or bool(has_note(built, self.sums.of_sources(name)))

    def lacking(self, name):
        """The crates below one whose libraries aren't left, lowest first."""
        return [it for it in self.workspace.below(name)[:-1] if not self.is_left(it)]

    def changed(self, name, file):
        """Why a program or a static library of a crate, by its name in the crate's out/, isn't
        built of the sources that are there, or None. Where nothing is noted of it, as where `rt ci`
        alone built it, times decide."""
        built = self.workspace.folder(name) / "out" / file
        if not built.is_file():
            return "it isn't built"
        is_of = has_note(built, self.sums.of_sources(name))
        if is_of is None:
            newer = self.newer_source(name, built)
            return f"it is older than {newer.relative_to(self.workspace.top)}" if newer else None
        return None if is_of else "it is built of other sources"

    def newer_source(self, name, built):
        """A source that the crate stands on and is newer than what is built, or None. A folder is
        newer where a file of it was removed."""
        made = built.stat().st_mtime
        folders = [self.workspace.folder(it) for it in self.workspace.below(name)]
        tops = [folder / part for folder in folders for part in SOURCES]
        inside = (path for top in tops for path in [top, *top.rglob("*")])
        for path in [self.workspace.top / "crates.txt", *inside]:
            if path.exists() and path.stat().st_mtime > made:
                return path
        return None

    def cpu(self, name, file):
        """The processor that a program or static library is built for, or None where no note says
        so."""
        note = note_of(self.workspace.folder(name) / "out" / file)
        return note and note.get("cpu")

    def note(self, name, file, cpu):
        """Notes that a program or a static library is built of the sources that are there, for this
        processor."""
        write_note(self.workspace.folder(name) / "out" / file, self.sums.of_sources(name), cpu)


def all_built(workspace):
    """Each library, program and static library that is built, with its crate."""
    for name in workspace.names():
        if is_there(workspace.rlib(name)):
            yield name, workspace.rlib(name)
        for file in (name, f"lib{name}.a"):
            built = workspace.folder(name) / "out" / file
            if built.is_file():
                yield name, built


def write_sums(file):
    workspace = Workspace()
    sums = Sums(workspace)
    found = {
        "sources": {name: sums.of_sources(name) for name in workspace.names()},
        "built": {str(built): built.stat().st_mtime for _, built in all_built(workspace)},
    }
    pathlib.Path(file).write_text(json.dumps(found), encoding="utf-8")


def record(file, is_due=is_there):
    """Writes the notes, and returns the crates whose libraries have one."""
    workspace, noted = Workspace(), set()
    sums, began = Sums(workspace), json.loads(pathlib.Path(file).read_text(encoding="utf-8"))
    for name, built in all_built(workspace):
        is_new = began["built"].get(str(built)) != built.stat().st_mtime
        of = sums.of_sources(name)
        if not is_new or began["sources"].get(name) != of or built.is_dir() and not is_due(built):
            continue
        if not has_note(built, of):
            write_note(built, of)
        if built.is_dir():
            noted.add(name)
    return noted


def are_left(name, file):
    """Notes what was built, and says whether all libraries below a crate are among it, while
    `rt ci` runs."""
    workspace = Workspace()
    below = workspace.below(name)[:-1]
    if not all(is_whole(workspace.rlib(it)) for it in below):
        return False
    return {*below} <= record(file, is_whole)


def main(words):
    if words[:1] == ["sums"] and len(words) == 2:
        write_sums(words[1])
    elif words[:1] == ["record"] and len(words) == 2:
        record(words[1])
    elif words[:1] == ["left"] and len(words) == 3:
        return 0 if are_left(words[1], words[2]) else 1
    elif words[:1] == ["changed"] and len(words) == 3:
        why = Built().changed(words[1], words[2])
        print(why or "", end="\n" if why else "")
    else:
        print(__doc__, end="", file=sys.stderr)
        return 2
    return 0


if __name__ == "__main__":
    sys.exit(main(sys.argv[1:]))
