"""Mutants: texts in place of a crate's own, which turn the meaning of one function."""
import functools
import os
import re

from tools.sources import Source, sources_of
from tools.workspace import line_of

NAME = re.compile(r"[A-Za-z0-9_-][A-Za-z0-9_.-]*\.edit")
# Of a crate: the folder that bin/mutants reads, and the one whose mutants the kit tries itself.
FOLDERS = ("mutants", "must-fail")


class Unfit(Exception):
    """Why a mutant can't be applied."""


@functools.lru_cache(maxsize=None)
def source_of(folder, path):
    """A crate's file of src/, read once."""
    text = (folder / path).read_text(encoding="utf-8")
    return Source(path[len("src/") :], text)


class Mutant:
    """A mutant of a crate, which a file describes."""

    def __init__(self, file, crate, crate_folder):
        self.file, self.crate, self.crate_folder = file, crate, crate_folder
        self.text = file.read_text(encoding="utf-8", errors="replace")
        self.name = f"{crate}/{file.name[: -len('.edit')]}"
        self.function = line_of(self.text, "function")
        self.clause = line_of(self.text, "clause")
        self.goal = line_of(self.text, "goal")
        self.is_of_kit = file.parent.name == "must-fail"
        self.is_gate = line_of(self.text, "gate") == "yes"

    def relabel(self, function, clause):
        """Writes the function and the clause into the mutant's file."""
        self.function, self.clause = function, clause
        rest = re.sub(r"^(?:function|clause): .*\n", "", self.text, flags=re.M)
        self.text = f"function: {function}\nclause: {clause}\n{rest}"
        self.file.write_text(self.text, encoding="utf-8")

    def pairs(self):
        """Each file that the mutant names, an old text of it and the new one."""
        path = old = None
        for line in self.text.split("\n"):
            if line.startswith("file: "):
                path = line[len("file: ") :].strip()
                if os.path.normpath(path) != path or not path.startswith(
                    ("src/", "specs/", "proofs/")
                ):
                    raise Unfit(f"it names no file below src/, specs/ or proofs/: {path}")
            elif line.startswith("old: "):
                old = line[len("old: ") :]
            elif line.startswith("new:"):
                if not path or not old:
                    raise Unfit("a new text stands before any file or old text")
                yield path, old, re.sub(r"\A ", "", line[len("new:") :])
                old = None

    def applied(self, texts=None):
        """The files that the mutant changes, by their paths in the crate, each with its text after
        it. A mutant is read as rt reads it: its files are there, and each of its old texts stands
        in its file exactly once, after the pairs before it. Texts are those that other mutants
        left."""
        texts, were = dict(texts or {}), {}
        for path, old, new in self.pairs():
            if path not in texts:
                if not (self.crate_folder / path).is_file():
                    raise Unfit(f"there is no file {path}")
                texts[path] = (self.crate_folder / path).read_text(encoding="utf-8")
            were.setdefault(path, texts[path])
            count = texts[path].count(old)
            if count != 1:
                raise Unfit(f"an old text stands in {path} {count} times, and not once: {old}")
            texts[path] = texts[path].replace(old, new)
        if not were:
            raise Unfit("it has no pair of an old and a new text")
        if all(texts[path] == text for path, text in were.items()):
            raise Unfit("it changes nothing")
        return texts

    def functions(self):
        """The functions whose text the mutant changes, in order."""
        found = {}
        for path, old, _ in self.pairs():
            if path.startswith("src/"):
                source = source_of(self.crate_folder, path)
                place = source.text.find(old)
                it = source.at(place + len(old) - len(old.lstrip())) if place >= 0 else None
                found[it.path if it else None] = None
        return list(found)


def label(mutant, contracts):
    """Names in a mutant the one function that its text turns, where it names none that is there,
    and the function's first clause, where it names none. Returns whether it changed it."""
    function, clause = mutant.function, mutant.clause
    turned = mutant.functions()
    if (not function or not contracts.function(mutant.crate, function)) and len(turned) == 1:
        function = turned[0]
    clauses = contracts.clauses(mutant.crate, function) or ["ensures"]
    clause = clause if clause in clauses else clauses[0]
    if function is None or (function, clause) == (mutant.function, mutant.clause):
        return False
    mutant.relabel(function, clause)
    return True


def mutants_of(workspace, name, folders=FOLDERS):
    """A crate's mutants, in order."""
    top = workspace.folder(name)
    files = [it for folder in folders for it in sorted((top / folder).glob("*.edit"))]
    return [Mutant(file, name, top) for file in files]


class Contracts:
    """The contracts of the functions of a repository's crates."""

    def __init__(self, workspace):
        self.workspace, self.crates = workspace, {}

    def sources(self, name):
        if name not in self.crates:
            self.crates[name] = sources_of(self.workspace.folder(name))
        return self.crates[name]

    def function(self, name, path):
        """The function of a crate that a check prints under this path, or None."""
        for source in self.sources(name).values():
            for it in source.functions:
                if it.path == path:
                    return it
        return None

    def printed(self, name, path):
        """The name under which a check prints a function: that of a method begins with the module
        that declares the type."""
        it = self.function(name, path)
        if it is None or not it.owner or it.owner[1] != "impl" or " for " in it.owner[2]:
            return path
        declares = re.compile(rf"\b(?:struct|enum)\s+{it.owner[0].partition('+')[0]}\b")
        sources = self.sources(name)
        for source in [sources[it.file], *sources.values()]:
            for _, _, text, modules, _ in source.items:
                if declares.search(text.partition("{")[0]):
                    return "::".join([*modules, it.owner[0], it.name])
        return path

    def clauses(self, name, path):
        """The names of the clauses that the function ensures: its own, those of the method of a
        trait that it implements, and the facts that its impl states of it."""
        it = self.function(name, path)
        if it is None:
            return []
        found = it.ensured()
        if it.owner and it.owner[1] == "impl" and " for " in it.owner[2]:
            stated = list(self.stated(name, it))
            found = [*(found or self.inherited(name, it) or ["ensures"] * (not stated)), *stated]
        return list(dict.fromkeys(found))

    def is_of_stranger(self, name, path):
        """Whether the function implements a method of a trait that isn't one of these crates': its
        clauses aren't known here."""
        it = self.function(name, path)
        is_impl = it and it.owner and it.owner[1] == "impl" and " for " in it.owner[2]
        return bool(is_impl and not it.ensured() and not self.inherited(name, it))

    def inherited(self, name, method):
        """The clauses of the trait's method that it implements, if the trait is one of these."""
        trait = re.split(r" for (?!<)", " ".join(method.owner[2].split()))[0]
        trait = re.sub(r"<.*", "", re.sub(r"^impl *(<.*?>)? *(?=\w+(<|$))", "", trait))
        trait = trait.split("::")[-1].strip().split()[-1]
        for crate in [name, *reversed(self.workspace.below(name))]:
            for source in self.sources(crate).values():
                for it in source.functions:
                    if it.owner and it.owner[1] == "trait" and it.owner[0] == trait:
                        if it.name == method.name:
                            return it.ensured()
        return []

    def stated(self, name, method):
        """The facts that an impl states of a method by ghost items, as `ghost add_gives = ..`."""
        for source in self.sources(name).values():
            if method in source.functions:
                for kind, _, text, _, owner in source.items:
                    found = kind == "ghost" and re.search(r"ghost\s+(\w+)\s*=", text)
                    if found and owner is not None and owner[2] == method.owner[2]:
                        if re.fullmatch(rf"{method.name}_(gives|law|of)", found[1]):
                            yield found[1]
