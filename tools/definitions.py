"""The page of definitions: those of specs/ that clauses of public functions cite, in the words of
the comments over them.

usage: python3 -m tools.definitions [--write]

--write  writes docs/DEFINITIONS.md anew. Without it the status is 1 where the page is another, and
         each definition that is cited and has no comment is named.

A clause that cites a ghost member of a trait cites what the trait's impls say of their members.
Beside the definitions that are cited stand those that these are said by, and those of the same
files that all of these are said by. A comment over several definitions, or over a module of
several, describes all of them.
"""
import functools
import re
import sys
import textwrap

from tools.names import is_shown
from tools.sources import sources_of
from tools.workspace import TOP, Workspace

PAGE = TOP / "docs" / "DEFINITIONS.md"
COLUMNS = 100
HEAD = """# Definitions

The definitions that the contracts of public functions cite, and those that these are made of, in
the words of the comments over them: `python3 -m tools.definitions --write` makes this page of the
files in `specs/`. `Module.name` under a crate's heading is the definition `name` of the crate's
file `specs/Module.antt`; a name without a module stands in the file of the name before it. What is
behind several names describes them in their order.
"""
USE = re.compile(r"\bghost\s+use\s+Rattle\.(\w+)\.specs\.([\w.]+?)\.\{([^}]*)\}")
OWN_USE = re.compile(r"(?m)^\s*(?:pub )?use Rattle\.(\w+)\.specs\.([\w.]+?)\.\{([^}]*)\}")
WORD = re.compile(r"[^\s(){}\[\],.;⟦⟧]+")
# A trait whose ghost member a clause may cite, and the trait of an impl.
QUOTED = re.compile(r"\bas (\w+)[^⟦⟧]*⟧")
OF_IMPL = re.compile(r"\b(\w+)(?:<(?:[^<>]|<[^<>]*>)*>)?\s+for\s")
DECLARED = re.compile(
    r"( *)(?:(?:abbrev|unfoldable|pub|record|data|opaque) +)*([A-Za-z_][\w-]*)(?= *[:({])"
)


class Group:
    """Definitions of a file under one comment."""

    def __init__(self, comment):
        self.comment, self.names = comment, []


class File:
    """A file of specs/: the comment at its top, its definitions by their comments, in order, and
    what each says."""

    def __init__(self, text, workspace):
        self.head, self.groups, self.said = None, [], {}
        self.imported = imported(OWN_USE, text, workspace)
        comment, current, is_open = [], "", False
        for line in text.split("\n"):
            if line.lstrip().startswith("--"):
                comment = comment if is_open else []
                comment.append(line.strip()[2:].strip())
                is_open = True
                continue
            if self.head is None:
                self.head, comment = paragraphs(comment), []
            name = declared_name(line)
            if re.match(r"\s*module\b", line) and not is_open:
                self.groups.append(Group(""))
            if name:
                if comment or not self.groups:
                    self.groups.append(Group(" ".join(comment)))
                if name not in self.said:
                    self.groups[-1].names.append(name)
                comment, current = [], name
            if current:
                self.said[current] = self.said.get(current, "") + f"{line}\n"
            is_open = False

    def with_own(self, names):
        """These names, and those of the file that they are said by, and so on."""
        found, left = set(), list(names)
        while left:
            name = left.pop()
            if name in self.said and name not in found:
                found.add(name)
                left += WORD.findall(self.said[name])
        return found


def declared_name(line):
    """The name that a line declares, or None."""
    found = DECLARED.match(line)
    if found and found[2] in ("record", "module", "let", "in"):
        return None
    if found and re.search(r"(^| )(pub|record|data)\b|^\s*[\w-]+ :", line):
        return None if re.match(r"\s*pub [\w-]+ :", line) else found[2]
    return None


def paragraphs(lines):
    """The paragraphs of a comment, each in one line."""
    text = "\n".join(lines)
    return [" ".join(it.split()) for it in re.split(r"\n\s*\n", text) if it.strip()]


def imported(use, text, workspace):
    """What a text imports of the crates' definitions, by the names that they have there."""
    found = {}
    for of, module, names in use.findall(text):
        for name in names.split(",") if of in workspace.lines else []:
            own, _, other = (it.strip() for it in name.partition(" as "))
            found[other or own] = (of, module, own)
    return found


def is_promised(kind, owner):
    """Whether an item is a law of a trait or a fact that always holds of a type."""
    return kind == "struct" or kind == "ghost" and owner is not None and owner[1] == "trait"


def implements(owner, traits):
    """Whether an item stands in an impl of one of the traits."""
    found = OF_IMPL.search(owner[2]) if owner and owner[1] == "impl" else None
    return found is not None and found[1] in traits


def clauses_shown(source):
    """The clauses of a file's public functions."""
    traits = {it[0] for _, _, _, _, it in source.items if it and it[1] == "trait"}
    shown = [it for it in source.functions if is_shown(it, traits)]
    return [text for it in shown for _, _, text in it.clauses]


def cited(workspace):
    """The definitions that clauses of public functions cite: a crate, a module and a name each."""
    crates = [it for it in workspace.names() if not it.startswith("test_")]
    sources = [it for name in crates for it in sources_of(workspace.folder(name)).values()]
    clauses = {source: clauses_shown(source) for source in sources}
    quoted = {it for texts in clauses.values() for text in texts for it in QUOTED.findall(text)}
    found = set()
    for source, texts in clauses.items():
        names = imported(USE, source.plain, workspace)
        for kind, _, text, _, owner in source.items:
            if is_promised(kind, owner) or kind == "ghost" and implements(owner, quoted):
                texts.append(text)
        words = {word for text in texts for word in WORD.findall(text)}
        # A name with a hyphen is a lemma's.
        found |= {names[it] for it in words if it in names and "-" not in it}
    return found


def item_of(module, group, names):
    """A line of the page's list: the names of a group that are shown, and its comment."""
    told = [f"`{module.split('.')[-1]}.{names[0]}`", *(f"`{it}`" for it in names[1:])]
    text = group.comment if group.comment.endswith(".") else f"{group.comment}."
    return filled(f"- {', '.join(told)}: {text}", "  ")


def filled(text, deeper=""):
    how = {"break_long_words": False, "break_on_hyphens": False, "subsequent_indent": deeper}
    return textwrap.fill(text, COLUMNS, **how)


class Files:
    """The files of specs/ of all crates, each read once."""

    def __init__(self, workspace):
        self.workspace = workspace
        self.file = functools.lru_cache(maxsize=None)(self.file)

    def file(self, crate, module):
        """A file, or None: what the kit makes of a type has none."""
        path = self.workspace.folder(crate) / "specs" / f"{module.replace('.', '/')}.antt"
        return File(path.read_text(encoding="utf-8"), self.workspace) if path.is_file() else None

    def shown(self, names):
        """These definitions, those of other files that they are said by, and those of the same
        files that all of these are said by, and so on."""
        found = {*names}
        for crate, module, name in names:
            file = self.file(crate, module)
            for own in file.with_own([name]) if file else []:
                words = WORD.findall(file.said[own])
                found |= {file.imported[it] for it in words if it in file.imported}
        for crate, module in {it[:2] for it in found}:
            if file := self.file(crate, module):
                of_file = [it[2] for it in found if it[:2] == (crate, module)]
                found |= {(crate, module, it) for it in file.with_own(of_file)}
        return found


def page():
    """The page's text."""
    workspace, parts = Workspace(), [HEAD]
    files = Files(workspace)
    every = files.shown(cited(workspace))
    for crate in workspace.names():
        lines = []
        for module in sorted({module for of, module, _ in every if of == crate}):
            items = []
            file = files.file(crate, module)
            for group in file.groups if file else []:
                names = [it for it in group.names if (crate, module, it) in every]
                items += [item_of(module, group, names)] if names and group.comment else []
            if items:
                lines.append("\n".join([*(f"{filled(it)}\n" for it in file.head[:1]), *items]))
        if lines:
            parts.append(f"## {crate}\n\n" + "\n\n".join(lines) + "\n")
    return "\n".join(parts)


def lacking():
    """The definitions that clauses cite and that no comment is over: the page leaves them out."""
    workspace = Workspace()
    files = Files(workspace)
    for crate, module, name in sorted(cited(workspace)):
        file = files.file(crate, module)
        if file and not any(name in it.names and it.comment for it in file.groups):
            yield f"{crate}: {module}.{name}"


def main(words):
    if words not in ([], ["--write"]):
        print(__doc__, end="", file=sys.stderr)
        return 2
    if words:
        PAGE.write_text(page(), encoding="utf-8")
        return 0
    is_same = PAGE.read_text(encoding="utf-8") == page()
    if not is_same:
        print("docs/DEFINITIONS.md is another: python3 -m tools.definitions --write")
    for name in lacking():
        print(f"no comment is over {name}")
    return 0 if is_same else 1


if __name__ == "__main__":
    sys.exit(main(sys.argv[1:]))
