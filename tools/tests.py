"""What a test names of its crate, and whether an assertion of it can fail.

A text names the free functions, constants, types and macros of its own file and of those of the
crate from which the file's `use` takes them, by their names or behind a module's; and the methods
that it calls of types of the crate that it names. What these name counts too.
"""
import functools
import re

from tools.sources import Source, blank, closing, is_comment, module_of

MACRO = re.compile(r"\bmacro_rules!\s*(\w+)\s*\{")
DECLARED = re.compile(r"\b(?:const|static|struct|enum|union|trait|type)\s+(?:mut\s+)?(\w+)")
PATH = re.compile(r"(?:\b\w+\s*::\s*)*\b[A-Za-z_]\w*\b")
WORD = re.compile(r"\w+")
METHOD = re.compile(r"(?:\.|::)\s*([A-Za-z_]\w*)")
USE = re.compile(r"(?<!ghost )\buse\s+([^;]+);")
ASSERTION = re.compile(r"\b(?:debug_)?(?:assert|assert_eq|assert_ne|expect)!\s*\(")


class Item:
    """Something that a file declares: its text without comments, and that without texts too."""

    def __init__(self, file, source, name, span, body=None, head=None):
        self.file, self.name, self.head = file, name, head
        self.span, self.body = span, body
        self.text = source.uncommented[span[0] : span[1]]
        self.plain = source.plain[span[0] : span[1]]

    @functools.cached_property
    def assertions(self):
        """Of each assertion, whether it can't fail."""
        given = [
            self.text[found.end() : closing(self.plain, found.end() - 1) - 1]
            for found in ASSERTION.finditer(self.plain)
        ]
        return [is_always_true(*parts_of(it)) for it in given]

    @functools.cached_property
    def joined(self):
        """Its text with one space between words."""
        return " ".join(self.text.split())

    def tries(self):
        """Whether it is a function that has an assertion, or a `?`."""
        start, end = (it - self.span[0] for it in self.body or self.span[:1] * 2)
        return bool(self.assertions) or "?" in self.plain[start:end]


def split_at(text, mark):
    """The parts of a text between marks outside brackets and texts."""
    plain, parts, depth, start = blank(text, lambda it: it[0] in "r\"'"), [], 0, 0
    for at, sign in enumerate(plain):
        depth += (sign in "([{") - (sign in ")]}")
        if not depth and plain.startswith(mark, at) and at >= start:
            parts.append(" ".join(text[start:at].split()))
            start = at + len(mark)
    return [*parts, " ".join(text[start:].split())]


def parts_of(arguments):
    """The arguments of an assertion, but for the runtime before a semicolon."""
    return [it for it in split_at(split_at(arguments, ";")[-1], ",") if it]


def is_always_true(condition, *others):
    """Whether an assertion of this, or that this equals the first of the others, can't fail."""
    while condition.startswith("(") and closing(condition, 0) == len(condition):
        condition = condition[1:-1].strip()
    if others and condition == others[0] or condition in ("true", "!false"):
        return True
    for mark, among in (("||", any), ("&&", all)):
        if len(parts := split_at(condition, mark)) > 1:
            return among(is_always_true(it) for it in parts)
    if condition.startswith("matches!(") and closing(condition, 8) == len(condition):
        return split_at(condition[9:-1], ",")[1:2] == ["_"]
    sides = [split_at(condition, mark) for mark in ("==", "<=", ">=")]
    return any(len(it) == 2 and it[0] == it[1] for it in sides)


def used(tree, path=()):
    """The names that a `use` brings, each with its path; `*` stands for all of a module."""
    for part in split_at(tree, ","):
        if opens := part.find("{") + 1:
            inner = part[opens : closing(part, opens - 1) - 1]
            yield from used(inner, (*path, *words_of(part[: opens - 1])))
        elif part:
            real, _, name = part.partition(" as ")
            words = (*path, *words_of(real))
            words = words[:-1] if words[-1:] == ("self",) else words
            yield (name or words[-1]).strip(), words


def words_of(path):
    """The words of a path."""
    return [it.strip() for it in path.split("::") if it.strip()]


class File:
    """A file of a crate: what it declares, and what its `use`s bring."""

    def __init__(self, path, text):
        self.path, self.source = path, Source(path, text)
        self.source.uncommented = blank(text, is_comment)
        self.modules, self.items, self.methods = module_of(path), {}, []
        for it in self.source.functions:
            made = Item(self, self.source, it.name, it.span, it.body, it.owner and it.owner[2])
            if it.owner:
                self.methods.append(made)
            else:
                self.items.setdefault(it.name, []).append(made)
        for _, start, plain, _, owner in self.source.items:
            if not owner and (found := DECLARED.search(plain)):
                self.add(found[1], (start, start + len(plain)))
        for found in MACRO.finditer(self.source.plain):
            self.add(found[1], (found.start(), closing(self.source.plain, found.end() - 1)))
        uses = USE.findall(self.source.plain)
        self.uses = [it for use in uses for it in used(use)]

    def add(self, name, span):
        self.items.setdefault(name, []).append(Item(self, self.source, name, span))


@functools.cache
def file_of(path, text):
    """A file, read once."""
    return File(path, text)


class Crate:
    """The files of a crate's src/, of these texts by their paths there."""

    def __init__(self, texts):
        self.files = {path: file_of(path, text) for path, text in texts.items()}
        self.of_module = {tuple(it.modules): it for it in self.files.values()}
        self.types, self.methods, self.kept = set(), {}, {}
        for file in self.files.values():
            self.types |= {*file.items}
            for it in file.methods:
                self.methods.setdefault(it.name, []).append(it)

    def module(self, file, words):
        """The path of a module of the crate, by what a file says."""
        words, base = list(words), list(file.modules)
        if words[:1] == ["crate"]:
            return tuple(words[1:])
        while words[:1] in (["self"], ["super"]):
            base = base[:-1] if words.pop(0) == "super" else base
        return (*base, *words)

    def declared(self, file, words, seen=()):
        """The items that a path names in a file."""
        *before, name = words
        if before:
            found = self.of_module.get(self.module(file, before))
            for own, path in file.uses:
                if own == before[0]:
                    found = found or self.of_module.get(self.module(file, [*path, *before[1:]]))
            return self.declared(found, [name], (*seen, file)) if found else []
        if name in file.items:
            return file.items[name]
        for own, path in file.uses:
            if own in (name, "*") and path[0] in ("crate", "self", "super"):
                words = (*path[:-1], name) if own == "*" else path
                found = self.of_module.get(self.module(file, words[:-1]))
                if found and found not in seen:
                    if items := self.declared(found, [words[-1]], (*seen, file)):
                        return items
        return []

    def reached(self, item):
        """The item, and what it names."""
        if item not in self.kept:
            self.kept[item] = self.named_by(item)
        return self.kept[item]

    def named_by(self, item):
        """The item, and what it names, looked up."""
        found, left, said, called = {}, [item], set(), {}
        while left:
            it = left.pop()
            if it in found:
                continue
            found[it] = None
            said |= {*WORD.findall(it.plain)}
            for path in {*PATH.findall(it.plain)}:
                words = words_of(path)
                for end in range(1, len(words) + 1):
                    for start in range(end):
                        left += self.declared(it.file, words[start:end])
            for name in METHOD.findall(it.plain):
                called.update(dict.fromkeys(self.methods.get(name, [])))
            left += [it for it in called if {*WORD.findall(it.head)} & said & self.types]
        return list(found)

    def test(self, path, name):
        """The test of this name in a file, or None."""
        file = self.files[path]
        is_test = {it.span for it in file.source.functions if it.is_test}
        return next((it for it in file.items.get(name, []) if it.span in is_test), None)
