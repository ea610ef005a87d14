"""What some text of a crate can use of the crate and of those below it, item by item.

An item of a file of src/ is a function's signature with its contract, whose body no other can see,
or a type, a trait, an impl, a constant, a ghost member; of a file of specs/ it is what stands
between blank lines, with the heads of the sections around it. A text reaches the items that it
names, and those that an item that it reaches names:

- a function, a type, a constant or a definition by its name. A field needs no name: its value comes
  from a signature, which names the type.
- a trait by its name, and its members with it: nothing names a law.
- an impl by the types of these crates that it is for; or by its trait, where it is for none of
  them, but for `Vec<T>` or any type. What it implements of a trait comes with it: nothing names the
  function that `+` or `?` calls. Its other items are named by their own names besides.

Names are compared as words alone, and with the words that a file's `use` lines rename, so a text
may reach more than it uses, and nothing less.
"""
import functools
import hashlib
import re

from tools.sources import Source, blank, is_comment, owner_of, parts_of_impl

WORD = re.compile(r"[^\W\d][\w-]*")
# What use lines rename, and what they bring of a type, a trait or an impl into specs/.
RENAMED = re.compile(r"([\w.:-]+) as ([\w-]+)")
OF_SOURCE = re.compile(r"\.(?:declared|contracts)\.([^\s{;]+)(.*)")

DECLARED_RT = re.compile(r"\b(?:struct|enum|union|trait|type|const|static|ghost)\s+(\w+)")
# What lets a file of src/ use items that it doesn't name.
UNNAMED = re.compile(r"\bmacro_rules!|\buse\s[^;]*::\s*\*|\bfor\s*<[^'>]*\bas\s")

# Lines of a file of specs/ that say nothing: comments, imports, modules.
SILENT = re.compile(r"\s*(?:--|(?:unfoldable )?(?:pub )?use\b|(?:pub )?mod \w+)")
SECTION = re.compile(r"^( *)module _.*?\bwhere$", re.M | re.S)
DECLARED = re.compile(
    r" *(?:(?:pattern|abbrev|unfoldable|axiom|pub|record|data|opaque|ruleset) +)*(\S+)"
)
# What declares more names than those that begin its lines, and what begins lines and is no name.
BLOCK = re.compile(r" *(?:pub +)?(?:data|mutual)\b")
NO_NAMES = {"open", "unfolding", "infix", "infixl", "infixr"}


class Item:
    """Some text of a file, the names by which it is reached, and the impl that it is of."""

    def __init__(self, kind, place, text, words, names, impl=None):
        self.kind, self.place, self.text = kind, place, " ".join(text.split())
        self.words, self.names, self.impl = frozenset(words), frozenset(names), impl


class Impl:
    """An impl: the words of the type that it is for and of its trait, but for its variables, and
    its name in specs/."""

    def __init__(self, head, said):
        variables, self.trait, own = parts_of_impl(head)
        self.own = said(re.sub(r"'\w+", "", own)) - variables
        self.of_trait = said(self.trait) - variables
        self.name = owner_of(head)


def saying(uses):
    """What tells what a text of a file says: its words, and what those stand for by these use
    lines of the file."""
    meant = {}
    for line in uses:
        for old, new in RENAMED.findall(line):
            meant.setdefault(new, set()).update(WORD.findall(old)[-1:])
        for path, names in OF_SOURCE.findall(line):
            of = {it for it in path.split(".") if it[:1].isupper()}
            for name in {*WORD.findall(path)[-1:], *WORD.findall(names)} - {"as"}:
                meant.setdefault(name, set()).update(of)

    def said(text):
        words = {*WORD.findall(text)}
        return words.union(*(meant.get(it, ()) for it in words))

    return said


def renamed(place, uses):
    """The items that stand for the new names that use lines give, which other files may say."""
    for old, new in [pair for line in uses for pair in RENAMED.findall(line)]:
        yield Item("use", place, f"{old} as {new}", WORD.findall(old)[-1:], [new])


def items_of_source(place, text):
    """The items of a file of src/."""
    source, uncommented = Source(place, text), blank(text, is_comment)
    if unnamed := UNNAMED.search(source.plain):
        raise ValueError(f"{place} may use what it doesn't name, by `{unnamed[0]}`")
    uses = re.findall(r"(?:ghost )?\buse\b[^;]*;", " ".join(source.plain.split()))
    said = saying(uses)

    def item(kind, start, end, names, owner):
        words, impl = said(source.plain[start:end]), None
        if owner:
            kind, impl = "member", Impl(owner[2], said) if owner[1] == "impl" else None
            names = [owner[0]] if not impl else [] if impl.trait else names
        return Item(kind, place, uncommented[start:end], words, names, impl)

    for it in source.functions:
        yield item("fn", it.span[0], it.body[0] if it.body else it.span[1], [it.name], it.owner)
    for kind, start, plain, _, owner in source.items:
        if kind == "impl":
            impl = Impl(plain[re.search(r"\bimpl\b", plain).start() :], said)
            yield Item(kind, place, plain, said(plain), [], impl)
        elif not re.match(r"\s*(?:pub(?:\(\w+\))?\s+)?ghost\s+use\b", plain):
            yield item(kind, start, start + len(plain), DECLARED_RT.findall(plain)[:1], owner)
    yield from renamed(place, [it for it in uses if not it.startswith("ghost")])


def indent_of(line):
    return len(line) - len(line.lstrip())


def parts_of_specs(text):
    """The parts of a file of specs/ between blank lines, each as the heads of the sections that it
    stands in, and its lines, none of which is left of the first."""
    text = "\n".join(it.rstrip() for it in text.split("\n") if not SILENT.match(it))
    text = SECTION.sub(lambda it: f"\n{it[1]}{' '.join(it[0].split())}\n", text)
    heads, part = [], []
    for line in [*text.split("\n"), ""]:
        if part and (not line or indent_of(line) < indent_of(part[0])):
            yield heads, part
            part = []
        if line and not part:
            heads = [it for it in heads if indent_of(it) < indent_of(line)]
        if SECTION.match(line):
            heads = [*heads, line]
        elif line:
            part.append(line)


def names_of_specs(part):
    """The names that the lines of a part declare; none where one is an operator, which is no word,
    so that every text reaches the part."""
    if any(BLOCK.match(it) for it in part):
        return {*WORD.findall(" ".join(part))}
    first = [DECLARED.match(it)[1] for it in part if indent_of(it) == indent_of(part[0])]
    if any("◌" in it for it in first):
        return set()
    return {word for it in first for word in WORD.findall(it)[:1]} - NO_NAMES


def items_of_specs(place, text):
    """The items of a file of specs/."""
    uses = [it.strip() for it in text.split("\n") if re.match(r"\s*(?:\w+ )*use\b", it)]
    said = saying(uses)
    for heads, part in parts_of_specs(text):
        whole = "\n".join([*heads, *part])
        yield Item("specs", place, whole, said(whole), names_of_specs(part))
    yield from renamed(place, [it for it in uses if "pub " in it.partition("use")[0]])


@functools.lru_cache(maxsize=None)
def items_of(workspace, name):
    """The items of a crate."""
    found = []
    for path in workspace.sources(name, ("specs", "src")):
        place = f"{name}/{path.relative_to(workspace.folder(name))}"
        read = items_of_source if path.suffix == ".rt" else items_of_specs
        found += read(place, workspace.text(path))
    return found


class Reach:
    """The items of crates that some words reach."""

    def __init__(self, workspace, names):
        self.items = [it for name in names for it in items_of(workspace, name)]
        self.types, self.aliases, self.keys, self.of_word = set(), {}, {}, {}
        for item in self.items:
            self.types |= item.names if item.kind in ("struct", "enum", "union") else set()
            for name in item.names if item.kind == "type" else ():
                self.aliases.setdefault(name, set()).update(item.words)
        for item in self.items:
            self.keys[item] = self.keys_of(item)
            for word in set().union(*self.keys[item]):
                self.of_word.setdefault(word, []).append(item)

    def behind(self, words):
        """Words, and those that aliases among them stand for."""
        more = words.union(*(self.aliases.get(it, ()) for it in words))
        return more if more == words else self.behind(more)

    def keys_of(self, item):
        """Sets of words: a text that says one of each reaches the item."""
        keys = [item.names] if item.names else []
        if impl := item.impl:
            types = (impl.own & self.types) - self.aliases.keys()
            types = types or impl.of_trait | (self.behind(impl.own) & self.types)
            keys.append(types | {impl.name})
        return keys

    def reached(self, words):
        """The items that these words reach, and those that need no word."""
        found = {it for it in self.items if not self.keys[it]}
        said, left = set(), {*words}.union(*(it.words for it in found))
        while left:
            said |= left
            near = {it for word in left for it in self.of_word.get(word, ())} - found
            new = {it for it in near if all(key & said for key in self.keys[it])}
            found |= new
            left = set().union(*(it.words for it in new)) - said
        return [it for it in self.items if it in found]


@functools.lru_cache(maxsize=None)
def reach_of(workspace, name):
    """The items of a crate and of those below it."""
    return Reach(workspace, workspace.below(name))


@functools.lru_cache(maxsize=None)
def sum_reached(workspace, name, words):
    """The sum of what these words of a crate reach, in the order of their places."""
    given = hashlib.sha256()
    for item in sorted(reach_of(workspace, name).reached(words), key=lambda it: it.place):
        given.update(f"\0{item.place}\0{item.text}".encode())
    return given.hexdigest()
