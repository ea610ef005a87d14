"""The public names of the crates, with the contracts of their functions."""
import re

from tools.sources import clauses_of, parts_of, sources_of

PUBLIC = re.compile(r"\bpub\b(?!\s*\()")


class Name:
    """A public name of a crate: its kind, the name, behind its type's or trait's, and its clauses.
    """

    def __init__(self, crate, kind, name, clauses=()):
        self.crate, self.kind, self.name = crate, kind, name
        self.clauses = tuple(f"{kind} {label}: {text}" for kind, label, text in clauses)

    def key(self):
        return f"{self.kind} {self.name}"

    def lines(self):
        return [self.key(), *(f"    {it}" for it in self.clauses)]


def used_names(text):
    """The names that a `pub use` shows."""
    tree = text.split("use", 1)[1].rstrip("; \n")
    if "{" in tree:
        inner = tree[tree.index("{") + 1 : tree.rindex("}")]
        for part in parts_of(inner):
            yield from used_names(f"use {part}")
    else:
        yield re.split(r"::| as ", " ".join(tree.split()))[-1].strip()


def variants(text):
    """The variants of an enum."""
    body = re.sub(r"#\s*\[[^\]]*\]", "", text[text.index("{") + 1 : text.rindex("}")])
    for part in parts_of(body):
        if found := re.match(r"\s*(\w+)", part):
            yield found[1]


def is_shown(function, public_traits):
    """Whether callers can reach a function: it is public, of a public trait, or implements a method
    of a trait by clauses of its own."""
    if function.is_test or function.is_public or not function.owner:
        return function.is_public and not function.is_test
    owner, kind, head = function.owner
    if kind == "trait":
        return owner in public_traits
    return " for " in " ".join(head.split()) and bool(function.clauses)


def names_of(workspace, crate):
    """The public names of a crate, in order."""
    found = []
    for source in sources_of(workspace.folder(crate)).values():
        traits = set()
        for kind, _, text, _, owner in source.items:
            name = re.search(rf"\b{kind}\s+(?:mut\s+)?(\w+)", text)
            if owner is not None or not name or not PUBLIC.search(text[: name.start()]):
                continue
            traits |= {name[1]} if kind == "trait" else set()
            found.append(Name(crate, kind, name[1]))
            if kind == "enum":
                found += [Name(crate, "variant", f"{name[1]}::{it}") for it in variants(text)]
        for it in source.functions:
            if is_shown(it, traits):
                of = f"{it.owner[0]}::" if it.owner else ""
                found.append(Name(crate, "fn", f"{of}{it.name}", clauses_of(it.head)))
        for used in re.finditer(r"(?m)^\s*pub\s+use\b[^;]*;", source.plain):
            found += [Name(crate, "use", it) for it in used_names(used[0])]
    return sorted(found, key=lambda it: (it.key(), it.clauses))
