#!/usr/bin/env python3
"""Breaks the lines of .antt files that pass 100 columns.

usage: python3 -m tools.antt_layout [--check] [FILE..]

Without files all that git knows of. A `use` line becomes several, a comment is wrapped, and any
other line goes on below, four columns further in: where the fewest brackets are open, behind `=`,
`in` or `,`, or else before an operator. No token changes. An import of one name stays as long as
the name is. With --check it changes nothing. Names each other line that still passes 100 columns,
and ends with status 1 where there is one.
"""
import os
import re
import subprocess
import sys

COLUMNS = 100
DEEPER = 4
OPEN, CLOSE = "([{⟦", ")]}⟧"
OPERATORS = {"∙", "→", "×", "⊎", "++", "+", "≡", "∷", "&&", "||", "∘", "|"}
ENDS = ("=", "in", ",", ";", "→")
IMPORT = re.compile(r"(?:pub )?use [^ {]*(?: as \w+|\{[^,{}]*\})")
# What no line begins with, and what none ends with.
UNBROKEN = ("=", "in", ":", ")", "as", "→")
BOUND = ("λ", "(λ", "let", "(let", "¬", ":")


def pieces_of(text):
    """The parts of a line between spaces, a quoted text being one, each with the number of brackets
    that are open before it."""
    found, depth, at = [], 0, 0
    for match in re.finditer(r'(?:"(?:[^"\\]|\\.)*"|[^\s"])+', text):
        piece = match[0]
        found.append((piece, depth))
        code = re.sub(r'"(?:[^"\\]|\\.)*"', "", piece)
        depth += sum(code.count(it) for it in OPEN) - sum(code.count(it) for it in CLOSE)
    return found


def cost(pieces, place, column):
    """What a break before this piece costs, where the line before it ends in this column."""
    piece, depth = pieces[place]
    before = pieces[place - 1][0]
    total = 10 * depth + (COLUMNS - column) / 8
    if before.endswith(ENDS):
        total -= 8
    elif piece in OPERATORS:
        total -= 6
    if piece in OPERATORS and ("=", depth) in pieces[place:]:
        # (the operator stands in the type of what is defined)
        total += 12
    if piece in UNBROKEN or before in BOUND:
        total += 60
    return total


def broken(text, indent):
    """The lines of a piece of code that passes the columns, or None where it can't be broken."""
    pieces, lines, start = pieces_of(text), [], 0
    if "--" in [piece for piece, _ in pieces] or "do" in [piece for piece, _ in pieces]:
        return None
    while start < len(pieces):
        margin = indent + (DEEPER if lines else 0)
        column, best, least = margin, None, None
        for place in range(start, len(pieces)):
            column += len(pieces[place][0]) + (place > start)
            if column > COLUMNS:
                break
            if place + 1 == len(pieces):
                best = len(pieces)
                break
            price = cost(pieces, place + 1, column)
            if least is None or price <= least:
                best, least = place + 1, price
        if best is None:
            return None
        lines.append(" " * margin + " ".join(piece for piece, _ in pieces[start:best]))
        start = best
    return lines


def use_lines(text):
    """The lines of an import of many names, or None where one doesn't fit."""
    match = re.fullmatch(r"((?:pub )?use [^{]*\{)(.*)\}", text)
    if not match:
        return None
    lines, names = [], []
    for name in re.split(r",\s*", match[2]):
        if names and len(match[1]) + len(", ".join([*names, name])) + 1 > COLUMNS:
            lines.append(match[1] + ", ".join(names) + "}")
            names = []
        names.append(name)
    return [*lines, match[1] + ", ".join(names) + "}"]


def comment_lines(text, indent):
    """The lines of a comment."""
    head, lines, line = " " * indent + "--", [], ""
    for word in text[2:].split():
        if line and len(head) + 1 + len(line) + 1 + len(word) > COLUMNS:
            lines.append(f"{head} {line}")
            line = ""
        line = f"{line} {word}".strip()
    return [*lines, f"{head} {line}"]


def laid_out(line):
    """The lines that a line becomes."""
    indent = len(line) - len(line.lstrip(" "))
    text = line.strip()
    if len(line) <= COLUMNS:
        return [line]
    if text.startswith("--"):
        return comment_lines(text, indent)
    if text.startswith(("use ", "pub use ")):
        return use_lines(text) or [line]
    return broken(text, indent) or [line]


def too_long(lines):
    """A fault for each of a file's lines that passes the columns, but for an import of one name."""
    for number, line in enumerate(lines, 1):
        if len(line) > COLUMNS and not IMPORT.fullmatch(line):
            yield f"{number}: it has {len(line)} columns"


def main(args):
    is_check = "--check" in args
    files = [arg for arg in args if not arg.startswith("--")]
    if not files:
        words = ["git", "ls-files", "--cached", "--others", "--exclude-standard", "*.antt"]
        files = subprocess.run(words, check=True, stdout=subprocess.PIPE, text=True).stdout.split()
    left = 0
    for path in (path for path in files if os.path.isfile(path)):
        with open(path, encoding="utf-8") as file:
            old = file.read().split("\n")
        new = old if is_check else [it for line in old for it in laid_out(line)]
        if new != old:
            with open(path, "w", encoding="utf-8") as file:
                file.write("\n".join(new))
        for fault in too_long(new):
            left += 1
            print(f"{path}:{fault}")
    print(f"{left} lines pass {COLUMNS} columns")
    return 1 if left else 0


if __name__ == "__main__":
    sys.exit(main(sys.argv[1:]))
