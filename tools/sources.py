"""Reads .rt files: the functions of a crate by the names that a check prints, their contracts, and
the public items."""
import re

# A token, or a text, character or comment, of a file.
TOKEN = re.compile(
    r"""//[^\n]*|/\*.*?\*/|r?"(?:[^"\\]|\\.)*"|'(?:[^'\\\n]|\\[^\n]+?)'"""
    r"""|'?[A-Za-z_]\w*|\d\w*|->|=>|::|[^\w\s]""",
    re.S,
)
CLAUSE = re.compile(r"\b(requires|ensures)(\*?)(?: +([A-Za-z_]\w*))? *\{")
BEGINS_CLAUSE = re.compile(
    r"(?:\b(?:requires|ensures)\*?(?:\s+\w+)?|\bghost\s+\w+\s*:)\s*\Z"
)
# What the words of a built-in type are in the name of an impl.
BUILT_IN = {"()": "Unit"}


def is_comment(token):
    return token.startswith(("//", "/*"))


def is_silent(token):
    """Whether a token is a comment, a text or a character."""
    return is_comment(token) or re.fullmatch(r"""r?".*|'.+'""", token, re.S) is not None


def blank(text, is_blanked):
    """The text with spaces in place of the tokens of which this is true."""

    def spaces(found):
        return re.sub(r"[^\n]", " ", found[0]) if is_blanked(found[0]) else found[0]

    return TOKEN.sub(spaces, text)


def closing(text, at):
    """The place behind the bracket that closes the one at this place."""
    pairs, depth = {"{": "}", "(": ")", "[": "]", "<": ">"}, 0
    opens, closes = text[at], pairs[text[at]]
    for place in range(at, len(text)):
        if text[place] == opens:
            depth += 1
        elif text[place] == closes and not (closes == ">" and text[place - 1] in "-="):
            depth -= 1
            if not depth:
                return place + 1
    return len(text)


class Function:
    """A function of a crate, or a ghost clause of one."""

    def __init__(self, path, file, name, span, head, owner):
        self.path, self.file, self.name, self.span, self.owner = path, file, name, span, owner
        self.head = head
        self.clauses = clauses_of(head)
        self.body = None

    def ensured(self):
        """The names of the clauses that the function ensures; an unlabelled one is `ensures`."""
        return [label for kind, label, _ in self.clauses if kind == "ensures"]


def clauses_of(head):
    """The clauses of a contract: the kind, the label and the text of each."""
    found, at = [], 0
    while match := CLAUSE.search(head, at):
        end = closing(head, match.end() - 1)
        text = " ".join(head[match.end() : end - 1].split())
        found.append((match[1], match[3] or match[1], text))
        at = end
    return found


def parts_of(text):
    """The parts of a list between commas outside brackets."""
    found, depth, part = [], 0, ""
    for at, sign in enumerate(text):
        if sign in "<([{":
            depth += 1
        elif sign in ")]}" or sign == ">" and text[at - 1] not in "-=":
            depth -= 1
        if sign == "," and not depth:
            found.append(part.strip())
            part = ""
        else:
            part += sign
    return [it for it in [*found, part.strip()] if it]


def name_of_type(text, variables):
    """What stands for a type in the name of an impl: its name, behind that of its module where the
    path gives one, and those of what it is of that is no variable."""
    text = text.strip()
    text = re.sub(r"^&\s*(?:'\w+\s*)?(?:mut\b)?\s*", "", text)
    if text in BUILT_IN:
        return BUILT_IN[text]
    if text in variables:
        return ""
    if text.startswith("["):
        item, _, size = text[1:-1].partition(";")
        return f"Array{name_of_type(item, variables)}{size.strip()}" if size else "Slice"
    if text.startswith("("):
        parts = parts_of(text[1:-1])
        return f"Tuple{len(parts)}" + "".join(name_of_type(it, variables) for it in parts)
    head, _, rest = text.partition("<")
    path = [it.strip() for it in head.split("::")][-2:]
    name = "".join(it[:1].upper() + it[1:] for it in path if it not in ("crate", "self", "super"))
    inner = rest.rsplit(">", 1)[0] if rest else ""
    of = [it for it in parts_of(inner) if not it.startswith("'") and "=" not in it]
    return name + "".join(name_of_type(it, variables) for it in of)


def parts_of_impl(head):
    """Of an impl's head: its variables, its trait, which is empty where it is of none, and its
    type."""
    text = re.sub(r"^(?:unsafe )?impl\b ?", "", " ".join(head.split()))
    variables = set()
    if text.startswith("<"):
        end = closing(text, 0)
        for part in parts_of(text[1 : end - 1]):
            variables.add(re.match(r"(?:const )?('?\w+)", part)[1])
        text = text[end:].strip()
    text = re.split(r" where\b| ghost\b", text)[0].strip()
    trait, *own = re.split(r" for (?!<)", text)
    return (variables, trait.strip(), own[-1].strip()) if own else (variables, "", trait)


def owner_of(head):
    """What the items of an impl or a trait have before their names."""
    found = re.match(r"(?:pub(?:\([^)]*\))? )?(?:unsafe )?trait (\w+)", " ".join(head.split()))
    if found:
        return found[1]
    variables, trait, own = parts_of_impl(head)
    if not trait:
        head, _, rest = own.partition("<")
        words = re.findall(r"(?<!')\b\w+", re.sub(r"'\w+", "", rest))
        return "+".join([head.strip(), *words]) if {*words} - variables else head.strip()
    own_name = "Any" if own in variables else name_of_type(own, variables)
    head, _, rest = trait.partition("<")
    inner = [it for it in parts_of(rest.rsplit(">", 1)[0])] if rest else []
    heads = own.partition("<")[0].split("::")[-1]
    named = [it for it in inner if it.partition("<")[0].split("::")[-1] != heads]
    arguments = "".join(name_of_type(it, variables) for it in named if it[:1] != "'")
    return own_name + head.split("::")[-1].strip() + arguments


def module_of(path):
    """The modules of a file of src/, by its path there."""
    words = path[: -len(".rt")].split("/")
    if words[-1] in ("mod", "lib", "main"):
        words = words[:-1]
    return words


class Source:
    """A file of src/: its functions, and where each stands."""

    def __init__(self, path, text):
        self.path, self.text = path, text
        self.plain = blank(text, is_silent)
        self.functions, self.items = [], []
        self.read(0, len(self.plain), module_of(path), None, True)

    def read(self, at, end, modules, owner, is_outer):
        """Reads the items between two places."""
        plain = self.plain
        item = re.compile(
            r"\b(impl|trait|mod|fn|struct|enum|union|const|static|type|ghost|macro_rules)\b|[{};]"
        )
        start = at
        while at < end:
            found = item.search(plain, at, end)
            if not found:
                return
            word, place = found[0], found.start()
            if word in "};":
                at = start = found.end()
            elif word == "{":
                at = start = closing(plain, place)
            elif word in ("impl", "trait"):
                opens = plain.index("{", place)
                head = plain[place:opens]
                after = closing(plain, opens)
                self.note(word, start, plain[start:opens], modules, None)
                self.read(opens + 1, after - 1, modules, (owner_of(head), word, head), False)
                at = start = after
            elif word == "mod":
                name = re.match(r"mod\s+(\w+)\s*([{;])", plain[place:end])
                if name and name[2] == "{":
                    opens = plain.index("{", place)
                    after = closing(plain, opens)
                    self.read(opens + 1, after - 1, [*modules, name[1]], owner, True)
                    at = start = after
                else:
                    at = plain.index(";", place) + 1
                    start = at
            elif word == "fn":
                at = start = self.function(place, start, end, modules, owner)
            elif word in ("struct", "enum", "union", "const", "static", "type", "ghost"):
                at = self.skip_item(word, place, end)
                self.note(word, start, plain[start:at], modules, owner)
                if word == "const" and owner and owner[1] == "impl":
                    self.constant(place, (start, at), modules, owner)
                start = at
            else:
                at = found.end()

    def skip_item(self, word, place, end):
        """The place behind an item that is no function."""
        plain, at = self.plain, place
        if re.match(r"const\s+fn\b", plain[place:end]):
            return place + len("const")
        while at < end:
            sign = plain[at]
            if sign in "([":
                at = closing(plain, at)
            elif sign == "{":
                at = closing(plain, at)
                if word in ("struct", "enum", "union") or word == "ghost":
                    rest = plain[at:end].lstrip()
                    if word == "ghost" and rest[:1] == ";":
                        return plain.index(";", at) + 1
                    return at
            elif sign == ";":
                return at + 1
            else:
                at += 1
        return end

    def function(self, place, start, end, modules, owner):
        """Reads a function, and returns the place behind it."""
        plain = self.plain
        name = re.match(r"fn\s+(\w+)", plain[place:end])
        if not name:
            return place + 2
        at = place + name.end()
        body = None
        while at < end:
            sign = plain[at]
            if sign in "([":
                at = closing(plain, at)
            elif sign == ";":
                after = head_end = at + 1
                break
            elif sign == "{":
                if BEGINS_CLAUSE.search(plain, place, at):
                    at = closing(plain, at)
                else:
                    head_end, after = at, closing(plain, at)
                    body = (at, after)
                    break
            else:
                at += 1
        else:
            return end
        path = "::".join([*modules, *([owner[0]] if owner else []), name[1]])
        made = Function(path, self.path, name[1], (start, after), self.text[place:head_end], owner)
        made.is_public = bool(re.search(r"\bpub\b(?!\s*\()", plain[start:place]))
        made.is_test = "#[test]" in plain[start:place]
        made.body = body
        self.functions.append(made)
        return after

    def constant(self, place, span, modules, owner):
        """Notes a constant of an impl, which the prover treats as a function."""
        name = re.match(r"const\s+(\w+)", self.plain[place : span[1]])
        if name:
            path = "::".join([*modules, owner[0], name[1]])
            made = Function(path, self.path, name[1], span, "", owner)
            made.is_public = made.is_test = False
            self.functions.append(made)

    def note(self, kind, start, text, modules, owner):
        """Notes an item that is no function."""
        self.items.append((kind, start, text, modules, owner))

    def at(self, place):
        """The function that a place of the text is in, or None."""
        for it in self.functions:
            if it.span[0] <= place < it.span[1]:
                return it
        return None

    def at_line(self, number):
        """The path of the function that a line is of, which may be the first of its contract, or
        None."""
        lines = self.plain.split("\n")
        start = sum(len(it) + 1 for it in lines[: number - 1])
        here = len(lines[number - 1]) - len(lines[number - 1].lstrip())
        found = self.at(start + here)
        return found.path if found else None


def sources_of(folder):
    """The files of a crate's src/, by their paths there."""
    found = {}
    top = folder / "src"
    for path in sorted(top.rglob("*.rt")):
        inside = path.relative_to(top).as_posix()
        found[inside] = Source(inside, path.read_text(encoding="utf-8"))
    return found
