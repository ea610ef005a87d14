"""Has the prover try mutants, and reads from what it says which clause refuses each."""
import hashlib
import os
import pathlib
import re
import shutil
import tempfile

from tools import kit
from tools.mutants import Unfit
from tools.reach import WORD, sum_reached
from tools.sources import Source

# A goal that the prover left: by a note, with the place in src/; by the line of its function; and
# by an error in a file of its proof.
NOTE = re.compile(r"note: (?:\./)?src/(\S+?):(\d+):\d+: .*?\(`([^`]+)`\)")
UNTRIED = re.compile(r"`search` did not prove ((?:`[^`]+`(?:, | and )?)+)")
ERROR = re.compile(r"(?:\./)?proofs/(\S+)/(?:Answers|Invariants|Proof)\.antt:\d+:\d+: error: (.*)")
# An answer that names what the mutant took away says nothing of its goal.
TAKEN_AWAY = re.compile(r"has no field|is not in scope|has no `|was not admitted|not found")

# What begins the detail of a verdict by another clause.
CLAUSE = "clause"
REFUSED, ELSEWHERE, PROVED, UNJUDGED = "refused", "elsewhere", "PROVED", "not judged"


class Verdict:
    """What became of a mutant: a word, and the clause or the goals that decided it."""

    def __init__(self, word, detail=""):
        self.word, self.detail = word, " ".join(detail.split())

    def __str__(self):
        return f"{self.word}: {self.detail}" if self.detail else self.word

    @classmethod
    def read(cls, text):
        word, _, detail = text.partition(": ")
        return cls(word, detail)


def clause_of(goal):
    """The clause of its function's contract that a goal is, `*` for the whole contract, or None
    where it is of a call, a loop, a bound or a type."""
    if goal.split("-")[0] != "returns":
        return None
    named = re.search(r"-clause-(\w+)$", goal)
    return named[1] if named else "*"


class Said:
    """What a check said of each function of a crate, whose files have these texts. It prints some
    functions under other names than the paths of their files."""

    def __init__(self, crate, text, texts, printed):
        self.told, self.goals, self.broken = {}, {}, set()
        self.lines = text.rstrip().split("\n")
        self.is_whole = re.fullmatch(r"only=\d+ proved=\d+", self.lines[-1]) is not None
        sources = {}
        for line in self.lines:
            if note := NOTE.match(line):
                if note[1] not in sources:
                    sources[note[1]] = Source(note[1], texts(f"src/{note[1]}"))
                source = sources[note[1]]
                self.add(source.at_line(int(note[2])), note[3])
            elif error := ERROR.match(line):
                name = error[1].replace("/", "::").replace("::+", "::")
                self.add_error(printed.get(name, name), error[2])
            elif told := re.match(rf"fn {crate}::(\S+): (.*)", line):
                name = printed.get(told[1], told[1])
                self.told[name] = told[2]
                if untried := UNTRIED.search(told[2]):
                    for goal in re.findall("`([^`]+)`", untried[1]):
                        self.add(name, goal)

    def add(self, function, goal):
        goals = self.goals.setdefault(function, [])
        if goal not in goals:
            goals.append(goal)

    def add_error(self, function, text):
        """Notes an error in a file of a function's proof, which begins with the goal."""
        named = re.match(r"`([^`]+)`: (.*)", text)
        if named and not TAKEN_AWAY.search(named[2]):
            self.add(function, named[1])
        else:
            self.broken.add(function)

    def first_error(self):
        """The first line that the compiler refused, or the last line."""
        errors = [it for it in self.lines if re.match(r"\S+\.rt:\d+:\d+: error", it)]
        return (errors or [*self.lines[-1:]])[0][:200]

    def verdict(self, mutant, clauses):
        """What it says of a mutant, whose function ensures these clauses."""
        told = self.told.get(mutant.function)
        if told is None:
            return Verdict(UNJUDGED, self.first_error())
        if told.startswith("proved"):
            return Verdict(PROVED)
        goals = self.goals.get(mutant.function, [])
        if not goals or "could not tell" in told:
            is_broken = mutant.function in self.broken
            return Verdict(UNJUDGED, "a proof names what is gone" if is_broken else told[:200])
        found = {clause_of(goal) for goal in goals} - {None}
        if mutant.clause in found or "*" in found and clauses == [mutant.clause]:
            return Verdict(REFUSED, mutant.clause)
        if mutant.goal and mutant.goal in goals:
            return Verdict(REFUSED, mutant.goal)
        if found == {"*"}:
            return Verdict(REFUSED, "the whole contract")
        if others := sorted(found - {"*"}):
            return Verdict(ELSEWHERE, f"{CLAUSE} {' '.join(others)}")
        return Verdict(ELSEWHERE, " ".join(goals))


def rounds_of(mutants):
    """Divides a crate's mutants into rounds, each of which turns a function once. Each round is a
    list of mutants, with the texts that all of them make."""
    left = list(mutants)
    while left:
        texts, taken, later, functions = {}, [], [], set()
        for mutant in left:
            try:
                if mutant.function in functions:
                    raise Unfit("another mutant turns its function")
                texts = mutant.applied(texts)
                functions.add(mutant.function)
                taken.append(mutant)
            except Unfit:
                if not taken:
                    raise
                later.append(mutant)
        yield taken, texts
        left = later


def link_or_copy(one, other):
    """Gives a checked file a second name: the prover writes such a file anew, and never into it."""
    try:
        return os.link(one, other)
    except OSError:
        return shutil.copy2(one, other)


def copy_kept(workspace, name, to):
    """Copies what `rt check` kept of the crate, so that what isn't turned isn't checked again."""
    kept = workspace.folder(name) / "out" / "incremental"
    if kept.is_dir():
        shutil.copytree(kept, to, copy_function=link_or_copy)
    else:
        os.makedirs(to)


def judge(workspace, contracts, name, mutants, texts, kept):
    """Tries mutants of different functions at once, and yields each with its verdict. What the run
    leaves open is tried in halves."""
    printed = {contracts.printed(name, mutant.function): mutant.function for mutant in mutants}
    with tempfile.TemporaryDirectory(prefix="circle-mutants-") as room:
        room = pathlib.Path(room, name)
        _, text = kit.checked(workspace, name, texts, printed, room, kept)
        said = Said(name, text, lambda path: (room / path).read_text(encoding="utf-8"), printed)
    open_ones = []
    for mutant in mutants:
        verdict = said.verdict(mutant, contracts.clauses(name, mutant.function))
        if verdict.word == UNJUDGED and len(mutants) > 1:
            open_ones.append(mutant)
        else:
            yield mutant, verdict
    if not open_ones:
        return
    half = len(open_ones) // 2 if len(open_ones) == len(mutants) else len(open_ones)
    for part in (open_ones[:half], open_ones[half:]):
        again = {}
        for mutant in part:
            again = mutant.applied(again)
        if part:
            yield from judge(workspace, contracts, name, part, again, kept)


def without_comments(path):
    """A file's lines but for those that are comments."""
    mark = "--" if path.suffix == ".antt" else "//"
    lines = path.read_text(encoding="utf-8").split("\n")
    return "\n".join(it for it in lines if it.strip() and not it.lstrip().startswith(mark))


def sum_of(workspace, mutant, source):
    """What a verdict on a mutant rests on: its text, the files that it turns and its function's
    file, and what these can use of the crate and of those below it, but for comments."""
    given, words = hashlib.sha256(mutant.text.encode()), {*WORD.findall(mutant.text)}
    turned = {path for path, _, _ in mutant.pairs()} | ({f"src/{source}"} if source else set())
    for path in sorted(turned):
        text = without_comments(mutant.crate_folder / path)
        given.update(f"\0{path}\0{text}".encode())
        words.update(WORD.findall(text))
    given.update(f"\0{sum_reached(workspace, mutant.crate, frozenset(words))}".encode())
    return given.hexdigest()[:16]


class Record:
    """The verdicts on a crate's mutants that are committed with it, in mutants/judged.txt."""

    HEAD = "# What refuses each mutant, by bin/mutants: name, function, clause, verdict, sum.\n"

    def __init__(self, workspace, name):
        self.path = workspace.folder(name) / "mutants" / "judged.txt"
        self.rows, self.new = self.read(), {}

    def read(self):
        """The rows of the file: a function, a clause, a verdict and a sum by the mutant's name."""
        found = {}
        lines = self.path.read_text(encoding="utf-8").splitlines() if self.path.exists() else []
        for line in lines:
            if line and not line.startswith("#"):
                mutant, function, clause, verdict, given = line.split(" | ")
                found[mutant] = (function, clause, Verdict.read(verdict), given)
        return found

    def verdict(self, mutant, given):
        """The verdict on a mutant whose sum is this, or None."""
        row = self.rows.get(mutant.name.split("/")[1])
        return row[2] if row and row[3] == given else None

    def put(self, mutant, verdict, given):
        """Takes a verdict in, beside what another run may have written meanwhile."""
        name = mutant.name.split("/")[1]
        self.new[name] = (mutant.function, mutant.clause, verdict, given)
        self.rows = {**self.read(), **self.new}
        self.write()

    def drop_all_but(self, names):
        """Drops the verdicts on mutants that aren't there."""
        rows = {**self.read(), **self.new}
        self.rows = {name: row for name, row in rows.items() if name in names}
        if self.rows or self.path.exists():
            self.write()

    def write(self):
        rows = sorted(self.rows.items())
        lines = [" | ".join([name, *map(str, row)]) + "\n" for name, row in rows]
        self.path.write_text(self.HEAD + "".join(lines), encoding="utf-8")
