"""What tests hold AIRs of the package to: constraints that are evaluated directly, row by row.

`first_violation` evaluates the value of JSON that stands for an AIR. A `Sample` is a random AIR
with a trace, whose constraints are evaluated as they were drawn, not as the package writes them.
"""

import circle

P = 2**31 - 1
# What an expression may read, and what it may be computed by.
READS = ("local", "next", "periodic", "public")
OPERATIONS = {
    "add": lambda a, b: a + b,
    "sub": lambda a, b: a - b,
    "mul": lambda a, b: a * b,
    "neg": lambda a: -a,
    "pow": lambda a, b: a**b,
}
# The greatest degree of what a constraint is of. A quotient of it has eight chunks at most.
DEGREE = 8


def holds_at(when, row, height):
    """Whether a constraint of a place is to hold at a row."""
    return {"every": True, "first": row == 0, "last": row == height - 1}.get(when, row < height - 1)


def window(rows, row, periodic_columns, public_values):
    """What is read at a row, by what reads it."""
    periodic = [column[row % len(column)] for column in periodic_columns]
    local, following = rows[row], rows[(row + 1) % len(rows)]
    return {"local": local, "next": following, "periodic": periodic, "public": public_values}


def node_values(nodes, at):
    """The values of nodes, given as JSON."""
    values = []
    for node in nodes:
        [(kind, given)] = node.items()
        if kind in READS:
            values.append(at[kind][given])
        elif kind == "constant":
            values.append(given)
        else:
            of = given if isinstance(given, list) else [given]
            values.append(OPERATIONS[kind](*(values[it] for it in of)) % P)
    return values


def failing(air, rows, public_values, row):
    """The constraints that don't hold at a row, in order."""
    values = node_values(air["nodes"], window(rows, row, air["periodic_columns"], public_values))
    for number, constraint in enumerate(air["constraints"]):
        if holds_at(constraint["when"], row, len(rows)) and values[constraint["node"]]:
            yield row, number


def first_violation(air, rows, public_values):
    """The first row at which a constraint doesn't hold, and the first such constraint."""
    found = (it for row in range(len(rows)) for it in failing(air, rows, public_values, row))
    return next(found, None)


def value(tree, at):
    """The value of an expression: a kind, and what it reads or the expressions it is of."""
    kind, *parts = tree
    if kind in READS:
        return at[kind][parts[0]]
    if kind == "constant":
        return parts[0] % P
    if kind == "pow":
        return pow(value(parts[0], at), parts[1], P)
    return OPERATIONS[kind](*(value(part, at) for part in parts)) % P


def degree(tree):
    """The degree of an expression."""
    kind, *parts = tree
    if kind == "pow":
        return degree(parts[0]) * parts[1]
    if kind in OPERATIONS:
        degrees = [degree(part) for part in parts]
        return sum(degrees) if kind == "mul" else max(degrees)
    return int(kind in ("local", "next", "periodic"))


def written(tree, reads):
    """The expression as an author writes it, of what may be read. A constant is a number."""
    kind, *parts = tree
    if kind in READS:
        return reads[kind][parts[0]]
    if kind == "constant":
        return parts[0]
    if kind == "pow":
        return written(parts[0], reads) ** parts[1]
    return OPERATIONS[kind](*(written(part, reads) for part in parts))


class Sample:
    """A random AIR with a trace of up to 2^most rows, whose rows satisfy it unless `damage` is
    called. The numbers come from `rng`."""

    def __init__(self, rng, least=0, most=5):
        self.rng, self.height = rng, 2 ** rng.randint(least, most)
        self.public_values = self.elements(rng.randint(0, 3))
        self.periodic_columns = [self.periodic_column() for _ in range(rng.randint(0, 2))]
        self.rows = [[] for _ in range(self.height)]
        # The place, the kind, the expressions and the name of each.
        self.constraints = []
        for _ in range(rng.randint(1, 5)):
            rng.choice([self.add_free, self.add_bits, self.add_computed, self.add_stepped])()
        self.add_end(0, "first")
        self.add_end(-1, "last")
        self.require("every", "zero", ("sub", ("local", 0), ("local", 0)))
        rng.shuffle(self.constraints)

    def element(self):
        few = [0, 1, 2, P - 1, P - 2]
        return self.rng.choice([self.rng.choice(few), self.rng.randrange(P)])

    def elements(self, count):
        return [self.element() for _ in range(count)]

    def periodic_column(self):
        return self.elements(2 ** self.rng.randint(0, self.height.bit_length() - 1))

    def require(self, when, kind, *trees):
        """Requires something that holds, under a name or none."""
        if kind == "eq" and self.rng.random() < 0.3:
            kind, trees = "zero", [("sub", *trees)]
        name = self.rng.choice([None, f"{kind} {len(self.constraints)}"])
        self.constraints.append((when, kind, trees, name))

    def append(self, entries):
        for row, entry in zip(self.rows, entries):
            row.append(entry)

    def tree(self, local, following):
        """An expression of `local` columns and `following` next columns."""
        while True:
            found = self.any_tree(local, following, self.rng.randint(0, 4))
            if degree(found) <= DEGREE:
                return found

    def any_tree(self, local, following, depth):
        if depth == 0:
            return self.leaf(local, following)
        kind = self.rng.choice(["add", "sub", "mul", "add", "sub", "mul", "neg", "pow"])
        first = self.any_tree(local, following, depth - 1)
        if kind == "neg":
            return kind, first
        if kind == "pow":
            return kind, first, self.rng.randint(0, 4)
        return kind, first, self.any_tree(local, following, self.rng.randint(0, depth - 1))

    def leaf(self, local, following):
        counts = local, following, len(self.periodic_columns), len(self.public_values)
        leaves = [(kind, it) for kind, count in zip(READS, counts) for it in range(count)]
        constant = self.rng.choice([-2, -1, 0, 1, 2, self.element(), self.element() + P])
        return self.rng.choice([*leaves, ("constant", constant)])

    def add_free(self):
        self.append(self.elements(self.height))

    def add_bits(self):
        self.require("every", "bool", ("local", len(self.rows[0])))
        self.append(self.rng.choices([0, 1], k=self.height))

    def add_computed(self):
        """A column that is computed of the row and the next one."""
        own = len(self.rows[0])
        tree = self.tree(own, own)
        self.require("every", "eq", ("local", own), tree)
        self.append([value(tree, self.window(row)) for row in range(self.height)])

    def add_stepped(self):
        """A column whose next entry is computed."""
        own = len(self.rows[0])
        tree, entries = self.tree(own + 1, own), [self.element()]
        self.require("transition", "eq", ("next", own), tree)
        for row in range(self.height - 1):
            at = self.window(row)
            at["local"] = [*at["local"], entries[-1]]
            entries.append(value(tree, at))
        self.append(entries)

    def add_end(self, row, when):
        """A public value that is an entry of the row."""
        if self.rng.random() < 0.5:
            column = self.rng.randrange(len(self.rows[0]))
            self.require(when, "eq", ("local", column), ("public", len(self.public_values)))
            self.public_values.append(self.rows[row][column])

    def window(self, row):
        return window(self.rows, row, self.periodic_columns, self.public_values)

    def damage(self):
        """Puts another element somewhere."""
        row = self.rng.choice([*self.rows, *([self.public_values] if self.public_values else [])])
        row[self.rng.randrange(len(row))] = self.element()

    def air(self):
        """The AIR, by the package."""
        air = circle.Air(columns=len(self.rows[0]), public_values=len(self.public_values))
        periodic = [air.periodic(column) for column in self.periodic_columns]
        of = air.columns, air.next_columns, periodic, air.public_values
        reads = dict(zip(READS, of))
        places = {"every": air.every_row, "first": air.first_row, "last": air.last_row}
        for when, kind, trees, name in self.constraints:
            require = getattr(places.get(when, air.transition), f"assert_{kind}")
            require(*(written(tree, reads) for tree in trees), name)
        return air

    def holds(self, kind, trees, row):
        """Whether a constraint holds at a row."""
        first, *others = [value(tree, self.window(row)) for tree in trees]
        return first in (0, 1) if kind == "bool" else first == (others or [0])[0]

    def violations(self, row):
        for number, (when, kind, trees, name) in enumerate(self.constraints):
            if holds_at(when, row, self.height) and not self.holds(kind, trees, row):
                yield row, number, name

    def due(self):
        """The first row at which a constraint doesn't hold, its number and its name."""
        return next((it for row in range(self.height) for it in self.violations(row)), None)
