#!/usr/bin/env python3
"""Joins small random files by random predicates with jm, and compares its pairs with a nested loop's.

    tests/predicates.py [COUNT [SEED]]              2,000 predicates from 1, unless said
    tests/predicates.py --rings [COUNT [SEED]]      the same, each with --rings

It is no part of the gate, in which no test may start a program. JM names another program than the repository's own. Truth is
written here once more, straight from docs/USAGE.md: the tree of a predicate is made first, and its text from the tree. The
cells have numbers in several spellings, empty texts, spaces and quotes; the predicates have each kind of member from which
an access or a key is made (equalities and bands of sums, texts, inequalities, two bounds of one side, members of one side
alone), brackets, `not`, and names in quotes. The number of joiners, feeders and workers, the batch, the order of feeding and
a replay are drawn too, and where no order of messages is drawn, whether they go over rings. A failure prints the command, and the files stay.
"""
import csv
import os
import random
import subprocess
import sys
import tempfile

TOP = os.path.dirname(os.path.dirname(os.path.abspath(__file__)))
JM = os.environ.get("JM") or f"{TOP}/jm"
NUMBERS = ["id", "a", "b", "from", "to"]
TEXTS = ["k", "kind of"]
NAMES = NUMBERS + TEXTS
OPS = {
    "=": lambda x, y: x == y, "!=": lambda x, y: x != y, "<": lambda x, y: x < y,
    "<=": lambda x, y: x <= y, ">": lambda x, y: x > y, ">=": lambda x, y: x >= y,
}


# ---- truth

class Num:
    """Two sums compared. A sum is a list of (sign, term), and a term a number or (side, column)."""

    def __init__(self, left, op, right):
        self.left, self.op, self.right = left, op, right

    def holds(self, rows):
        left, right = value(self.left, rows), value(self.right, rows)
        return left is not None and right is not None and OPS[self.op](left, right)

    def text(self, draw):
        return f"{sum_text(self.left, draw)} {self.op} {sum_text(self.right, draw)}"


class Abs:
    """The size of a sum compared with a number."""

    def __init__(self, terms, op, bound):
        self.terms, self.op, self.bound = terms, op, bound

    def holds(self, rows):
        size = value(self.terms, rows)
        return size is not None and OPS[self.op](abs(size), self.bound)

    def text(self, draw):
        return f"abs({sum_text(self.terms, draw)}) {self.op} {self.bound}"


class Txt:
    """Two texts compared, each that of a column or a literal."""

    def __init__(self, left, op, right):
        self.left, self.op, self.right = left, op, right

    def holds(self, rows):
        left, right = [rows[it[0]][it[1]].encode() if isinstance(it, tuple) else it.encode() for it in (self.left, self.right)]
        return OPS[self.op](left, right)

    def text(self, draw):
        left, right = [f"text({name_text(it, draw)})" if isinstance(it, tuple) else "'" + it.replace("'", "''") + "'"
                       for it in (self.left, self.right)]
        return f"{left} {self.op} {right}"


class Not:
    def __init__(self, inner):
        self.inner = inner

    def holds(self, rows):
        return not self.inner.holds(rows)

    def text(self, draw):
        return f"not {bracketed(self.inner, draw)}"


class Chain:
    """Members joined by `and` or by `or`."""

    def __init__(self, word, members):
        self.word, self.members = word, members

    def holds(self, rows):
        return (all if self.word == "and" else any)(it.holds(rows) for it in self.members)

    def text(self, draw):
        inner = [bracketed(it, draw) if isinstance(it, Chain) else it.text(draw) for it in self.members]
        return f" {self.word} ".join(inner)


def number_of(cell):
    """The number of a cell's text, or None where it has none."""
    text = cell.strip(" ")
    digits = text[1:] if text[:1] in ("+", "-") else text
    return int(text) if digits.isascii() and digits.isdigit() and -2**63 <= int(text) < 2**63 else None


def value(terms, rows):
    total = 0
    for sign, term in terms:
        number = term if isinstance(term, int) else number_of(rows[term[0]][term[1]])
        if number is None:
            return None
        total += sign * number
    return total


def name_text(name, draw):
    side, column = name
    word = NAMES[column]
    return f"{side}.{word}" if " " not in word and draw.random() < 0.8 else f'{side}."{word}"'


def sum_text(terms, draw):
    found = ""
    for place, (sign, term) in enumerate(terms):
        sign = "-" if sign < 0 else "+" if place or draw.random() < 0.1 else ""
        found += f" {sign} " if place else sign
        found += str(term) if isinstance(term, int) else name_text(term, draw)
    # (a predicate that begins with a minus sign is no word of the command line)
    return f" {found}"


def bracketed(pred, draw):
    return f"({pred.text(draw)})"


# ---- what is drawn

def columns(draw, side, count):
    return [(draw.choice((1, 1, 1, -1)), (side, draw.randrange(len(NUMBERS)))) for _ in range(count)]


def joined_sums(draw):
    """A sum of R's columns and one of S's, with a number somewhere, either side first."""
    left, right = columns(draw, "r", draw.choice((1, 1, 1, 2))), columns(draw, "s", draw.choice((1, 1, 1, 2)))
    if draw.random() < 0.4:
        draw.choice((left, right)).append((draw.choice((1, -1)), draw.randrange(6)))
    draw.shuffle(left)
    return (left, right) if draw.random() < 0.5 else (right, left)


def member(draw):
    kind = draw.randrange(12)
    if kind < 3:
        left, right = joined_sums(draw)
        return Num(left, "=", right)
    if kind < 5:
        left, right = joined_sums(draw)
        return Num(left, draw.choice(("<", "<=", ">", ">=", "!=")), right)
    if kind < 7:
        left, right = joined_sums(draw)
        return Abs(left + [(-sign, term) for sign, term in right], draw.choice(("<=", "<=", "<", "=", "!=", ">", ">=")),
                   draw.randrange(5))
    if kind < 9:
        sides = [("r", len(NUMBERS) + draw.randrange(len(TEXTS))), ("s", len(NUMBERS) + draw.randrange(len(TEXTS)))]
        draw.shuffle(sides)
        return Txt(sides[0], draw.choice(("=", "=", "=", "!=", "<", ">=")), sides[1])
    if kind == 9:
        one = draw.choice("rs")
        sides = [(one, draw.randrange(len(NAMES))), draw.choice(("", "x", "y z", "it's"))]
        draw.shuffle(sides)
        return Txt(sides[0], draw.choice(list(OPS)), sides[1])
    if kind == 10:
        one = draw.choice("rs")
        return Num(columns(draw, one, 1), draw.choice(list(OPS)), [(1, draw.randrange(8))])
    return Num([(1, draw.randrange(3))], draw.choice(list(OPS)), [(1, draw.randrange(3))])


def interval(draw):
    """Two bounds in two columns of one side, of a column of the other: some of them never hold."""
    one, other = draw.sample("rs", 2)
    low, high, point = (one, 3), (one, 4), (other, draw.randrange(3))
    found = [Num([(1, point)], draw.choice((">=", ">")), [(1, low)]), Num([(1, point)], draw.choice(("<=", "<")), [(1, high)])]
    draw.shuffle(found)
    return found


def predicate(draw, depth=0):
    kind = draw.random()
    if depth < 2 and kind < 0.12:
        return Not(predicate(draw, depth + 1))
    if depth < 2 and kind < 0.75:
        members = [predicate(draw, depth + 1) if draw.random() < 0.25 else member(draw) for _ in range(draw.randint(1, 3))]
        if draw.random() < 0.2:
            members += interval(draw)
        if len(members) > 1:
            return Chain("and" if draw.random() < 0.75 else "or", members)
        return members[0]
    return member(draw)


def cell(draw, column, few):
    if column >= len(NUMBERS):
        return draw.choice(("", "x", "X", "y z", "it's", 'say "x"', "a,b", "x ", "12", "é"))
    if draw.random() < 0.08:
        return draw.choice(("", " ", "  "))
    number = draw.randrange(-few, few)
    if draw.random() < 0.02:
        return str(draw.choice((2**63 - 1, -2**63)))
    return draw.choice(("{}", "{}", "{}", " {}", "{} ", "{:+d}", "{:03d}")).format(number)


def table(draw, path):
    few = draw.choice((2, 4, 8, 30))
    rows = [[cell(draw, column, few) for column in range(len(NAMES))] for _ in range(draw.choice((0, 1, 5, 12, 25, 40)))]
    with open(path, "w", newline="", encoding="utf-8") as it:
        writer = csv.writer(it, lineterminator=draw.choice(("\n", "\r\n")))
        writer.writerow(NAMES)
        writer.writerows(rows)
    return rows


def words(draw, rings):
    found = ["--joiners", str(2 ** draw.randrange(7)), "--feeders", str(draw.randint(1, 8)), "--seed", str(draw.randrange(2**64)),
             "--batch", str(draw.choice((1, 2, 7, 64))), "--feed", draw.choice(("alternate", "rfirst", "sfirst"))]
    if not rings and draw.random() < 0.5:
        return found + ["--replay", str(draw.randrange(2**64))]
    found += ["--workers", str(draw.randint(1, 4))]
    return found + (["--rings"] if rings or draw.random() < 0.4 else [])


# ---- the comparison

def main():
    rings = "--rings" in sys.argv[1:]
    numbers = [int(it) for it in sys.argv[1:] if it != "--rings"]
    count = numbers[0] if numbers else 2000
    first = numbers[1] if len(numbers) > 1 else 1
    failed = joined = 0
    with tempfile.TemporaryDirectory() as room:
        for seed in range(first, first + count):
            draw = random.Random(seed)
            rows_r, rows_s = table(draw, f"{room}/R.csv"), table(draw, f"{room}/S.csv")
            pred = predicate(draw)
            wanted = [f"{i},{j}" for i, r in enumerate(rows_r, 1) for j, s in enumerate(rows_s, 1)
                      if pred.holds({"r": r, "s": s})]
            command = [JM, f"{room}/R.csv", f"{room}/S.csv", "--on", pred.text(draw), *words(draw, rings)]
            got = subprocess.run(command, capture_output=True, text=True, check=False)
            joined += len(wanted)
            if got.returncode or got.stdout.split("\n")[:-1] != wanted:
                failed += 1
                kept = tempfile.mkdtemp(prefix="jm-predicate-")
                for name in ("R.csv", "S.csv"):
                    os.replace(f"{room}/{name}", f"{kept}/{name}")
                print(f"failed: {seed}, status {got.returncode}, {len(wanted)} pairs wanted: {got.stderr.strip()}\n "
                      f"{command} in {kept}", file=sys.stderr)
    print(f"{count - failed} passed, {failed} failed; {joined} pairs")
    return 1 if failed else 0


if __name__ == "__main__":
    sys.exit(main())
