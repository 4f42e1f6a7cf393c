"""Spells the programs of bench/pipelines in other ways that a user could write, by rules that change no value.

- `as_sums`: kernels are sums of reads. Sums go backwards and in pairs, as do least and greatest numbers. Factors stand behind, quotients by
  powers of two stand for shifts, and least and greatest numbers for clamps. Cases of remainders go backwards, and a middle number is the
  least of the greatest.
- `as_stages`: sums of reads are kernels, and a kernel that is a row times a column is two stages. A function that is read once is joined with
  its reader, and a sum that is divided is a stage. Equal factors stand before a parenthesis, and shifts for quotients and products by powers
  of two. Operands of comparisons, least and greatest numbers change places.
- `as_one_formula`: kernels are sums of reads, and each function is joined with its readers.

What has no sum and no kernel (copy, histogram, minmax) reads its picture through a kernel of one point, and through a clamp and a stage.
"""
import json
import re
import sys
from typing import Callable, NamedTuple, Optional

sys.dont_write_bytecode = True
from timing import TOP

sys.path.insert(0, f"{TOP}/python/tilefarm")

from _tf.parser import program_of
from _tf.program import Item, Node

# How tightly an expression holds together. (A shift holds as a product does, and stands in parentheses for those who read it.)
SHIFT, SUM, PRODUCT, TIGHT = range(4)
INDEX = re.compile(r"\(?(?:(\d+)\*)?(\w+?)(?:([+-]\d+))?\)?(?:/(\d+))?$")
REMAINDER = re.compile(r"(\w+) % (\d+) == (\d+)")
MIRRORED = {"<=": ">=", ">=": "<=", "==": "=="}
# The most stages of a program, and the most operators of a function that is joined with its reader, or of all together with theirs.
STAGES, JOINED, WHOLE = 64, 40, 200


class Index(NamedTuple):
    """(factor * variable + addend) / divisor."""

    factor: int
    variable: str
    addend: int
    divisor: int

    def text(self) -> str:
        inner = f"{self.factor}*" * (self.factor > 1) + self.variable + f"{self.addend:+d}" * (self.addend != 0)
        return inner if self.divisor == 1 else f"({inner})/{self.divisor}" if self.addend else f"{inner}/{self.divisor}"

    def at(self, outer: "Index") -> Optional["Index"]:
        """This index of a function that is read at another one, where the language has such an index."""
        if outer.divisor == 1:
            return Index(self.factor * outer.factor, outer.variable, self.factor * outer.addend + self.addend, self.divisor)
        if self.factor == self.divisor == 1:
            return outer._replace(addend=outer.addend + self.addend * outer.divisor)
        return None


class Tree(NamedTuple):
    """An expression: an operator's mark or a call's word with its operands, or a leaf. A select's name is its comparison."""

    kind: str
    parts: tuple["Tree", ...] = ()
    name: str = ""
    number: int = 0
    indices: tuple[Index, ...] = ()
    kernel: tuple[tuple[int, ...], ...] = ()

    def everywhere(self, rule: Callable[["Tree"], "Tree"]) -> "Tree":
        """The tree with a rule applied to each part, from the leaves on."""
        return rule(self._replace(parts=tuple(it.everywhere(rule) for it in self.parts)))

    def all(self) -> list["Tree"]:
        return [self, *(inner for it in self.parts for inner in it.all())]

    def text(self) -> str:
        return spelled(self)[1]


def number(value: int) -> Tree:
    return Tree("number", number=value) if value >= 0 else Tree("negation", (number(-value),))


def read(name: str, rows: int = 0, cols: int = 0) -> Tree:
    return Tree("read", name=name, indices=(Index(1, "x", rows, 1), Index(1, "y", cols, 1)))


def tree_of(node: Node, text: str) -> Tree:
    """The tree of a parsed expression, whose reads and kernels stand in the text."""
    own = text[node.span.start : node.span.end]
    if node.kind == "read":
        found = [INDEX.match(it.replace(" ", "")).groups() for it in own[own.index("(") + 1 : -1].split(",")]
        return Tree("read", name=node.name, indices=tuple(Index(int(a or 1), v, int(b or 0), int(c or 1)) for a, v, b, c in found))
    if node.kind == "stencil":
        kernel = tuple(map(tuple, json.loads(own[own.index("[") : -1])))
        return Tree("stencil", name=node.name, number=node.numbers[0], kernel=kernel)
    return Tree(node.kind, tuple(tree_of(it, text) for it in node.parts), node.name, *node.numbers)


# ---- texts of trees, each with how tightly it holds together


def spelled(it: Tree) -> tuple[int, str]:
    if it.kind in ("+", "-"):
        return SUM, f"{within(it.parts[0], SUM)} {it.kind} {within(it.parts[1], PRODUCT)}"
    if it.kind == "*":
        return PRODUCT, f"{within(it.parts[0], PRODUCT)} * {within(it.parts[1], TIGHT)}"
    if it.kind in ("/", "%", "<<", ">>"):
        return PRODUCT if it.kind in "/%" else SHIFT, f"{within(it.parts[0], PRODUCT)} {it.kind} {it.number}"
    if it.kind == "negation":
        return TIGHT, f"-{within(it.parts[0], TIGHT)}"
    return TIGHT, leaf(it) if not it.parts else called(it)


def within(it: Tree, wanted: int) -> str:
    level, text = spelled(it)
    return text if level >= wanted else f"({text})"


def leaf(it: Tree) -> str:
    if it.kind == "read":
        return f"{it.name}({', '.join(index.text() for index in it.indices)})"
    if it.kind == "stencil":
        return f"stencil({it.name}, {it.number}, {json.dumps(it.kernel)})"
    return it.name if it.kind == "name" else str(it.number)


def called(it: Tree) -> str:
    texts = [part.text() for part in it.parts]
    if it.kind == "entry":
        return f"{it.name}[{texts[0]}]"
    if it.kind == "select":
        texts[:2] = [f"{texts[0]} {it.name} {texts[1]}"]
    return f"{it.kind}({', '.join(texts)})"


# ---- sums


class Term(NamedTuple):
    """A factor and what it stands before."""

    factor: int
    tree: Tree

    def spelled(self, is_behind: bool = False) -> Tree:
        """The term without its sign."""
        count = number(abs(self.factor))
        if self.tree == number(1):
            return count
        if abs(self.factor) == 1:
            return self.tree
        return Tree("*", (self.tree, count) if is_behind else (count, self.tree))


def terms(it: Tree, sign: int = 1) -> list[Term]:
    """The terms of a sum, in their order."""
    if it.kind in ("+", "-"):
        return terms(it.parts[0], sign) + terms(it.parts[1], sign if it.kind == "+" else -sign)
    if it.kind == "negation":
        return terms(it.parts[0], -sign)
    if it.kind == "number":
        return [Term(sign * it.number, number(1))]
    if it.kind == "*" and it.parts[0].kind == "number":
        return [Term(sign * it.parts[0].number, it.parts[1])]
    return [Term(sign, it)]


def added(one: tuple[int, Tree], other: tuple[int, Tree]) -> tuple[int, Tree]:
    """The sum of two trees with their signs."""
    if one[0] == other[0]:
        return one[0], Tree("+", (one[1], other[1]))
    return 1, Tree("-", (one[1], other[1]) if one[0] > 0 else (other[1], one[1]))


def in_pairs(signed: list[tuple[int, Tree]]) -> tuple[int, Tree]:
    if len(signed) == 1:
        return signed[0]
    half = (len(signed) + 1) // 2
    return added(in_pairs(signed[:half]), in_pairs(signed[half:]))


def sum_of(every: list[Term], is_behind: bool = False) -> Tree:
    """A sum term by term, of which one that is added comes first, if there is one."""
    first = next((at for at, it in enumerate(every) if it.factor > 0), 0)
    every = [every[first], *every[:first], *every[first + 1 :]]
    total = 1 if every[0].factor > 0 else -1, every[0].spelled(is_behind)
    for it in every[1:]:
        total = added(total, (1 if it.factor > 0 else -1, it.spelled(is_behind)))
    return total[1] if total[0] > 0 else Tree("negation", (total[1],))


def whole_sums(it: Tree, rule: Callable[[Tree], Tree]) -> Tree:
    """The tree with a rule applied to each whole sum, whose terms are changed before."""
    if it.kind not in ("+", "-"):
        return it._replace(parts=tuple(whole_sums(part, rule) for part in it.parts))
    inner = [Term(term.factor, whole_sums(term.tree, rule)) for term in terms(it)]
    return rule(sum_of(inner))


# ---- rules on expressions


def backwards_in_pairs(it: Tree) -> Tree:
    signed = [(1 if term.factor > 0 else -1, term.spelled(is_behind=True)) for term in reversed(terms(it))]
    sign, found = in_pairs(signed)
    return found if sign > 0 else Tree("negation", (found,))


def with_shared_factors(it: Tree) -> Tree:
    """Terms with the same factor beyond 1 are added before they are multiplied."""
    by_factor: dict[int, list[Tree]] = {}
    for term in terms(it):
        by_factor.setdefault(term.factor, []).append(term.tree)
    found = []
    for factor, trees in by_factor.items():
        if abs(factor) == 1 or len(trees) == 1:
            found += [Term(factor, tree) for tree in trees]
        else:
            found.append(Term(factor, sum_of([Term(1, tree) for tree in trees])))
    return sum_of(found)


def chain(it: Tree, word: str) -> list[Tree]:
    """The operands of a least or greatest number of any many."""
    return [inner for part in it.parts for inner in chain(part, word)] if it.kind == word else [it]


def balanced(word: str, trees: list[Tree]) -> Tree:
    half = (len(trees) + 1) // 2
    return trees[0] if len(trees) == 1 else Tree(word, (balanced(word, trees[:half]), balanced(word, trees[half:])))


def chain_backwards(it: Tree) -> Tree:
    return balanced(it.kind, chain(it, it.kind)[::-1]) if it.kind in ("min", "max") else it


def middle_otherwise(it: Tree) -> Tree:
    """The greatest of min(a, b) and min(max(a, b), c) as the least of max(a, b) and max(min(a, b), c)."""
    if it.kind == "max" and all(part.kind == "min" for part in it.parts):
        low, (high, other) = it.parts[0], it.parts[1].parts
        if high == low._replace(kind="max"):
            return Tree("min", (high, Tree("max", (low, other))))
    return it


def kernel_as_reads(it: Tree) -> Tree:
    if it.kind != "stencil":
        return it
    up, left = len(it.kernel) // 2, len(it.kernel[0]) // 2
    every = [Term(factor, read(it.name, a - up, b - left)) for a, row in enumerate(it.kernel) for b, factor in enumerate(row) if factor]
    total = sum_of(every)
    return total if it.number == 1 else Tree("/", (total,), number=it.number)


def line_as_reads(it: Tree) -> Tree:
    """A kernel of one row or column that has a factor beyond 1 twice, which a sum of reads has once."""
    factors = [factor for row in it.kernel for factor in row if factor > 1]
    is_line = it.kind == "stencil" and 1 in (len(it.kernel), len(it.kernel[0]))
    return kernel_as_reads(it) if is_line and len({*factors}) < len(factors) else it


def reads_as_kernel(it: Tree) -> Tree:
    """A sum of at least three neighbours of a point, divided, as a kernel."""
    if it.kind not in ("/", ">>") or len(every := terms(it.parts[0])) < 3:
        return it
    trees = [term.tree for term in every]
    if any(tree.kind != "read" or any((at.factor, at.divisor) != (1, 1) for at in tree.indices) for tree in trees):
        return it
    if len({tree.name for tree in trees}) > 1 or len({*trees}) < len(trees):
        return it
    places = {tuple(at.addend for at in term.tree.indices): term.factor for term in every}
    up, left = (max(abs(place[axis]) for place in places) for axis in (0, 1))
    kernel = tuple(tuple(places.get((a, b), 0) for b in range(-left, left + 1)) for a in range(-up, up + 1))
    return Tree("stencil", name=trees[0].name, number=it.number if it.kind == "/" else 1 << it.number, kernel=kernel)


def shift_as_quotient(it: Tree) -> Tree:
    return it._replace(kind="/", number=1 << it.number) if it.kind == ">>" and it.number < 31 else it


def power_as_shift(it: Tree) -> Tree:
    """Quotients and products by a power of two as shifts."""
    if it.kind == "*" and it.parts[0].kind == "number":
        factor, other = it.parts[0].number, it.parts[1]
        return Tree("<<", (other,), number=factor.bit_length() - 1) if factor > 1 and factor & (factor - 1) == 0 else it
    return it._replace(kind=">>", number=it.number.bit_length() - 1) if it.kind == "/" and it.number & (it.number - 1) == 0 else it


def clamp_as_least(it: Tree) -> Tree:
    return Tree("min", (Tree("max", it.parts[:2]), it.parts[2])) if it.kind == "clamp" else it


def clamp_as_greatest(it: Tree) -> Tree:
    """(Where both ends are numbers, the lower one first, which of them is taken first does not count.)"""
    is_known = it.kind == "clamp" and all(end.kind in ("number", "negation") for end in it.parts[1:])
    return Tree("max", (Tree("min", (it.parts[0], it.parts[2])), it.parts[1])) if is_known else clamp_as_least(it)


def with_places_changed(it: Tree) -> Tree:
    if it.kind in ("min", "max"):
        return it._replace(parts=it.parts[::-1])
    if it.kind == "select":
        return it._replace(parts=(it.parts[1], it.parts[0], *it.parts[2:]), name=MIRRORED[it.name])
    return it


def absolute_as_greatest(it: Tree) -> Tree:
    if it.kind != "abs":
        return it
    inner = it.parts[0]
    return Tree("max", (inner, inner._replace(parts=inner.parts[::-1]) if inner.kind == "-" else Tree("negation", (inner,))))


# ---- stages


class Stage:
    """A function, with the words before its expressions, or an accumulator, whose second expression is that of its bin."""

    def __init__(self, item: Item, text: str):
        self.kind, self.name = item.kind, item.names[0].text
        part = lambda span: text[span.start : span.end]
        self.spans = [tuple(part(end.span) for end in (it.low, it.high)) for it in item.intervals]
        self.words, self.trees, self.sum = [], [], part(item.cases[0].span).split()[0]
        for case in item.cases:
            trees = [tree_of(it, text) for it in (case.value, case.bin) if it]
            self.words.append(" ".join(text[case.span.start : case.value.span.start].rstrip(": (\n").split()))
            self.trees += trees

    @classmethod
    def named(cls, name: str, spans: list[tuple[str, str]], tree: Tree) -> "Stage":
        it = cls.__new__(cls)
        it.kind, it.name, it.spans, it.words, it.trees = "func", name, spans, ["else"], [tree]
        return it

    def is_plain(self) -> bool:
        return self.kind == "func" and self.words == ["else"]

    def change(self, rule: Callable[[Tree], Tree]) -> None:
        self.trees = [rule(it) for it in self.trees]

    def turn_cases(self) -> None:
        """Changes the order of cases of which no two hold at a point, as remainders tell."""
        count = sum(it.startswith("case") for it in self.words)
        rests = [{(name, int(mod)): int(rest) for name, mod, rest in REMAINDER.findall(it)} for it in self.words[:count]]
        if all(any(key in b and b[key] != a[key] for key in a) for at, a in enumerate(rests) for b in rests[:at]):
            self.words[:count], self.trees[:count] = self.words[:count][::-1], self.trees[:count][::-1]

    def text(self) -> str:
        spans = [f"[{low} .. {high}]" for low, high in self.spans]
        if self.kind == "accum":
            over = f"x in {spans[1]}, y in {spans[2]}"
            return f"accum {self.name} {spans[0]} over ({over}) {self.sum} {self.trees[0].text()} at {self.trees[1].text()};\n"
        lines = [f"  {word} : {tree.text()};\n" for word, tree in zip(self.words, self.trees)]
        return f"func {self.name}(x in {spans[0]}, y in {spans[1]}) {{\n{''.join(lines)}}}\n"


def moved(end: str, by: int) -> str:
    """The text of an end of a domain, so much greater."""
    before, own = re.match(r"(.*?)([+-]?\d+)?$", end.replace(" ", "")).groups()
    total = int(own or 0) + by
    return f"{before}{total:+d}" if before and total else before or str(total)


class Program:
    """The items of a program: planes, parameters and output as they are, and its stages."""

    def __init__(self, data: bytes):
        text, items = data.decode(), program_of(data).items
        part = lambda item: text[item.span.start : item.span.end] + "\n"
        self.front = "".join(part(it) for it in items if it.kind in ("param", "image", "table"))
        self.output = "".join(part(it) for it in items if it.kind == "output")
        self.shown = {it.text for item in items if item.kind == "output" for it in item.names}
        self.stages = [Stage(it, text) for it in items if it.kind in ("func", "accum")]
        image = next(it for it in items if it.kind == "image")
        sides = [("0", moved(text[it.span.start : it.span.end], -1)) for it in image.extents]
        self.planes = {it.text: sides for it in image.names}

    def text(self) -> bytes:
        return (self.front + "".join(it.text() for it in self.stages) + self.output).encode()

    def change(self, *rules: Callable[[Tree], Tree]) -> None:
        for rule in rules:
            for it in self.stages:
                it.change(rule)

    def spans(self, name: str) -> list[tuple[str, str]]:
        return self.planes.get(name) or next(it.spans for it in self.stages if it.name == name)

    def has_room(self) -> bool:
        return len(self.planes) + len(self.stages) < STAGES

    def is_formula(self) -> bool:
        """Whether it computes something of several points, or of several numbers."""
        return any(tree.kind in ("stencil", "+", "-", "max") for it in self.stages for each in it.trees for tree in each.all())

    # what reads a function

    def uses(self, name: str) -> list[Tree]:
        return [tree for it in self.stages for each in it.trees for tree in each.all() if tree.name == name and tree.kind in ("read", "stencil")]

    def is_joined(self, it: Stage, most_uses: int, most: int) -> bool:
        uses = self.uses(it.name)
        indices = [at for inner in it.trees[0].all() for at in inner.indices] if it.is_plain() else []
        can_be = it.is_plain() and it.name not in self.shown and all(use.kind == "read" for use in uses)
        can_be = can_be and not any(inner.kind in ("stencil", "name") for inner in it.trees[0].all())
        in_all = all(index.at(use.indices["xy".index(index.variable)]) for use in uses for index in indices) if can_be else False
        return in_all and len(uses) <= most_uses and len(it.trees[0].all()) <= most

    def join(self, most_uses: int, most: int) -> None:
        """Joins functions with their readers, each that is read at so few places."""
        for it in [*self.stages]:
            if self.is_joined(it, most_uses, most):
                self.stages.remove(it)
                self.change(lambda tree: tree.everywhere(lambda part: body_at(it, part) if part.name == it.name else part))

    def split(self) -> None:
        """Makes a stage of each sum of three terms or more that a function divides."""
        for it in [*self.stages]:
            tree = it.trees[0]
            if it.is_plain() and tree.kind in ("/", ">>") and len(terms(tree.parts[0])) > 2 and self.has_room():
                inner = Stage.named(f"{it.name}_sum", it.spans, tree.parts[0])
                self.stages.insert(self.stages.index(it), inner)
                it.trees = [tree._replace(parts=(read(inner.name),))]

    def separate(self) -> None:
        """Makes two stages of each kernel that is a column times a row."""
        for it in [*self.stages]:
            it.trees = [tree.everywhere(lambda part: self.separated(it, part)) for tree in it.trees]

    def separated(self, stage: Stage, part: Tree) -> Tree:
        factors = column_and_row(part.kernel)
        if part.kind != "stencil" or not factors or not self.has_room():
            return part
        column, row = factors
        rows, (low, high) = self.spans(part.name)
        inner = Stage.named(f"{stage.name}_across", [rows, (moved(low, len(row) // 2), moved(high, -(len(row) // 2)))],
                            Tree("stencil", name=part.name, number=1, kernel=(row,)))
        self.stages.insert(self.stages.index(stage), inner)
        return part._replace(name=inner.name, kernel=tuple((it,) for it in column))

    def read_through(self, seen: Callable[[str], Tree]) -> None:
        """Reads each plane by a stage of its own."""
        made = [Stage.named(f"{name}_seen", spans, seen(name)) for name, spans in self.planes.items()]
        self.change(lambda tree: tree.everywhere(lambda it: it._replace(name=f"{it.name}_seen") if it.name in self.planes else it))
        self.stages[:0] = made


def body_at(joined: Stage, use: Tree) -> Tree:
    """What a function is where it is read."""
    place = dict(zip("xy", use.indices))
    moved_index = lambda part: part._replace(indices=tuple(at.at(place[at.variable]) for at in part.indices))
    return joined.trees[0].everywhere(moved_index)


def column_and_row(kernel: tuple[tuple[int, ...], ...]) -> Optional[tuple[tuple[int, ...], tuple[int, ...]]]:
    """Two lists of whole numbers of which a kernel has the products, if there are such and both have more than one."""
    if len(kernel) < 2 or len(kernel[0]) < 2:
        return None
    row = min((it for it in kernel if any(it)), key=lambda it: sum(map(abs, it)))
    at = next(place for place, factor in enumerate(row) if factor)
    column = tuple(it[at] // row[at] for it in kernel)
    return (column, row) if kernel == tuple(tuple(a * b for b in row) for a in column) else None


# ---- the spellings


def changed(program: Program, *rules: Callable[[Tree], Tree]) -> None:
    program.change(*(lambda tree, rule=rule: tree.everywhere(rule) for rule in rules))


def as_sums(program: Program) -> None:
    if not program.is_formula():
        return program.read_through(lambda name: Tree("stencil", name=name, number=1, kernel=((1,),)))
    changed(program, kernel_as_reads, shift_as_quotient, clamp_as_least, middle_otherwise)
    program.change(lambda tree: whole_sums(tree, backwards_in_pairs))
    changed(program, chain_backwards)
    for it in program.stages:
        it.turn_cases()


def as_stages(program: Program) -> None:
    if not program.is_formula():
        return program.read_through(lambda name: Tree("clamp", (read(name), number(0), number(255))))
    changed(program, reads_as_kernel)
    program.separate()
    changed(program, line_as_reads)
    program.join(1, JOINED)
    program.change(lambda tree: whole_sums(tree, with_shared_factors))
    changed(program, absolute_as_greatest, clamp_as_greatest, power_as_shift, with_places_changed)
    program.split()


def as_one_formula(program: Program) -> None:
    changed(program, kernel_as_reads)
    program.join(9, WHOLE)


# (In stages those would be as they are.)
FORMULAS = {"blur", "median"}


def spellings(name: str, data: bytes) -> list[bytes]:
    """The two other spellings of a pipeline."""
    found = []
    for rules in (as_sums, as_one_formula if name in FORMULAS else as_stages):
        program = Program(data)
        rules(program)
        found.append(program.text())
    return found
