"""Conditions and numbers of MPF, which are expressions of Python: what of them can be said here.

A condition here is one comparison of a player's variable with a number. So a condition of MPF becomes *ways*: each is a
list of comparisons that all have to hold, and no two ways hold at once."""
import ast
import re
import warnings
from dataclasses import dataclass
from typing import Callable

LONGEST = 600  # characters of an expression
MOST_WAYS, MOST_STEPS = 12, 6
GREATEST = 1_000_000_000
SIGNS = {ast.Eq: "==", ast.NotEq: "!=", ast.Lt: "<", ast.LtE: "<=", ast.Gt: ">", ast.GtE: ">="}
OPPOSITE = {"==": "!=", "!=": "==", "<": ">=", ">=": "<", ">": "<=", "<=": ">"}
MIRROR = {"<": ">", ">": "<", "<=": ">=", ">=": "<=", "==": "==", "!=": "!="}


class NotSaid(Exception):
    """Nothing here means the same; the words say why."""


@dataclass(frozen=True)
class Comparison:
    variable: str
    sign: str
    number: int

    def __str__(self) -> str:
        return f"current_player.{self.variable} {self.sign} {self.number}"

    def opposite(self) -> "Comparison":
        return Comparison(self.variable, OPPOSITE[self.sign], self.number)


@dataclass(frozen=True)
class InMode:
    """That a mode runs."""

    mode: str

    def opposite(self) -> "Comparison":
        raise NotSaid("nothing here asks whether a mode does not run")


Atom = Comparison | InMode
Way = list[Atom]


@dataclass(frozen=True)
class Known:
    """What the names in an expression are worth."""

    settings: dict[str, int]
    variable: Callable[[str], str]  # the player's variable that a bare name means; empty if none


def parse(text: str) -> ast.expr:
    if len(text) > LONGEST:
        raise NotSaid("the expression is too long")
    text = re.sub(r"(?<![=!<>])=(?!=)", "==", text.strip())
    text = re.sub(r"(?<=\d)[,](?=\d{3}\b)", "", text)
    text = re.sub(r"\b0+(?=\d)", "", text)
    try:
        with warnings.catch_warnings():
            warnings.simplefilter("ignore")
            return ast.parse(text, mode="eval").body
    except (SyntaxError, ValueError, RecursionError, MemoryError) as error:
        raise NotSaid("it is no expression") from error


def number_of(node: ast.expr, known: Known) -> int | None:
    """The number that an expression without variables is worth."""
    if isinstance(node, ast.Constant) and isinstance(node.value, (bool, int, float)):
        value = float(node.value) if not isinstance(node.value, int) else node.value
        return int(value) if abs(value) <= GREATEST and value == int(value) else None
    if isinstance(node, ast.Attribute) and isinstance(node.value, ast.Name) and node.value.id == "settings":
        if node.attr not in known.settings:
            raise NotSaid(f"no section `settings` has a default number for `{node.attr}`")
        return known.settings[node.attr]
    if isinstance(node, ast.UnaryOp) and isinstance(node.op, (ast.USub, ast.UAdd)):
        inner = number_of(node.operand, known)
        return None if inner is None else -inner if isinstance(node.op, ast.USub) else inner
    if isinstance(node, ast.BinOp) and isinstance(node.op, (ast.Add, ast.Sub, ast.Mult)):
        return of_sum(node, known)
    return None


def of_sum(node: ast.BinOp, known: Known) -> int | None:
    left, right = number_of(node.left, known), number_of(node.right, known)
    if left is None or right is None:
        return None
    value = left + right if isinstance(node.op, ast.Add) else left - right if isinstance(node.op,
                                                                                         ast.Sub) else left * right
    return value if abs(value) <= GREATEST else None


def number(text: str, known: Known) -> int | None:
    """A whole number as MPF writes it: with `_`, or with the default of a setting; none if it is another thing."""
    plain = re.sub(r"(?<=\d)[_,](?=\d)", "", text.strip())
    if re.fullmatch(r"[+-]?\d{1,10}(\.0+)?", plain):
        value = int(float(plain))
        return value if abs(value) <= GREATEST else None
    if not re.search(r"[a-zA-Z*+-]", plain):
        return None
    try:
        return number_of(parse(plain), known)
    except (NotSaid, RecursionError):
        return None


def product(text: str, known: Known) -> tuple[int, str] | None:
    """`1000 * current_player.x`, as the number and the variable."""
    try:
        node = parse(text)
        if not isinstance(node, ast.BinOp) or not isinstance(node.op, ast.Mult):
            return None
        for one, other in (node.left, node.right), (node.right, node.left):
            factor, variable = number_of(one, known), variable_of(other, known)
            if factor is not None and variable:
                return factor, variable
    except (NotSaid, RecursionError):
        return None
    return None


def variable_of(node: ast.expr, known: Known) -> str:
    if isinstance(node, ast.Attribute) and isinstance(node.value, ast.Name) and node.value.id == "current_player":
        return node.attr
    return known.variable(node.id) if isinstance(node, ast.Name) else ""


def ways_of(text: str, known: Known) -> list[Way]:
    """The ways in which a condition holds. Raises NotSaid if nothing here means the same."""
    try:
        ways = of_node(parse(text), True, known)
    except RecursionError as error:
        raise NotSaid("the expression is too deep") from error
    if len(ways) > MOST_WAYS or any(len(it) > MOST_STEPS for it in ways):
        raise NotSaid("the condition has too many parts")
    return ways


def of_node(node: ast.expr, wanted: bool, known: Known) -> list[Way]:
    if isinstance(node, ast.UnaryOp) and isinstance(node.op, ast.Not):
        return of_node(node.operand, not wanted, known)
    if isinstance(node, ast.BoolOp):
        return of_parts(node.values, isinstance(node.op, ast.And) == wanted, wanted, known)
    if isinstance(node, ast.Compare) and len(node.ops) > 1:
        terms = [node.left, *node.comparators]
        parts: list[ast.expr] = [ast.Compare(terms[at], [op], [terms[at + 1]]) for at, op in enumerate(node.ops)]
        return of_parts(parts, wanted, wanted, known)
    atom = atom_of(node, known)
    if isinstance(atom, bool):
        return [[]] if atom == wanted else []
    return [[atom if wanted else atom.opposite()]]


def of_parts(parts: list[ast.expr], all_of_them: bool, wanted: bool, known: Known) -> list[Way]:
    """All of the parts have to be as wanted; or the first that is as wanted, after others that are not."""
    found: list[Way] = []
    before: list[Way] = [[]]
    for part in parts:
        here = of_node(part, wanted, known)
        if all_of_them:
            before = [[*one, *other] for one in before for other in here]
        else:
            found += [[*one, *other] for one in before for other in here]
            before = [[*one, *other] for one in before for other in of_node(part, not wanted, known)]
        if len(found) > MOST_WAYS or len(before) > MOST_WAYS:
            raise NotSaid("the condition has too many parts")
    return before if all_of_them else found


def atom_of(node: ast.expr, known: Known) -> Atom | bool:
    if isinstance(node, ast.Compare):
        return comparison(node, known)
    if variable := variable_of(node, known):
        return Comparison(variable, "!=", 0)
    if (value := number_of(node, known)) is not None:
        return bool(value)
    found = re.fullmatch(r"mode\.(\w+)\.active", ast.unparse(node))
    if found:
        return InMode(found[1])
    raise NotSaid(f"nothing here means `{ast.unparse(node)[:60]}`")


def comparison(node: ast.Compare, known: Known) -> Atom | bool:
    sign = SIGNS.get(type(node.ops[0]), "")
    left, right = node.left, node.comparators[0]
    value, other = number_of(right, known), number_of(left, known)
    if sign and value is not None and other is not None:
        return {"==": other == value, "!=": other != value, "<": other < value, "<=": other <= value,
                ">": other > value, ">=": other >= value}[sign]
    if sign and value is not None and (variable := variable_of(left, known)):
        return Comparison(variable, sign, value)
    if sign and other is not None and (variable := variable_of(right, known)):
        return Comparison(variable, MIRROR[sign], other)
    raise NotSaid(f"nothing here means `{ast.unparse(node)[:60]}`")
