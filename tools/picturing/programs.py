"""Programs: their grammar with the faults and columns of docs/FORMATS.md, and their meaning on ordinary values."""
import re
from dataclasses import dataclass

GREATEST = 2**63 - 1
DEEPEST = 32
MOST_ITEMS = 16
RESERVED = frozenset("and or not min max if else require return certain".split())
TOKEN = re.compile(r"[a-z][a-z0-9_]{0,15}|[0-9]+|:=|<>|<=|>=|.", re.DOTALL)
COMPARISONS = ("=", "<>", "<", "<=", ">", ">=")


class ProgramFault(Exception):
    """A text is no program; the text of the fault is its cause."""


class Declined(Exception):
    """A program declines; the text says why."""


@dataclass(frozen=True)
class Token:
    """A token, and its column from 1."""

    text: str
    column: int


@dataclass(frozen=True)
class Program:
    """The statements of a program, the items that it names, those that it assigns, those that have to be certain, and whether it returns something."""

    statements: tuple
    items: frozenset
    assigned: frozenset
    certain: frozenset
    returns: bool


def tokens_of(text):
    """The tokens of a text, and one without text behind its end."""
    found = [Token(match.group(), match.start() + 1) for match in TOKEN.finditer(text) if match.group() not in " \t"]
    return found + [Token("", len(text) + 1)]


class Parser:
    """Reads a program from the left; the first token that doesn't fit is its fault."""

    def __init__(self, text, names):
        self.tokens = tokens_of(text)
        self.place = 0
        self.names = names
        self.items = set()
        self.assigned = set()
        self.certain = set()
        self.returns = False

    @property
    def token(self):
        """The next token."""
        return self.tokens[self.place]

    def fault(self, cause="program"):
        """Ends the reading at the next token."""
        raise ProgramFault(f"{cause} column {self.token.column}")

    def take(self, text, depth):
        """Takes a token of this text, which has to come."""
        if self.token.text != text:
            self.fault()
        self.step(depth)

    def step(self, depth):
        """Takes the next token, whatever it is, unless it is nested too deep."""
        if depth > DEEPEST:
            self.fault("too deep")
        taken = self.token.text
        self.place += 1
        return taken

    def is_name(self):
        """The next token is the name of an item, or would be."""
        return bool(re.match("[a-z]", self.token.text)) and self.token.text not in RESERVED

    def name(self, depth):
        """Takes the name of an item."""
        if not self.is_name():
            self.fault()
        if self.token.text not in self.names:
            self.fault("unknown name")
        name = self.step(depth)
        self.items.add(name)
        return name

    def whole(self):
        """A program and nothing behind it."""
        statements = self.program(0)
        if self.token.text:
            self.fault()
        return Program(statements, frozenset(self.items), frozenset(self.assigned), frozenset(self.certain), self.returns)

    def program(self, depth):
        """Statements between semicolons."""
        statements = [self.statement(depth)]
        while self.token.text == ";":
            self.step(depth)
            statements.append(self.statement(depth))
        return tuple(statements)

    def statement(self, depth):
        """One statement."""
        word = self.token.text
        if word in ("require", "return"):
            self.step(depth)
            self.returns = self.returns or word == "return"
            if word == "require" and self.token.text == "certain":
                return self.certainty(depth)
            return (word, self.expression(depth))
        if word == "if":
            return self.branch(depth)
        name = self.name(depth)
        self.assigned.add(name)
        self.take(":=", depth)
        return ("assign", name, self.expression(depth))

    def certainty(self, depth):
        """The word `certain` and an item."""
        self.step(depth)
        name = self.name(depth)
        self.certain.add(name)
        return ("certain", name)

    def branch(self, depth):
        """An `if` with its bodies."""
        self.step(depth)
        test = self.expression(depth)
        body = self.body(depth)
        if self.token.text != "else":
            return ("if", test, body, ())
        self.step(depth)
        return ("if", test, body, self.body(depth))

    def body(self, depth):
        """A program in braces."""
        self.take("{", depth)
        statements = self.program(depth + 1)
        self.take("}", depth)
        return statements

    def chain(self, operators, side, depth):
        """Sides between operators, grouped to the left."""
        left = side(depth)
        while self.token.text in operators:
            left = (self.step(depth), left, side(depth))
        return left

    def expression(self, depth):
        """The whole of an expression."""
        return self.chain(("or",), self.conjunction, depth)

    def conjunction(self, depth):
        """A chain of `and`."""
        return self.chain(("and",), self.negation, depth)

    def negation(self, depth):
        """A comparison, or `not` before one."""
        signs = 0
        while self.token.text == "not":
            self.step(depth + signs)
            signs += 1
        expression = self.comparison(depth + signs)
        for _ in range(signs):
            expression = ("not", expression)
        return expression

    def comparison(self, depth):
        """A sum, or two that are compared."""
        left = self.sum(depth)
        if self.token.text not in COMPARISONS:
            return left
        return (self.step(depth), left, self.sum(depth))

    def sum(self, depth):
        """A chain of sums and differences."""
        return self.chain(("+", "-"), self.product, depth)

    def product(self, depth):
        """A chain of products, quotients and remainders."""
        return self.chain(("*", "/", "%"), self.side, depth)

    def side(self, depth):
        """One side, with the signs before it."""
        signs = 0
        while self.token.text == "-":
            self.step(depth + signs)
            signs += 1
        expression = self.plain_side(depth + signs)
        for _ in range(signs):
            expression = ("minus", expression)
        return expression

    def plain_side(self, depth):
        """A number, an item, a bracket, or the lesser or greater of two."""
        word = self.token.text
        if word.isdigit():
            if int(word) > GREATEST:
                self.fault()
            return ("number", int(self.step(depth)))
        if word in ("min", "max"):
            self.step(depth)
            self.take("(", depth)
            left = self.expression(depth + 1)
            self.take(",", depth + 1)
            right = self.expression(depth + 1)
            self.take(")", depth)
            return (word, left, right)
        if word == "(":
            self.step(depth)
            expression = self.expression(depth + 1)
            self.take(")", depth)
            return expression
        return ("item", self.name(depth))


def program_of(text, names, is_query):
    """The program of a text over these names of items."""
    program = Parser(text, names).whole()
    if not program.items:
        raise ProgramFault("names no item")
    if len(program.items) > MOST_ITEMS:
        raise ProgramFault(f"too many names {len(program.items)}")
    if is_query and program.assigned:
        raise ProgramFault("query assigns")
    if is_query and not program.returns:
        raise ProgramFault("no return")
    return program


def within(value):
    """A result, which declines where it is outside 64 bits."""
    if not -GREATEST - 1 <= value <= GREATEST:
        raise Declined("declined-overflow")
    return value


def quotient(left, right):
    """The quotient, cut towards zero."""
    if right == 0:
        raise Declined("declined-zero-divisor")
    size = abs(left) // abs(right)
    return within(size if (left < 0) == (right < 0) else -size)


OPERATORS = {
    "=": lambda left, right: int(left == right),
    "<>": lambda left, right: int(left != right),
    "<": lambda left, right: int(left < right),
    "<=": lambda left, right: int(left <= right),
    ">": lambda left, right: int(left > right),
    ">=": lambda left, right: int(left >= right),
    "+": lambda left, right: within(left + right),
    "-": lambda left, right: within(left - right),
    "*": lambda left, right: within(left * right),
    "/": quotient,
    "%": lambda left, right: left - right * quotient(left, right),
    "min": min,
    "max": max,
}


def value_of(expression, rows):
    """The value of an expression over the rows, left sides first."""
    kind = expression[0]
    if kind == "number":
        return expression[1]
    if kind == "item":
        return rows[expression[1]]
    left = value_of(expression[1], rows)
    if kind == "minus":
        return within(-left)
    if kind == "not":
        return int(left == 0)
    if kind == "or":
        return 1 if left else int(value_of(expression[2], rows) != 0)
    if kind == "and":
        return int(value_of(expression[2], rows) != 0) if left else 0
    return OPERATORS[kind](left, value_of(expression[2], rows))


def course(statements, rows):
    """Runs statements on the rows, which change; what they return, or None."""
    for statement in statements:
        if statement[0] == "assign":
            rows[statement[1]] = value_of(statement[2], rows)
        elif statement[0] == "require":
            if not value_of(statement[1], rows):
                raise Declined("declined-require")
        elif statement[0] == "certain":
            pass
        elif statement[0] == "return":
            return value_of(statement[1], rows)
        else:
            returned = course(statement[2] if value_of(statement[1], rows) else statement[3], rows)
            if returned is not None:
                return returned
    return None


def run_program(program, rows):
    """The rows after the program, and its reply. A decline leaves the rows as they were."""
    after = dict(rows)
    try:
        returned = course(program.statements, after)
    except Declined as declined:
        return dict(rows), str(declined)
    return after, "nothing" if returned is None else returned
