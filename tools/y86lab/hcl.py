"""HCL files: their tokens, their definitions with the places, and files with other definitions in the place of some."""
from __future__ import annotations

import re
from dataclasses import dataclass
from typing import Callable, Iterator, Optional, Union

TOKEN = re.compile(
    r"\s+|#[^\n]*|(?P<quoted>'[^'\n]*')|(?P<name>[A-Za-z_]\w*)|(?P<number>-?\d+)"
    r"|(?P<sign>\|\||&&|==|!=|<=|>=|[<>!()\[\]{},;:=])",
)
KINDS = frozenset({"word", "bool", "int"})
DECLARATIONS = frozenset({"wordsig", "boolsig", "intsig"})
COMPARISONS = ("==", "!=", "<", "<=", ">", ">=")
# The most brackets and `!` that may be open.
DEEPEST = 64
# A word has 19 digits at most.
MOST_DIGITS = 19


class SyntaxFault(Exception):
    """The text isn't HCL at this offset."""

    def __init__(self, offset: int) -> None:
        super().__init__(f"no HCL at offset {offset}")
        self.offset = offset


@dataclass(frozen=True)
class Token:
    kind: str
    text: str
    start: int

    @property
    def end(self) -> int:
        return self.start + len(self.text)


@dataclass(frozen=True)
class Node:
    """An expression, and its place in the text."""

    start: int
    end: int

    def parts(self) -> tuple[Expression, ...]:
        """The expressions that this one is made of."""
        return ()


@dataclass(frozen=True)
class Name(Node):
    name: str


@dataclass(frozen=True)
class Number(Node):
    value: int


@dataclass(frozen=True)
class Negation(Node):
    inner: Expression

    def parts(self) -> tuple[Expression, ...]:
        return (self.inner,)


@dataclass(frozen=True)
class Connection(Node):
    """Expressions joined by `||` or by `&&`."""

    sign: str
    operands: tuple[Expression, ...]

    def parts(self) -> tuple[Expression, ...]:
        return self.operands


@dataclass(frozen=True)
class Comparison(Node):
    sign: str
    left: Expression
    right: Expression

    def parts(self) -> tuple[Expression, ...]:
        return (self.left, self.right)


@dataclass(frozen=True)
class Membership(Node):
    """`left in { members }`"""

    left: Expression
    members: tuple[Expression, ...]

    def parts(self) -> tuple[Expression, ...]:
        return (self.left, *self.members)


@dataclass(frozen=True)
class Case:
    guard: Expression
    value: Expression


@dataclass(frozen=True)
class Cases(Node):
    """`[ guard : value; .. ]`"""

    cases: tuple[Case, ...]

    def parts(self) -> tuple[Expression, ...]:
        return tuple(part for case in self.cases for part in (case.guard, case.value))


Expression = Union[Name, Number, Negation, Connection, Comparison, Membership, Cases]


def names_in(expression: Expression) -> Iterator[Name]:
    """The names of an expression, in the order of the text."""
    if isinstance(expression, Name):
        yield expression
    for part in expression.parts():
        yield from names_in(part)


@dataclass(frozen=True)
class Declaration:
    """`wordsig NAME 'text'` or `boolsig NAME 'text'`."""

    kind: str
    name: str
    name_start: int

    @property
    def is_boolean(self) -> bool:
        return self.kind.startswith("bool")


@dataclass(frozen=True)
class Definition(Declaration):
    """`word NAME = EXPRESSION;` or `bool NAME = EXPRESSION;`."""

    body: Expression
    start: int
    end: int


def tokens_of(text: str) -> list[Token]:
    """The tokens of a text, and one of the kind `end` after them."""
    tokens, offset = [], 0
    while offset < len(text):
        match = TOKEN.match(text, offset)
        if not match:
            raise SyntaxFault(offset)
        if match.lastgroup:
            tokens.append(Token(match.lastgroup, match[0], offset))
        offset = match.end()
    return [*tokens, Token("end", "", len(text))]


class Reader:
    """A reader by recursive descent over the tokens of a text."""

    def __init__(self, text: str) -> None:
        self.tokens = tokens_of(text)
        self.position = 0
        self.depth = 0

    def next(self) -> Token:
        return self.tokens[self.position]

    def take(self, *texts: str) -> Token:
        """Goes past the next token, which has to be one of these texts where some are given."""
        token = self.next()
        if token.kind == "end" or texts and token.text not in texts:
            raise SyntaxFault(token.start)
        self.position += 1
        return token

    def last_end(self) -> int:
        return self.tokens[self.position - 1].end

    def is_next(self, *texts: str) -> bool:
        return self.next().text in texts and self.next().kind != "quoted"

    def file(self) -> tuple[list[Definition], list[Declaration]]:
        """All definitions and declarations of the file."""
        definitions, declarations = [], []
        while self.next().kind != "end":
            first = self.take()
            if first.text in KINDS:
                definitions.append(self.definition(first))
            elif first.text in DECLARATIONS:
                name = self.take()
                self.take()
                declarations.append(Declaration(first.text, name.text, name.start))
            elif first.text == "quote":
                self.take()
            else:
                raise SyntaxFault(first.start)
        return definitions, declarations

    def definition(self, first: Token) -> Definition:
        name = self.take()
        if name.kind != "name":
            raise SyntaxFault(name.start)
        self.take("=")
        body = self.disjunction()
        self.take(";")
        return Definition(first.text, name.text, name.start, body, first.start, self.last_end())

    def connection(self, sign: str, below: Callable[[], Expression]) -> Expression:
        start = self.next().start
        operands = [below()]
        while self.is_next(sign):
            self.take()
            operands.append(below())
        return operands[0] if len(operands) == 1 else Connection(start, self.last_end(), sign, tuple(operands))

    def disjunction(self) -> Expression:
        return self.connection("||", self.conjunction)

    def conjunction(self) -> Expression:
        return self.connection("&&", self.negation)

    def negation(self) -> Expression:
        self.depth += 1
        start = self.next().start
        if self.depth > DEEPEST + 1:
            raise SyntaxFault(start)
        expression: Expression
        if self.is_next("!"):
            self.take()
            inner = self.negation()
            expression = Negation(start, self.last_end(), inner)
        else:
            expression = self.comparison()
        self.depth -= 1
        return expression

    def comparison(self) -> Expression:
        start = self.next().start
        left = self.simple()
        if self.is_next(*COMPARISONS):
            sign = self.take().text
            right = self.simple()
            return Comparison(start, self.last_end(), sign, left, right)
        if self.is_next("in"):
            self.take()
            self.take("{")
            members = [self.disjunction()]
            while self.is_next(","):
                self.take()
                members.append(self.disjunction())
            self.take("}")
            return Membership(start, self.last_end(), left, tuple(members))
        return left

    def simple(self) -> Expression:
        token = self.take()
        if token.kind == "number":
            digits = token.text.lstrip("-0") or "0"
            if len(digits) > MOST_DIGITS:
                raise SyntaxFault(token.start)
            return Number(token.start, token.end, -int(digits) if token.text[0] == "-" else int(digits))
        if token.kind == "name":
            return Name(token.start, token.end, token.text)
        if token.text == "(":
            inner = self.disjunction()
            self.take(")")
            return inner
        if token.text == "[":
            return self.cases(token.start)
        raise SyntaxFault(token.start)

    def cases(self, start: int) -> Cases:
        cases = []
        while not self.is_next("]"):
            guard = self.disjunction()
            self.take(":")
            value = self.disjunction()
            self.take(";")
            cases.append(Case(guard, value))
        self.take("]")
        return Cases(start, self.last_end(), tuple(cases))


class Design:
    """The definitions of a file, and those by their names: of a name that is defined twice the first."""

    def __init__(self, text: str) -> None:
        self.text = text
        self.definitions, self.declarations = Reader(text).file()
        self.by_name: dict[str, Definition] = {}
        for definition in self.definitions:
            self.by_name.setdefault(definition.name, definition)

    def line(self, offset: int) -> int:
        return self.text.count("\n", 0, offset) + 1

    def column(self, offset: int) -> int:
        return offset - self.text.rfind("\n", 0, offset)

    def source(self, start: int, end: int) -> str:
        """A piece of the text on one line, without comments."""
        return re.sub(r"\s+", " ", re.sub(r"#[^\n]*", "", self.text[start:end])).strip()

    def uses(self, name: str) -> list[Name]:
        """The places where definitions use a name."""
        return [used for definition in self.definitions for used in names_in(definition.body) if used.name == name]


def design_of(text: str) -> Optional[Design]:
    """The design of a text, or None if it isn't HCL."""
    try:
        return Design(text)
    except SyntaxFault:
        return None


def without_comments(text: str) -> str:
    return re.sub(r"#[^\n]*", "", text)


def replaced(design: Design, others: Design) -> str:
    """The text of a design with these definitions in the place of its own; those that it lacks come at its end."""
    text, missing = design.text, dict(others.by_name)
    for definition in sorted(design.definitions, key=lambda each: -each.start):
        other = others.by_name.get(definition.name)
        if other:
            text = text[: definition.start] + others.text[other.start : other.end] + text[definition.end :]
            missing.pop(definition.name, None)
    # (the last line may be a comment)
    if missing and text and not text.endswith("\n"):
        text += "\n"
    return text + "".join(f"{others.text[other.start : other.end]}\n" for other in missing.values())
