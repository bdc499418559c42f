#!/usr/bin/env python3
"""Writes the programs of the library as values, from their texts in crates/library_sources.

    tools/library_programs.py            writes the files
    tools/library_programs.py --check    says whether the files are those that it would write; the status is 1 where one isn't

What is written: the typed program of each text (crates/library_programs/specs), and its core form
(crates/library_texts/proofs), each node with its line, column and offset; and what its calls tell: frames, groups, registers
and stack numbers. The prover proves that these are what the texts come to, so nobody has to believe this script. It reads what the four texts are written in, and refuses any other form:
no static parameters, no annotations, no literals in patterns.
"""
import dataclasses
import pathlib
import re
import sys

TOP = pathlib.Path(__file__).resolve().parent.parent
TEXTS = TOP / "crates/library_sources/src"
PROGRAMS = TOP / "crates/library_programs/specs"
CORES = TOP / "crates/library_texts/proofs"
# Each text: the beginning of its files' names, and those of its functions that stand in files of their own.
PARTS = {
    "list": ("List", {}),
    "tree": ("Tree", {}),
    "rbtree": ("RedBlack", {"RedBlackInsertion": ["insert", "search", "close"], "RedBlackGrowth": ["grow"]}),
    "finger": ("Finger", {"FingerCons": ["need", "full", "holds", "cons"], "FingerPush": ["push", "close"]}),
}
OPERATORS = {
    "+": "Add", "-": "Subtract", "*": "Multiply", "/": "Divide", "%": "Remainder", "==": "Equal", "!=": "NotEqual",
    "<": "Less", "<=": "LessOrEqual", ">": "Greater", ">=": "GreaterOrEqual",
}
SUMS, PRODUCTS = ("+", "-"), ("*", "/", "%")
COMPARISONS = ("==", "!=", "<", "<=", ">", ">=")
KINDS = {"fip": "Fip", "fbip": "Fbip"}
WIDTH = 104
# A body of more lines than these is cut at its clauses.
MOST_LINES = 17
INT, BOOL = ("int",), (1, ())
# The words of a frame beside its registers.
FRAME_WORDS = 2


# ---- tokens

@dataclasses.dataclass
class Token:
    kind: str
    text: str
    line: int
    col: int
    offset: int

    def at(self):
        return f"(at {self.line} {self.col} {self.offset})"


PIECE = re.compile(
    r"(?P<gap>[ \t\r\n]+|//[^\n]*)|(?P<word>match!|[a-z][a-zA-Z0-9_]*|_)|(?P<upper>[A-Z][a-zA-Z0-9_]*)|(?P<number>[0-9]+)"
    r"|(?P<sign>->|==|!=|<=|>=|[-+*/%<>={}()\[\],;:^])")


def text_of(name):
    source = (TEXTS / f"{name}.rt").read_text()
    text = re.search(r'pub const TEXT: &str = "(.*)";\n', source, re.S).group(1)
    if "\\" in text or '"' in text or not text.isascii():
        sys.exit(f"library_programs: {name}.rt has an escape, or a byte that isn't ASCII")
    return text


def tokens_of(text):
    tokens, line, start, at = [], 1, 0, 0
    while at < len(text):
        found = PIECE.match(text, at)
        if not found:
            sys.exit(f"library_programs: no token at line {line}, column {at - start + 1}")
        if found.lastgroup != "gap":
            tokens.append(Token(found.lastgroup, found.group(), line, at - start + 1, at))
        line += found.group().count("\n")
        if "\n" in found.group():
            start = at + found.group().rindex("\n") + 1
        at = found.end()
    return tokens + [Token("end", "", line, at - start + 1, at)]


# ---- trees: a node has a form, the token at its place, and its parts

@dataclasses.dataclass
class Node:
    form: str
    token: Token
    parts: list = dataclasses.field(default_factory=list)
    # of a variable, a binder or a let: the numbers; of a match: whether it is match!
    numbers: list = dataclasses.field(default_factory=list)
    type: tuple = None

    def name(self):
        return self.token.text if self.form != "made" else "_"


class Parser:
    def __init__(self, tokens):
        self.tokens, self.next = tokens, 0

    def sees(self, *texts):
        return self.tokens[self.next].text in texts

    def take(self, *texts, kind=None):
        token = self.tokens[self.next]
        if (texts and token.text not in texts) or (kind and token.kind != kind):
            sys.exit(f"library_programs: line {token.line}, column {token.col}: {token.text!r} isn't in this subset")
        self.next += 1
        return token

    def listed(self, item, first, last):
        """Items between two brackets, with commas."""
        self.take(first)
        items = []
        while not self.sees(last):
            items.append(item())
            if not self.sees(last):
                self.take(",")
        self.take(last)
        return items

    def written(self):
        token = self.take(kind="word")
        return Node("written", token, self.listed(self.written, "[", "]") if self.sees("[") else [])

    def data(self):
        self.take("data")
        name = self.take(kind="word")
        parameters = self.listed(lambda: self.take(kind="word"), "[", "]") if self.sees("[") else []
        self.take("{")
        constructors = []
        while not self.sees("}"):
            head = self.take(kind="upper")
            constructors.append(Node("fields", head, self.listed(self.written, "(", ")") if self.sees("(") else []))
            if not self.sees("}"):
                self.take(";")
        self.take("}")
        return name, parameters, constructors

    def parameter(self):
        lent = self.sees("^")
        if lent:
            self.take("^")
        name = self.take(kind="word")
        self.take(":")
        return Node("parameter", name, [self.written()], [lent])

    def function(self):
        kind = self.take(*KINDS).text
        credits = []
        while self.sees("+"):
            credits.append((self.take("+"), self.take(kind="number")))
        self.take("fun")
        name = self.take(kind="word")
        parameters = self.listed(self.parameter, "(", ")")
        self.take(":")
        bracket = self.tokens[self.next] if self.sees("(") else None
        results = self.listed(self.written, "(", ")") if bracket else [self.written()]
        return Function(kind, credits, name, parameters, bracket, results, self.braced())

    def braced(self):
        self.take("{")
        body = self.block()
        self.take("}")
        return body

    def block(self):
        if not self.sees("let"):
            return Node("last", None, [self.expression()])
        token = self.take("let")
        names = self.listed(lambda: self.take(kind="word"), "(", ")") if self.sees("(") else [self.take(kind="word")]
        self.take("=")
        bound = self.expression()
        self.take(";")
        return Node("let", token, [names, bound, self.block()])

    def expression(self):
        left = self.chain(self.chain_of_products, SUMS)
        if not self.sees(*COMPARISONS):
            return left
        sign = self.take(*COMPARISONS)
        return Node("operation", sign, [left, self.chain(self.chain_of_products, SUMS)])

    def chain_of_products(self):
        return self.chain(self.simple, PRODUCTS)

    def chain(self, part, signs):
        left = part()
        while self.sees(*signs):
            sign = self.take(*signs)
            left = Node("operation", sign, [left, part()])
        return left

    def simple(self):
        if self.sees("match", "match!"):
            return self.match()
        if self.sees("if"):
            token = self.take("if")
            scrutinee, met = self.expression(), self.braced()
            self.take("else")
            return Node("if", token, [scrutinee, met, self.braced()])
        if self.sees("("):
            return Node("tuple", self.tokens[self.next], self.listed(self.expression, "(", ")"))
        token = self.take()
        if token.kind == "number":
            return Node("literal", token)
        if token.kind == "upper":
            return Node("constructor", token, self.listed(self.expression, "(", ")") if self.sees("(") else [])
        if token.kind == "word":
            if self.sees("("):
                return Node("call", token, self.listed(self.expression, "(", ")"))
            return Node("variable", token)
        sys.exit(f"library_programs: line {token.line}, column {token.col}: {token.text!r} isn't in this subset")

    def match(self):
        token = self.take("match", "match!")
        scrutinee, clauses = self.expression(), []
        self.take("{")
        while not self.sees("}"):
            pattern = self.pattern()
            self.take("->")
            clauses.append((pattern, self.block()))
            if not self.sees("}"):
                self.take(";")
        self.take("}")
        return Node("match", token, [scrutinee, clauses], [token.text == "match!"])

    def pattern(self):
        token = self.take()
        if token.kind == "upper":
            return Node("pattern", token, self.listed(self.pattern, "(", ")") if self.sees("(") else [])
        if token.kind == "word":
            return Node("binder", token)
        sys.exit(f"library_programs: line {token.line}, column {token.col}: {token.text!r} isn't in this subset")


@dataclasses.dataclass
class Function:
    kind: str
    credits: list
    name: Token
    parameters: list
    bracket: Token
    results: list
    body: Node
    binders: int = 0


# ---- the core form: parts that are no arguments, and scrutinees that are no variables, are bound by lets

class Core:
    """The core form of one function; binders are numbered in the order in which they come to stand."""

    def __init__(self, function):
        self.count = 0
        scope = {}
        for parameter in function.parameters:
            parameter.numbers.append(self.number())
            scope[parameter.token.text] = parameter.numbers[1]
        function.body = self.block(function.body, scope)
        function.binders = self.count

    def number(self):
        self.count += 1
        return self.count - 1

    def bind(self, lets, e):
        """A let that binds an expression to _, at the expression's place; the variable that stands for it."""
        binder = Node("made", e.token, [], [self.number()])
        lets.append(([binder], e))
        return Node("made", e.token, [], binder.numbers[:])

    def argument(self, e, scope, lets):
        """A part: an argument stays, any other is bound."""
        own = []
        whole = self.whole(e, scope, own)
        lets.extend(own)
        is_argument = whole.form in ("variable", "literal", "made") or (whole.form == "constructor" and not own)
        return whole if is_argument else self.bind(lets, whole)

    def whole(self, e, scope, lets):
        if e.form == "variable":
            return Node("variable", e.token, [], [scope[e.token.text]])
        if e.form == "literal":
            return e
        if e.form in ("call", "constructor", "tuple", "operation"):
            return Node(e.form, e.token, [self.argument(part, scope, lets) for part in e.parts])
        scrutinee = self.argument(e.parts[0], scope, lets)
        if scrutinee.form not in ("variable", "made"):
            scrutinee = self.bind(lets, scrutinee)
        if e.form == "match":
            return Node("match", e.token, [scrutinee, [self.clause(p, b, scope) for p, b in e.parts[1]]], e.numbers)
        cases = [(Node("pattern", dataclasses.replace(e.token, text=name)), self.block(body, scope))
                 for name, body in zip(("True", "False"), e.parts[1:])]
        return Node("match", e.token, [scrutinee, cases], [False])

    def clause(self, pattern, body, scope):
        inner = dict(scope)
        pattern = self.pattern(pattern, inner)
        return pattern, self.block(body, inner)

    def pattern(self, p, scope):
        if p.form == "pattern":
            return Node("pattern", p.token, [self.pattern(part, scope) for part in p.parts])
        return self.binder(p.token, scope)

    def binder(self, token, scope):
        number = self.number()
        if token.text != "_":
            scope[token.text] = number
        return Node("binder", token, [], [number])

    def block(self, b, scope):
        lets, scope = [], dict(scope)
        while b.form == "let":
            names, bound, rest = b.parts
            whole = self.whole(bound, scope, lets)
            lets.append(([self.binder(name, scope) for name in names], whole))
            b = rest
        last = self.whole(b.parts[0], scope, lets)
        if last.form == "operation":
            last = self.bind(lets, last)
        block = Node("last", None, [last])
        for binders, bound in reversed(lets):
            block = Node("let", None, [binders, bound, block])
        return block


# ---- types: int, or the number of a declaration (bool is 1) and its arguments

class Types:
    def __init__(self, datas, functions):
        self.datas, self.functions = datas, functions
        self.numbers = {name.text: i + 2 for i, (name, _, _) in enumerate(datas)} | {"bool": 1}
        self.arities = [0] + [len(parameters) for _, parameters, _ in datas]
        rows = [[("False", []), ("True", [])]]
        rows += [[(k.token.text, k.parts) for k in constructors] for _, _, constructors in datas]
        self.rows = rows
        self.constructors = {name: (i + 1, j) for i, row in enumerate(rows) for j, (name, _) in enumerate(row)}
        self.types = self.numbered()
        for f in functions:
            self.fill(f)

    def closed(self, written, given=None):
        name = written.token.text
        if name == "int":
            return INT
        if given and name in given:
            return given[name]
        return (self.numbers[name], tuple(self.closed(part, given) for part in written.parts))

    def given(self, type):
        """The arguments of a type by the names of its declaration's parameters."""
        number, arguments = type
        return dict(zip((p.text for p in self.datas[number - 2][1]), arguments)) if number > 1 else {}

    def fields(self, type, constructor):
        return [self.closed(w, self.given(type)) for w in self.rows[type[0] - 1][constructor][1]]

    def numbered(self):
        """bool, the types that functions name, and what is reached from these, each where it stands first."""
        found = [BOOL]

        def meet(types):
            found.extend(t for t in dict.fromkeys(types) if t != INT and t not in found)
        for f in self.functions:
            meet([self.closed(p.parts[0]) for p in f.parameters] + [self.closed(w) for w in f.results])
            named = [self.constructors[name][0] for name in constructors_in(f.body)]
            meet([(n, ()) for n in named if self.arities[n - 1] == 0])
        for type in found:
            meet(type[1])
            for j in range(len(self.rows[type[0] - 1])):
                meet(self.fields(type, j))
        return found

    def number(self, type):
        return 0 if type == INT else self.types.index(type) + 1

    # What is expected goes down, what is known comes back.

    def fill(self, f):
        here = {p.numbers[1]: self.closed(p.parts[0]) for p in f.parameters}
        self.block(f.body, here, [self.closed(w) for w in f.results])

    def argument(self, a, here, expected):
        if a.form in ("variable", "made"):
            a.type = here[a.numbers[0]]
        elif a.form == "literal":
            a.type = INT
        else:
            number, constructor = self.constructors[a.token.text]
            a.type = expected or (number, ())
            for part, field in zip(a.parts, self.fields(a.type, constructor), strict=True):
                self.argument(part, here, field)
        if expected and a.type != expected:
            sys.exit(f"library_programs: line {a.token.line}, column {a.token.col}: the type isn't the expected one")
        return a.type

    def pattern(self, p, here, type):
        p.type = type
        if p.form == "binder":
            here[p.numbers[0]] = type
            return
        number, constructor = self.constructors[p.token.text]
        for part, field in zip(p.parts, self.fields(type, constructor), strict=True):
            self.pattern(part, here, field)

    def expression(self, e, here, expected):
        if e.form == "tuple":
            wanted = expected or [None] * len(e.parts)
            return [self.argument(part, here, t) for part, t in zip(e.parts, wanted, strict=True)]
        if e.form == "operation":
            for part in e.parts:
                self.argument(part, here, INT)
            return [BOOL if e.token.text in COMPARISONS else INT]
        if e.form == "call":
            f = next(f for f in self.functions if f.name.text == e.token.text)
            for part, p in zip(e.parts, f.parameters, strict=True):
                self.argument(part, here, self.closed(p.parts[0]))
            return [self.closed(w) for w in f.results]
        if e.form == "match":
            e.type = self.argument(e.parts[0], here, None)
            for pattern, body in e.parts[1]:
                self.pattern(pattern, here, e.type)
                expected = self.block(body, here, expected)
            return expected
        return [self.argument(e, here, expected[0] if expected else None)]

    def block(self, b, here, expected):
        while b.form == "let":
            binders, bound, b = b.parts
            for binder, type in zip(binders, self.expression(bound, here, None), strict=True):
                here[binder.numbers[0]] = binder.type = type
        return self.expression(b.parts[0], here, expected)


def constructors_in(node):
    """The names of the constructors in a body, in text order."""
    if isinstance(node, (list, tuple)):
        return [name for part in node for name in constructors_in(part)]
    if not isinstance(node, Node):
        return []
    own = [node.token.text] if node.form in ("constructor", "pattern") else []
    return own + constructors_in(node.parts)


# ---- how a term is written

def name_of(token_or_text):
    return f'(codes "{token_or_text if isinstance(token_or_text, str) else token_or_text.text}")'


def sequence(items, more, end):
    """A row, as `MoreArguments a (MoreArguments b NoArguments)`."""
    text = end
    for item in reversed(items):
        text = f"{more} {bracketed(item)} {bracketed(text)}"
    return text


def bracketed(text):
    return text if " " not in text or is_bracketed(text) else f"({text})"


def is_bracketed(text):
    depth = 0
    for i, c in enumerate(text):
        depth += (c == "(") - (c == ")")
        if depth == 0:
            return i == len(text) - 1
    return False


def chained(items):
    return " ∷ ".join([*items, "[]"])


class Typed:
    """Terms of a typed program."""

    def __init__(self, types):
        self.types = types
        self.instances = {f.name.text: i for i, f in enumerate(types.functions)}
        self.cases = None

    def binder(self, word, b):
        return f"{word} {b.numbers[0]} {name_of(b.name())} {self.types.number(b.type)} {b.token.at()}"

    def head(self, node):
        declared, number = self.types.constructors[node.token.text]
        return f"{self.types.number(node.type)} {declared} {number} {name_of(node.token)} {node.token.at()}"

    def argument(self, a):
        return argument(a, f"Constructor {self.head(a)}" if a.form == "constructor" else "", self.arguments)

    def arguments(self, parts):
        return sequence([self.argument(part) for part in parts], "MoreArguments", "NoArguments")

    def pattern(self, p):
        if p.form == "binder":
            return self.binder("taken", p)
        parts = sequence([self.pattern(part) for part in p.parts], "MorePatterns", "NoPatterns")
        return f"ConstructorPattern {self.head(p)} {bracketed(parts)}"

    def expression(self, e, name):
        if e.form == "call":
            callee = self.instances[e.token.text]
            return f"Call {callee} {name_of(e.token)} {e.token.at()} {bracketed(self.arguments(e.parts))}"
        if e.form == "match":
            (pattern, body), *others = self.clauses(e.parts[1], name)
            rest = "NoClauses"
            for other, its in reversed(others):
                rest = f"MoreClauses {bracketed(other)} {bracketed(its)} {bracketed(rest)}"
            return (f"Match {str(e.numbers[0]).lower()} {self.types.number(e.type)} {e.token.at()} "
                    f"{bracketed(self.argument(e.parts[0]))} {bracketed(pattern)} {bracketed(body)} {bracketed(rest)}")
        return expression(e, self.argument, self.arguments)

    def clauses(self, clauses, name):
        """The patterns and the bodies; where the body of the function is cut, by the names of cases."""
        shown = []
        for i, (pattern, body) in enumerate(clauses):
            case = f"{name}_{i + 1}"
            whole = self.pattern(pattern), self.block(body, case)
            if self.cases is not None:
                self.cases.append((case, *whole))
                whole = f"{case}.pattern", f"{case}.body"
            shown.append(whole)
        return shown

    def block(self, b, name):
        if b.form == "last":
            return f"Last {bracketed(self.expression(b.parts[0], name))}"
        binders, bound, rest = b.parts
        shown = chained(self.binder("bound", binder) for binder in binders)
        return f"Let ({shown}) {bracketed(self.expression(bound, name))} {bracketed(self.block(rest, name))}"

    def body(self, f):
        """The cases that are cut off, each before the one that names it, and the body."""
        self.cases = None
        body = self.block(f.body, f.name.text)
        if len(filled(body, WIDTH, 4)) <= MOST_LINES:
            return [], body
        self.cases = []
        body = self.block(f.body, f.name.text)
        return self.cases, body

    def instance(self, f):
        params = [f"{'borrowed' if p.numbers[0] else 'owned'} {self.types.number(self.types.closed(p.parts[0]))}"
                  for p in f.parameters]
        binders = [f"bound {p.numbers[1]} {name_of(p.token)} {self.types.number(self.types.closed(p.parts[0]))} "
                   f"{p.token.at()}" for p in f.parameters]
        return [
            ("name", f'codes "{f.name.text}"'),
            ("place", f.name.at()),
            ("root", "true"),
            ("kind", KINDS[f.kind]),
            ("params", chained(params)),
            ("binders", chained(binders)),
            ("credits", chained(size.text for _, size in f.credits)),
            ("results", chained(str(self.types.number(self.types.closed(w))) for w in f.results)),
            ("results_place", f"Some {f.bracket.at()}" if f.bracket else "None"),
            ("signature_tuples", "[]"),
            ("variables", str(f.binders)),
            ("body", f"{f.name.text}_body"),
        ]

    def table(self):
        rows = []
        for type in self.types.types:
            shapes = []
            for j, (name, _) in enumerate(self.types.rows[type[0] - 1]):
                fields = chained(str(self.types.number(field)) for field in self.types.fields(type, j))
                shapes.append(f'record {{ name = codes "{name}"; fields = {fields} }}')
            rows.append(f"({chained(shapes)})")
        return chained(rows)

    def program(self, name):
        counts = [f"({chained(str(len(fields)) for _, fields in row)})" for row in self.types.rows]
        return [
            ("types", f"{name}_types"),
            ("declaring", chained(str(type[0]) for type in self.types.types)),
            ("arities", chained(map(str, self.types.arities))),
            ("field_counts", chained(counts)),
            ("instances", chained(f.name.text for f in self.types.functions)),
        ]


def argument(a, head, arguments):
    if a.form in ("variable", "made"):
        return f"var {a.numbers[0]} {name_of(a.name())} {a.token.at()}"
    if a.form == "literal":
        return f"Literal (pos {int(a.token.text)}) {a.token.at()}"
    return f"{head} {bracketed(arguments(a.parts))}"


def expression(e, argument, arguments):
    """What is the same in a typed program and in a core form."""
    if e.form == "tuple":
        return f"Tuple {e.token.at()} {bracketed(arguments(e.parts))}"
    if e.form == "operation":
        left, right = (bracketed(argument(part)) for part in e.parts)
        return f"Operation O.{OPERATORS[e.token.text]} {e.token.at()} {left} {right}"
    return f"Give {bracketed(argument(e))}"


class Written:
    """Terms of a core form."""

    def type(self, w):
        if w.token.text == "int":
            return f"WrittenInt {w.token.at()}"
        arguments = sequence([self.type(part) for part in w.parts], "MoreWritten", "NoWritten")
        return f"WrittenName {name_of(w.token)} {w.token.at()} {bracketed(arguments)}"

    def binder(self, b):
        return f"bound {b.numbers[-1]} {name_of(b.name())} {b.token.at()}"

    def argument(self, a):
        return argument(a, f"Constructor {name_of(a.token)} {a.token.at()}", self.arguments)

    def arguments(self, parts):
        return sequence([self.argument(part) for part in parts], "MoreArguments", "NoArguments")

    def pattern(self, p):
        if p.form == "binder":
            return f"BinderPattern ({self.binder(p)})"
        parts = sequence([self.pattern(part) for part in p.parts], "MorePatterns", "NoPatterns")
        return f"ConstructorPattern {name_of(p.token)} {p.token.at()} {bracketed(parts)}"

    def expression(self, e):
        if e.form == "call":
            return f"Call {name_of(e.token)} {e.token.at()} NoWritten {bracketed(self.arguments(e.parts))}"
        if e.form == "match":
            clauses = "NoClauses"
            for pattern, body in reversed(e.parts[1]):
                clauses = (f"MoreClauses {bracketed(self.pattern(pattern))} {bracketed(self.block(body))} "
                           f"{bracketed(clauses)}")
            return (f"Match {str(e.numbers[0]).lower()} {e.token.at()} {bracketed(self.argument(e.parts[0]))} "
                    f"{bracketed(clauses)}")
        return expression(e, self.argument, self.arguments)

    def block(self, b):
        if b.form == "last":
            return f"Last {bracketed(self.expression(b.parts[0]))}"
        binders, bound, rest = b.parts
        shown = chained(self.binder(binder) for binder in binders)
        return f"Let ({shown}) {bracketed(self.expression(bound))} {bracketed(self.block(rest))}"

    def function(self, f):
        credits = [record(("place", sign.at()), ("size_place", size.at()), ("size", size.text)) for sign, size in f.credits]
        parameters = [record(("lent", str(p.numbers[0]).lower()), ("binder", self.binder(p)),
                             ("type", self.type(p.parts[0]))) for p in f.parameters]
        results = [self.type(w) for w in f.results]
        result = f"TupleResult {f.bracket.at()} ({chained(results)})" if f.bracket else f"OneResult ({results[0]})"
        return record(("kind", KINDS[f.kind]), ("credits", listed(credits)), ("name", f'codes "{f.name.text}"'),
                      ("place", f.name.at()), ("statics", "[]"), ("parameters", listed(parameters)), ("result", result),
                      ("body", f"{f.name.text}_body"))

    def data(self, name, parameters, constructors):
        shown = [record(("name", f'codes "{k.token.text}"'), ("place", k.token.at()),
                        ("fields", listed([self.type(w) for w in k.parts]))) for k in constructors]
        names = [record(("name", f'codes "{p.text}"'), ("place", p.at())) for p in parameters]
        return record(("name", f'codes "{name.text}"'), ("place", name.at()), ("parameters", listed(names)),
                      ("constructors", listed(shown)))


def record(*fields):
    return "record { " + "; ".join(f"{name} = {value}" for name, value in fields) + " }"


def listed(items):
    return f"({chained(items)})" if items else "[]"


# ---- files

ATOM = re.compile(r'\(*?(?:\(at \d+ \d+ \d+\)|\(codes "[^"]*"\)|record \{[^{}]*\}|[^ ()]+)\)*')


def filled(text, width, indent):
    """The lines of a term; a place, a name and a short record stay whole."""
    lines, line = [], " " * indent
    for atom in ATOM.findall(text):
        if len(line) + 1 + len(atom) > width + indent and line.strip():
            lines.append(line)
            line = " " * indent
        line += atom if not line.strip() else f" {atom}"
    return lines + [line]


def defined(name, type, text, public=True):
    head = f"abbrev {'pub ' if public else ''}{name} : {type}\n{name} ="
    return head + "\n" + "\n".join(filled(text, WIDTH, 4)) + "\n"


def defined_record(name, type, fields):
    lines = [f"abbrev pub {name} : {type}", f"{name} =", "    record {"]
    for field, text in fields:
        if len(f"      {field} = {text};") <= WIDTH + 4:
            lines.append(f"      {field} = {text};")
        else:
            lines += [f"      {field} =", *filled(text, WIDTH - 6, 10)]
            lines[-1] += ";"
    return "\n".join([*lines, "    }"]) + "\n"


def imported(module, names, body, most=120):
    """Imports of those names that a body uses, in lines of at most so many columns."""
    used = [name for name in names if re.search(rf"(?<![\w.\"]){name}\b(?!\")", body)]
    lines = []
    for name in used:
        if lines and len(f"{lines[-1]}, {name}}}") <= most:
            lines[-1] += f", {name}"
        else:
            lines.append(f"use {module}.{{{name}")
    return "".join(f"{line}}}\n" for line in lines)


def signs(body):
    """The import of those signs and words of the Prelude that a body uses."""
    shown = {"[]": r"\[\]", "◌∷◌": "∷"}
    names = ["pos", "true", "false", "[]", "◌∷◌", "Some", "None", "codes"]
    used = [name for name in names if re.search(shown.get(name, rf"\b{name}\b"), body)]
    return f"use Rattle.std.specs.Prelude.{{{', '.join(used)}}}\n"


TREES = ["Literal", "Constructor", "NoArguments", "MoreArguments", "ConstructorPattern", "NoPatterns", "MorePatterns",
         "Give", "Tuple", "Operation", "Call", "Match", "Last", "Let", "NoClauses", "MoreClauses", "Block", "Instance",
         "Program"]
FORMS = ["WrittenInt", "WrittenName", "NoWritten", "MoreWritten", "OneResult", "TupleResult", "Literal", "Constructor",
         "NoArguments", "MoreArguments", "BinderPattern", "ConstructorPattern", "NoPatterns", "MorePatterns", "Give", "Tuple",
         "Operation", "Call", "Match", "Last", "Let", "NoClauses", "MoreClauses", "Block", "Function", "Data", "Core"]


def program_file(comment, elsewhere, body):
    """A file of a typed program; `elsewhere` are the functions that stand in other files."""
    text = f"-- {comment}\n" + signs(body)
    text += imported("Rattle.fip_language.specs.declared.FunKind.TheVariants", ["Fip", "Fbip"], body)
    text += "use Rattle.fip_language.specs.declared.Operator.TheVariants as O\n" if " O." in body else ""
    text += "use Rattle.fip_language.specs.Table.{Table}\n" if ": Table" in body else ""
    text += imported("Rattle.fip_trees.specs.Tree", TREES, body)
    text += "use Rattle.fip_trees.specs.TreeView.{Case}\n" if ": Case" in body else ""
    text += imported("Rattle.library_programs.specs.Parts", ["at", "bound", "var", "taken", "owned", "borrowed"], body)
    text += "".join(imported(f"Rattle.library_programs.specs.{module}", names, body) for module, names in elsewhere)
    return text + "\n" + body


def joined(names):
    return names[0] if len(names) == 1 else f"{', '.join(names[:-1])} and {names[-1]}"


def program_files(name, functions, datas):
    beginning, apart = PARTS[name]
    typed = Typed(Types(datas, functions))
    texts = {}
    for f in functions:
        cases, body = typed.body(f)
        pieces = [defined_record(case, "Case", [("pattern", p), ("body", b)]) for case, p, b in cases]
        pieces += [defined(f"{f.name.text}_body", "Block", body), defined_record(f.name.text, "Instance", typed.instance(f))]
        texts[f.name.text] = "\n".join(pieces)
    files = {}
    for module, names in apart.items():
        comment = f"Of the program of the text `{name}`: {joined(names)}."
        files[module] = program_file(comment, [], "\n".join(texts.pop(n) for n in names))
    own = [defined(f"{name}_types", "Table", typed.table()), defined_record(f"{name}_program", "Program", typed.program(name))]
    body = "\n".join([*texts.values(), *own])
    whole = program_file(f"The program of the text `{name}`, after it is typed.", apart.items(), body)
    return {PROGRAMS / f"{module}.antt": text for module, text in {**files, f"{beginning}Program": whole}.items()}


def core_file(name, functions, datas):
    written = Written()
    pieces = []
    for f in functions:
        own = f.name.text
        pieces.append(f"abbrev {own}_body : Block\n{own}_body = {written.block(f.body)}\n")
        pieces.append(f"abbrev {own} : Function\n{own} = {written.function(f)}\n")
    for data in datas:
        own = f"data_{data[0].text}"
        pieces.append(f"abbrev {own} : Data\n{own} = {written.data(*data)}\n")
    types, names = listed([f"data_{data[0].text}" for data in datas]), listed([f.name.text for f in functions])
    pieces.append(f"abbrev pub {name}_core : Core\n{name}_core = {record(('types', types), ('functions', names))}\n")
    body = "\n".join(pieces)
    text = f"-- The core form of the text `{name}`, written out, for the proof that its program is the one that is written out.\n"
    text += signs(body)
    text += imported("Rattle.source_report.specs.fip_language.declared.FunKind.TheVariants", ["Fip", "Fbip"], body)
    text += ("use Rattle.source_report.specs.fip_language.declared.Operator.TheVariants as O\n" if " O." in body else "")
    text += imported("Rattle.source_report.specs.fip_language.Core", FORMS, body, most=10_000)
    text += "use Rattle.library_programs.specs.Parts.{at}\nuse Rattle.library_texts.proofs.CoreParts.{bound, var}\n"
    return {CORES / f"{PARTS[name][0]}Core.antt": text + "\n" + body}


# ---- what the calls of a program tell

def sites(block, tail, numbers):
    """The calls in a block: the number of each callee, and whether the caller waits for it."""
    if block.form == "last":
        return calls_in(block.parts[0], tail, numbers)
    _, bound, rest = block.parts
    return calls_in(bound, False, numbers) + sites(rest, tail, numbers)


def calls_in(e, tail, numbers):
    if e.form == "call":
        return [(numbers[e.token.text], not tail)]
    if e.form == "match":
        return [call for _, body in e.parts[1] for call in sites(body, tail, numbers)]
    return []


def registers_in(e):
    """Binders, literals and constructors in a block, an expression, an argument or a pattern."""
    if e.form == "last":
        return registers_in(e.parts[0])
    if e.form == "let":
        binders, bound, rest = e.parts
        return len(binders) + registers_in(bound) + registers_in(rest)
    if e.form == "match":
        return sum(registers_in(pattern) + registers_in(body) for pattern, body in e.parts[1])
    own = e.form in ("literal", "constructor", "pattern", "binder")
    return own + sum(map(registers_in, e.parts))


def reached_by(calls):
    """What each function reaches by calls, itself too."""
    reached = []
    for f in range(len(calls)):
        met, waiting = {f}, [f]
        while waiting:
            new = {callee for callee, _ in calls[waiting.pop()]} - met
            met |= new
            waiting.extend(new)
        reached.append(met)
    return reached


def solved(calls, frames, base, own):
    """The least numbers, and after how many rounds each is there."""
    numbers, ranks = base[:], [0] * len(base)
    while True:
        new = [max([numbers[f]] + [numbers[g] + own[f] * waits for g, waits in calls[f] if frames[f] is not None])
               for f in range(len(calls))]
        if new == numbers:
            return numbers, ranks
        ranks = [rank if a == b else max(ranks) + 1 for rank, a, b in zip(ranks, new, numbers)]
        numbers = new


def told_file(name, functions):
    number = {f.name.text: i for i, f in enumerate(functions)}
    calls = [sites(f.body, True, number) for f in functions]
    registers = [len(f.parameters) + len(f.credits) + registers_in(f.body) for f in functions]
    frames = [count + FRAME_WORDS if f.kind == "fip" else None for f, count in zip(functions, registers)]
    words = [count or 0 for count in frames]
    deep, deep_ranks = solved(calls, frames, [0] * len(calls), [1] * len(calls))
    wide, wide_ranks = solved(calls, frames, words, words)
    reached = reached_by(calls)
    groups = [min(g for g in reached[f] if f in reached[g]) for f in range(len(calls))]
    stacks = ["None" if frame is None else f"Some (record {{ frames = {high}; words = {all} }})"
              for frame, high, all in zip(frames, deep, wide)]
    rows = [f"({chained(f'call {callee} {str(waits).lower()}' for callee, waits in row)})" if row else "[]" for row in calls]
    members = [f"record {{ group = {group}; registers = {count}; stack = {stack} }}"
               for group, count, stack in zip(groups, registers, stacks)]
    fields = [
        ("calls", chained(rows)),
        ("frames", chained("None" if frame is None else f"Some {frame}" for frame in frames)),
        ("members", chained(members)),
        ("frame_ranks", chained(map(str, deep_ranks))),
        ("word_ranks", chained(map(str, wide_ranks))),
    ]
    body = f"abbrev pub {name}_told : Told\n{name}_told = record {{\n"
    body += "".join(f"  {field} = {value};\n" for field, value in fields) + "}\n"
    text = f"-- What the calls of the program of the text `{name}` tell, written out: frames, groups, registers and stack numbers.\n"
    words_used = [word for word in ("true", "false") if re.search(rf"\b{word}\b", body)]
    words_used += ["[]", "◌∷◌"] + [word for word in ("Some", "None") if re.search(rf"\b{word}\b", body)]
    text += f"use Rattle.std.specs.Prelude.{{{', '.join(words_used)}}}\n"
    text += "use Rattle.source_report.specs.call_groups.Groups.{call}\n"
    text += "use Rattle.library_texts.proofs.StackNumbers.{Told}\n"
    return {CORES / f"{PARTS[name][0]}Calls.antt": text + "\n" + body}


def files_of(name):
    parser = Parser(tokens_of(text_of(name)))
    datas, functions = [], []
    while not parser.sees(""):
        if parser.sees("data"):
            datas.append(parser.data())
        else:
            functions.append(parser.function())
    for f in functions:
        Core(f)
    return {**program_files(name, functions, datas), **core_file(name, functions, datas), **told_file(name, functions)}


def main():
    files = {path: text for name in PARTS for path, text in files_of(name).items()}
    wrong = [path for path, text in files.items() if not path.exists() or path.read_text() != text]
    if "--check" not in sys.argv:
        for path in wrong:
            path.write_text(files[path])
        print(f"library_programs: {len(wrong)} of {len(files)} files written")
        return 0
    for path in wrong:
        print(f"library_programs: {path.relative_to(TOP)} isn't what tools/library_programs.py makes of the texts")
    print(f"library_programs: {len(files) - len(wrong)} of {len(files)} files are what the texts come to")
    return 1 if wrong else 0


if __name__ == "__main__":
    sys.exit(main())
