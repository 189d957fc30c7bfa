"""Reads texts of networks, and values, into trees, or refuses them: the rules of docs/LANGUAGE.md once more, read apart from the code.

A tree is a tuple whose first element names the form, with the place of its first token. A type is a word, or `("Pair", a, b)`, `("Event", a)` or
`("Table", key, a)`. A pattern is a name, `_`, or a pair of patterns. A function is a pattern and an expression. How deep forms stand and how many
there are is not looked at.
"""

import re

TOKEN = re.compile(
    r'(?P<blank>[ \t\r\n]+|#[^\n]*)|(?P<text>"(?:\\[^\n]|[^"\\\n])*")|(?P<open>")|(?P<word>[A-Za-z][A-Za-z0-9_]*|_)|(?P<number>-?[0-9]+)'
    r"|(?P<symbol>-->|>--|>=-|>>>|\*\*\*|&&&|~>|=>|[=!<>]=|[-<>+*()\[\],:;=])"
)
# How a byte that is no part of UTF-8 is decoded.
BAD_BYTES, BAD_BYTE = "surrogateescape", re.compile("[\udc80-\udcff]")
ESCAPED = re.compile(r"\\(.)", re.DOTALL)
LEAST, MOST, MOST_BYTES = -(1 << 63), (1 << 63) - 1, 1_048_576
VERSIONS = (1, 2)
# Forms that are a word, those that are a word and an expression, and those that are a word, a number and an expression.
BARE = ("identity", "localTime", "integral", "edge", "notYet", "once", "count", "pre")
WITH_VALUE = ("constant", "initially", "iPre", "now", "iEdge", "edgeTag", "hold", "dHold")
TIMED = ("delay", "after", "repeatedly")
COUNTED = ("takeEvents", "dropEvents")
NAMED = ("probe", "run")
WITH_FUNCTION = ("edgeBy", "accumBy", "accumHoldBy", "sscan")
ON_ONE_SIDE = ("first", "second")
OVER_VALUE = ("-->", ">--", "fby", "loopPre")
JOINS = (">>>", "***", "&&&")
SWITCHES = ("switch", "dSwitch", "rSwitch", "drSwitch")
CONTINUATIONS = ("kSwitch", "dkSwitch")
GATHERINGS = ("pSwitchB", "dpSwitchB")
EDITED = ("rpSwitchB", "drpSwitchB")
COLLECTIONS = ("empty", "use", "add", "drop", "keep", "if")
# Expressions of one and of two parts, and those whose last part is a function.
ONE = ("fst", "snd", "isEvent", "size")
TWO = ("tag", "attach", "fromEvent", "gate", "lMerge", "rMerge", "merge", "get")
ONE_AND_FUNCTION = ("filterE", "mapE")
TWO_AND_FUNCTION = ("match", "mergeBy", "fold")
OPERATORS = ("+", "-", "*", "div", "mod", "==", "!=", "<", "<=", ">", ">=", "and", "or")
TYPES = ("Unit", "Bool", "Int", "Text", "Event", "Table")
KEYS = ("Int", "Text")
KEYWORDS = {
    *("network", "template", "true", "false", "not", "event", "none", "if", "then", "else", "let", "in", "call", "never", "arr", "parB", "sf", "col"),
    *(BARE + WITH_VALUE + TIMED + COUNTED + NAMED + WITH_FUNCTION + ON_ONE_SIDE + OVER_VALUE[2:] + SWITCHES + CONTINUATIONS + GATHERINGS + EDITED),
    *(COLLECTIONS + ONE + TWO + ONE_AND_FUNCTION + TWO_AND_FUNCTION + ("div", "mod", "and", "or") + TYPES),
}


class Refused(Exception):
    """A rule, as the program names it, and the place where it is broken: line and column, from 1, columns in bytes."""

    def __init__(self, rule, place):
        super().__init__(f"{rule} {place[0]}:{place[1]}")


class Token(str):
    """The bytes of a token, with its kind and place."""

    def __new__(cls, text, kind, place):
        token = super().__new__(cls, text)
        token.kind, token.place = kind, place
        return token


class Tree(tuple):
    """A form with its parts, and the place of its first token."""

    def __new__(cls, parts, place):
        tree = super().__new__(cls, parts)
        tree.place = place
        return tree


def size(text):
    return len(text.encode("utf-8", BAD_BYTES))


class Places:
    """The places of characters in a text, asked for from the first on."""

    def __init__(self, text):
        self.text, self.at, self.line, self.column = text, 0, 1, 1

    def of(self, at):
        passed = self.text[self.at : at]
        self.at = at
        if "\n" in passed:
            self.line, self.column, passed = self.line + passed.count("\n"), 1, passed[passed.rfind("\n") + 1 :]
        self.column += size(passed)
        return self.line, self.column


def tokens_of(data):
    """The tokens of a text's bytes, and one behind them; or the refusal with the least place."""
    if len(data) > MOST_BYTES:
        raise Refused("L4 TooLong", (1, 1))
    text = data.decode("utf-8", BAD_BYTES)
    bad = next((found.start() for found in BAD_BYTE.finditer(text)), len(text))
    tokens, at, places = [], 0, Places(text)
    while at < min(len(text), bad + 1):
        found, place = TOKEN.match(text, at), places.of(at)
        if not found or found.start() == bad:
            raise Refused("L1 BadByte", place)
        refuse_token(found, place, bad)
        at = found.end()
        if found.lastgroup != "blank":
            tokens.append(Token(found.group(), found.lastgroup, place))
    return [*tokens, Token("", "end", places.of(at))]


def refuse_token(found, place, bad):
    """Refuses what may be no token, and a byte within it that isn't part of UTF-8."""
    text, start = found.group(), found.start()
    if found.lastgroup == "number" and not LEAST <= int(text) <= MOST:
        raise Refused("L2 NumberTooLarge", place)
    if found.lastgroup == "open":
        raise Refused("L3 OpenText", place)
    escapes = ESCAPED.finditer(text) if found.lastgroup == "text" else ()
    wrong = [start + it.start() + 1 for it in escapes if it.group(1) not in '"\\n'] + [bad] * (bad < found.end())
    if wrong:
        raise Refused("L1 BadByte", (place[0], place[1] + size(text[: min(wrong) - start])))


def unescaped(token):
    return ESCAPED.sub(lambda found: "\n" if found.group(1) == "n" else found.group(1), token[1:-1])


class Reader:
    """The tokens of a text, read from the first on; the first that no network has behind those before it is refused."""

    def __init__(self, tokens):
        self.tokens, self.at, self.version = tokens, 0, 1

    def peek(self):
        return self.tokens[self.at]

    def next(self):
        self.at += 1
        return self.tokens[self.at - 1]

    def refuse(self, rule="P1 Unexpected"):
        raise Refused(rule, self.peek().place)

    def word(self, *wanted):
        """One of some words or symbols."""
        if self.peek().kind not in ("word", "symbol") or self.peek() not in wanted:
            self.refuse()
        return self.next()

    def is_next(self, *wanted):
        return self.peek().kind in ("word", "symbol") and self.peek() in wanted

    def is_name(self):
        return self.peek().kind == "word" and self.peek() not in KEYWORDS and self.peek() != "_"

    def name(self):
        return self.next() if self.is_name() else self.refuse()

    def number(self):
        return int(self.next()) if self.peek().kind == "number" else self.refuse()

    def tree(self, place, *parts):
        return Tree(parts, place)

    def bracket(self, *parts):
        """Parts in round brackets with commas between them."""
        self.word("(")
        read = [parts[0]()]
        for part in parts[1:]:
            self.word(",")
            read.append(part())
        self.word(")")
        return tuple(read)

    def several(self, part):
        """Any number of parts in round brackets."""
        self.word("(")
        read = []
        if not self.is_next(")"):
            read.append(part())
            while self.is_next(","):
                self.next()
                read.append(part())
        self.word(")")
        return read

    # Networks

    def network(self):
        """The templates, in order."""
        self.word("network")
        if self.peek().kind == "number" and int(self.peek()) not in VERSIONS:
            self.refuse("P3 Version")
        self.version = self.number()
        self.word(";")
        templates = []
        while self.peek().kind != "end":
            templates.append(self.template())
        return templates

    def template(self):
        """The name, the parameters with what they are given, the types of the header, and the term."""
        self.word("template")
        name, parameters = self.name(), self.several(self.parameter)
        self.word(":")
        taken = self.type()
        self.word("~>")
        given = self.type()
        self.word("=")
        term = self.term()
        self.word(";")
        return name, parameters, taken, given, term

    def parameter(self):
        name = self.name()
        self.word(":")
        if self.is_next("["):
            return name, self.members()
        type = self.type()
        if not self.is_next("~>"):
            return name, ("value", type)
        self.next()
        return name, ("process", type, self.type())

    def members(self):
        self.word("[")
        key = "Int"
        if self.version > 1:
            key = self.word(*KEYS)
            self.word(":")
        taken = self.type()
        self.word("~>")
        given = self.type()
        self.word("]")
        return "members", key, taken, given

    def key(self):
        return str(self.word(*KEYS)) if self.version > 1 else "Int"

    def type(self):
        if self.is_next("("):
            return ("Pair", *self.bracket(self.type, self.type))
        word = str(self.word(*TYPES))
        if word == "Event":
            return "Event", self.type()
        return ("Table", self.key(), self.type()) if word == "Table" else word

    def pattern(self):
        if self.is_next("("):
            return self.bracket(self.pattern, self.pattern)
        return self.next() if self.is_next("_") else self.name()

    def function(self):
        pattern = self.pattern()
        self.word("=>")
        return pattern, self.expression()

    # Expressions

    def expression(self):
        token = self.peek()
        if token.kind == "text":
            return self.tree(token.place, "literal", unescaped(self.next()), "Text")
        if token.kind == "number":
            return self.tree(token.place, "literal", self.number(), "Int")
        if self.is_next("("):
            self.next()
            return self.tree(token.place, *self.in_brackets())
        if self.is_name():
            return self.tree(token.place, "name", self.next())
        return self.tree(token.place, *self.by_word())

    def in_brackets(self):
        if self.is_next(")"):
            self.next()
            return "literal", (), "Unit"
        first = self.expression()
        sign = self.word(",", *OPERATORS)
        second = self.expression()
        self.word(")")
        return ("pair", first, second) if sign == "," else ("operator", sign, first, second)

    def by_word(self):
        for words, read in self.EXPRESSIONS:
            if self.is_next(*words):
                return read(self, str(self.next()))
        return self.refuse()

    def conditional(self, condition, branch):
        asked = condition()
        self.word("then")
        chosen = branch()
        self.word("else")
        return "if", asked, chosen, branch()

    def let(self):
        pattern = self.pattern()
        self.word("=")
        value = self.expression()
        self.word("in")
        return "let", pattern, value, self.expression()

    EXPRESSIONS = (
        (("true", "false"), lambda self, word: ("literal", word == "true", "Bool")),
        (("none",), lambda self, word: ("literal", None, ("Event", self.type()))),
        (("not", "event"), lambda self, word: (word, self.expression())),
        (("if",), lambda self, word: self.conditional(self.expression, self.expression)),
        (("let",), lambda self, word: self.let()),
        (("call",), lambda self, word: (word, self.name(), *self.bracket(self.expression))),
        (ONE, lambda self, word: (word, *self.bracket(self.expression))),
        (TWO, lambda self, word: (word, *self.bracket(self.expression, self.expression))),
        (ONE_AND_FUNCTION, lambda self, word: (word, *self.bracket(self.expression, self.function))),
        (TWO_AND_FUNCTION, lambda self, word: (word, *self.bracket(self.expression, self.expression, self.function))),
    )

    # Terms

    def term(self):
        place = self.peek().place
        if self.is_next("("):
            self.next()
            first = self.term()
            sign = self.word(*JOINS)
            second = self.term()
            self.word(")")
            return self.tree(place, str(sign), first, second)
        for words, read in self.FORMS:
            if self.is_next(*words):
                return self.tree(place, str(self.next()), *read(self))
        return self.tree(place, *self.by_name())

    def by_name(self):
        """A call of a template, or `fresh`, which is no keyword."""
        name = self.name()
        if name == "fresh" and self.version > 1 and self.is_name():
            return "fresh", self.name()
        return "template", name, self.several(self.argument)

    def body(self):
        pattern = self.pattern()
        self.word("=>")
        return pattern, self.term()

    def edit(self):
        pattern = self.pattern()
        self.word("=>")
        return pattern, self.collection()

    def argument(self):
        if self.is_next("sf"):
            self.next()
            return "sf", self.term()
        if self.is_next("col"):
            self.next()
            return "col", self.collection()
        return "value", self.expression()

    FORMS = (
        (BARE, lambda self: ()),
        (WITH_VALUE, lambda self: (self.expression(),)),
        (("never",), lambda self: (self.type(),)),
        (("arr",), lambda self: (self.function(),)),
        (NAMED, lambda self: (self.name(),)),
        (TIMED, lambda self: (self.number(), self.expression())),
        (COUNTED, lambda self: (self.number(),)),
        (WITH_FUNCTION, lambda self: self.bracket(self.expression, self.function)),
        (ON_ONE_SIDE, lambda self: (self.term(),)),
        (OVER_VALUE, lambda self: self.bracket(self.expression, self.term)),
        ((">=-",), lambda self: self.bracket(self.function, self.term)),
        (SWITCHES, lambda self: self.bracket(self.term, self.body)),
        (CONTINUATIONS, lambda self: self.bracket(self.term, self.term, self.name, self.body)),
        (("parB",), lambda self: (self.collection(),)),
        (GATHERINGS, lambda self: self.bracket(self.collection, self.term, self.name, self.body)),
        (EDITED, lambda self: self.bracket(self.collection, self.name, self.edit)),
    )

    # Collections

    def collection(self):
        place, word = self.peek().place, str(self.word(*COLLECTIONS))
        if word == "empty":
            return self.tree(place, word, self.key(), self.type())
        if word == "use":
            return self.tree(place, word, self.name())
        if word == "if":
            return self.tree(place, *self.conditional(self.expression, self.collection))
        parts = {"add": (self.expression, self.term), "drop": (self.expression,), "keep": (self.function,)}[word]
        return self.tree(place, word, *self.bracket(self.collection, *parts))


def network_of(text):
    """The templates of a text."""
    return Reader(tokens_of(text.encode("utf-8") if isinstance(text, str) else text)).network()


# Values: `()`, a truth, a number, a text, `("pair", v, w)`, `None`, `("event", v)`, or `("table", pairs)`. Only what is well spelled is given.

SPELLED = re.compile(r'"(?:\\.|[^"\\])*"|[a-z]+|-?\d+|[(){},:]')


def value_of(text):
    tokens = SPELLED.findall(text)[::-1]
    return value_from(tokens)


def value_from(tokens):
    """A value from the front of tokens, which stand the other way round."""
    word = tokens.pop()
    if word == "(":
        return pair_from(tokens)
    if word == "{":
        return "table", [*entries_from(tokens)]
    if word == "event":
        return "event", value_from(tokens)
    if word in ("true", "false", "none"):
        return {"true": True, "false": False, "none": None}[word]
    return unescaped(word) if word[0] == '"' else int(word)


def pair_from(tokens):
    if tokens[-1] == ")":
        tokens.pop()
        return ()
    first = value_from(tokens)
    tokens.pop()
    second = value_from(tokens)
    tokens.pop()
    return "pair", first, second


def entries_from(tokens):
    while tokens[-1] != "}":
        key = value_from(tokens)
        tokens.pop()
        yield key, value_from(tokens)
        if tokens[-1] == ",":
            tokens.pop()
    tokens.pop()
