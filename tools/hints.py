"""What is often meant where the text of a network is refused."""

import difflib
import json
import os
import re

TOKEN = re.compile(r'"(?:\\.|[^"\\\n])*"|#[^\n]*|[A-Za-z]\w*|-?\d+|-->|>--|>=-|>>>|\*{3}|&&&|~>|=>|[!=<>]=|[^\s]', re.ASCII)
# All words of the whole language; no name is one of them.
KEYWORDS = frozenset(
    """network template
    Unit Bool Int Text Event Table
    true false not event none if then else let in match call
    div mod and or fst snd isEvent size tag attach fromEvent gate lMerge rMerge merge get
    filterE mapE mergeBy fold
    identity localTime integral edge notYet once count pre constant initially iPre now iEdge edgeTag hold dHold
    never arr probe run delay after repeatedly takeEvents dropEvents edgeBy accumBy accumHoldBy sscan
    first second fby loopPre switch dSwitch rSwitch drSwitch kSwitch dkSwitch
    parB pSwitchB dpSwitchB rpSwitchB drpSwitchB sf col empty use add drop keep _""".split()
)
# The words and symbols of the forms that there are, in groups.
with open(os.path.join(os.path.dirname(os.path.abspath(__file__)), "..", "rows", "forms.json")) as file:
    FORMS = json.load(file)
JOINS = frozenset((">>>", "***", "&&&"))
TERMS = frozenset(FORMS["terms"]) - JOINS - {"fresh"}
COLLECTIONS = frozenset(FORMS["collections"])
# Forms that begin with a collection, which give way to a term or are edited, or make another one of it.
GIVING_WAY, EDITING, CHANGING = frozenset(("pSwitchB", "dpSwitchB")), frozenset(("rpSwitchB", "drpSwitchB")), frozenset(("add", "drop", "keep"))
ON_MEMBERS = GIVING_WAY | EDITING | CHANGING
OPERATORS = frozenset(FORMS["operators"]) - {"not"}
EXPRESSIONS = frozenset(
    word for group in ("literals", "parts of pairs", "events", "tables", "functions inside") for word in FORMS[group]
) - {"in"} | {"not", "if", "call"}
# Forms with one part, which stands behind them as it is, and forms with their parts in brackets.
OF_ONE = frozenset("Event Table constant initially iPre now iEdge edgeTag hold dHold never none first second not event arr parB empty use".split())
OF_PARTS = ON_MEMBERS | frozenset(FORMS["parts of pairs"] + FORMS["events"] + FORMS["tables"]) - {"event"} | frozenset(
    "filterE mapE match mergeBy fold edgeBy accumBy accumHoldBy sscan fby loopPre --> >-- >=- switch dSwitch rSwitch drSwitch kSwitch dkSwitch".split()
)
# What types are called elsewhere.
TYPES = {
    **dict.fromkeys(("int", "integer", "i64", "number", "long"), "Int"),
    **dict.fromkeys(("bool", "boolean"), "Bool"),
    **dict.fromkeys(("string", "str", "text"), "Text"),
    **dict.fromkeys(("event", "maybe", "option", "optional"), "Event"),
    **dict.fromkeys(("table", "map", "dict"), "Table"),
    **dict.fromkeys(("unit", "void"), "Unit"),
}
# What stands for bytes of no character.
NO_CHARACTER = "\ufffd"
A_TEXT = 'a text stands in "..", and a name has letters, digits and _'
AN_ARROW = "a function is p => e, a header a ~> b"
# What bytes of no token stand for elsewhere.
BYTES = {
    **dict.fromkeys(("//", "/*"), "a comment begins with #, and ends with its line"),
    **dict.fromkeys("'`“”‘’", A_TEXT),
    **dict.fromkeys("→⇒\\", AN_ARROW),
    "/": "a quotient is (a div b)",
    "%": "a remainder is (a mod b)",
    "&": "both is (a and b)",
    "|": "either is (a or b)",
    "!": "the opposite is not a, and different is (a != b)",
    ".": "a number is whole",
    "{": "a table has no spelling in a network: it comes in with the input",
    "~": AN_ARROW,
    "\u00a0": "this is no space, though it looks like one (U+00A0)",
    "\u2212": "this is no minus, though it looks like one (U+2212)",
    "\ufeff": "the file begins with a byte order mark: it is to be saved without",
    NO_CHARACTER: "this is no UTF-8",
}
# The numbers that stand behind forms.
NUMBERS = {
    "after": "0 to 1,000,000,000,000 milliseconds",
    **dict.fromkeys(("repeatedly", "delay"), "1 to 1,000,000,000,000 milliseconds"),
    **dict.fromkeys(("takeEvents", "dropEvents"), "0 to 1,000,000,000 events"),
}
# What the other rules say without a look at the tokens.
RULES = {
    "L2": "the number is outside signed 64 bits",
    "L3": "the text that begins here does not end on its line",
    "L4": "a network's text has at most 1,048,576 bytes",
    "P2": "this stands 65 deep: a part of it can be a template",
    "P3": "the version is 1 or 2",
    "P4": "a type has at most 256 parts",
    "B1": "a network has at most 100,000 terms and 100,000 expressions",
    "C2": "this name is there already",
    "C3": "the template has another number of parameters",
    "C4": "types do not fit in the form that begins here",
    "C5": "pre stands as the second part of -->(e, pre) alone",
    "C6": "this call leads back to its own template outside the bodies of switches, so it would never end",
    "C7": "a network has a template main() without parameters",
    "C9": "a type has at most 256 parts",
}


def tokens_of(text):
    return [token for token in TOKEN.findall(text) if token[0] != "#"]


def is_name(token):
    return token[:1].isalpha() and token not in KEYWORDS


def close_to(word, words):
    """The one of these words that is most like a word, if one is: first of all one with other capitals."""
    likest = [each for each in words if each.lower() == word.lower()] or difflib.get_close_matches(word, sorted(words), 1, 0.75)
    return next(iter(likest), "")


class Place:
    """A token that is refused, with those before it and behind it, and what can stand there instead, where that is known."""

    def __init__(self, tokens, behind, can=None):
        self.tokens, self.can = tokens, can
        self.token, self.after = [*behind, "", ""][:2]
        self.earlier, self.before = ["", "", *tokens][-2:]
        self.names = [token for token in [*tokens, *behind[1:]] if is_name(token)]
        starts = [at for at, token in enumerate(tokens) if token == "template"]
        self.template = tokens[starts[-1] :] if starts else []
        self.is_header = bool(starts) and "=" not in self.template
        whole = [*tokens, *behind]
        self.templates = [name for word, name in zip(whole, whole[1:]) if word == "template"]
        self.opened = self.openers()
        self.caller, self.opener = self.opened[-1] if self.opened else ("", "")

    def openers(self):
        """The two tokens before each bracket that is open, the outermost first."""
        opened = []
        for *openers, token in zip(["", "", *self.template], ["", *self.template], self.template):
            if token == "(":
                opened.append(openers)
            elif token == ")" and opened:
                opened.pop()
        return opened

    @property
    def brackets(self):
        return "1 bracket is" if len(self.opened) == 1 else f"{len(self.opened)} brackets are"

    @property
    def type_meant(self):
        stands_for_type = self.is_header or self.before in ("Event", "Table", "none", "never", "empty")
        return TYPES.get(self.token.lower(), "") if stands_for_type and self.token not in KEYWORDS else ""

    @property
    def form_meant(self):
        """The form that the word before is close to, where it is no name of the text's own."""
        is_odd = is_name(self.before) and self.names.count(self.before) == 1
        return close_to(self.before, TERMS | EXPRESSIONS) if is_odd else ""

    @property
    def word_meant(self):
        return close_to(self.token, KEYWORDS - TERMS - EXPRESSIONS) if is_name(self.token) else ""

    @property
    def is_operand(self):
        """Whether what stands before can be the end of an operand."""
        return is_name(self.before) or self.before.lstrip("-").isdigit() or self.before in (")", "true", "false")

    @property
    def lacks_call(self):
        """Whether the word before is a name among terms."""
        if not is_name(self.before):
            return False
        if self.can is not None:
            return self.can == {"("}
        return self.earlier in ("=", "(", "sf", *JOINS) and self.token in JOINS or self.earlier == "=" and self.token == ";"

    @property
    def is_as_name(self):
        """Whether the token is a word of the language that stands as a name does."""
        stands_as_name = self.before in ("(", ",", "arr", "let", "=>") and self.after in (",", ")", "=>", ":", "=")
        return self.token in KEYWORDS and (stands_as_name or self.before in ("template", "call", "run", "probe", "use"))

    @property
    def is_edit(self):
        return self.before == "=>" and self.opener in EDITING

    @property
    def wants_collection(self):
        """Whether a collection stands here alone."""
        return self.before in ("parB", "col") or self.is_edit or self.before == "(" and self.opener in ON_MEMBERS

    @property
    def version(self):
        return self.tokens[1:2]


# What is often meant where no network has a token after those before it; the first that holds is shown.
HINTS = [
    (lambda at: not at.tokens and at.token == "-", "a comment begins with #"),
    (lambda at: not at.tokens, "a text begins with `network 1;` or `network 2;`"),
    (lambda at: at.before == "network", "behind network stands its version, 1 or 2"),
    (lambda at: at.opened and at.token in (";", "template", ""), "{at.brackets} still open here"),
    (lambda at: at.token == "", "the text ends here: a template ends with ;"),
    (lambda at: at.token == "template" and at.before != "template", "a ; is missing before it"),
    (lambda at: at.type_meant, "a type is called {at.type_meant}"),
    (lambda at: at.is_header and at.before in ("(", ",") and is_name(at.opener) and at.token in FORMS["types"], "a parameter is written as n: {at.token}"),
    (lambda at: at.token == "-" and at.after == ">", AN_ARROW),
    (lambda at: at.token == ":" and at.earlier == "template", "a header has brackets: {at.before}(): .."),
    (lambda at: at.form_meant, "{at.before} is no form: is {at.form_meant} meant?"),
    (lambda at: at.lacks_call, "a template is called as {at.before}(), and a process is run as run {at.before}"),
    (lambda at: at.token in JOINS, "each {at.token} joins two terms in brackets of its own: ((a {at.token} b) {at.token} c)"),
    (lambda at: re.match(r"-\d", at.token) and at.is_operand, "{at.token} is a number here: a difference has a space behind the -, as in (x - 1)"),
    (lambda at: at.token == "=" and at.opened, "the same is (a == b)"),
    (lambda at: at.token == "=" and at.earlier == "arr", AN_ARROW),
    (lambda at: at.is_header and at.before == ")" and at.token in FORMS["types"], "a header has a : behind its brackets: (): Int ~> Int"),
    (lambda at: at.is_header and "~>" in at.template and not at.opened and at.token in TERMS | {"("}, "a = is missing before it"),
    (lambda at: at.before == "_" and is_name(at.token), "a name begins with a letter"),
    (lambda at: at.before in NUMBERS, "behind {at.before} stands a number itself, and no name of one"),
    (lambda at: at.before in ("none", "never"), "behind {at.before} stands a type: {at.before} Int"),
    (lambda at: at.token == "=>" and at.opener == "arr", "a function has no brackets of its own: arr x => .."),
    (lambda at: at.token == ")" and at.before == ",", "no comma stands behind the last part"),
    (lambda at: "Table" in (at.before, at.earlier) and at.version == ["2"], "a table is Table Int or Table Text, and the type of its values"),
    (lambda at: "Table" in (at.before, at.earlier), "a table is Table and the type of its values; Text keys are of `network 2;`"),
    (lambda at: at.token in ("if", "match") and not at.is_operand, "{at.token} stands in expressions: terms are chosen by a switch"),
    (lambda at: at.token == "let" and not at.is_operand, "let stands in expressions: a term is named by a template"),
    (lambda at: at.version == ["2"] and "empty" in (at.before, at.earlier), "behind empty stand the type of its keys, Int or Text, and the type of its outputs"),
    (lambda at: "empty" in (at.before, at.earlier) and not at.is_header, "behind empty stands the type of its outputs; Text keys are of `network 2;`"),
    (lambda at: at.is_header and at.version == ["2"] and "[" in (at.before, at.earlier), "a collection is [Int: a ~> b] or [Text: a ~> b]"),
    (lambda at: at.is_header and "[" in (at.before, at.earlier), "a collection is [a ~> b]; Text keys are of `network 2;`"),
    (lambda at: at.wants_collection and is_name(at.token), "the members of a name are use {at.token}"),
    (lambda at: at.is_edit and at.token in TERMS, "an edit is a collection, and no term"),
    (lambda at: at.wants_collection and at.token in TERMS, "a collection stands here: {at.token} can be a member, as in add(.., 1, {at.token})"),
    (lambda at: at.wants_collection and at.token == "(", "a collection has no brackets of its own"),
    (lambda at: at.token in COLLECTIONS and at.before == "=>" and at.opener in GIVING_WAY, "a body is a term: parB {at.token} .."),
    (lambda at: at.token in COLLECTIONS and is_name(at.opener) and not at.is_header, "a collection is given as col {at.token} .."),
    (lambda at: at.token in TERMS and is_name(at.opener) and not at.is_header, "a process is given as sf {at.token}"),
    (lambda at: at.is_as_name, "{at.token} is a word of the language, and no name"),
    (lambda at: at.token in COLLECTIONS, "{at.token} makes a collection, which stands behind parB or col, or in another form of collections"),
    (lambda at: at.token in ("sf", "col"), "{at.token} stands in front of an argument alone"),
    (lambda at: at.token == "-" and not at.is_operand, "only a number can have a sign: (0 - x)"),
    (lambda at: at.token in OPERATORS, "each operator has two operands in brackets of its own: ((a {at.token} b) {at.token} c)"),
    (lambda at: at.token == "(" and at.before in at.templates, "{at.before} is a template: it is called among terms, and in no expression"),
    (lambda at: at.token == "(" and is_name(at.before), "a stored function is called by call {at.before}(..)"),
    (lambda at: at.token == ")" and not at.opened, "no bracket is open here"),
    (lambda at: at.token == ")" and at.opener in OF_ONE, "what stands behind {at.opener} has no brackets of its own: {at.opener} x"),
    (lambda at: at.token == ")" and at.opener in OF_PARTS, "{at.opener} has more parts"),
    (lambda at: at.token == ")", "brackets stand around a pair, an operator or a join alone: (x) is written x"),
    (lambda at: at.token == "," and at.opener in OF_PARTS, "{at.opener} has no further part"),
    (lambda at: at.token == "," and at.caller == "call", "a stored function takes one value, which may be a pair: call {at.opener}((a, b))"),
    (lambda at: at.token == "," and at.opened, "a pair has two parts: (a, (b, c))"),
    (lambda at: at.word_meant, "is {at.word_meant} meant?"),
]


def hint_on_name(place):
    """What is often meant where nothing has a name."""
    if place.before == "call":
        return "sfplay stores the functions abs, max, min and sign"
    close = close_to(place.token, {*place.names, *TERMS, *EXPRESSIONS} - {place.token})
    return f"nothing here is called {place.token}" + (f": is {close} meant?" if close else "")


def hint_on_types(place):
    """What is often meant where types do not fit."""
    wanted = {"run": "a process", "fresh": "a process", "use": "a collection"}.get(place.before)
    return f"behind {place.before} stands the name of {wanted}" if wanted else RULES["C4"]


def hint(rule, front, rest, can=None):
    """What is often meant where a rule is broken, between what stands before and the rest; "" where nothing is known."""
    place = Place(tokens_of(front), tokens_of(rest), can)
    if rule == "L1" and front.endswith("\\") and rest[:1] != NO_CHARACTER:
        return 'in a text stands behind \\ one of " and \\ and n'
    if rule == "L1":
        return BYTES.get(rest[:2]) or BYTES.get(rest[:1], "this is part of no word and no symbol")
    if rule == "C1":
        return hint_on_name(place)
    if rule == "C8":
        return f"behind {place.token} stands a number: {NUMBERS[place.token]}"
    if rule == "C4":
        return hint_on_types(place)
    if rule != "P1":
        return RULES.get(rule, "")
    return next((words.format(at=place) for holds, words in HINTS if holds(place)), "")
