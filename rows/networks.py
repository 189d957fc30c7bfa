"""Makes random texts of networks that are accepted, each with lines for it."""

import random

from meaning import spelled

# Names are few, so that they hide one another.
NAMES = ("a", "b", "c", "x", "y", "k", "ks", "n", "f", "fresh", "p1")
PROBES = ("p", "q", "r", "a")
SIMPLE = ("Unit", "Bool", "Int", "Int", "Int", "Int", "Text")
KEYS = ("Int", "Text")
TEXTS = ("", "a", "b", "é", 'q"', "l\n", "\\")
EXTREME = (-(1 << 63), (1 << 63) - 1, 1 << 62)
WAITS = (1, 5, 8, 10, 15, 20, 30)
STEPS = (1, 3, 5, 5, 10, 10, 20, 60)
# Of a hundred expressions, how many are a name where there is one, and how many are a name or a value.
NAMED, LEAVES = 60, 68


class NoWay(Exception):
    """There is no expression of a type that is asked for."""


def named(type):
    if isinstance(type, str):
        return type
    form, *parts = type
    if form == "Pair":
        return f"({named(parts[0])}, {named(parts[1])})"
    return " ".join([form, *map(named, parts)])


def is_form(type, form):
    return isinstance(type, tuple) and type[0] == form


def has_table(type):
    return isinstance(type, tuple) and (type[0] == "Table" or any(map(has_table, type[1:])))


def parts_of(type, wanted, text):
    """The parts of an expression that have a type."""
    found = [text] * (type == wanted)
    if is_form(type, "Pair"):
        found += parts_of(type[1], wanted, f"fst({text})") + parts_of(type[2], wanted, f"snd({text})")
    return found


class Scope:
    """What names stand for: `("value", type)`, `("process", a, b)`, `("members", key, a, b)`; and the templates that may be called."""

    def __init__(self, names, templates, in_body=None):
        self.names, self.templates, self.in_body = names, templates, templates if in_body is None else in_body

    def with_names(self, names):
        return Scope({**self.names, **names}, self.templates, self.in_body)

    def body(self, names):
        """The scope of a body, where each template may be called."""
        return Scope({**self.names, **names}, self.in_body, self.in_body)

    def of_kind(self, *kind):
        return [name for name, held in self.names.items() if held == kind]

    def values(self, type):
        return [text for name, held in self.names.items() if held[0] == "value" for text in parts_of(held[1], type, name)]

    def tables(self):
        return [(name, held[1]) for name, held in self.names.items() if held[0] == "value" and is_form(held[1], "Table")]


class Maker:
    """Makes texts by a random number generator."""

    def __init__(self, seed):
        self.random = random.Random(seed)
        self.extreme = self.random.choice((2, 2, 25))

    def of(self, choices):
        return self.random.choice(choices)

    def chance(self, percent):
        return self.random.randrange(100) < percent

    # Types and values

    def type(self, depth):
        at = self.random.randrange(20)
        if depth <= 0 or at < 10:
            return self.of(SIMPLE)
        if at < 14:
            return "Pair", self.type(depth - 1), self.type(depth - 1)
        return ("Event", self.type(depth - 1)) if at < 18 else ("Table", self.of(KEYS), self.type(depth - 1))

    def number(self):
        if self.chance(self.extreme):
            return self.of(EXTREME)
        return self.random.randint(-3, 5) if self.chance(80) else self.random.randint(-40, 60)

    def value(self, type):
        simple = {"Unit": lambda: (), "Bool": lambda: self.chance(50), "Int": self.number, "Text": lambda: self.of(TEXTS)}
        if isinstance(type, str):
            return simple[type]()
        form, *parts = type
        if form == "Pair":
            return "pair", self.value(parts[0]), self.value(parts[1])
        if form == "Event":
            return ("event", self.value(parts[0])) if self.chance(50) else None
        entries = {self.value(parts[0]): self.value(parts[1]) for _ in range(self.random.randint(0, 3))}
        return "table", list(entries.items())

    def literal(self, type):
        if has_table(type):
            raise NoWay
        if is_form(type, "Pair"):
            return f"({self.literal(type[1])}, {self.literal(type[2])})"
        if is_form(type, "Event"):
            return f"event {self.literal(type[1])}" if self.chance(50) else f"none {named(type[1])}"
        return spelled(self.value(type))

    # Patterns and expressions

    def pattern(self, type, bound):
        """A pattern; its names are put into `bound`."""
        if is_form(type, "Pair") and self.chance(70):
            return f"({self.pattern(type[1], bound)}, {self.pattern(type[2], bound)})"
        free = [name for name in NAMES if name not in bound]
        if not free or self.chance(15):
            return "_"
        name = self.of(free)
        bound[name] = "value", type
        return name

    def function(self, taken, given, scope, depth=3):
        bound = {}
        pattern = self.pattern(taken, bound)
        return f"{pattern} => {self.expression(given, scope.with_names(bound), depth)}"

    def expression(self, type, scope, depth=2):
        found, at = scope.values(type), self.random.randrange(100)
        if found and (depth <= 0 or at < NAMED):
            return self.of(found)
        if depth <= 0 or at < LEAVES:
            return self.literal(type)
        inner = Expression(self, type, scope, depth - 1)
        return getattr(inner, self.of(inner.forms()))()

    # Terms

    def term(self, taken, given, scope, depth):
        for _ in range(30):
            try:
                made = Term(self, taken, given, scope, depth)
                return made.of_form(self.of(made.forms()))
            except NoWay:
                pass
        raise NoWay

    def collection(self, kind, scope, depth):
        _, key, taken, given = kind
        at, used = self.random.randrange(100), scope.of_kind(*kind)
        again = lambda: self.collection(kind, scope, depth - 1)
        if used and at < 35:
            return f"use {self.of(used)}"
        if at < 15 or depth < 0:
            return f"empty {key} {named(given)}"
        if at < 75:
            return f"add({again()}, {self.expression(key, scope, 1)}, {self.term(taken, given, scope, depth - 1)})"
        if at < 83:
            return f"drop({again()}, {self.expression(key, scope, 1)})"
        if at < 91:
            return f"keep({again()}, {self.function(key, 'Bool', scope)})"
        return f"if {self.expression('Bool', scope, 1)} then {again()} else {again()}"

    # Networks

    def kind(self, taken, given):
        """What a parameter is given; processes are most often of the template's own types."""
        at = self.random.randrange(100)
        if at < 40:
            return "value", self.type(1)
        if at < 68:
            return "process", taken, given
        return ("process", self.type(1), self.type(1)) if at < 80 else ("members", self.of(KEYS), self.type(1), self.type(1))

    def header(self, number):
        taken, given = self.type(1), self.type(self.of((0, 1, 2)))
        given = "Int" if has_table(given) else given
        names = self.random.sample(NAMES, self.random.randint(0, 3))
        return f"t{number}", {name: self.kind(taken, given) for name in names}, taken, given

    def network(self):
        """The text of a network, and the type of its inputs."""
        depth, headers = self.of((2, 3, 3, 4, 4, 5)), [self.header(number) for number in range(self.of((0, 0, 1, 2, 3)))]
        lines = ["network 2;\n"]
        for at, header in enumerate(headers):
            lines.append(self.template(*header, Scope(header[1], headers[:at], headers), depth - 1))
        taken, given = self.main_types(headers)
        lines.append(self.template("main", {}, taken, given, Scope({}, headers), depth))
        return "".join(lines), taken

    def main_types(self, headers):
        if headers and self.chance(50):
            return self.of(headers)[2:]
        at, taken, given = self.random.randrange(10), self.type(1), self.type(2)
        if at < 4:
            taken = "Pair", self.type(1), ("Event", self.type(1))
        return taken, ("Table", self.of(KEYS), self.type(1)) if at < 2 else given

    def template(self, name, parameters, taken, given, scope, depth):
        shown = ", ".join(f"{of}: {self.parameter(*kind)}" for of, kind in parameters.items())
        return f"template {name}({shown}): {named(taken)} ~> {named(given)} = {self.term(taken, given, scope, depth)};\n"

    def parameter(self, form, *types):
        if form == "value":
            return named(types[0])
        arrow = f"{named(types[-2])} ~> {named(types[-1])}"
        return arrow if form == "process" else f"[{types[0]}: {arrow}]"

    def lines(self, type):
        """Lines with samples, saves, and returns to them."""
        lines, saved = [f"0 {spelled(self.value(type))}\n"], []
        for _ in range(self.random.randint(2, 9)):
            at = self.random.randrange(100)
            if at < 8:
                saved.append(self.of("uvw"))
                lines.append(f"save {saved[-1]}\n")
            elif at < 14 and saved:
                lines.append(f"back {self.of(saved)}\n")
            else:
                lines.append(f"{self.of(STEPS)} {'=' if at < 30 else spelled(self.value(type))}\n")
        return "".join(lines)


class Expression:
    """The expressions of a type that have parts."""

    def __init__(self, maker, type, scope, depth):
        self.maker, self.type, self.scope, self.depth = maker, type, scope, depth

    def forms(self):
        forms = ["conditional", "let", "match", "over_table"]
        if not has_table(self.type):
            forms += ["from_event", "half"]
        if self.type == "Int":
            forms += ["arithmetic"] * 5 + ["call", "size"]
        if self.type == "Bool":
            forms += ["comparison"] * 3 + ["logic", "negation", "is_event"]
        if is_form(self.type, "Pair"):
            forms += ["pair"] * 4
        if is_form(self.type, "Event"):
            forms += ["event"] * 2 + ["tag", "merge", "merged_by", "entry"] + ["gate", "filtered", "mapped"] * 2
            forms += ["attach"] * 2 * is_form(self.type[1], "Pair")
        return forms

    def part(self, type=None):
        return self.maker.expression(type or self.type, self.scope, self.depth)

    def function(self, taken, given):
        return self.maker.function(taken, given, self.scope, self.depth)

    def any(self):
        return self.maker.type(1)

    def table(self, is_wanted=lambda type: True):
        """A table that has a name."""
        found = [table for table in self.scope.tables() if is_wanted(table[1])]
        if not found:
            raise NoWay
        return self.maker.of(found)

    def conditional(self):
        return f"if {self.part('Bool')} then {self.part()} else {self.part()}"

    def let(self):
        bound, type = {}, self.any()
        pattern, value = self.maker.pattern(type, bound), self.part(type)
        return f"let {pattern} = {value} in {self.maker.expression(self.type, self.scope.with_names(bound), self.depth)}"

    def match(self):
        type = self.any()
        return f"match({self.part(('Event', type))}, {self.part()}, {self.function(type, self.type)})"

    def over_table(self):
        name, (_, key, held) = self.table()
        return f"fold({name}, {self.part()}, {self.function(('Pair', self.type, ('Pair', key, held)), self.type)})"

    def from_event(self):
        return f"fromEvent({self.part(('Event', self.type))}, {self.part()})"

    def half(self):
        other = self.any()
        if self.maker.chance(50):
            return f"fst({self.part(('Pair', self.type, other))})"
        return f"snd({self.part(('Pair', other, self.type))})"

    def arithmetic(self):
        return f"({self.part()} {self.maker.of(('+', '+', '-', '-', '*', 'div', 'mod'))} {self.part()})"

    def call(self):
        name = self.maker.of(("abs", "sign", "max", "min"))
        return f"call {name}({self.part('Int' if name in ('abs', 'sign') else ('Pair', 'Int', 'Int'))})"

    def size(self):
        return f"size({self.table()[0]})"

    def comparison(self):
        if self.maker.chance(50):
            type = self.any()
            return f"({self.part(type)} {self.maker.of(('==', '!='))} {self.part(type)})"
        type = self.maker.of(("Int", "Int", "Text"))
        return f"({self.part(type)} {self.maker.of(('<', '<=', '>', '>='))} {self.part(type)})"

    def logic(self):
        return f"({self.part()} {self.maker.of(('and', 'or'))} {self.part()})"

    def negation(self):
        return f"not {self.part()}"

    def is_event(self):
        return f"isEvent({self.part(('Event', self.any()))})"

    def pair(self):
        return f"({self.part(self.type[1])}, {self.part(self.type[2])})"

    def event(self):
        return f"event {self.part(self.type[1])}"

    def tag(self):
        return f"tag({self.part(('Event', self.any()))}, {self.part(self.type[1])})"

    def attach(self):
        return f"attach({self.part(('Event', self.type[1][1]))}, {self.part(self.type[1][2])})"

    def gate(self):
        return f"gate({self.part()}, {self.part('Bool')})"

    def merge(self):
        return f"{self.maker.of(('lMerge', 'rMerge', 'merge'))}({self.part()}, {self.part()})"

    def merged_by(self):
        return f"mergeBy({self.part()}, {self.part()}, {self.function(('Pair', self.type[1], self.type[1]), self.type[1])})"

    def filtered(self):
        return f"filterE({self.part()}, {self.function(self.type[1], 'Bool')})"

    def mapped(self):
        type = self.any()
        return f"mapE({self.part(('Event', type))}, {self.function(type, self.type[1])})"

    def entry(self):
        name, (_, key, _) = self.table(lambda type: type[2] == self.type[1])
        return f"get({name}, {self.part(key)})"


class Term:
    """The terms from a type to another."""

    def __init__(self, maker, taken, given, scope, depth):
        self.maker, self.taken, self.given, self.scope, self.depth = maker, taken, given, scope, depth

    def forms(self):
        forms = self.leaves() + (self.joins() if self.depth > 0 else [])
        names = self.scope.of_kind("process", self.taken, self.given)
        return forms + [f"{form} {name}" for name in names for form in ("run", "run", "run", "fresh")] * 2

    def leaves(self):
        """Each as its own text, or by the name of a method."""
        taken, given = self.taken, self.given
        forms = ["arr", "arr", "value", "sscan"] + ["localTime"] * 6 * (given == "Int")
        if taken == given:
            forms += ["identity", "probe", "probe", "pre", "delay", "delay", "delay", "initially", "iPre", "iPre"]
        forms += ["integral"] * 4 * (taken == given == "Int")
        if is_form(given, "Event"):
            forms += ["never", "now", "edgeBy"] + ["timed"] * 4 + ["edgeTag"] * 2 * (taken == "Bool")
            forms += ["edge", "iEdge"] * 2 * (taken == "Bool" and given[1] == "Unit")
            forms += ["notYet", "once", "selected", "selected"] * 2 * (taken == given)
        if is_form(taken, "Event"):
            forms += ["accumHoldBy"] * 2 + ["hold", "dHold"] * 2 * (taken[1] == given)
            forms += ["accumBy"] * 3 * is_form(given, "Event") + ["count"] * 2 * (given == ("Event", "Int"))
        return forms

    def joins(self):
        taken, given = self.taken, self.given
        forms = ["sequence"] * 6 + ["beginning", "followed", "begun_on", "changed", "loop", "loop"] + ["switch"] * 4 + ["continuation"] * 6
        if is_form(taken, "Pair") and is_form(given, "Pair"):
            forms += ["parallel"] * 4 + ["first"] * 2 * (taken[2] == given[2]) + ["second"] * 2 * (taken[1] == given[1])
        forms += ["fan"] * 5 * is_form(given, "Pair")
        recurs = is_form(taken, "Pair") and is_form(taken[2], "Event")
        forms += ["recurring"] * 10 * recurs
        if is_form(given, "Table"):
            forms += ["together"] * 5 + ["gathering"] * 10 + ["edited"] * 20 * recurs
        return forms + ["call"] * 6 * bool(self.called())

    def called(self):
        return [header for header in self.scope.templates if header[2:] == (self.taken, self.given)]

    def of_form(self, form):
        make = getattr(self, f"make_{form}", None)
        return make() if make else form

    def part(self, taken, given, scope=None):
        return self.maker.term(taken, given, scope or self.scope, self.depth - 1)

    def of(self, type):
        return self.maker.expression(type, self.scope)

    def function(self, taken, given):
        return self.maker.function(taken, given, self.scope)

    def make_arr(self):
        return f"arr {self.function(self.taken, self.given)}"

    def make_value(self):
        return f"constant {self.of(self.given)}"

    def make_sscan(self):
        return f"sscan({self.of(self.given)}, {self.function(('Pair', self.given, self.taken), self.given)})"

    def make_probe(self):
        return f"probe {self.maker.of(PROBES)}"

    def make_pre(self):
        return f"-->({self.of(self.taken)}, pre)"

    def make_delay(self):
        return f"delay {self.maker.random.randint(1, 30)} {self.of(self.taken)}"

    def make_initially(self):
        return f"initially {self.of(self.taken)}"

    def make_iPre(self):
        return f"iPre {self.of(self.taken)}"

    def make_never(self):
        return f"never {named(self.given[1])}"

    def make_now(self):
        return f"now {self.of(self.given[1])}"

    def make_timed(self):
        least = self.maker.of((0, *WAITS))
        return f"after {least} {self.of(self.given[1])}" if self.maker.chance(50) else f"repeatedly {max(1, least)} {self.of(self.given[1])}"

    def make_iEdge(self):
        return f"iEdge {self.of('Bool')}"

    def make_edgeTag(self):
        return f"edgeTag {self.of(self.given[1])}"

    def make_edgeBy(self):
        return f"edgeBy({self.of(self.taken)}, {self.function(('Pair', self.taken, self.taken), self.given)})"

    def make_selected(self):
        return f"{self.maker.of(('takeEvents', 'dropEvents'))} {self.maker.random.randint(0, 3)}"

    def make_hold(self):
        return f"hold {self.of(self.given)}"

    def make_dHold(self):
        return f"dHold {self.of(self.given)}"

    def make_accumBy(self):
        given = self.given[1]
        return f"accumBy({self.of(given)}, {self.function(('Pair', given, self.taken[1]), given)})"

    def make_accumHoldBy(self):
        return f"accumHoldBy({self.of(self.given)}, {self.function(('Pair', self.given, self.taken[1]), self.given)})"

    def make_sequence(self):
        maker = self.maker
        between = maker.of((self.taken, self.given, maker.type(1), maker.type(2), ("Pair", self.taken, ("Event", "Int"))))
        return f"({self.part(self.taken, between)} >>> {self.part(between, self.given)})"

    def make_fan(self):
        return f"({self.part(self.taken, self.given[1])} &&& {self.part(self.taken, self.given[2])})"

    def make_parallel(self):
        return f"({self.part(self.taken[1], self.given[1])} *** {self.part(self.taken[2], self.given[2])})"

    def make_first(self):
        return f"first {self.part(self.taken[1], self.given[1])}"

    def make_second(self):
        return f"second {self.part(self.taken[2], self.given[2])}"

    def make_beginning(self):
        return f"-->({self.of(self.given)}, {self.part(self.taken, self.given)})"

    def make_followed(self):
        return f"fby({self.of(self.given)}, {self.part(self.taken, self.given)})"

    def make_begun_on(self):
        return f">--({self.of(self.taken)}, {self.part(self.taken, self.given)})"

    def make_changed(self):
        return f">=-({self.function(self.taken, self.taken)}, {self.part(self.taken, self.given)})"

    def make_loop(self):
        fed = self.maker.type(1)
        return f"loopPre({self.of(fed)}, {self.part(('Pair', self.taken, fed), ('Pair', self.given, fed))})"

    def make_call(self):
        name, parameters, *_ = self.maker.of(self.called())
        return f"{name}({', '.join(map(self.argument, parameters.values()))})"

    def argument(self, kind):
        form, *types = kind
        if form == "value":
            return self.of(*types)
        if form == "members":
            return f"col {self.maker.collection(kind, self.scope, self.depth - 1)}"
        names = self.scope.of_kind(*kind)
        if names and self.maker.chance(60):
            return f"sf {self.maker.of(('run', 'run', 'fresh'))} {self.maker.of(names)}"
        return f"sf {self.part(*types)}"

    # Switches: an event goes by time alone, or comes of any term

    def payload(self):
        """A type, a pattern for it, and the names of that."""
        type, bound = self.maker.type(1), {}
        return type, self.maker.pattern(type, bound), bound

    def event(self, taken, type):
        if not self.maker.chance(70):
            return self.part(taken, ("Event", type))
        value, wait = self.of(type), self.maker.of(WAITS)
        later = f"(localTime >>> arr t9 => if (t9 {self.maker.of(('>=', '>', '=='))} {wait}) then event {value} else none {named(type)})"
        return self.maker.of((f"after {wait} {value}", f"repeatedly {wait} {value}", later, f"(constant event {value} >>> notYet)", f"now {value}"))

    def body(self, taken, bound):
        """A body; of those that have a process, half run it, at once or after some time."""
        scope = self.scope.body(bound)
        names = scope.of_kind("process", taken, self.given)
        if not names or self.maker.chance(50):
            return self.part(taken, self.given, scope)
        again = f"run {self.maker.of(names)}"
        if self.maker.chance(50):
            return again
        first = f"({self.part(taken, self.given, scope)} &&& after {self.maker.of(WAITS)} ())"
        return f"{self.maker.of(('switch', 'dSwitch'))}({first}, _ => {again})"

    def make_switch(self):
        type, pattern, bound = self.payload()
        first = f"({self.part(self.taken, self.given)} &&& {self.event(self.taken, type)})"
        if self.maker.chance(30):
            first = self.part(self.taken, ("Pair", self.given, ("Event", type)))
        return f"{self.maker.of(('switch', 'dSwitch'))}({first}, {pattern} => {self.body(self.taken, bound)})"

    def make_recurring(self):
        bound = {}
        pattern = self.maker.pattern(self.taken[2][1], bound)
        form, first = self.maker.of(("rSwitch", "drSwitch")), self.part(self.taken[1], self.given)
        return f"{form}({first}, {pattern} => {self.body(self.taken[1], bound)})"

    def observed(self, form, source, kept):
        """A source under an observer, with what is kept of it under a name."""
        type, pattern, bound = self.payload()
        name, observer = self.maker.of(NAMES), self.event(("Pair", self.taken, self.given), type)
        return f"{form}({source}, {observer}, {name}, {pattern} => {self.body(self.taken, {name: kept, **bound})})"

    def make_continuation(self):
        kept = "process", self.taken, self.given
        return self.observed(self.maker.of(("kSwitch", "dkSwitch")), self.part(self.taken, self.given), kept)

    def members(self, taken, scope=None):
        kind = "members", self.given[1], taken, self.given[2]
        return self.maker.collection(kind, scope or self.scope, self.depth - 1), kind

    def make_together(self):
        return f"parB {self.members(self.taken)[0]}"

    def make_gathering(self):
        return self.observed(self.maker.of(("pSwitchB", "dpSwitchB")), *self.members(self.taken))

    def make_edited(self):
        bound, name = {}, self.maker.of(NAMES)
        pattern, (members, kind) = self.maker.pattern(self.taken[2][1], bound), self.members(self.taken[1])
        edit, _ = self.members(self.taken[1], self.scope.body({name: kind, **bound}))
        return f"{self.maker.of(('rpSwitchB', 'drpSwitchB'))}({members}, {name}, {pattern} => {edit})"
