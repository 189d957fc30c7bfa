"""Types networks, or refuses them: the rules of docs/LANGUAGE.md once more, read apart from the code. What is refused first is refused as the program
does it: the names of all templates and parameters, then the forms in the order of the text, a form's own rule behind its parts but for what types
them, then calls without end, then `main`. How large types get is not looked at."""

from reading import CONTINUATIONS, EDITED, GATHERINGS, SWITCHES, Refused, Tree, network_of

MOST_WAIT, MOST_EVENTS = 1_000_000_000_000, 1_000_000_000
# The stored functions of `sfplay`, each with what it takes and gives.
NUMBERS = ("Pair", "Int", "Int")
FUNCTIONS = {"abs": ("Int", "Int"), "sign": ("Int", "Int"), "max": (NUMBERS, "Int"), "min": (NUMBERS, "Int")}
UNIT_EVENT = "Event", "Unit"
# Forms whose last part is a body or an edit.
WITH_BODY = SWITCHES + CONTINUATIONS + GATHERINGS + EDITED


def unknown(name):
    return Refused("C1 UnknownName", name.place)


def twice(name):
    return Refused("C2 DuplicateName", name.place)


def mismatch(place):
    return Refused("C4 Mismatch", place)


def parts(form, type, place):
    """The parts of a type that has to be of a form."""
    if not isinstance(type, tuple) or type[0] != form:
        raise mismatch(place)
    return type[1:]


def payload(type, place):
    return parts("Event", type, place)[0]


def fits(place, *pairs):
    """Types that have to be the same, two by two."""
    if any(found != wanted for found, wanted in pairs):
        raise mismatch(place)


def names_in(pattern):
    if isinstance(pattern, tuple):
        return names_in(pattern[0]) + names_in(pattern[1])
    return [] if pattern == "_" else [pattern]


def bound(pattern, type, names, place):
    """The names with those of a pattern for values of a type."""
    seen = set()
    for name in names_in(pattern):
        if name in seen:
            raise twice(name)
        seen.add(name)
    return taken_apart(pattern, type, names, place)


def taken_apart(pattern, type, names, place):
    if isinstance(pattern, tuple):
        first, second = parts("Pair", type, place)
        return taken_apart(pattern[1], second, taken_apart(pattern[0], first, names, place), place)
    return names if pattern == "_" else {**names, pattern: ("value", type)}


def held(name, kind, names):
    """What a name of a kind stands for."""
    if name not in names:
        raise unknown(name)
    if names[name][0] != kind:
        raise mismatch(name.place)
    return names[name][1:]


# Expressions


def applied(function, taken, names, place):
    """What a function gives for a type."""
    return typed(function[1], bound(function[0], taken, names, place))


def typed(expression, names):
    form, *rest = expression
    return EXPRESSIONS[form](names, expression.place, *rest)


def operator(names, place, sign, left, right):
    a, b = typed(left, names), typed(right, names)
    if sign in ("==", "!="):
        fits(place, (a, b))
        return "Bool"
    if sign in ("and", "or"):
        fits(place, (a, "Bool"), (b, "Bool"))
        return "Bool"
    if sign in ("<", "<=", ">", ">="):
        fits(place, (a, b), (a in ("Int", "Text"), True))
        return "Bool"
    fits(place, (a, "Int"), (b, "Int"))
    return "Int"


def conditional(names, place, asked, chosen, other):
    condition, a, b = typed(asked, names), typed(chosen, names), typed(other, names)
    fits(place, (condition, "Bool"), (a, b))
    return a


def let(names, place, pattern, value, rest):
    return typed(rest, bound(pattern, typed(value, names), names, place))


def negation(names, place, part):
    fits(place, (typed(part, names), "Bool"))
    return "Bool"


def match(names, place, event, other, function):
    found, default = typed(event, names), typed(other, names)
    fits(place, (applied(function, payload(found, place), names, place), default))
    return default


def called(names, place, name, argument):
    given = typed(argument, names)
    if name not in FUNCTIONS:
        raise unknown(name)
    fits(place, (given, FUNCTIONS[name][0]))
    return FUNCTIONS[name][1]


def with_part(rule):
    """A form of one part, by a rule for its type."""
    return lambda names, place, part: rule(typed(part, names), place)


def with_parts(rule):
    return lambda names, place, left, right: rule(typed(left, names), typed(right, names), place)


def is_event(type, place):
    payload(type, place)
    return "Bool"


def size(type, place):
    parts("Table", type, place)
    return "Int"


def tag(event, other, place):
    payload(event, place)
    return "Event", other


def attach(event, other, place):
    return "Event", ("Pair", payload(event, place), other)


def from_event(event, other, place):
    fits(place, (payload(event, place), other))
    return other


def gate(event, is_open, place):
    payload(event, place)
    fits(place, (is_open, "Bool"))
    return event


def merged(left, right, place):
    payload(left, place)
    fits(place, (left, right))
    return left


def entry(table, key, place):
    wanted, value = parts("Table", table, place)
    fits(place, (key, wanted))
    return "Event", value


def filtered(names, place, event, function):
    found = typed(event, names)
    fits(place, (applied(function, payload(found, place), names, place), "Bool"))
    return found


def mapped(names, place, event, function):
    return "Event", applied(function, payload(typed(event, names), place), names, place)


def merged_by(names, place, left, right, function):
    first, second = typed(left, names), typed(right, names)
    of = payload(first, place)
    fits(place, (applied(function, ("Pair", of, of), names, place), of), (second, first))
    return first


def fold(names, place, table, start, function):
    found, first = typed(table, names), typed(start, names)
    fits(place, (applied(function, ("Pair", first, ("Pair", *parts("Table", found, place))), names, place), first))
    return first


EXPRESSIONS = {
    "literal": lambda names, place, value, type: type,
    "name": lambda names, place, name: held(name, "value", names)[0],
    "pair": with_parts(lambda a, b, place: ("Pair", a, b)),
    "operator": operator,
    "not": negation,
    "event": with_part(lambda a, place: ("Event", a)),
    "if": conditional,
    "let": let,
    "match": match,
    "call": called,
    "fst": with_part(lambda a, place: parts("Pair", a, place)[0]),
    "snd": with_part(lambda a, place: parts("Pair", a, place)[1]),
    "isEvent": with_part(is_event),
    "size": with_part(size),
    "tag": with_parts(tag),
    "attach": with_parts(attach),
    "fromEvent": with_parts(from_event),
    "gate": with_parts(gate),
    "lMerge": with_parts(merged),
    "rMerge": with_parts(merged),
    "merge": with_parts(merged),
    "get": with_parts(entry),
    "filterE": filtered,
    "mapE": mapped,
    "mergeBy": merged_by,
    "fold": fold,
}

# Terms


class Checker:
    """The templates by name, and the names and the input type of the term that is typed."""

    def __init__(self, templates, names, taken):
        self.templates, self.names, self.taken = templates, names, taken

    def on(self, taken, names=None):
        return Checker(self.templates, self.names if names is None else names, taken)

    def given(self, term):
        """The output type of a term."""
        form, *rest = term
        return TERMS[form](self, term.place, *rest)

    def of(self, expression):
        return typed(expression, self.names)

    def applied(self, function, taken, place):
        return applied(function, taken, self.names, place)

    def members(self, collection):
        """The key type and the output type of the members of a collection."""
        form, *rest = collection
        return MEMBERS[form](self, collection.place, *rest)


def constant(check, place, value):
    return check.of(value)


def like_input(check, place, value):
    fits(place, (check.of(value), check.taken))
    return check.taken


def waits(least):
    """Refuses a wait outside its range; what is given else."""

    def refuse(milliseconds, place):
        if not least <= milliseconds <= MOST_WAIT:
            raise Refused("C8 BadConstant", place)

    return refuse


def delay(check, place, milliseconds, value):
    like_input(check, place, value)
    waits(1)(milliseconds, place)
    return check.taken


def timed(least):
    def type_of(check, place, milliseconds, value):
        type = check.of(value)
        waits(least)(milliseconds, place)
        return "Event", type

    return type_of


def i_edge(check, place, value):
    fits(place, (check.of(value), "Bool"), (check.taken, "Bool"))
    return UNIT_EVENT


def edge(check, place):
    fits(place, (check.taken, "Bool"))
    return UNIT_EVENT


def edge_tag(check, place, value):
    type = check.of(value)
    fits(place, (check.taken, "Bool"))
    return "Event", type


def edge_by(check, place, value, function):
    type = check.of(value)
    found = check.applied(function, ("Pair", check.taken, check.taken), place)
    payload(found, place)
    fits(place, (type, check.taken))
    return found


def same_event(check, place):
    payload(check.taken, place)
    return check.taken


def selected(check, place, count):
    payload(check.taken, place)
    if not 0 <= count <= MOST_EVENTS:
        raise Refused("C8 BadConstant", place)
    return check.taken


def count(check, place):
    payload(check.taken, place)
    return "Event", "Int"


def hold(check, place, value):
    type = check.of(value)
    fits(place, (payload(check.taken, place), type))
    return type


def accumulated(check, place, value, function):
    type = check.of(value)
    fits(place, (check.applied(function, ("Pair", type, payload(check.taken, place)), place), type))
    return type


def sscan(check, place, value, function):
    type = check.of(value)
    fits(place, (check.applied(function, ("Pair", type, check.taken), place), type))
    return type


def integral(check, place):
    fits(place, (check.taken, "Int"))
    return "Int"


def bare_pre(check, place):
    raise Refused("C5 BarePre", place)


def sequence(check, place, left, right):
    return check.on(check.given(left)).given(right)


def first(check, place, term):
    taken, other = parts("Pair", check.taken, place)
    return "Pair", check.on(taken).given(term), other


def second(check, place, term):
    other, taken = parts("Pair", check.taken, place)
    return "Pair", other, check.on(taken).given(term)


def parallel(check, place, left, right):
    a, b = parts("Pair", check.taken, place)
    return "Pair", check.on(a).given(left), check.on(b).given(right)


def fan(check, place, left, right):
    return "Pair", check.given(left), check.given(right)


def beginning(check, place, value, term):
    if term[0] == "pre":
        return like_input(check, place, value)
    return followed(check, place, value, term)


def followed(check, place, value, term):
    type = check.of(value)
    fits(place, (check.given(term), type))
    return type


def begun_on(check, place, value, term):
    type, given = check.of(value), check.given(term)
    fits(place, (type, check.taken))
    return given


def changed(check, place, function, term):
    type, given = check.applied(function, check.taken, place), check.given(term)
    fits(place, (type, check.taken))
    return given


def loop(check, place, value, term):
    fed = check.of(value)
    given, back = parts("Pair", check.on(("Pair", check.taken, fed)).given(term), place)
    fits(place, (back, fed))
    return given


def switch(check, place, term, body):
    given, event = parts("Pair", check.given(term), place)
    return body_of(check, place, given, payload(event, place), body, check.names)


def body_of(check, place, given, type, body, names):
    """A body that goes on with a payload, and gives what came before it."""
    pattern, term = body
    fits(place, (check.on(check.taken, bound(pattern, type, names, place)).given(term), given))
    return given


def recurring(check, place, term, body):
    taken, event = parts("Pair", check.taken, place)
    type, inner = payload(event, place), check.on(taken)
    return body_of(inner, place, inner.given(term), type, body, check.names)


def continuation(check, place, term, observer, name, body):
    given = check.given(term)
    type = payload(check.on(("Pair", check.taken, given)).given(observer), place)
    return body_of(check, place, given, type, body, {**check.names, name: ("process", check.taken, given)})


def table(kind):
    return ("Table", *kind)


def gathering(check, place, collection, observer, name, body):
    kind = check.members(collection)
    type = payload(check.on(("Pair", check.taken, table(kind))).given(observer), place)
    return body_of(check, place, table(kind), type, body, {**check.names, name: ("members", kind[0], check.taken, kind[1])})


def edited(check, place, collection, name, edit):
    taken, event = parts("Pair", check.taken, place)
    type, inner = payload(event, place), check.on(taken)
    kind, (pattern, then) = inner.members(collection), edit
    names = bound(pattern, type, {**check.names, name: ("members", kind[0], taken, kind[1])}, place)
    fits(place, (check.on(taken, names).members(then), kind))
    return table(kind)


def run(check, place, name):
    taken, given = held(name, "process", check.names)
    fits(place, (taken, check.taken))
    return given


def template_called(check, place, name, arguments):
    if name not in check.templates:
        raise unknown(name)
    kinds, taken, given = check.templates[name]
    if len(kinds) != len(arguments):
        raise Refused("C3 Arity", name.place)
    fitting = [argument(check, name, kind, *given_to) for kind, given_to in zip(kinds, arguments)]
    fits(name.place, (all(fitting), True), (taken, check.taken))
    return given


def argument(check, name, kind, form, part):
    """Whether an argument fits, behind its own rules."""
    if form == "value":
        return ("value", check.of(part)) == kind
    wanted = {"sf": "process", "col": "members"}[form]
    if kind[0] != wanted:
        raise mismatch(name.place)
    if form == "sf":
        return check.on(kind[1]).given(part) == kind[2]
    return check.on(kind[2]).members(part) == (kind[1], kind[3])


TERMS = {
    "identity": lambda check, place: check.taken,
    "probe": lambda check, place, name: check.taken,
    "constant": constant,
    "localTime": lambda check, place: "Int",
    "arr": lambda check, place, function: check.applied(function, check.taken, place),
    "initially": like_input,
    "iPre": like_input,
    "delay": delay,
    "never": lambda check, place, type: ("Event", type),
    "now": lambda check, place, value: ("Event", check.of(value)),
    "after": timed(0),
    "repeatedly": timed(1),
    "edge": edge,
    "iEdge": i_edge,
    "edgeTag": edge_tag,
    "edgeBy": edge_by,
    "notYet": same_event,
    "once": same_event,
    "takeEvents": selected,
    "dropEvents": selected,
    "count": count,
    "hold": hold,
    "dHold": hold,
    "accumBy": lambda check, place, value, function: ("Event", accumulated(check, place, value, function)),
    "accumHoldBy": accumulated,
    "sscan": sscan,
    "integral": integral,
    "pre": bare_pre,
    ">>>": sequence,
    "first": first,
    "second": second,
    "***": parallel,
    "&&&": fan,
    "-->": beginning,
    ">--": begun_on,
    ">=-": changed,
    "fby": followed,
    "loopPre": loop,
    "switch": switch,
    "dSwitch": switch,
    "rSwitch": recurring,
    "drSwitch": recurring,
    "kSwitch": continuation,
    "dkSwitch": continuation,
    "parB": lambda check, place, collection: table(check.members(collection)),
    "pSwitchB": gathering,
    "dpSwitchB": gathering,
    "rpSwitchB": edited,
    "drpSwitchB": edited,
    "run": run,
    "fresh": run,
    "template": template_called,
}

# Collections


def used(check, place, name):
    key, taken, given = held(name, "members", check.names)
    fits(place, (taken, check.taken))
    return key, given


def added(check, place, collection, key, term):
    kind, type = check.members(collection), check.of(key)
    fits(place, ((type, check.given(term)), kind))
    return kind


def dropped(check, place, collection, key):
    kind = check.members(collection)
    fits(place, (check.of(key), kind[0]))
    return kind


def kept(check, place, collection, function):
    kind = check.members(collection)
    fits(place, (check.applied(function, kind[0], place), "Bool"))
    return kind


def chosen(check, place, asked, one, other):
    condition, kind, another = check.of(asked), check.members(one), check.members(other)
    fits(place, (condition, "Bool"), (kind, another))
    return kind


MEMBERS = {
    "empty": lambda check, place, key, given: (key, given),
    "use": used,
    "add": added,
    "drop": dropped,
    "keep": kept,
    "if": chosen,
}

# Networks


def calls_at_once(part):
    """The names of the templates that are called in a term outside bodies and edits, in the order of the text."""
    if not isinstance(part, (tuple, list)):
        return []
    form = part[0] if isinstance(part, Tree) else None
    found = [part[1]] if form == "template" else []
    return found + [name for inner in (part[:-1] if form in WITH_BODY else part) for name in calls_at_once(inner)]


def reached(calls, start):
    """The templates that are called at once from one, or from what it calls."""
    found, left = set(), list(calls[start])
    while left:
        name = left.pop()
        if name not in found:
            found.add(name)
            left += calls[name]
    return found


def refuse_endless(templates):
    calls = {name: calls_at_once(term) for name, _, _, _, term in templates}
    for caller, names in calls.items():
        for name in names:
            if caller == name or caller in reached(calls, name):
                raise Refused("C6 Endless", name.place)


def refuse_names(templates):
    seen = set()
    for name, parameters, *_ in templates:
        if name in seen:
            raise twice(name)
        seen.add(name)
        of_template = set()
        for parameter, _ in parameters:
            if parameter in of_template:
                raise twice(parameter)
            of_template.add(parameter)


def check(text):
    """Refuses a text of a network, or nothing."""
    templates = network_of(text)
    refuse_names(templates)
    headers = {name: ([kind for _, kind in parameters], taken, given) for name, parameters, taken, given, _ in templates}
    for _, parameters, taken, given, term in templates:
        fits(term.place, (Checker(headers, dict(parameters), taken).given(term), given))
    refuse_endless(templates)
    if "main" not in headers or headers["main"][0]:
        raise Refused("C7 NoMain", (1, 1))
