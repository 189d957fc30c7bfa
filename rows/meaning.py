"""What networks mean, by whole lives: the rules of docs/LANGUAGE.md and docs/MEANING.md once more, read apart from the definitions and the code.

A life is a list of steps, each the milliseconds since the step before and the input. What a process gives on a life is a list with an outcome for
each step: a `Sample`, or a `Fault` behind which there is none. Nothing is kept from a step to the next: a primitive is a formula over the inputs
so far, a switch cuts the life, and a frozen process is the process with the steps that it lived through.
"""

from typing import NamedTuple

from reading import LEAST, MOST, network_of


class Fault(Exception):
    """A fault of values, by its name."""


class TooLong(Exception):
    """What would take too long here."""


class Sample(NamedTuple):
    """A value, the readings of probes, the terms that were entered, and how many stood one inside another at the most."""

    value: object
    readings: list
    entered: int
    height: int


# Values


def spelled(value):
    if value is None or isinstance(value, bool):
        return {None: "none", True: "true", False: "false"}[value]
    if isinstance(value, int):
        return str(value)
    if isinstance(value, str):
        return '"' + value.replace("\\", "\\\\").replace('"', '\\"').replace("\n", "\\n") + '"'
    if not value:
        return "()"
    if value[0] == "pair":
        return f"({spelled(value[1])},{spelled(value[2])})"
    if value[0] == "event":
        return "event " + spelled(value[1])
    return "{" + ",".join(f"{spelled(key)}:{spelled(held)}" for key, held in value[1]) + "}"


def within(number):
    if not LEAST <= number <= MOST:
        raise Fault("Overflow")
    return number


def divided(answer):
    def answered(a, b):
        if not b:
            raise Fault("DivideByZero")
        return within(answer(a, b))

    return answered


def ordered(value):
    return value.encode("utf-8") if isinstance(value, str) else value


OPERATORS = {
    "+": lambda a, b: within(a + b),
    "-": lambda a, b: within(a - b),
    "*": lambda a, b: within(a * b),
    "div": divided(lambda a, b: a // b),
    "mod": divided(lambda a, b: a % b),
    "==": lambda a, b: spelled(a) == spelled(b),
    "!=": lambda a, b: spelled(a) != spelled(b),
    "<": lambda a, b: ordered(a) < ordered(b),
    "<=": lambda a, b: ordered(a) <= ordered(b),
    ">": lambda a, b: ordered(a) > ordered(b),
    ">=": lambda a, b: ordered(a) >= ordered(b),
}
# The stored functions of `sfplay`.
FUNCTIONS = {
    "abs": abs,
    "sign": lambda number: (number > 0) - (number < 0),
    "max": lambda pair: max(pair[1:]),
    "min": lambda pair: min(pair[1:]),
}


def clash(a, b):
    raise Fault("Clash")


def entry(table, key):
    return next((("event", held) for found, held in table[1] if found == key), None)


def of_event(answer):
    return lambda event, other: event and answer(event, other)


def merged(answer):
    """Of two events the one that occurs; where both do, an answer."""
    return lambda a, b: b if a is None else a if b is None else answer(a, b)


# Expressions of which each part is evaluated, from left to right.
PLAIN = {
    "pair": lambda a, b: ("pair", a, b),
    "not": lambda a: not a,
    "event": lambda a: ("event", a),
    "fst": lambda a: a[1],
    "snd": lambda a: a[2],
    "isEvent": lambda a: a is not None,
    "size": lambda a: len(a[1]),
    "tag": of_event(lambda event, other: ("event", other)),
    "attach": of_event(lambda event, other: ("event", ("pair", event[1], other))),
    "fromEvent": lambda event, other: other if event is None else event[1],
    "gate": lambda event, is_open: event if is_open else None,
    "lMerge": merged(lambda a, b: a),
    "rMerge": merged(lambda a, b: b),
    "merge": merged(clash),
    "get": entry,
}


def bound(pattern, value, names):
    """The names with those of a pattern, which hide others."""
    if isinstance(pattern, tuple):
        return bound(pattern[1], value[2], bound(pattern[0], value[1], names))
    return names if pattern == "_" else {**names, pattern: value}


def applied(function, value, names):
    return evaluated(function[1], bound(function[0], value, names))


def evaluated(expression, names):
    form, *parts = expression
    if form == "literal":
        return parts[0]
    if form == "name":
        return names[parts[0]]
    if form in PLAIN:
        return PLAIN[form](*[evaluated(part, names) for part in parts])
    return OTHER[form](names, *parts)


def operated(names, sign, left, right):
    first = evaluated(left, names)
    if sign in ("and", "or"):
        return first if first == (sign == "or") else evaluated(right, names)
    return OPERATORS[sign](first, evaluated(right, names))


def called(names, name, argument):
    answer = FUNCTIONS[name](evaluated(argument, names))
    if answer > MOST:
        raise Fault("Function")
    return answer


def matched(names, event, other, function):
    found = evaluated(event, names)
    return evaluated(other, names) if found is None else applied(function, found[1], names)


def mapped(names, event, function):
    found = evaluated(event, names)
    return found and ("event", applied(function, found[1], names))


def filtered(names, event, function):
    found = evaluated(event, names)
    return found if found and applied(function, found[1], names) else None


def merged_by(names, left, right, function):
    first, second = evaluated(left, names), evaluated(right, names)
    return merged(lambda a, b: ("event", applied(function, ("pair", a[1], b[1]), names)))(first, second)


def over_table(names, table, start, function):
    pairs, start = evaluated(table, names)[1], evaluated(start, names)
    return folded(function, start, [("pair", *pair) for pair in pairs], names)


def folded(function, start, values, names):
    for value in values:
        start = applied(function, ("pair", start, value), names)
    return start


OTHER = {
    "operator": operated,
    "if": lambda names, asked, chosen, other: evaluated(chosen if evaluated(asked, names) else other, names),
    "let": lambda names, pattern, value, rest: evaluated(rest, bound(pattern, evaluated(value, names), names)),
    "call": called,
    "match": matched,
    "mapE": mapped,
    "filterE": filtered,
    "mergeBy": merged_by,
    "fold": over_table,
}

# Processes


class Closure(NamedTuple):
    term: tuple
    names: dict

    def base(self):
        return self


class Resumed(NamedTuple):
    process: object
    steps: list
    milliseconds: int

    def base(self):
        return self.process.base()


def frozen(process, steps, milliseconds):
    return Resumed(process, steps, milliseconds) if steps else process


def collected(collection, names):
    """The processes of a collection by their keys, in order."""
    form, *parts = collection
    if form == "empty":
        return {}
    if form == "use":
        return dict(names[parts[0]])
    if form == "if":
        return collected(parts[1] if evaluated(parts[0], names) else parts[2], names)
    members = collected(parts[0], names)
    if form == "keep":
        return {key: member for key, member in members.items() if applied(parts[1], key, names)}
    key = evaluated(parts[1], names)
    if form == "add":
        return {**members, key: Closure(parts[2], names)}
    return {other: member for other, member in members.items() if other != key}


def over(value, *parts):
    """A sample of a term that is entered, over those of its parts, in the order in which they are stepped."""
    readings = [reading for part in parts for reading in part.readings]
    return Sample(value, readings, 1 + sum(part.entered for part in parts), 1 + max([0, *[part.height for part in parts]]))


def beside(sample, other, value):
    """Two samples of which the second goes on in the place of the first."""
    both = over(value, sample, other)
    return both._replace(entered=both.entered - 1, height=both.height - 1)


def joined(lists, made):
    """Parts side by side: what is made of their samples at each step, up to the first fault."""
    outcomes = []
    for samples in zip(*lists) if lists else ():
        fault = next((it for it in samples if isinstance(it, Fault)), None)
        outcomes.append(fault or made(len(outcomes), *samples))
        if fault:
            break
    return outcomes


def good(outcomes):
    return [it for it in outcomes if isinstance(it, Sample)]


def behind(outcomes, run):
    """What runs on the values of outcomes; a fault of those stands where it would come next."""
    samples = good(outcomes)
    return (run([it.value for it in samples]) if samples else []) + outcomes[len(samples):]


class Life(NamedTuple):
    """The steps of a process, with the names around its term and the templates of the network."""

    steps: list
    names: dict
    network: object

    @property
    def inputs(self):
        return [value for _, value in self.steps]

    @property
    def times(self):
        times = [0]
        for milliseconds, _ in self.steps[1:]:
            times.append(times[-1] + milliseconds)
        return times

    def on(self, values):
        return self._replace(steps=[(step[0], value) for step, value in zip(self.steps, values)])

    def side(self, number):
        return self.on([value[number] for value in self.inputs])

    def part(self, start, end=None):
        return self._replace(steps=self.steps[start:end])

    def within(self, names):
        return self._replace(names=names)

    def of(self, expression):
        return evaluated(expression, self.names)

    def run(self, term):
        """The outcomes of a term on this life."""
        self.network.spend(len(self.steps))
        form, *parts = term
        try:
            if form in PRIMITIVES:
                return primitive(self, PRIMITIVES[form](self, *parts))
            return FORMS[form](self, *parts)
        except Fault as fault:
            return [fault]  # of what is evaluated at the first step

    def run_process(self, process):
        if isinstance(process, Closure):
            return self.within(process.names).run(process.term)
        (_, first), *others = self.steps
        whole = self._replace(steps=[*process.steps, (process.milliseconds, first), *others])
        return whole.run_process(process.process)[len(process.steps):]


def primitive(life, value_at):
    outcomes = []
    for at in range(len(life.steps)):
        try:
            outcomes.append(over(value_at(at)))
        except Fault as fault:
            return [*outcomes, fault]
    return outcomes


# Primitives: each gives the value at a step, by a formula over the life so far


def now(life, value):
    held = life.of(value)
    return lambda n: None if n else ("event", held)


def before(life, value):
    held, inputs = life.of(value), life.inputs
    return lambda n: inputs[n - 1] if n else held


def initially(life, value):
    held, inputs = life.of(value), life.inputs
    return lambda n: inputs[n] if n else held


def delay(life, least, value):
    held, inputs, times = life.of(value), life.inputs, life.times
    return lambda n: next((inputs[i] for i in range(n, -1, -1) if times[n] - times[i] >= least), held)


def after(life, least, value):
    held, times = life.of(value), life.times
    return lambda n: ("event", held) if times[n] >= least and (n == 0 or times[n - 1] < least) else None


def repeatedly(life, each, value):
    held, times = life.of(value), life.times
    return lambda n: ("event", held) if n and times[n] // each > times[n - 1] // each else None


def edge(life, first, value):
    inputs = life.inputs
    return lambda n: ("event", value) if inputs[n] and not (inputs[n - 1] if n else first) else None


def edge_by(life, value, function):
    held, inputs = life.of(value), life.inputs
    return lambda n: applied(function, ("pair", inputs[n - 1] if n else held, inputs[n]), life.names)


def events(inputs):
    return [value[1] for value in inputs if value is not None]


def selected(life, is_passed):
    inputs = life.inputs
    return lambda n: inputs[n] if is_passed(n, len(events(inputs[:n]))) else None


def held(life, value, last):
    start, inputs = life.of(value), life.inputs
    return lambda n: [start, *events(inputs[: n + last])][-1]


def accumulated(life, value, function, taken, given):
    """A fold over what is taken of the inputs so far."""
    start, inputs = life.of(value), life.inputs
    return lambda n: given(inputs[n], lambda: folded(function, start, taken(inputs[: n + 1]), life.names))


def integral(life):
    inputs = life.inputs
    return lambda n: within(sum(life.steps[i + 1][0] * inputs[i] for i in range(n)))


def constant(life, value):
    held = life.of(value)
    return lambda n: held


PRIMITIVES = {
    "identity": lambda life: life.inputs.__getitem__,
    "constant": constant,
    "localTime": lambda life: life.times.__getitem__,
    "arr": lambda life, function: lambda n: applied(function, life.steps[n][1], life.names),
    "initially": initially,
    "iPre": before,
    "delay": delay,
    "never": lambda life, type: lambda n: None,
    "now": now,
    "after": after,
    "repeatedly": repeatedly,
    "edge": lambda life: edge(life, True, ()),
    "iEdge": lambda life, value: edge(life, life.of(value), ()),
    "edgeTag": lambda life, value: edge(life, True, life.of(value)),
    "edgeBy": edge_by,
    "notYet": lambda life: selected(life, lambda n, count: n),
    "once": lambda life: selected(life, lambda n, count: not count),
    "takeEvents": lambda life, most: selected(life, lambda n, count: count < most),
    "dropEvents": lambda life, least: selected(life, lambda n, count: count >= least),
    "hold": lambda life, value: held(life, value, 1),
    "dHold": lambda life, value: held(life, value, 0),
    "accumBy": lambda life, *parts: accumulated(life, *parts, events, lambda value, fold: value and ("event", fold())),
    "accumHoldBy": lambda life, *parts: accumulated(life, *parts, events, lambda value, fold: fold()),
    "sscan": lambda life, *parts: accumulated(life, *parts, list, lambda value, fold: fold()),
    "count": lambda life: lambda n: life.inputs[n] and ("event", len(events(life.inputs[: n + 1]))),
    "integral": integral,
}

# Forms with parts


def sequence(life, left, right):
    first = life.run(left)
    second = behind(first, lambda values: life.on(values).run(right))
    return joined([first, second], lambda at, a, b: over(b.value, a, b))


def parallel(life, left, right):
    return joined([life.side(1).run(left), life.side(2).run(right)], lambda at, a, b: over(("pair", a.value, b.value), a, b))


def fan(life, left, right):
    return joined([life.run(left), life.run(right)], lambda at, a, b: over(("pair", a.value, b.value), a, b))


def on_first(life, term):
    return joined([life.side(1).run(term)], lambda at, a: over(("pair", a.value, life.inputs[at][2]), a))


def on_second(life, term):
    return joined([life.side(2).run(term)], lambda at, a: over(("pair", life.inputs[at][1], a.value), a))


def beginning(life, value, term):
    start = life.of(value)
    if term == ("pre",):
        return primitive(life, before(life, value))
    return joined([life.run(term)], lambda at, a: over(a.value if at else start, a))


def begun_on(life, first, term):
    return joined([life.on([first, *life.inputs[1:]]).run(term)], lambda at, a: over(a.value, a))


def followed(life, value, term):
    part = life.run(term)
    if not good(part):
        return part
    start = life.of(value)
    return joined([part], lambda at, a: over(part[at - 1].value if at else start, a))


def fed_back(life, value, term):
    fed, outcomes = [life.of(value)], []
    while len(good(outcomes)) == len(outcomes) < len(life.steps):
        pairs = [("pair", *both) for both in zip(life.inputs, fed)]
        outcomes = life.on(pairs).run(term)
        fed += [it.value[2] for it in good(outcomes[-1:])]
    return joined([outcomes], lambda at, a: over(a.value[1], a))


def handed(life, template, arguments):
    """The names of a template's parameters."""
    names = {}
    for name, (kind, argument) in zip(life.network.templates[template][0], arguments):
        if kind == "value":
            names[name] = life.of(argument)
        elif kind == "col":
            names[name] = collected(argument, life.names)
        elif argument[0] in ("run", "fresh"):
            names[name] = process_of(life, *argument)
        else:
            names[name] = Closure(argument, life.names)
    return names


def process_of(life, form, name):
    process = life.names[name]
    return process.base() if form == "fresh" else process


def entered_once(outcomes):
    """What counts at its first step alone."""
    return joined([outcomes], lambda at, a: a if at else over(a.value, a))


def template_called(life, template, arguments):
    names = handed(life, template, arguments)
    return entered_once(life.within(names).run(life.network.templates[template][1]))


# Switches


def first_event(events):
    return next((at for at, it in enumerate(events) if isinstance(it, Sample) and it.value), None)


def taken_over(life, shown, at, body, is_delayed):
    """A body goes on from a step on, with the names of `life`."""
    later = life.part(at).run(body)
    if not good(later[:1]):
        return shown[:at] + later
    return shown[:at] + [beside(shown[at], later[0], shown[at].value if is_delayed else later[0].value)] + later[1:]


def switch(is_delayed):
    def outcomes(life, term, body):
        pattern, then = body
        first = life.run(term)
        shown = joined([first], lambda at, a: over(a.value[1], a))
        at = first_event(joined([first], lambda at, a: a._replace(value=a.value[2])))
        if at is None:
            return shown
        return taken_over(life.within(bound(pattern, first[at].value[2][1], life.names)), shown, at, then, is_delayed)

    return outcomes


def observed(life, source, observer):
    """What is shown while an observer waits, and its events."""
    seen = behind(source, lambda values: life.on([("pair", *both) for both in zip(life.inputs, values)]).run(observer))
    return joined([source, seen], lambda at, a, b: over(a.value, a, b)), seen


def continuation(is_delayed):
    def outcomes(life, term, observer, name, body):
        process = Closure(term, life.names)
        return released(life, life.run(term), observer, lambda at: {name: frozen(process, life.steps[:at], life.steps[at][0])}, body, is_delayed)

    return outcomes


def released(life, source, observer, kept, body, is_delayed):
    """A source under an observer, at whose first event a body goes on with what is kept of the source."""
    pattern, then = body
    shown, seen = observed(life, source, observer)
    at = first_event(seen)
    if at is None:
        return shown
    names = bound(pattern, seen[at].value[1], {**life.names, **kept(at)})
    return taken_over(life.within(names), shown, at, then, is_delayed)


def gathered(life, members):
    """The samples of the members of a collection as one, which isn't counted itself."""
    if not members:
        return [Sample(("table", []), [], 0, 0) for _ in life.steps]
    lists = [life.run_process(member) for member in members.values()]

    def table(at, *samples):
        both = over(("table", [*zip(members, [it.value for it in samples])]), *samples)
        return both._replace(entered=both.entered - 1, height=both.height - 1)

    return joined(lists, table)


def together(life, collection):
    return joined([gathered(life, collected(collection, life.names))], lambda at, a: over(a.value, a))


def all_frozen(members, steps, milliseconds):
    return {key: frozen(member, steps, milliseconds) for key, member in members.items()}


def gathering(is_delayed):
    def outcomes(life, collection, observer, name, body):
        members = collected(collection, life.names)
        kept = lambda at: {name: all_frozen(members, life.steps[:at], life.steps[at][0])}
        return released(life, gathered(life, members), observer, kept, body, is_delayed)

    return outcomes


def recurring(life, running, changed, is_delayed):
    """What runs on the first components, and is changed at each event: `running(part)` gives its outcomes on a part of the life, `changed(payload, old,
    milliseconds)` what runs then, where `old` are the steps that it ran for."""
    inner, start, outcomes = life.side(1), 0, []
    for at, (_, event) in enumerate(value[1:] for value in life.inputs):
        now = running(inner.part(start, at + 1))[-1]
        if isinstance(now, Fault):
            return [*outcomes, now]
        if not event:
            outcomes.append(over(now.value, now))
            continue
        try:
            running = changed(event[1], inner.steps[start:at], inner.steps[at][0])
        except Fault as fault:
            return [*outcomes, fault]
        start, new = at, running(inner.part(at, at + 1))[-1]
        if isinstance(new, Fault):
            return [*outcomes, new]
        outcomes.append(over(now.value if is_delayed else new.value, now, new))
    return outcomes


def recurring_switch(is_delayed):
    def outcomes(life, term, body):
        pattern, then = body
        body_of = lambda payload, steps, milliseconds: lambda part: part.within(bound(pattern, payload, life.names)).run(then)
        return recurring(life, lambda part: part.run(term), body_of, is_delayed)

    return outcomes


def edited(is_delayed):
    def outcomes(life, collection, name, edit):
        pattern, then = edit
        members = collected(collection, life.names)

        def changed(payload, steps, milliseconds):
            nonlocal members
            names = {**life.names, name: all_frozen(members, steps, milliseconds)}
            members = collected(then, bound(pattern, payload, names))
            return running

        def running(part):
            return gathered(part, members)

        return recurring(life, running, changed, is_delayed)

    return outcomes


FORMS = {
    ">>>": sequence,
    "***": parallel,
    "&&&": fan,
    "first": on_first,
    "second": on_second,
    "-->": beginning,
    ">--": lambda life, value, term: begun_on(life, life.of(value), term),
    ">=-": lambda life, function, term: begun_on(life, applied(function, life.inputs[0], life.names), term),
    "fby": followed,
    "loopPre": fed_back,
    "probe": lambda life, name: joined([primitive(life, lambda n: life.steps[n][1])], lambda at, a: a._replace(readings=[(name, a.value)])),
    "run": lambda life, name: entered_once(life.run_process(process_of(life, "run", name))),
    "fresh": lambda life, name: entered_once(life.run_process(process_of(life, "fresh", name))),
    "template": template_called,
    "switch": switch(False),
    "dSwitch": switch(True),
    "rSwitch": recurring_switch(False),
    "drSwitch": recurring_switch(True),
    "kSwitch": continuation(False),
    "dkSwitch": continuation(True),
    "parB": together,
    "pSwitchB": gathering(False),
    "dpSwitchB": gathering(True),
    "rpSwitchB": edited(False),
    "drpSwitchB": edited(True),
}


class Network:
    """A network with what may be spent on it, counted in steps of terms."""

    def __init__(self, text, most):
        self.left = most
        self.templates = {name: ([of for of, _ in parameters], term) for name, parameters, _, _, term in network_of(text)}

    def spend(self, steps):
        self.left -= steps
        if self.left < 0:
            raise TooLong

    def outcomes(self, history):
        """The outcomes of a history, up to its first fault."""
        try:
            return Life(history, {}, self).run(self.templates["main"][1])
        except RecursionError as error:
            raise TooLong from error
