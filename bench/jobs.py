"""The jobs that `sfplay` and its peers are given: for each its network and its lines."""


def chain(term, count):
    if count == 1:
        return term
    return f"({chain(term, count // 2)} >>> {chain(term, count - count // 2)})"


def main(types, term, before=""):
    return f"network 1;\n{before}template main(): {types} = {term};\n"


GAME = "(Int, Event Unit) ~> Int"
PLAYING = f"""\
template playing(game: {GAME}): {GAME} = kSwitch(run game, (arr ((_, press), _) => press >>> notYet), g, _ => paused(sf run g));
template paused(game: {GAME}): {GAME} = switch((constant -1 &&& (arr (_, press) => press >>> notYet)), _ => playing(sf run game));
"""
CROSSING = (
    'loopPre("green", (arr (button, shown) => ((), gate(button, (shown == "green"))) >>> (rSwitch(constant "green", _ => (localTime >>>'
    ' arr passed => if (passed < 2000) then "yellow" else if (passed < 7000) then "red" else "green")) >>> arr light => (light, light))))'
)
UP = "template up(n: Int): Unit ~> Int = switch((constant n &&& (constant event () >>> notYet)), _ => up((n + 1)));\n"


def number(n):
    return str(n * 7919 % 1000003 - 500000) if n else "1"


def pressed(n):
    return f"({n % 7 + 1},event ())"


# Each with its network and the value of a sample.
JOBS = {
    "identity": (main("Int ~> Int", "identity"), number),
    "id50": (main("Int ~> Int", chain("identity", 50)), number),
    "ipre50": (main("Int ~> Int", chain("iPre 0", 50)), number),
    "arr50": (main("Int ~> Int", chain("arr x => (x + 1)", 50)), number),
    "total": (main("Int ~> Int", "loopPre(0, arr (x, total) => ((x + total), (x + total)))"), number),
    "integral": (main("Int ~> Int", "integral"), number),
    "rswitch": (
        main("(Int, Event Int) ~> Int", "rSwitch(identity, c => (integral >>> arr x => (x + c)))"),
        lambda n: f"({n % 3 + 1},{'none' if n % 3 else 'event 10'})",
    ),
    "kpause": (main(GAME, "playing(sf (arr (speed, _) => speed >>> integral))", PLAYING), pressed),
    "kfreeze": (
        main(
            "(Unit, Event Unit) ~> Int",
            "rSwitch(constant -1, _ => kSwitch(localTime, arr (_, t) => if (t > 0) then event () else none Unit, k,"
            " _ => ((run k &&& run k) >>> arr (a, b) => (a + b))))",
        ),
        lambda n: f"((),{'none' if n % 2 else 'event ()'})",
    ),
    "crossing": (main("Event Unit ~> Text", CROSSING), lambda n: "none" if n % 5 else "event ()"),
    "recursive": (main("Unit ~> Int", "up(0)", UP), lambda n: "()"),
}

# How much longer the core of Yampa should take, at the least, where the optimiser doesn't decide.
WANTED = {name: 1.2 for name in JOBS if name not in ("id50", "arr50")}


def lines(name, count):
    value = JOBS[name][1]
    yield f"0 {value(0)}\n"
    for n in range(1, count):
        yield f"{1 + n % 50} {value(n)}\n"
