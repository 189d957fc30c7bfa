"""Finds how much stack `sfplay` needs where 1,600 nodes stand one inside another, the most that a sample may enter.

    python3 bench/stack.py [--exe PATH]

No text is so deep: a process is frozen at its first sample inside more and more of one form, and the next, frozen likewise, runs it.
Or a switch fires at its first sample, and its body is another one that does so too. For each form the least limit of the stack under which the network still gives what it should is printed: as it is written, beside
the bytes a node, and as it is rewritten, where fewer nodes may stand one inside another. An ordinary Linux process has 8,192 KiB.
`crates/sfplay/out` holds the program of each of the two compilers once `rt ci` has run.
"""

import argparse
import os
import subprocess
import sys
import tempfile

HERE = os.path.dirname(os.path.abspath(__file__))
DEEPEST_TEXT, MOST_NODES = 64, 1600
# What stands before and after a part, and how many nodes and how much depth of the text that adds; some call the template.
TEMPLATE = "template through(f: Int ~> Int): Int ~> Int = run f;"
FORMS = {
    "-->": ("-->(0, ", ")", 1, 1),
    ">>>, left": ("(", " >>> identity)", 1, 1),
    ">>>, right": ("(identity >>> ", ")", 1, 1),
    "***": ("((identity &&& identity) >>> ((identity *** ", ") >>> arr (x, _) => x))", 3, 3),
    "&&&": ("((identity &&& ", ") >>> arr (x, _) => x)", 2, 2),
    "loopPre, first": ("loopPre(0, first ", ")", 2, 2),
    "call, run, -->": ("through(sf -->(0, ", "))", 3, 2),
    "switch": ("switch((", " &&& never Int), c => identity)", 2, 2),
    "rSwitch": ("((identity &&& never Int) >>> rSwitch(", ", c => identity))", 2, 2),
    "kSwitch": ("kSwitch(identity, (arr (x, _) => x >>> (", " >>> never Int)), q, c => identity)", 3, 3),
}


# Switches that fire at their first sample, and how many nodes stand inside the last call.
FIRED = {
    "switch that fires": ("switch((identity &&& {event}), _ => up((n + 1)))", 5),
    "kSwitch that fires": ("kSwitch(identity, {event}, q, _ => up((n + 1)))", 4),
}
# The name of the last row: what runs stays, in a switch that waits, and so is held as it was before each sample.
HELD = "kSwitch that waits"


def network(before, after, nodes, depth, is_held=False):
    """The text in which so many nodes stand one inside another, and how many they are."""
    text, ends, high, level = "", "", 0, 0
    if is_held:
        text, ends, high, level = "kSwitch(", ", never Int, held, _ => identity)", 1, 1
    while True:
        level += 1
        room = (DEEPEST_TEXT - 2 - level) // depth
        fit = min(room, (MOST_NODES - (level + 1) - high) // nodes)
        if fit < 1:
            last = f"run k{level - 1}" if is_held else "identity"
            return f"network 1;\n{TEMPLATE}\ntemplate main(): Int ~> Int = {text}{last}{ends};\n", high + level - 1
        part = f"run k{level - 1}" if ", now ()" in text else "identity"
        text += f"kSwitch({before * fit}{part}{after * fit}, now (), k{level}, _ => "
        ends = ")" + ends
        high += fit * nodes + 1


def fired(form, inside):
    """The text in which so many switches fire, each in the body of the one before it, and how many nodes stand one inside another."""
    last = (MOST_NODES - inside) // 2
    event = f"(constant n >>> arr m => if (m < {last}) then event () else none Unit)"
    up = f"template up(n: Int): Int ~> Int = {form.format(event=event)};"
    return f"network 1;\n{up}\ntemplate main(): Int ~> Int = up(0);\n", 2 * last + inside


def goes(words, limit):
    words = ["sh", "-c", f'ulimit -s {limit} && exec "$0" "$@"', *words]
    done = subprocess.run(words, input=b"0 5\n1 6\n", stdout=subprocess.PIPE, stderr=subprocess.DEVNULL)
    return done.returncode == 0 and done.stdout == b"> 0 5\n> 1 6\n"


def least(words):
    """The least limit of the stack in KiB, to 8 KiB."""
    low, high = 0, 65536
    while high - low > 8:
        middle = (low + high) // 2
        low, high = (low, middle) if goes(words, middle) else (middle, high)
    return high


def main():
    parser = argparse.ArgumentParser()
    parser.add_argument("--exe", default=os.path.join(HERE, "..", "crates", "sfplay", "out", "sfplay"))
    exe = os.path.abspath(parser.parse_args().exe)
    if not os.path.exists(exe):
        sys.exit(f"stack: {exe} is not there: ./sfplay --prove builds it")
    print(f"{'one inside another':20} {'nodes':>6} {'stack, KiB':>11} {'a node, bytes':>14} {'rewritten, KiB':>15}")
    with tempfile.TemporaryDirectory() as place:
        path = os.path.join(place, "network")
        deep = [(name, network(*form)) for name, form in FORMS.items()]
        deep += [(name, fired(*form)) for name, form in FIRED.items()]
        deep.append((HELD, network(*FORMS[">>>, right"], is_held=True)))
        for name, (text, high) in deep:
            with open(path, "w") as file:
                file.write(text)
            plain, rewritten = least([exe, path, "--plain"]), least([exe, path])
            print(f"{name:20} {high:6} {plain:11,} {plain * 1024 // high:14,} {rewritten:15,}")


if __name__ == "__main__":
    main()
