"""Writes what `sfplay` wrote as a value change dump, for viewers of waveforms such as GTKWave.

    ./sfplay --probes NET < LINES | python3 tools/waveform.py > run.vcd

Each part of the values is a signal, and so is each probe: a number has 64 bits, a truth one, everything else is a string. An event is a
bit that is set for the millisecond in which it occurs, beside its payload. A dump has one time that goes on: where the run returned to a
save, and the time didn't go on, the dump ends, with a word on standard error and status 1.
"""

import argparse
import json
import re
import sys

from samples import samples

NUMBER = re.compile(r"-?\d+")


def kind_of(name, value):
    """What kind of signal a part is, by one of its values."""
    if name.endswith(".occurs") or value in ("true", "false"):
        return "wire 1"
    return "integer 64" if NUMBER.fullmatch(value) else "string 1"


def change(kind, value, sign):
    """The line of a signal that takes a value. A string has no spaces."""
    if kind == "wire 1":
        return f"{int(value == 'true')}{sign}"
    if kind == "integer 64":
        return f"b{int(value) & 2**64 - 1:b} {sign}"
    text = json.loads(value) if value.startswith('"') else value
    return f"s{text.encode('unicode_escape').decode('ascii').replace(' ', '_')} {sign}"


def forward(all_samples):
    """The samples as long as the time goes on, and whether it went back."""
    kept = []
    for time, parts in all_samples:
        if kept and time <= kept[-1][0]:
            return kept, True
        kept.append((time, parts))
    return kept, False


def changes(kept):
    """What changes, time by time. Events are over a millisecond later."""
    last, ending = {}, None
    for time, parts in kept:
        if ending and ending[0] < time:
            yield ending[0], dict.fromkeys(ending[1], "false")
            last.update(dict.fromkeys(ending[1], "false"))
        new = {name: value for name, value in parts.items() if last.get(name) != value}
        if new:
            yield time, new
        last.update(new)
        occurring = [name for name, value in parts.items() if name.endswith(".occurs") and value == "true"]
        ending = (time + 1, occurring) if occurring else None
    if kept:
        yield kept[-1][0] + 1, dict.fromkeys(ending[1] if ending else [], "false")


def dumped(kept):
    """The lines of a dump."""
    kinds = {}
    for _, parts in kept:
        for name, value in parts.items():
            kinds.setdefault(name, kind_of(name, value))
    signs = {name: f"n{number}" for number, name in enumerate(kinds)}
    yield from ["$timescale 1 ms $end", "$scope module network $end"]
    for name, kind in kinds.items():
        yield f"$var {kind} {signs[name]} {name.replace(' ', '_')} $end"
    yield from ["$upscope $end", "$enddefinitions $end"]
    for time, new in changes(kept):
        yield f"#{time}"
        yield from (change(kinds[name], value, signs[name]) for name, value in new.items())


def main():
    argparse.ArgumentParser(description=__doc__, formatter_class=argparse.RawDescriptionHelpFormatter).parse_args()
    kept, returned = forward(samples(sys.stdin))
    if not kept:
        sys.exit("waveform: no line of a sample (`> TIME VALUE`) came in")
    print("\n".join(dumped(kept)))
    if returned:
        sys.exit(f"waveform: the run returned to a save behind {kept[-1][0]} ms, and a dump has one time: it ends there")


if __name__ == "__main__":
    main()
