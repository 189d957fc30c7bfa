"""Plays networks on a few lines with each growth of memory refused in turn, each with and without --plain.

There are a delay of numbers, a loop over pairs, one of texts, events and tables with functions inside, one that calls stored
functions, one that switches, one that freezes a process and runs it twice, one whose state is saved and returned to, one of
templates that are given values and processes, one with a probe in what is begun anew, one of forms that remember, one of forms
that go by time and by numbers of events, and three of collections; and then networks that laws rewrite. A text of all these and
of further forms is checked and written anew. An edit takes as many growths whether few members stay or many. Then each growth of
the program of crates/oven is refused, which adds a function, takes a list of steps, saves and returns, and has an actuator act on
samples; and each of crates/sftypes, which tells the types that do not fit. Last, each read and each write of a run fails in turn,
and each write takes nothing in turn.

    python3 rows/refuse_growths.py --exe PATH [--oven PATH] [--types PATH]

What is written has to be the script of the lines before, then `! T Memory` or `! line N Memory`; or nothing, with the
network refused for memory or the words or the file not read. Where a later growth is refused, the run has come as far or further. Of a
check, of a text and of types nothing is written and memory is named, or all of it. Each ends with the first number that refuses nothing.
Where a read fails, the lines that were complete have their output, and where a write fails or takes nothing, a front of it.
The last line is `N passed, M failed`.
"""

import argparse
import os
import subprocess
import sys
import tempfile

HERE = os.path.dirname(os.path.abspath(__file__))


def samples(inputs, values):
    """Lines of samples 16 milliseconds apart, each with what it writes."""
    return [(f"{16 if at else 0} {given}", f"> {16 * at} {value}") for at, (given, value) in enumerate(zip(inputs, values))]


# What goes on where it was frozen.
FROZEN = "kSwitch(localTime, arr (_, y) => if (y >= 20) then event () else none Unit, k, _ => run k)"

# Networks, each with its input lines, what each line writes, and words for the program.
RUNS = [
    ("Int ~> Int = iPre 7", samples(["1", "2", "3"], ["7", "1", "2"])),
    ("(Int, Int) ~> (Int, Int) = loopPre(0, arr ((x, y), total) => ((x, total), (y + total)))",
     samples(["(1,2)", "(2,3)", "(3,4)"], ["(1,0)", "(2,2)", "(3,5)"])),
    ("((Table Text Text, Text), Event Text) ~> ((Table Text Text, Event Text), Bool)"
     ' = arr ((t, k), e) => let found = if (k == "") then none Text else get(t, k) in'
     ' ((t, mergeBy(merge(found, none Text), mapE(filterE(e, s => (s != "")), s => s), (_, b) => b)),'
     ' ((size(t) == 2) and (fold(t, match(e, "", s => s), (most, (j, _)) => if (j > most) then j else most) == k)))',
     samples(['(({"a":"b","c":""},"c"),event "x")', '(({},""),event "d\\"")', '(({"c":"","a":"e"},"c"),none)'],
             ['(({"a":"b","c":""},event "x"),false)', '(({},event "d\\""),false)', '(({"c":"","a":"e"},event ""),true)'])),
    ("(Int, Event Int) ~> (Int, Int) = loopPre(call abs(-3), arr ((x, e), most) =>"
     " let high = call max((most, call abs(fromEvent(e, x)))) in ((high, call sign(x)), high))",
     samples(["(1,none)", "(2,event -7)", "(-5,none)"], ["(3,1)", "(7,1)", "(7,-1)"])),
    ('Int ~> (Int, Int) = dSwitch(((identity &&& constant 0) &&& arr x => if (x > 1) then event (x, "") else none (Int, Text)),'
     ' (start, _) => (iPre start &&& arr x => (x - start)))', samples(["1", "2", "3"], ["(1,0)", "(2,0)", "(2,1)"])),
    # the least number has no absolute value
    ("Int ~> Int = arr x => call abs(x)", [("0 -5", "> 0 5"), ("5 -9223372036854775808", "! 5 Function")]),
    ("Int ~> Int = kSwitch(iPre 7, arr (x, _) => gate(event x, (x > 1)), k, c => ((run k &&& run k) >>> arr (u, v) => ((u + v) * c)))",
     samples(["1", "2", "3"], ["7", "4", "8"])),
    # a process that is frozen, and two of which one is frozen within the other and goes on twice there
    (f"Unit ~> Int = {FROZEN}", [("0 ()", "> 0 0"), ("10 =", "> 10 10"), ("15 =", "> 25 25"), ("5 =", "> 30 30")]),
    (f"Unit ~> Int = {FROZEN.replace('localTime', '(localTime >>> probe t)')}",
     [("0 ()", "? t 0\n> 0 0"), ("10 =", "? t 10\n> 10 10"), ("15 =", "? t 25\n? t 25\n> 25 25")], "--probes"),
    ("Unit ~> Int = kSwitch(kSwitch(localTime, arr (_, y) => if (y >= 10) then event () else none Unit, k,"
     " _ => ((run k &&& switch((constant 0 &&& after 5 ()), _ => run k)) >>> arr (u, v) => ((u * 1000) + v))),"
     " arr (_, y) => if (y >= 17000) then event () else none Unit, j, _ => switch((constant -1 &&& after 20 ()), _ => run j))",
     [("0 ()", "> 0 0"), ("10 =", "> 10 10000"), ("5 =", "> 15 15010"), ("2 =", "> 17 -1"), ("20 =", "> 37 17012"), ("3 =", "> 40 20015")]),
    ("(Int, Text) ~> (Int, Text) = kSwitch((iPre 7 *** identity), arr ((x, _), _) => gate(event x, (x > 1)), k,"
     " c => (run k >>> first arr y => (y * c)))",
     [('0 (1,"a")', '> 0 (7,"a")'), ("save start", ""), ('16 (2,"b")', '> 16 (2,"b")'), ("save later", ""), ("back start", ""),
      ('16 (3,"c")', '> 16 (3,"c")'), ("back later", ""), ("16 =", '> 32 (4,"b")')]),
    ("Int ~> Int = switch((identity &&& arr x => gate(event x, (x > 1))), c => scaled(sf (iPre 7 >>> arr y => (y + c)), (c * 10)));"
     "\ntemplate scaled(f: Int ~> Int, n: Int): Int ~> Int = twice(sf run f, sf (run f >>> arr x => (x * n)));"
     "\ntemplate twice(f: Int ~> Int, g: Int ~> Int): Int ~> Int = (run f >>> run g)",
     samples(["1", "2", "3"], ["1", "180", "220"])),
    ("Int ~> Int = kSwitch((iPre 7 >>> probe before), arr (x, _) => gate(event x, (x > 1)), k, c => ((fresh k &&& run k) >>> arr (u, v) => ((u + v) * c)))",
     [("0 1", "? before 7\n> 0 7"), ("16 2", "? before 1\n? before 7\n? before 1\n> 16 16"), ("16 3", "? before 2\n? before 2\n> 32 8")], "--probes"),
    # what remembers an event, a payload and an input
    ('(Event Text, Bool) ~> ((Event Text, Text), ((Event Unit, Event Text), Bool))'
     ' = ((once &&& dHold "-") *** ((iEdge false &&& edgeTag "up") &&& initially false))',
     samples(['(event "a",true)', '(event "b",false)', '(none,true)'],
             ['((event "a","-"),((event (),none),false))', '((none,"a"),((none,none),false))', '((none,"b"),((event (),event "up"),true))'])),
    ("Int ~> (((Int, Event Int), Event Int), Int)"
     " = (((delay 20 0 &&& repeatedly 30 1) &&& (arr x => event x >>> takeEvents 2))"
     ' &&& fby(snd(("", 8)), >--(9, >=-(x => fst(((x + 1), "")), identity))))',
     samples(["1", "2", "3"], ["(((0,none),event 1),8)", "(((0,none),event 2),10)", "(((1,event 1),none),2)"])),
    # members that come and go
    ("(Unit, Event (Bool, Int)) ~> Table Int Int = rpSwitchB(add(empty Int Int, 1, localTime), ks,"
     " (b, k) => if b then add(use ks, k, localTime) else drop(use ks, k))",
     [("0 ((),none)", "> 0 {1:0}"), ("10 ((),event (true,2))", "> 10 {1:10,2:0}"), ("10 ((),event (false,1))", "> 20 {2:10}"),
      ("5 ((),event (true,2))", "> 25 {2:0}"), ("5 ((),event (false,9))", "> 30 {2:5}")]),
    # members that are frozen, of which one goes on
    ("Unit ~> Table Int Int = pSwitchB(add(add(empty Int Int, 1, localTime), 2, (localTime >>> arr v => (v * 2))),"
     " arr (_, t) => filterE(get(t, 1), v => (v >= 20)), ks, _ => parB drop(use ks, 1))",
     [("0 ()", "> 0 {1:0,2:0}"), ("10 =", "> 10 {1:10,2:20}"), ("15 =", "> 25 {2:50}"), ("5 =", "> 30 {2:60}")]),
    # members under texts, which a template is given
    ('(Int, Event Text) ~> Table Text Int = edited(col add(add(empty Text Int, "b", iPre 7), "a", integral));'
     "\ntemplate edited(c: [Text: Int ~> Int]): (Int, Event Text) ~> Table Text Int = drpSwitchB(use c, ks,"
     ' k => if (k == "b") then keep(use ks, j => (j != k)) else add(use c, k, sscan(0, (s, x) => (s + x))))',
     [('0 (1,none)', '> 0 {"b":7,"a":0}'), ('16 (2,event "b")', '> 16 {"b":1,"a":16}'), ('16 (3,event "cd")', '> 32 {"a":48}'),
      ("16 (4,none)", '> 48 {"b":3,"a":48,"cd":7}')]),
    # functions that are neighbours, of which two share their input
    ("Int ~> (Int, Int) = ((arr x => (x + 1) >>> arr x => (x * 2)) >>> (arr x => (x - 3) &&& arr x => (x + 3)))",
     samples(["1", "2", "3"], ["(1,7)", "(3,9)", "(5,11)"])),
    # what passes its inputs on, and a pipeline that is frozen
    ("Int ~> Int = kSwitch(((iPre 7 >>> identity) >>> (iPre 8 >>> iPre 9)), arr (x, _) => gate(event (), (x > 1)), k,"
     " _ => ((run k &&& run k) >>> arr (u, v) => (u * v)))",
     samples(["1", "2", "3", "4"], ["9", "64", "49", "1"])),
    # parts on one side, and functions there
    ("(Int, Int) ~> (Int, Int) = ((first iPre 7 >>> first iPre 8) >>> (second arr x => (x + 1) >>> (arr x => (x * 2) *** arr x => (x * 3))))",
     samples(["(1,2)", "(3,4)", "(5,6)"], ["(16,9)", "(14,15)", "(2,21)"])),
    # parts on two sides that change places
    ("(Int, Int) ~> (Int, Int) = ((identity *** iPre 7) >>> (iPre 8 *** identity))",
     samples(["(1,2)", "(3,4)", "(5,6)"], ["(8,7)", "(1,2)", "(3,4)"])),
    # parts of loops that stand before and behind what is fed back
    ("Int ~> (Int, Int) = (loopPre(0, (first iPre 7 >>> arr (x, s) => ((x + s), (x + s)))) &&&"
     " loopPre(0, (arr (x, s) => ((x + s), (x + s)) >>> first iPre 7)))",
     samples(["1", "2", "3"], ["(7,7)", "(8,1)", "(10,3)"])),
    # a constant behind what has no effect
    ("Int ~> (Int, Text) = (iPre 3 &&& ((iPre 7 >>> iPre 8) >>> constant \"five\"))",
     samples(["1", "2", "3"], ['(3,"five")', '(1,"five")', '(2,"five")'])),
    # laws in the term of a template, in an argument and in the body of a switch
    ("Int ~> Int = switch((identity &&& arr x => gate(event x, (x > 1))), c => twice(sf (iPre 7 >>> (identity >>> arr y => (y + c)))));"
     "\ntemplate twice(f: Int ~> Int): Int ~> Int = ((run f >>> identity) >>> (run f >>> arr x => (x * 2)))",
     samples(["1", "2", "3"], ["1", "18", "22"])),
]


# Terms of forms that stand in none of these.
FURTHER = [
    "Unit ~> (Int, Event Int) = (-->(9, (localTime >>> integral)) &&& ((after 10 -1 &&& never Int) >>> arr (a, b) => lMerge(a, b)))",
    "(Bool, Event Int) ~> (Event Int, Int) = rSwitch((edge >>> (arr e => tag(e, 0) >>> (identity &&& hold -1))), n => (now n &&& constant n))",
]


# What the oven's line of a look ahead begins with.
LOOKED = b"if the door were open: "


# Networks with types that do not fit, within forms whose types are made on the way, each with what is told of them.
UNFIT = [
    ("template main(): Int ~> Int = loopPre(0, (arr (x, s) => x >>> kSwitch(raised(1), arr (_, y) => gate(event y, (y > 1)), k, c =>"
     " pSwitchB(add(empty Int, 1, run k), arr (_, t) => filterE(get(t, 1), v => (v > c)), ks,"
     " v => parB add(use ks, 2, sscan(0, (s, x) => match(event x, true, w => (w + s))))))));\n"
     "template raised(n: Int): Int ~> Int = arr x => (x + n)", "2:259 found Int, wanted Bool"),
    ("template main(): Int ~> Int = (identity >>> hold true)", "2:45 found Int, wanted Event Bool"),
]


def many():
    """The canonical text of an accepted network of many forms."""
    terms = [term for term, *_ in RUNS if "\n" not in term] + FURTHER
    templates = ["main(): Int ~> Int = identity", *(f"form_{number}(): {term}" for number, term in enumerate(terms))]
    return "network 2;\n" + "".join(f"template {template};\n" for template in templates)


def unread():
    """The status with the output and the words on standard error where the network is refused for memory, or its file not read."""
    return {(5, b"", b"sfplay: Memory\n"): 0, (6, b"", b"sfplay: read fault\n"): 0}


def ended(script):
    """The status of a run with no growth refused: 3 where it ends at a fault."""
    return 3 if script[-1][1].startswith("!") else 0


def allowed(script):
    """Each status with the output and the words on standard error that it may come with, and how far the run has come there: a line's
    sample is behind the line itself."""
    found = unread()
    before = b""
    for number, (_, text) in enumerate(script, 1):
        found[4, before + b"! line %d Memory\n" % number, b""] = 2 * number - 1
        if text:
            time = text.splitlines()[-1].split()[1]
            found[3, before + b"! %s Memory\n" % time.encode("ascii"), b""] = 2 * number
            before += text.encode("ascii") + b"\n"
    return {**found, (ended(script), before, b""): 2 * len(script) + 1}


def refused(shim, number, words, lines):
    """What a program answers with a growth refused, and whether it came to that growth."""
    told, refusal = os.pipe()
    settings = {**os.environ, "LD_PRELOAD": shim, "REFUSED_GROWTH": str(number), "REFUSAL_TO": str(refusal)}
    done = subprocess.run(words, input=lines, capture_output=True, env=settings, timeout=60, pass_fds=(refusal,))
    os.close(refusal)
    with open(told, "rb") as file:
        return (done.returncode, done.stdout, done.stderr), file.read() != b""


def refuse(shim, words, lines, wanted, played):
    """How many refused growths went well and how many didn't, and the statuses that were met. Where none is refused, the answer has to be
    the one that comes furthest, and no other run has it."""
    passed = failed = number = furthest = 0
    ends = set()
    met = True
    while met and number < 2000:
        number += 1
        answer, met = refused(shim, number, words, lines)
        status, output, _ = answer
        # (before the network is read, the words themselves may find no memory: status 2 and nothing written)
        come = 0 if status == 2 and not output else wanted.get(answer, -1)
        well = come >= furthest and met == (come < max(wanted.values()))
        furthest = max(furthest, come)
        passed, failed = passed + well, failed + (not well)
        ends.add(status)
        if not well:
            print(f"{played}: growth {number} refused: {answer!r}")
    return passed, failed, ends


def unmet(played, ends, due):
    """How many statuses that are due were not met."""
    missing = [what for status, what in due if status not in ends]
    for what in missing:
        print(f"{played}: never met: {what}")
    return len(missing)


def play(exe, place, shim, network, script, *arguments):
    """How many refused growths of a run went well and how many didn't."""
    path = os.path.join(place, "network")
    with open(path, "w") as file:
        file.write(f"network 2;\ntemplate main(): {network};\n")
    lines = "".join(f"{line}\n" for line, _ in script).encode("ascii")
    played = " ".join([network, *arguments])
    passed, failed, ends = refuse(shim, [exe, path, *arguments], lines, allowed(script), played)
    due = [(ended(script), "a run with no growth refused"), (5, "a network refused for memory"), (3, "a sample without memory")]
    due += [(4, "a save or a return without memory")] if not all(text for _, text in script) else []
    return passed, failed + unmet(played, ends, due)


def write(exe, place, shim, flag, output):
    """The same of a flag that has this written for the text of many forms."""
    path = os.path.join(place, "network")
    with open(path, "w") as file:
        file.write(many())
    wanted = {**unread(), (0, output.encode("ascii"), b""): 1}
    passed, failed, ends = refuse(shim, [exe, path, flag], b"", wanted, flag)
    return passed, failed + unmet(flag, ends, [(0, "no growth refused"), (5, "a network refused for memory")])


def fail(exe, place, shim, network, script):
    """The same of failed reads and writes of a run, and of writes that take nothing."""
    path = os.path.join(place, "network")
    with open(path, "w") as file:
        file.write(f"network 2;\ntemplate main(): {network};\n")
    lines, whole = ("".join(f"{part}\n" for part in parts).encode("ascii") for parts in zip(*script))
    passed = failed = 0
    for setting, words in (("FAILED_READ", b"sfplay: read fault\n"), ("FAILED_WRITE", b"sfplay: write fault\n"), ("EMPTY_WRITE", b"sfplay: write fault\n")):
        status, number = 6, 0
        while status and number < 1000:
            number += 1
            settings = {**os.environ, "LD_PRELOAD": shim, setting: str(number)}
            done = subprocess.run([exe, path], input=lines, capture_output=True, env=settings, timeout=60)
            status = done.returncode
            # (a read of standard input gives 7 bytes at most, and a write takes 5)
            complete = lines[: 7 * (number - 1)].count(b"\n")
            before = b"".join(whole.splitlines(True)[:complete])
            well = done.stdout == before if setting == "FAILED_READ" else whole.startswith(done.stdout) and done.stdout != whole
            well = (status, done.stderr) == (6, words) and well if status else (done.stdout, done.stderr) == (whole, b"")
            passed, failed = passed + well, failed + (not well)
            if not well:
                print(f"{network}: {setting} {number}: {(status, done.stdout, done.stderr)!r}")
        if number < 5:
            failed += 1
            print(f"{network}: {setting} met {number - 1} calls alone")
    return passed, failed


def bake(oven, shim):
    """The same of growths of a program that adds a function to its network, takes a list of steps, keeps a state and returns to it, and
    has an actuator act on samples. Where nothing is kept for want of memory, it says so, and each later sample is as ever."""
    with open(os.path.join(HERE, "..", "crates", "oven", "stdout"), "rb") as file:
        lines = file.read().splitlines(True)
    said = (b"Error: Memory\n", b"Error: out of memory\n", b"Error: memory allocation failed\n")
    wanted = {(1, b"".join(lines[:count]), words): count for count in range(len(lines) + 1) for words in said}
    kept = next(at for at, line in enumerate(lines) if line.startswith(LOOKED))
    unkept = b"".join([*lines[:kept], LOOKED + b"unknown\n", *lines[kept + 1 :]])
    wanted[0, unkept, b""] = kept
    wanted[0, b"".join(lines), b""] = len(lines) + 1
    passed, failed, ends = refuse(shim, [oven], b"", wanted, "oven")
    return passed, failed + unmet("oven", ends, [(0, "nothing kept"), (1, "a call without memory")])


def tell(types, place, shim, templates, told):
    """The same of a program that tells which types do not fit in a network: it tells all, or that there was no memory."""
    path = os.path.join(place, "network")
    with open(path, "w") as file:
        file.write(f"network 1;\n{templates};\n")
    wanted = {(5, b"", b"sftypes: Memory\n"): 0, (6, b"", b"sftypes: out of memory\n"): 0, (0, told.encode("ascii") + b"\n", b""): 1}
    passed, failed, ends = refuse(shim, [types, path], b"", wanted, told)
    return passed, failed + unmet(told, ends, [(0, "types that are told"), (5, "types without memory")])


def growths(exe, path, shim, lines):
    """How many growths a run makes, at most 8,191."""
    low, high = 0, 8192
    while high - low > 1:
        number = (low + high) // 2
        low, high = (number, high) if refused(shim, number, [exe, path], lines)[1] else (low, number)
    return low


# Edits in which one member comes and one goes.
EDITS = [
    "drop(add(use ks, (k + 100), (iPre 0 >>> iPre 0)), (k + 99))",
    "keep(add(use ks, (k + 100), (iPre 0 >>> iPre 0)), j => (j != (k + 99)))",
]


def edit(exe, place, shim, term):
    """Whether an edit takes as many growths whether few of its members stay or many, so that it copies none of their states."""
    path = os.path.join(place, "network")
    counts = []
    for count in (5, 45):
        members = "empty Int Int"
        for key in range(count):
            members = f"add({members}, {key}, (iPre 0 >>> iPre 0))"
        with open(path, "w") as file:
            file.write(f"network 2;\ntemplate main(): (Int, Event Int) ~> Int = (rpSwitchB({members}, ks, k => {term}) >>> arr t => size(t));\n")
        runs = [b"0 (1,none)\n" + b"".join(b"5 (1,event %d)\n" % number for number in range(edits)) for edits in (2, 3)]
        fewer, more = (growths(exe, path, shim, lines) for lines in runs)
        counts.append(more - fewer)
    well = 0 < counts[0] == counts[1]
    if not well:
        print(f"{term}: where 5 and 45 members stay, it takes {counts[0]} and {counts[1]} growths")
    return well, not well


def built(place, name):
    """A library of rows/, to be loaded before the C library."""
    shim = os.path.join(place, f"{name}.so")
    subprocess.run(["cc", "-O1", "-shared", "-fPIC", "-o", shim, os.path.join(HERE, f"{name}.c"), "-ldl"], check=True)
    return shim


def main():
    parser = argparse.ArgumentParser()
    parser.add_argument("--exe", required=True)
    parser.add_argument("--oven", default=os.path.join(HERE, "..", "crates", "oven", "out", "oven"))
    parser.add_argument("--types", default=os.path.join(HERE, "..", "crates", "sftypes", "out", "sftypes"))
    options = parser.parse_args()
    with tempfile.TemporaryDirectory() as place:
        shim = built(place, "refused_growth")
        exe = os.path.abspath(options.exe)
        counts = [play(exe, place, shim, *run, *mode) for run in RUNS for mode in ([], ["--plain"])]
        counts += [write(exe, place, shim, "--check", "ok\n"), write(exe, place, shim, "--dump", many())]
        counts += [edit(exe, place, shim, term) for term in EDITS]
        counts.append(bake(os.path.abspath(options.oven), shim))
        counts += [tell(os.path.abspath(options.types), place, shim, *unfit) for unfit in UNFIT]
        counts.append(fail(exe, place, built(place, "failed_call"), *next(run for run in RUNS if "rpSwitchB" in run[0])))
    passed, failed = (sum(part) for part in zip(*counts))
    print(f"{passed} passed, {failed} failed")
    return 1 if failed else 0


if __name__ == "__main__":
    sys.exit(main())
