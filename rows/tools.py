"""Tries the tools of tools/ with an executable `sfplay`.

    python3 rows/tools.py --exe PATH

The last line is `N passed, M failed`.
"""

import argparse
import ast
import os
import re
import subprocess
import sys
import tempfile
import time
import xml.etree.ElementTree

TOP = os.path.join(os.path.dirname(os.path.abspath(__file__)), "..")
sys.path.insert(0, os.path.join(TOP, "tools"))
import explore
import samples

RECIPES = os.path.join(TOP, "recipes")
# Gives the number of events so far, and has a fault at the fourth.
COUNTS = "network 1;\ntemplate main(): Event Unit ~> Int = (count >>> (hold 0 >>> arr n => (n + (0 * (1 div (4 - n))))));\n"


class Tools:
    """Calls the tools with a program, and with files in a folder of their own."""

    def __init__(self, program, place):
        self.program, self.place = program, place

    def write(self, name, text):
        path = os.path.join(self.place, name)
        os.makedirs(os.path.dirname(path), exist_ok=True)
        with open(path, "w") as file:
            file.write(text)
        return path

    def call(self, tool, *words, lines="", has_program=True):
        """What a tool writes, and its status."""
        program = ["--exe", self.program] if has_program else []
        call = [sys.executable, os.path.join(TOP, "tools", tool), *program, *words]
        run = subprocess.run(call, input=lines, capture_output=True, text=True)
        return run.stdout, run.returncode


def number_of_histories(firsts, steps, most):
    """How many runs there are of each length up to the most."""
    return sum(firsts * steps**at for at in range(most))


def number_of_samples(firsts, steps, most):
    """How many samples the runs of each length up to the most have, where those that begin alike share them."""
    return sum(firsts * sum(steps**at for at in range(length)) for length in range(1, most + 1))


def explored(tools):
    network = tools.write("counts.net", COUNTS)
    steps = ("10 none", "20 event ()", "5 =")
    all_right = f"{number_of_histories(2, 3, 3)} histories were tried by {number_of_samples(2, 3, 3)} samples, and all are right\n"
    yield "all runs of three samples", tools.call("explore.py", network, "3", "[0-3]", *steps) == (all_right, 0)
    output, status = tools.call("explore.py", network, "6", "[0-2]", *steps)
    shortest = ["0 event () > 0 1", "20 event () > 20 2", "20 event () > 40 3"]
    yield "the shortest run to a wrong value", ([" ".join(line.split()) for line in output.splitlines()[:-1]], status) == (shortest, 1)
    output, status = tools.call("explore.py", network, "6", ".*", *steps)
    yield "a fault is wrong", (output.splitlines()[3].split(), status) == (["20", "event", "()", "!", "60", "DivideByZero"], 1)
    yield "a part of the value is not enough", tools.call("explore.py", network, "1", "", *steps)[1] == 1
    yield "a line is refused", tools.call("explore.py", network, "3", ".*", "10 none", "10 nothing") == ("", 2)
    yield "a word is no line", tools.call("explore.py", network, "3", ".*", "none") == ("", 2)
    yield "a network is refused", tools.call("explore.py", tools.write("no.net", "network 1;\n"), "3", ".*", *steps) == ("", 5)


def explored_in_several_runs(tools):
    """A run has at most so many lines: here 20."""
    explorer = explore.Explorer([tools.program, tools.write("counts.net", COUNTS)], ["10 none", "20 event ()"], "[0-3]")
    begin, begun, ended = explorer.begin, [], []

    def noted(path):
        ended.append(explorer.session.lines if explorer.session else 0)
        begun.append(len(path))
        begin(path)

    explorer.begin, most, explore.MOST_LINES = noted, explore.MOST_LINES, 20
    found = explorer.explore(5)
    explore.MOST_LINES = most
    shortest = ["0 event ()", "20 event ()", "20 event ()", "20 event ()"]
    yield "the shortest run to a fault", [line for line, _ in found] == shortest
    yield "it was found in several runs", len([path for path in begun if path]) > 1 and max(ended) < 20 + 2 * 5


def by_hand(tools):
    network = tools.write("counts.net", COUNTS)
    typed = "none\nevent ()\n\n=\n7 event ()\nundo\n30 none\nlog\n"
    said = "> 0 0\n> 100 1\n> 200 2\n> 207 3\nback at 200\n> 230 2\n0 none\n100 event ()\n100 =\n30 none\n"
    yield "values, steps, undo and log", tools.call("by_hand.py", network, lines=typed) == (said, 0)
    typed = "event ()\nnothing\nevent ()\nevent ()\nevent ()\nlog\n"
    said = "> 0 1\n! line 3 BadValue\n> 100 2\n> 200 3\n! 300 DivideByZero\n0 event ()\n100 event ()\n100 event ()\n"
    yield "what is refused or has a fault changes nothing", tools.call("by_hand.py", network, lines=typed) == (said, 0)
    typed = "undo\nevent ()\nundo\nnone\n"
    said = "nothing is left to take back\n> 0 1\nback before the first sample\n> 0 0\n"
    yield "the first sample is taken back", tools.call("by_hand.py", network, lines=typed) == (said, 0)
    typed = "none\nsave a\nevent ()\nevent ()\nback a\n= \nevent ()\nback b\nlog\n"
    said = "> 0 0\n> 100 1\n> 200 2\nback at 0\n> 100 0\n> 200 1\nnothing is kept under this name\n0 none\n100 =\n100 event ()\n"
    yield "a save is returned to", tools.call("by_hand.py", network, lines=typed) == (said, 0)
    sums = tools.write("sums.net", "network 1;\ntemplate main(): Int ~> Int = (probe x >>> sscan(0, (sum, x) => (sum + x)));\n")
    typed = [str(number) for number in range(100)] + ["undo"] * 90 + ["1000"]
    output = tools.call("by_hand.py", sums, lines="\n".join(typed))[0].splitlines()
    yield "ninety samples are taken back", output[-3:] == ["back at 900", "? x 1000", "> 1000 1045"]


def taken_apart(tools):
    lines = [
        "? level 7\n",
        "? level 8\n",
        '> 0 (((),true),("a) \\"b{",-5))\n',
        '> 10 ({"k}":event (1,none),"l":none},event {1:"}"})\n',
        '> 20 (none,event "none")\n',
        "! 30 Large\n",
    ]
    wanted = [
        (0, {"probe level": "8", "out.first.first": "()", "out.first.second": "true", "out.second.first": '"a) \\"b{"', "out.second.second": "-5"}),
        (10, {"out.first": '{"k}":event (1,none),"l":none}', "out.second.occurs": "true", "out.second.payload": '{1:"}"}'}),
        (20, {"out.first.occurs": "false", "out.second.occurs": "true", "out.second.payload": '"none"'}),
    ]
    yield "values of all types", list(samples.samples(lines)) == wanted


def shapes(picture, tag):
    """The shapes of a picture with such a tag: what they are at, and what stands in them."""
    found = xml.etree.ElementTree.fromstring(picture).iter("{http://www.w3.org/2000/svg}" + tag)
    return [(*(each.get(name) for name in ("class", "d", "x", "y", "width") if each.get(name)), *filter(None, [each.text])) for each in found]


def drawn(tools):
    """(A picture is 960 wide, of which the time takes 776 behind the first 160: here 15.52 a millisecond.)"""
    lines = "? a<b 1\n> 0 (1,true)\n? a<b 1\n> 10 (1,false)\n> 20 (2,false)\n> 40 (2,true)\n".replace("a<b", "level")
    picture, status = tools.call("picture.py", lines=lines, has_program=False)
    # until 50, where the last sample has had the shortest step
    boxes = [("160.0", "16", "310.4"), ("160.0", "50", "310.4"), ("470.4", "50", "465.6")]
    yield "a box for as long as a value stays", ([shape for shape in shapes(picture, "rect")], status) == (boxes, 0)
    line = ["M160.0 84V84H315.2", "M315.2 84V104H780.8", "M780.8 104V84H936.0"]
    yield "a truth is high or low", [shape[0] for shape in shapes(picture, "path")][:3] == line
    names = [shape[-1] for shape in shapes(picture, "text") if shape[0] == "8.0"]
    yield "each row has its name", names == ["probe level", "out.first", "out.second"]
    lines = "> 0 none\n> 10 event 7\n> 20 event 7\n> 15 event ()\n"
    picture = tools.call("picture.py", lines=lines, has_program=False)[0]
    arrows = [re.match(r"M([\d.]+) (\d+)", shape[1]).groups() for shape in shapes(picture, "path") if shape[0] == "event"]
    yield "an arrow for each event, and a band for each return", arrows == [("418.7", "36"), ("677.3", "36"), ("548.0", "104")]
    yield "payloads but for ()", [shape[-1] for shape in shapes(picture, "text") if shape[-1] in ("7", "()")] == ["7", "7"]
    times = [shape[-1] for shape in shapes(picture, "text") if shape[-1].endswith(" ms")]
    yield "the time of each band", times == ["0 to 20 ms", "15 to 15 ms"]
    picture = tools.call("picture.py", lines='> 0 "<&>"\n', has_program=False)[0]
    yield "a text with signs of SVG", '"<&>"' in [shape[-1] for shape in shapes(picture, "text")]
    yield "nothing to draw", tools.call("picture.py", lines="! line 1 BadLine\n", has_program=False) == ("", 1)


def dumped(tools):
    lines = '? level -1\n> 0 (none,true)\n? level -1\n> 10 (event "a b",false)\n? level 2\n> 11 (event "a b",false)\n'
    wanted = """$timescale 1 ms $end
$scope module network $end
$var integer 64 n0 probe_level $end
$var wire 1 n1 out.first.occurs $end
$var wire 1 n2 out.second $end
$var string 1 n3 out.first.payload $end
$upscope $end
$enddefinitions $end
#0
b1111111111111111111111111111111111111111111111111111111111111111 n0
0n1
1n2
#10
1n1
sa_b n3
0n2
#11
b10 n0
#12
0n1
"""
    yield "a dump of numbers, truths, events and texts", tools.call("waveform.py", lines=lines, has_program=False) == (wanted, 0)
    output, status = tools.call("waveform.py", lines="> 0 1\n> 5 2\n> 3 1\n", has_program=False)
    yield "a dump ends where the time goes back", (output.splitlines()[-4:], status) == (["b1 n0", "#5", "b10 n0", "#6"], 1)
    yield "nothing to dump", tools.call("waveform.py", lines="! line 1 BadLine\n", has_program=False) == ("", 1)


def compared(tools):
    for name, lines, output in (
        ("right", "0 none\n", "> 0 0\n"),
        ("fault", "0 event ()\n1 =\n1 =\n1 =\n", "> 0 1\n> 1 2\n> 2 3\n! 3 DivideByZero\n"),
        ("wrong", "0 none\n1 none\n", "> 0 0\n> 1 1\n"),
        ("short", "0 none\n1 none\n", "> 0 0\n"),
    ):
        for ending, text in (("net", COUNTS), ("in", lines), ("out", output)):
            tools.write(f"own/{name}.{ending}", text)
    folder = os.path.join(tools.place, "own")
    said = "short.net: line 2 is > 1 0, wanted nothing\n" * 2 + "wrong.net: line 2 is > 1 0, wanted > 1 1\n" * 2 + "2 passed, 2 failed\n"
    yield "right and wrong ones", tools.call("compare.py", folder) == (said, 1)
    failing = tools.write("failing", "#!/bin/sh\necho '> 0 0'\nexit 6\n")
    os.chmod(failing, 0o755)
    said = tools.call("compare.py", folder, "--exe", failing)[0]
    yield "a status that no such output has", said.count("right.net: status 6\n") == 2 and said.endswith("0 passed, 4 failed\n")
    probed = os.path.join(tools.place, "probed")
    tools.write("probed/a.net", "network 1;\ntemplate main(): Int ~> Int = probe p;\n")
    tools.write("probed/a.in", "0 1\n")
    yield "none is there", tools.call("compare.py", probed) == (f"a.net: {probed}/a.out is not there\n0 passed, 1 failed\n", 1)
    yield "it is written", tools.call("compare.py", probed, "--write") == ("1 passed, 0 failed\n", 0)
    with open(os.path.join(probed, "a.out")) as file:
        yield "with readings", file.read() == "? p 1\n> 0 1\n"
    yield "and compared", tools.call("compare.py", probed) == ("1 passed, 0 failed\n", 0)


def timed(tools):
    """(How long a wait takes depends on what else runs, but it takes as long at least.)"""
    began = time.monotonic()
    words = [sys.executable, os.path.join(TOP, "tools", "clock.py"), "40"]
    clock = subprocess.Popen(words, stdin=subprocess.PIPE, stdout=subprocess.PIPE, bufsize=0)
    clock.stdin.write(b"event 1\n")
    lines = [clock.stdout.readline(), clock.stdout.readline()]
    yield "the first step is 0", lines[0] == b"0 event 1\n"
    yield "nothing came for a while", lines[1].endswith(b" =\n") and int(lines[1].split()[0]) >= 40
    for piece in (b"no", b"ne\nno", b"ne"):
        time.sleep(0.1)
        clock.stdin.write(piece)
    clock.stdin.close()
    lines += clock.stdout.readlines()
    passed = (time.monotonic() - began) * 1000
    yield "it ends with its input", clock.wait() == 0
    steps, values = zip(*(line.rstrip(b"\n").split(b" ", 1) for line in lines))
    yield "values come whole, in their order", [value for value in values if value != b"="] == [b"event 1", b"none", b"none"]
    yield "later steps are not 0", all(int(step) > 0 for step in steps[1:])
    yield "the time is that of the clock", 340 <= sum(map(int, steps)) <= passed + len(steps)


def no_program(tools):
    for tool, words in (("explore.py", ("a.net", "1", "", "1 2")), ("by_hand.py", ("a.net",)), ("compare.py", (RECIPES,))):
        yield f"{tool} has no program", tools.call(tool, "--exe", os.path.join(tools.place, "none"), *words)[1] == 1


def helped(tools):
    for tool in ("by_hand.py", "clock.py", "compare.py", "explore.py", "picture.py", "waveform.py"):
        output, status = tools.call(tool, "--help", has_program=False)
        with open(os.path.join(TOP, "tools", tool)) as file:
            page = ast.get_docstring(ast.parse(file.read()))
        yield f"the page of {tool}", status == 0 and output.startswith("usage: ") and page in output


TESTS = (explored, explored_in_several_runs, by_hand, taken_apart, drawn, dumped, compared, timed, no_program, helped)


def main():
    parser = argparse.ArgumentParser()
    parser.add_argument("--exe", required=True)
    program = os.path.abspath(parser.parse_args().exe)
    passed = failed = 0
    for test in TESTS:
        with tempfile.TemporaryDirectory() as place:
            for what, well in test(Tools(program, place)):
                passed, failed = passed + well, failed + (not well)
                if not well:
                    print(f"{test.__name__}: {what}: not so")
    print(f"{passed} passed, {failed} failed")
    return 1 if failed else 0


if __name__ == "__main__":
    sys.exit(main())
