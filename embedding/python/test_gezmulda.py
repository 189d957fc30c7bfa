"""Tests of gezmulda.py: python3 -m unittest, in this folder."""

import ctypes
import threading
import unittest

import gezmulda
from gezmulda import BAD_LINE, DONE, FAULT, REFUSED, Engine, play, refusal

AVERAGE = "network 1;\ntemplate main(): Int ~> Int = ((iPre 0 &&& identity) >>> arr (before, reading) => ((before + reading) div 2));\n"


class Plays(unittest.TestCase):
    def test_all_lines_are_played(self):
        self.assertEqual(play(AVERAGE, "0 10\n20 20\n20 30\n"), (DONE, "> 0 5\n> 20 15\n> 40 25\n"))

    def test_a_life_is_kept_and_returned_to(self):
        self.assertEqual(play(AVERAGE, "0 10\nsave here\n20 20\nback here\n30 40\n"), (DONE, "> 0 5\n> 20 15\n> 30 25\n"))

    def test_readings_are_given_where_they_are_asked_for(self):
        network = "network 1;\ntemplate main(): Int ~> Int = (probe level >>> arr x => (2 * x));\n"
        self.assertEqual(play(network, "0 1\n", probes=True), (DONE, "? level 1\n> 0 2\n"))
        self.assertEqual(play(network, "0 1\n"), (DONE, "> 0 2\n"))

    def test_a_fault_and_a_refused_line_end_a_run(self):
        network = "network 1;\ntemplate main(): Int ~> Int = arr x => (10 div x);\n"
        self.assertEqual(play(network, "0 5\n1 0\n1 2\n"), (FAULT, "> 0 2\n! 1 DivideByZero\n"))
        self.assertEqual(play(network, "0 5\n1 x\n"), (BAD_LINE, "> 0 2\n! line 2 BadValue\n"))

    def test_a_network_is_refused(self):
        self.assertEqual(play("network 1;\n", "0 10\n"), (REFUSED, ""))
        self.assertEqual(play("", ""), (REFUSED, ""))

    def test_a_refusal_names_a_rule_and_a_place(self):
        self.assertIsNone(refusal(AVERAGE))
        self.assertEqual(refusal("network 1;\ntemplate main(): Int ~> Bool = identity;\n"), "C4 Mismatch 2:32")
        self.assertEqual(refusal("network 1;\n"), "C7 NoMain 1:1")
        self.assertEqual(refusal("network 1"), "P1 Unexpected 1:10")

    def test_a_text_with_signs_of_all_kinds(self):
        network = "network 1;\ntemplate main(): Text ~> Text = identity;\n"
        self.assertEqual(play(network, '0 "ü☃"\n'), (DONE, '> 0 "ü☃"\n'))

    def test_a_room_of_each_size(self):
        said = b"> 0 5\n> 20 15\n"
        for room in range(len(said) + 2):
            ends = gezmulda.play_into(AVERAGE.encode(), b"0 10\n20 20\n", False, room)
            self.assertEqual(ends, (DONE, said[:room], len(said)))

    def test_a_room_that_is_too_small_is_made_larger(self):
        network = 'network 1;\ntemplate main(): Unit ~> Text = constant "a text that is far longer than its line";\n'
        wanted = "".join(f'> {at} "a text that is far longer than its line"\n' for at in range(1000))
        self.assertEqual(play(network, "0 ()\n" + "1 ()\n" * 999), (DONE, wanted))

    def test_threads_play_side_by_side(self):
        lines = "0 1\n" + "".join(f"1 {number}\n" for number in range(1, 2000))
        alone, runs = play(AVERAGE, lines), []
        threads = [threading.Thread(target=lambda: runs.append(play(AVERAGE, lines))) for _ in range(4)]
        for thread in threads:
            thread.start()
        for thread in threads:
            thread.join()
        self.assertEqual(runs, [alone] * 4)


class Engines(unittest.TestCase):
    def test_two_engines_are_fed_by_turns(self):
        with Engine(AVERAGE) as one, Engine(AVERAGE) as other:
            self.assertEqual(one.feed("0 10\n"), "> 0 5\n")
            self.assertEqual(other.feed("0 100\n"), "> 0 50\n")
            self.assertEqual(one.feed("20 20\n"), "> 20 15\n")
            self.assertEqual(other.feed("20 200\n"), "> 20 150\n")
            self.assertEqual((one.end, other.end), (None, None))

    def test_an_engine_goes_back_to_what_it_kept(self):
        with Engine(AVERAGE) as one, Engine(AVERAGE) as other:
            self.assertEqual(one.feed("0 10\nsave here\n20 20\n"), "> 0 5\n> 20 15\n")
            self.assertEqual(other.feed("0 100\n"), "> 0 50\n")
            self.assertEqual(one.feed("back here\n30 40\n"), "> 30 25\n")
            self.assertEqual(other.feed("back here\n"), "! line 2 NoSave\n")
            self.assertEqual((one.end, other.end), (None, BAD_LINE))

    def test_a_line_is_played_once_it_is_complete(self):
        with Engine(AVERAGE) as engine:
            self.assertEqual([engine.feed(piece) for piece in ("0 1", "0\n20 2", "0\n")], ["", "> 0 5\n", "> 20 15\n"])

    def test_the_last_line_needs_no_line_feed(self):
        with Engine(AVERAGE) as engine:
            self.assertEqual((engine.feed("0 10\n20 20"), engine.finish()), ("> 0 5\n", "> 20 15\n"))
            self.assertEqual((engine.end, engine.feed("20 30\n"), engine.finish(), engine.end), (DONE, "", "", DONE))

    def test_the_last_line_may_end_a_run_otherwise(self):
        with Engine(AVERAGE) as engine:
            self.assertEqual((engine.feed("0 10\n20 x"), engine.finish(), engine.end), ("> 0 5\n", "! line 2 BadValue\n", BAD_LINE))
            self.assertEqual((engine.finish(), engine.end), ("", BAD_LINE))

    def test_an_input_may_be_empty(self):
        with Engine(AVERAGE) as engine:
            self.assertEqual((engine.finish(), engine.end), ("", DONE))

    def test_nothing_comes_behind_the_end(self):
        with Engine("network 1;\ntemplate main(): Int ~> Int = arr x => (10 div x);\n") as engine:
            self.assertEqual(engine.feed("0 5\n1 0\n1 2\n"), "> 0 2\n! 1 DivideByZero\n")
            self.assertEqual((engine.feed("1 2\n"), engine.end), ("", FAULT))

    def test_readings_are_given_where_they_are_asked_for(self):
        with Engine("network 1;\ntemplate main(): Int ~> Int = (probe level >>> arr x => (2 * x));\n", probes=True) as engine:
            self.assertEqual(engine.feed("0 1\n"), "? level 1\n> 0 2\n")

    def test_no_engine_is_made_of_a_refused_network(self):
        with self.assertRaisesRegex(ValueError, "C7 NoMain 1:1"):
            Engine("network 1;\n")

    def test_what_is_not_taken_waits(self):
        with Engine(AVERAGE) as engine:
            waiting, lines, rooms = ctypes.c_size_t(), b"0 10\n20 20\n20 x\n20 30\n", (4, 0, 9, 100, 100)
            status = gezmulda.LIBRARY.gezmulda_feed(engine.handle, lines, len(lines), waiting)
            said = [take(engine, room) for room in rooms]
            self.assertEqual((status, waiting.value), (BAD_LINE, len("> 0 5\n> 20 15\n! line 3 BadValue\n")))
            self.assertEqual(said, [b"> 0 ", b"", b"5\n> 20 15", b"\n! line 3 BadValue\n", b""])

    def test_an_engine_says_what_play_says(self):
        lines = ["0 1\n", *(f"1 {number}\n" for number in range(1, 2000))]
        with Engine(AVERAGE) as engine:
            self.assertEqual((DONE, "".join(map(engine.feed, lines))), play(AVERAGE, "".join(lines)))

    def test_a_closed_engine_is_closed(self):
        engine = Engine(AVERAGE)
        engine.close()
        engine.close()
        self.assertRaises(ValueError, engine.feed, "0 1\n")

    def test_an_engine_stays_on_its_thread(self):
        failures = []
        with Engine(AVERAGE) as engine:
            def elsewhere():
                try:
                    engine.feed("0 10\n")
                except RuntimeError as error:
                    failures.append(str(error))

            thread = threading.Thread(target=elsewhere)
            thread.start()
            thread.join()
            self.assertEqual((failures, engine.feed("0 10\n")), (["the engine belongs to another thread"], "> 0 5\n"))


def take(engine, room):
    """What waits, as far as a room of that size takes it."""
    out = ctypes.create_string_buffer(room + 1)
    taken = gezmulda.LIBRARY.gezmulda_take(engine.handle, out, room)
    return out.raw[:taken]


if __name__ == "__main__":
    unittest.main()
