#!/usr/bin/env python3
"""Round trips, refusals and origins through the Python module, on examples/keys and random tables."""
import random
import re
import unittest
from pathlib import Path

import forthwn
from forthwn import Arc, Final, Refusal, Table

ROOT = Path(__file__).resolve().parents[2]
LEFT, RIGHT, CODE = ((ROOT / "examples" / "keys" / name).read_bytes() for name in ("left.tab", "right.tab", "code.lab"))


def random_table(dice):
    states = dice.randint(1, 40)
    arcs = [
        Arc(dice.randrange(states), dice.randrange(4), 65534, dice.randrange(states), dice.randint(-1000000, 1000000))
        for _ in range(dice.randrange(90))
    ]
    finals = [Final(s, (1000000 - s) * (-1) ** s) for s in range(states) if dice.random() < 0.3]
    return Table(states, dice.randrange(states), finals, sorted(arcs, key=lambda x: x.source))


class Calls(unittest.TestCase):
    def refused(self, number, function, *arguments):
        with self.assertRaises(Refusal) as caught:
            function(*arguments)
        self.assertEqual(caught.exception.number, number)

    def test_words_are_those_of_the_file(self):
        lines = (ROOT / "bindings" / "refusals.txt").read_text().splitlines()[1:]
        self.assertEqual(lines, [f"{number}\t{name}\t{words}" for number, (name, words) in forthwn.REFUSALS.items()])

    def test_lengths_are_those_of_the_header(self):
        header = (ROOT / "bindings" / "c" / "forthwn.h").read_text()
        said = dict(re.findall(r"FORTHWN_(\w+)_LEN = (\d+)", header))
        self.assertEqual({name: int(number) for name, number in said.items()}, {name: getattr(forthwn, "_" + name) for name in said})
        self.assertEqual(len(said), 10)

    def test_tables_go_there_and_back(self):
        dice = random.Random(11)
        for _ in range(200):
            table = random_table(dice)
            self.assertEqual(forthwn.read(forthwn.write(table)), table)
        for given in (LEFT, bytearray(LEFT), memoryview(LEFT)):
            self.assertEqual(forthwn.write(forthwn.read(given)), LEFT)

    def test_trimming_keeps_what_accepts(self):
        dice = random.Random(12)
        for _ in range(100):
            table = random_table(dice)
            made = forthwn.write(table)
            trimmed = forthwn.trim(made)
            self.assertEqual(forthwn.trim(trimmed.table).table, trimmed.table)
            kept = [(x.input, x.output, x.weight) for x in forthwn.read(trimmed.table).arcs]
            self.assertEqual(kept, [(x.input, x.output, x.weight) for x in (table.arcs[i] for i in trimmed.origins)])

    def test_a_reading_leads_to_its_pair(self):
        composed = forthwn.compose(LEFT, RIGHT)
        lattice = forthwn.apply([7, 3], composed.table)
        left, right = forthwn.read(LEFT).arcs, forthwn.read(RIGHT).arcs
        said = []
        for path in forthwn.paths(lattice.table):
            steps = [composed.origins[lattice.origins[i]] for i in path.arcs]
            lefts, rights = ([left[x.left] for x in steps if x.left is not None], [right[x.right] for x in steps if x.right is not None])
            self.assertEqual([x.input for x in lefts if x.input], [7, 3])
            self.assertEqual([x.output for x in rights if x.output], path.labels)
            self.assertEqual(sum(x.weight for x in lefts + rights), path.cost)
            said.append((path.cost, path.labels))
        self.assertEqual(said, [(3, [20, 22, 30]), (8, [20, 21])])
        self.assertEqual(forthwn.readings(LEFT, RIGHT, [7, 3]), 2)
        self.assertEqual(forthwn.listing(LEFT, RIGHT, CODE).text, "readings 2\n0 3 20 22 30\n1 8 20 21\n")

    def test_a_path_of_a_cascade_leads_to_its_pair(self):
        composed = forthwn.compose(LEFT, RIGHT)
        lattice = forthwn.apply([7, 3], composed.table)
        cascade = forthwn.cascade(LEFT, RIGHT, [7, 3])

        def pair(steps):
            return [x.left for x in steps if x.left is not None], [x.right for x in steps if x.right is not None]

        chained = [(pair([composed.origins[lattice.origins[i]] for i in x.arcs]), x.cost, x.labels) for x in forthwn.paths(lattice.table)]
        cascaded = [(pair([cascade.origins[i] for i in x.arcs]), x.cost, x.labels) for x in forthwn.paths(cascade.table)]
        self.assertEqual(sorted(cascaded), sorted(chained))
        self.assertEqual(forthwn.cascade_readings(LEFT, RIGHT, [7, 3]), 2)
        self.assertEqual(forthwn.cascade_listing(LEFT, RIGHT, CODE), forthwn.listing(LEFT, RIGHT, CODE))
        copies = forthwn.write(Table(1, 0, [Final(0, 0)], [Arc(0, forthwn.ANY, forthwn.ANY, 0, 1)]))
        self.assertEqual(forthwn.shortest(forthwn.cascade(copies, copies, [7, 3]).table).labels, [7, 3])
        self.refused(2, forthwn.cascade, b"", LEFT[:3], [0])
        self.refused(1, forthwn.cascade, copies, LEFT[:3], [0])
        self.refused(9, forthwn.cascade, copies, LEFT, [0])
        self.refused(14, forthwn.cascade_readings, forthwn.write(Table(1, 0, [Final(0, 0)], [Arc(0, 0, 7, 0, 2)])), copies, [])
        self.refused(12, forthwn.cascade, *[forthwn.write(Table(1, 0, [Final(0, 0)], [Arc(0, 7, 7, 0, 0)] * 56))] * 2, [7])
        self.assertEqual(forthwn.cascade_listing(copies, LEFT[:3], b"\7").text, "refused 1\n")
        self.assertRaises(TypeError, forthwn.cascade_readings, LEFT, RIGHT, CODE)

    def test_refusals(self):
        one = forthwn.write(Table(1, 0, [Final(0, 0)], []))
        ring = forthwn.write(Table(1, 0, [Final(0, 0)], [Arc(0, 0, 7, 0, 2)]))
        nothing = forthwn.write(Table(1, 0, [], []))
        heavy, light = ([forthwn.write(Table(1, 0, [Final(0, x)], [])) for x in (s * 600000, s * 400001)] for s in (1, -1))
        loops = [forthwn.write(Table(1, 0, [], [x] * n)) for n, x in ((56, Arc(0, 1, 2, 0, 0)), (55, Arc(0, 2, 3, 0, 0)))]
        line = forthwn.write(Table(513, 0, [], [Arc(s, 1, 0, s + 1, 0) for s in range(512)]))
        self.refused(1, forthwn.read, LEFT[:3])
        self.refused(2, forthwn.check, b"")
        self.refused(3, forthwn.write, Table(2**40, 0, [], []))
        self.refused(4, forthwn.count, LEFT[:-16])
        self.refused(5, forthwn.write, Table(1, 0, [Final(1, 0)], []))
        self.refused(6, forthwn.write, Table(2, 0, [Final(1, 0), Final(0, 0)], []))
        self.refused(7, forthwn.write, Table(1, 0, [], [Arc(0, 1, 65535, 0, 0)]))
        self.refused(8, forthwn.trim, LEFT[:-1] + b"\1")
        for weight in (1000001, -1000001, 2**31 - 1, -(2**31)):
            self.refused(8, forthwn.write, Table(1, 0, [Final(0, weight)], []))
            self.refused(8, forthwn.write, Table(1, 0, [], [Arc(0, 1, 2, 0, weight)]))
        self.refused(9, forthwn.apply, [0], LEFT)
        self.refused(9, forthwn.readings, LEFT, RIGHT, [7] * 65)
        self.refused(11, forthwn.compose, line, ring)
        self.refused(12, forthwn.compose, *loops)
        self.refused(13, forthwn.compose, *heavy)
        self.refused(13, forthwn.compose, *light)
        self.refused(14, forthwn.paths, ring)
        self.refused(15, forthwn.nth, one, 2**40)
        self.refused(16, forthwn.shortest, nothing)
        copies = forthwn.write(Table(1, 0, [Final(0, 0)], [Arc(0, forthwn.ANY, forthwn.ANY, 0, 1)]))
        self.refused(18, forthwn.compose, copies, LEFT[:3])
        self.assertEqual(forthwn.shortest(forthwn.apply([7, 3], copies).table).labels, [7, 3])
        self.refused(19, forthwn.shortest, forthwn.write(Table(1, 0, [Final(0, 0)], [Arc(0, 0, 7, 0, -1)])))
        self.refused(19, forthwn.distance, forthwn.write(Table(2, 0, [Final(1, 0)], [Arc(1, 0, 7, 1, -1)])))
        self.assertEqual(forthwn.listing(LEFT, RIGHT, b"\7").said.number, 9)
        self.assertEqual(forthwn.listing(LEFT, RIGHT[:3], b"\7").text, "refused 1\n")

    def test_what_is_no_argument(self):
        self.assertRaises(TypeError, forthwn.count, 5)
        self.assertRaises(TypeError, forthwn.count, "text")
        self.assertRaises(TypeError, forthwn.apply, "text", LEFT)
        self.assertRaises(TypeError, forthwn.readings, LEFT, RIGHT, CODE)
        self.assertRaises(OverflowError, forthwn.apply, [65536 + 7], LEFT)
        self.assertRaises(OverflowError, forthwn.write, Table(1, 0, [Final(65536, 0)], []))
        self.assertRaises(OverflowError, forthwn.write, Table(1, 0, [Final(0, 2**31)], []))
        self.assertRaises(ValueError, forthwn.nth, LEFT, -1)

    def test_costs_have_signs(self):
        table = forthwn.write(Table(2, 0, [Final(1, -4)], [Arc(0, 1, 2, 1, 5), Arc(0, 1, 3, 1, -3)]))
        self.assertEqual([x.cost for x in forthwn.paths(table)], [1, -7])
        self.assertEqual(forthwn.shortest(table), forthwn.Path(-7, [1], [3]))
        copy = forthwn.write(Table(1, 0, [Final(0, 0)], [Arc(0, 2, 2, 0, 0), Arc(0, 3, 3, 0, -1)]))
        self.assertEqual(forthwn.listing(table, copy, b"\1\0").text, "readings 2\n0 1 2\n1 -8 3\n")

    def test_costs_to_come(self):
        table = Table(4, 0, [Final(1, 4)], [Arc(0, 1, 2, 1, 5), Arc(0, 1, 2, 3, 0), Arc(2, 1, 2, 0, -7)])
        self.assertEqual(forthwn.distance(forthwn.write(table)), [9, 4, 2, None])
        self.assertEqual(forthwn.distance(LEFT)[forthwn.read(LEFT).start], forthwn.shortest(LEFT).cost)
        self.assertEqual(forthwn.distance(forthwn.write(Table(1024, 0, [], []))), [None] * 1024)

    def test_of_many_paths_the_first_99(self):
        for arcs, count in ((98, 98), (99, 99), (100, 99)):
            table = forthwn.write(Table(2, 0, [Final(1, 0)], [Arc(0, 1, 2, 1, 5)] * arcs))
            self.assertEqual(forthwn.count(table), count)
            self.assertEqual(list(forthwn.paths(table)), [forthwn.Path(5, [k], [2]) for k in range(count)])


if __name__ == "__main__":
    unittest.main()
