"""Tests of the client with the released program, or the one that the environment's CENSUS names.

    python3 test_census.py

What is expected is known from elsewhere: LifeWiki's pages of the patterns, docs/FORMAT.md, and a slow plane of a few lines in this file.
"""
import ast
import base64
import doctest
import hashlib
import json
import os
import pickle
import random
import re
import stat
import subprocess
import sys
import tempfile
import unittest
import zipfile
from concurrent.futures import ThreadPoolExecutor
from dataclasses import replace
from unittest import mock

HERE = os.path.dirname(os.path.realpath(__file__))
ROOT = os.path.realpath(os.path.join(HERE, "..", ".."))
sys.path.insert(0, HERE)
import build_wheel
import census
from census import (
    Census, CensusError, ClaimFault, Code, CodeFault, Disagreement, Emission, Engine, FolderFault, NamesFault, OutOfMemory, Pattern, PatternFault,
    ProgramFailed, ReadFailed, ReportFault, RuleFault, Same, TimedOut, TooLong, TooManyCells, read_names, read_report,
)

PROGRAM = os.path.realpath(os.environ.get("CENSUS", f"{ROOT}/release/census"))
EXAMPLES = f"{ROOT}/examples"

GLIDER = "x = 3, y = 3, rule = B3/S23\nbo$2bo$3o!\n"
BLINKER = "x = 3, y = 1, rule = B3/S23\n3o!\n"
BLOCK = "x = 2, y = 2\n2o$2o!"
R_PENTOMINO = "x = 3, y = 3, rule = B3/S23\nb2o$2o$bo!\n"
GUN = """x = 36, y = 9, rule = B3/S23
24bo$22bobo$12b2o6b2o12b2o$11bo3bo4b2o12b2o$2o8bo5bo3b2o$2o8bo3bob2o4b
obo$10bo5bo7bo$11bo3bo$12b2o!
"""
# LifeWiki, Infinite growth: this one of 10 cells becomes a block-laying switch engine
TEN_CELLS = "x = 8, y = 6\n6bo$4bob2o$4bobo$4bo$2bo$obo!"
# a traffic light, and a glider that goes away from it
LIGHT_AND_GLIDER = "x = 23, y = 23\n4bo$4bo$4bo2$3o3b3o2$4bo$4bo$4bo12$21bo$22bo$20b3o!"
# LifeWiki: it vanishes at generation 130
DIEHARD = "x = 8, y = 3\n6bo$2o$bo3b3o!"
# a letter that stands for no state of Life: line 2, column 9, byte 13 + 8
FAULTY = "x = 3, y = 3\nbo$2bo$3q!\n"

# LifeWiki, R-pentomino: 8 blocks, 6 gliders, 4 beehives, 4 blinkers, a boat, a loaf and a ship
ASH_OF_R_PENTOMINO = {"xs4_33": 8, "xq4_153": 6, "xs6_696": 4, "xp2_7": 4, "xs5_253": 1, "xs7_2596": 1, "xs6_356": 1}

# LifeWiki, Gosper glider gun: period 30
GOSPERS = Engine(30, (0, 0), 1, {"xq4_153": 1})
# LifeWiki, Block-laying switch engine: it moves by c/12 diagonally, and leaves 8 blocks every 288 generations
BLOCK_LAYER = Engine(288, (-24, -24), 1, {"xs4_33": 8})

# LifeWiki: the population of the phase that the file has, the period, the apgcode
KNOWN = {
    "blinker.rle": (3, 2, "xp2_7"),
    "pentadecathlon.rle": (12, 15, "xp15_4r4z4r4"),
    "pulsar.rle": (48, 3, "xp3_co9nas0san9oczgoldlo0oldlogz1047210127401"),
    "toad.rle": (6, 2, "xp2_7e"),
    "beehive.rle": (6, 1, "xs6_696"),
    "block.rle": (4, 1, "xs4_33"),
    "boat.rle": (5, 1, "xs5_253"),
    "loaf.rle": (7, 1, "xs7_2596"),
    "glider.rle": (5, 4, "xq4_153"),
    "lightweight_spaceship.rle": (9, 4, "xq4_6frc"),
}


def text_of(path):
    with open(os.path.join(EXAMPLES, path), encoding="ascii") as it:
        return it.read()


def cells_of(rle):
    """The live cells of a text in B3/S23 that has no fault."""
    body = "".join(line for line in rle.split("\n") if not line.startswith(("#", "x")))
    cells, x, y = set(), 0, 0
    for count, tag in re.findall("([0-9]*)([bo$])", body):
        for _ in range(int(count or 1)):
            if tag == "o":
                cells.add((x, y))
            x, y = (0, y + 1) if tag == "$" else (x + 1, y)
    return cells


def rle_of(cells):
    """A text in B3/S23 of live cells, none of which is left of or above the origin."""
    width, height = (max(places) + 1 for places in zip(*cells))
    rows = ("".join("bo"[(x, y) in cells] for x in range(width)) for y in range(height))
    return f"x = {width}, y = {height}\n{'$'.join(rows)}!"


def next_of(cells):
    """The next generation in B3/S23."""
    near = {}
    for x, y in cells:
        for other in [(x + dx, y + dy) for dx in (-1, 0, 1) for dy in (-1, 0, 1) if dx or dy]:
            near[other] = near.get(other, 0) + 1
    return {cell for cell, count in near.items() if count == 3 or count == 2 and cell in cells}


def recurrence_of(cells):
    """Onset, period, dx and dy."""
    seen, generation = {}, 0
    while True:
        corner = (min((x for x, _ in cells), default=0), min((y for _, y in cells), default=0))
        shape = frozenset((x - corner[0], y - corner[1]) for x, y in cells)
        if shape in seen:
            onset, (x, y) = seen[shape]
            return onset, generation - onset, corner[0] - x, corner[1] - y
        seen[shape] = (generation, corner)
        cells, generation = next_of(cells), generation + 1


class Room(unittest.TestCase):
    """A test with an empty folder of its own, and the program."""

    def setUp(self):
        room = tempfile.TemporaryDirectory()
        self.addCleanup(room.cleanup)
        self.room = room.name
        self.census = Census(PROGRAM, timeout=300)

    def script(self, body, **options):
        """A program of some lines of sh."""
        path = os.path.join(self.room, "program")
        with open(path, "w", encoding="utf-8") as it:
            it.write(f"#!/bin/sh\n{body}\n")
        os.chmod(path, stat.S_IRWXU)
        return Census(path, **options)

    def told(self, lines):
        """A program that writes these lines, parted by `;`."""
        return self.script("".join(f"echo '{line}'\n" for line in lines.split(";")))

    def counted(self):
        """The program, and how often it was called so far."""
        log = os.path.join(self.room, "calls")

        def calls():
            if not os.path.exists(log):
                return 0
            with open(log, encoding="ascii") as it:
                return len(it.read().split())

        return self.script(f"echo call >> '{log}'\nexec '{PROGRAM}' \"$@\""), calls

    def folder(self, name, **texts):
        """A folder with these patterns."""
        path = os.path.join(self.room, name)
        os.mkdir(path)
        for key, text in texts.items():
            with open(os.path.join(path, f"{key}.rle"), "w", encoding="utf-8") as it:
                it.write(text)
        return path


class Identify(Room):
    def test_glider(self):
        glider = self.census.identify(GLIDER)
        self.assertEqual(glider, Pattern("B3/S23", 5, (3, 3), 0, 4, (1, 1), "xq4_153", {"xq4_153": 1}))
        self.assertIsNone(glider.unresolved)

    def test_blinker(self):
        blinker = self.census.identify(BLINKER)
        self.assertEqual((blinker.population, blinker.box, blinker.onset), (3, (3, 1), 0))
        self.assertEqual((blinker.period, blinker.displacement, blinker.apgcode, blinker.objects), (2, (0, 0), "xp2_7", {"xp2_7": 1}))
        # (onset and period are each at most the bound)
        self.assertEqual(self.census.identify(BLINKER, bound=2).apgcode, "xp2_7")

    def test_what_vanishes(self):
        diehard = self.census.identify(DIEHARD)
        self.assertEqual((diehard.population, diehard.onset, diehard.period, diehard.apgcode, diehard.objects), (7, 130, None, None, {}))

    def test_no_cells(self):
        self.assertEqual(self.census.identify("x = 0, y = 0\n!"), Pattern("B3/S23", 0, (0, 0), 0, objects={}))

    def test_unresolved(self):
        gun = self.census.identify(GUN, bound=20)
        self.assertEqual(gun, Pattern("B3/S23", 36, (36, 9), unresolved=20))
        self.assertIsNone(gun.engines)

    def test_growth(self):
        gun = self.census.identify(GUN, bound=100)
        self.assertEqual(gun, Pattern("B3/S23", 36, (36, 9), engines=[GOSPERS]))
        self.assertEqual((gun.period, gun.displacement, gun.apgcode, gun.objects), (None, None, None, None))
        self.assertEqual(self.census.identify(TEN_CELLS, bound=500).engines, [BLOCK_LAYER])

    def test_engines_that_are_told_together(self):
        two = cells_of(GUN) | {(x + 150, y) for x, y in cells_of(GUN)}
        self.assertEqual(self.census.identify(rle_of(two), bound=100).engines, [replace(GOSPERS, count=2)])
        near = self.census.identify_many([GUN, rle_of(two), GLIDER], bound=100, near=True)
        self.assertEqual([it.engines for it in near], [[GOSPERS], [replace(GOSPERS, count=2)], None])

    def test_growth_has_a_horizon(self):
        self.assertEqual(self.census.identify(GUN, bound=500, horizon=20), Pattern("B3/S23", 36, (36, 9), unresolved=500))
        self.assertEqual(self.census.identify(GUN, bound=500, horizon=31).engines, [GOSPERS])
        self.assertEqual([it.unresolved for it in self.census.identify_many([GUN, GLIDER], bound=100, horizon=20)], [100, None])

    def test_too_many_cells(self):
        cells, generation = cells_of(GUN), 0
        while len(cells) <= 60:
            cells, generation = next_of(cells), generation + 1
        self.assertEqual(self.census.identify(GUN, bound=500, cells=60), Pattern("B3/S23", 36, (36, 9), large=generation))
        self.assertEqual([it.large for it in self.census.identify_many([GUN, GLIDER], bound=500, cells=35)], [0, None])

    def test_objects(self):
        found = self.census.identify(R_PENTOMINO)
        # LifeWiki, R-pentomino: it takes 1,103 generations
        self.assertEqual(found, Pattern("B3/S23", 5, (3, 3), 1103, objects=ASH_OF_R_PENTOMINO))
        self.assertEqual(sum(found.objects.values()), 25)
        self.assertIsNone(found.apgcode)

    def test_several_parts_that_recur_as_a_whole(self):
        cells, longer = cells_of(GLIDER), {(x + 40, y) for x, y in cells_of(BLINKER)}
        two = self.census.identify(rle_of(cells | {(x + 40, y) for x, y in cells}), bound=20)
        self.assertEqual(two, Pattern("B3/S23", 10, (43, 3), 0, 4, (1, 1), objects={"xq4_153": 2}))
        self.assertEqual(self.census.identify(rle_of(cells_of(BLOCK) | longer)).period, 2)
        self.assertIsNone(self.census.identify(rle_of(cells_of(BLOCK) | longer), bound=1).period)
        self.assertIsNone(self.census.identify(rle_of(cells | longer)).period)

    def test_what_is_near(self):
        self.assertEqual(self.census.identify(LIGHT_AND_GLIDER).objects, {"xp2_7": 4, "xq4_153": 1})
        near = self.census.identify(LIGHT_AND_GLIDER, near=True)
        self.assertEqual(near.objects, {"xq4_153": 1, "xp2_s01110szw222": 1})
        self.assertEqual(self.census.identify_many([GLIDER, LIGHT_AND_GLIDER], near=True), [self.census.identify(GLIDER), near])

    def test_other_rule(self):
        self.assertEqual(self.census.identify("x = 2, y = 2, rule = 23/36\n2o$2o!").rule, "B36/S23")

    def test_bytes_and_str(self):
        for kind in (bytes, bytearray, memoryview):
            with self.subTest(kind):
                self.assertEqual(self.census.identify(kind(GLIDER.encode())), self.census.identify(GLIDER))

    def test_any_bytes_in_comments(self):
        block = self.census.identify(BLOCK)
        self.assertEqual(self.census.identify(b"#C \xff\xfe\n" + BLOCK.encode()), block)
        self.assertEqual(self.census.identify("#C \udcff \u00e9 \u20ac\n" + BLOCK), block)
        self.assertEqual(self.census.identify((BLOCK + "\n").replace("\n", "\r\n")), block)

    def test_no_text(self):
        for given in (None, 3, [GLIDER]):
            with self.subTest(given), self.assertRaises(TypeError):
                self.census.identify(given)
        with self.assertRaises(TypeError):
            self.census.identify(GLIDER, bound="10")

    def test_patterns_are_values(self):
        for text in (R_PENTOMINO, GUN):
            found = self.census.identify(text, bound=2000)
            self.assertEqual(hash(found), hash(self.census.identify(text, bound=2000)))
            self.assertEqual(pickle.loads(pickle.dumps(found)), found)
            with self.assertRaises(AttributeError):
                found.population = 6
        self.assertEqual(hash(GOSPERS), hash(replace(GOSPERS)))
        with self.assertRaises(AttributeError):
            GOSPERS.count = 2


class Faults(Room):
    # number, text, line, column, how its sentence begins, as in docs/FORMAT.md
    TABLE = [
        (1, "3o!", 1, 1, "there is no header line"),
        (2, "x = 3, y\n3o!", 1, 1, "the header line is malformed"),
        (3, "x = 3, y = 1, rule = B3/23\n3o!", 1, 1, "the rule has no Life-like form"),
        (3, "x = 3, y = 1, rule = B3/S23:T100,100\n3o!", 1, 1, "the rule has a bounded grid"),
        (4, "x = 3, y = 1, rule = B03/S23\n3o!", 1, 1, "the rule has 0 among its births"),
        (5, "x = 3, y = 1\nboC!", 2, 3, "a letter stands for neither of the two states"),
        (6, "x = 3, y = 2\nbo$\n?!", 3, 1, "a byte has no meaning here"),
        (7, "x = 3, y = 2\n3o$\nb0o!", 3, 2, "a count is 0 or has nothing to count"),
        (8, "x = 1, y = 1\n1048576bo!", 2, 9, "a live cell is too far out"),
        (9, "x = 1, y = 1\n1048576o$o!", 2, 10, "there are too many live cells"),
        (10, "x = 3, y = 1\n3o", 2, 3, "the text ends too early"),
    ]

    def judge(self, fault, row, index):
        number, text, line, column, words = row
        self.assertIsInstance(fault, PatternFault)
        self.assertEqual((fault.number, fault.line, fault.column, fault.index), (number, line, column, index))
        self.assertTrue(fault.sentence.startswith(words), fault.sentence)
        offset = sum(len(it) + 1 for it in text.split("\n")[: line - 1]) + column - 1
        self.assertEqual(fault.at, offset if 5 <= number <= 9 else None)
        self.assertIn(f"line {line}, column {column}", str(fault))
        self.assertIn(fault.sentence, str(fault))

    def test_one_by_one(self):
        for row in self.TABLE:
            with self.subTest(row[0]), self.assertRaises(PatternFault) as caught:
                self.census.identify(row[1])
            self.judge(caught.exception, row, None)

    def test_in_a_list(self):
        texts = [it for row in self.TABLE for it in (GLIDER, row[1])]
        found = self.census.identify_many(texts, return_exceptions=True)
        self.assertEqual({it.apgcode for it in found[::2]}, {"xq4_153"})
        for index, row in zip(range(1, len(texts), 2), self.TABLE):
            with self.subTest(row[0]):
                self.judge(found[index], row, index)

    def test_whole_sentence(self):
        with self.assertRaises(CensusError) as caught:
            self.census.identify(FAULTY)
        fault = caught.exception
        self.assertEqual((fault.number, fault.place, fault.at), (5, "line 2, column 9", 21))
        self.assertEqual(
            fault.sentence, "a letter stands for neither of the two states: dead cells must be `b` or `.`, and live cells `o` or `A`"
        )

    def test_columns_count_bytes(self):
        with self.assertRaises(PatternFault) as caught:
            self.census.identify("#C \u00e9\nx = 1, y = 1\n\u00e9!")
        self.assertEqual((caught.exception.number, caught.exception.line, caught.exception.column, caught.exception.at), (6, 3, 1, 19))

    def test_too_long(self):
        text = b"x = 1, y = 1\no!".ljust(67108865)
        self.assertEqual(self.census.identify(text[:-1]).population, 1)
        with self.assertRaises(TooLong) as caught:
            self.census.identify(text)
        self.assertEqual((caught.exception.place, caught.exception.index), (None, None))
        with self.assertRaises(TooLong) as caught:
            self.census.identify_many([GLIDER, text])
        self.assertEqual((caught.exception.place, caught.exception.index), ("rles[1]", 1))

    def test_unreadable(self):
        gone = self.script(f"rm -f 1.rle\nexec '{PROGRAM}' \"$@\"")
        found = gone.identify_many([GLIDER, BLOCK, BLINKER], return_exceptions=True)
        self.assertEqual((found[0].apgcode, found[2].apgcode), ("xq4_153", "xp2_7"))
        self.assertIsInstance(found[1], ReadFailed)
        self.assertEqual((found[1].index, found[1].place, str(found[1])), (1, "rles[1]", "rles[1]: reading failed"))

    def test_options_out_of_range(self):
        program, calls = self.counted()
        for bound in (0, 100001, -1):
            with self.subTest(bound), self.assertRaises(ValueError) as caught:
                program.identify(GLIDER, bound=bound)
            self.assertEqual(str(caught.exception), f"bound must be 1 to 100000, not {bound}")
        for options in ({"bound": 0}, {"cells": 0}, {"cells": 2 ** 32}, {"horizon": 0}, {"horizon": 10001}):
            with self.subTest(options), self.assertRaises(ValueError):
                program.identify(GLIDER, **options)
            with self.subTest(options), self.assertRaises(ValueError):
                program.identify_many([GLIDER], **options)
        self.assertEqual(calls(), 0)

    def test_options_at_the_ends_of_their_ranges(self):
        """The program takes what is in range and refuses what is not, so that the ranges here are its own."""
        for words, most in ((["identify", "--bound"], 100000), (["objects", "--bound"], 100000), (["run", "--bound"], 1000000),
                            (["identify", "--cells"], 2 ** 32 - 1), (["run", "--cells"], 2 ** 32 - 1), (["objects", "--horizon"], 10000),
                            (["run", "--workers"], 16), (["objects", "--workers"], 16)):
            for number, status in ((0, 2), (1, 0), (most, 0), (most + 1, 2)):
                given = GLIDER if words[0] == "identify" else f"@folder a\n@file b\n{GLIDER}"
                ran = subprocess.run([PROGRAM, *words[:-1], f"{words[-1]}={number}"], input=given.encode(), stdout=subprocess.DEVNULL,
                                     stderr=subprocess.DEVNULL, check=False)
                with self.subTest((words, number)):
                    self.assertEqual(ran.returncode, status)

    def test_out_of_memory(self):
        # the program reports what it can, and then stops
        body = "echo file 0; echo rule B3/S23; echo population 1; echo box 1 1; echo unresolved 10000\n"
        body += "echo 'census: out of memory' >&2; exit 3"
        for call in (lambda it: it.identify(GLIDER), lambda it: it.identify_many([GLIDER, BLOCK], return_exceptions=True),
                     lambda it: it.table([EXAMPLES])):
            with self.assertRaises(OutOfMemory) as caught:
                call(self.script(body))
            self.assertEqual(caught.exception.sentence, "the program ran out of memory")

    def test_timeout(self):
        slow = self.script("exec sleep 60", timeout=0.2)
        for call in (lambda: slow.identify(GLIDER), lambda: slow.identify_many([GLIDER]), lambda: slow.table([EXAMPLES])):
            with self.assertRaises(TimedOut) as caught:
                call()
            self.assertEqual(caught.exception.seconds, 0.2)

    def test_signal(self):
        with self.assertRaises(ProgramFailed) as caught:
            self.script("kill -9 $$").identify(GLIDER)
        self.assertEqual((caught.exception.status, caught.exception.stderr), (-9, ""))

    def test_whole_answer_with_another_status(self):
        block = "echo rule B3/S23; echo population 1; echo box 1 1; echo unresolved 10000"
        self.assertEqual(self.script(block).identify(GLIDER), Pattern("B3/S23", 1, (1, 1), unresolved=10000))
        for end, error in (("exit 1", ProgramFailed), ("exit 4", ProgramFailed), ("exit 3", OutOfMemory), ("kill -9 $$", ProgramFailed)):
            with self.subTest(end), self.assertRaises(error):
                self.script(f"{block}; {end}").identify(GLIDER)
        with self.assertRaises(ProgramFailed):
            self.script("echo 'census: -:1:1: words (rle fault 1)' >&2").identify(GLIDER)

    def test_no_answer(self):
        head = "rule B3/S23;population 1;box 1 1"
        block = f"{head};unresolved 9"
        self.assertEqual(self.told(block).identify(GLIDER, bound=9).unresolved, 9)
        apart = self.told(f"{head};onset 9;objects 2;part xs4_33 2").identify(GLIDER, bound=9)
        self.assertEqual((apart.onset, apart.period, apart.objects), (9, None, {"xs4_33": 2}))
        whole = self.told(f"{head};onset 9;period 9;displacement -1 0;objects 2;part xs4_33 2").identify(GLIDER, bound=9)
        self.assertEqual((whole.onset, whole.period, whole.displacement, whole.apgcode), (9, 9, (-1, 0), None))
        gun = "engine 1 9 0 0 2;emits 1 xq4_153 1;emits 1 xq4_6frc 2"
        puffer = "engine 2 9 1 -9 1;emits 2 xs4_33 1"
        wanted = [Engine(9, (0, 0), 2, {"xq4_153": 1, "xq4_6frc": 2}), Engine(9, (1, -9), 1, {"xs4_33": 1})]
        growing = self.told(f"{head};engines 3;{gun};{puffer}")
        self.assertEqual(growing.identify(GLIDER, bound=9).engines, wanted)
        self.assertEqual(growing.identify(GLIDER, horizon=9).engines, wanted)
        with self.assertRaises(ProgramFailed):
            growing.identify(GLIDER, bound=10, horizon=8)
        self.assertEqual(self.told(f"{head};large 27").identify(GLIDER, bound=9).large, 27)
        for body in ("exit 0", "echo census: write failed >&2; exit 4", "echo hello", "echo; exit 1"):
            with self.subTest(body), self.assertRaises(ProgramFailed):
                self.script(body).identify(GLIDER)
        blocks = [
            f"{block};;{block}", f"file 7;{block}", f"{block};", f"{block};unresolved 9", f"unresolved 9;{head}", f"{head};unresolved 8",
            f"{head};unresolved 09", f"{head.replace('B3/S23', 'B9')};unresolved 9", f"{head};onset 0;objects 2;part xs4_33 1",
            f"{head};onset 0;objects 2;part xs4_33 1;part xs4_33 1", f"{head};objects 2;part xs4_33 2", f"{head};onset 10;objects 2;part xs4_33 2",
            f"{head};onset 0;objects 1;part xs4_33 1", f"{head};onset 0;period 10;displacement 0 0;objects 2;part xs4_33 2",
            f"{head};onset 0;period 1;displacement 0 0;objects 0", f"{head};onset 0;period 1;objects 2;part xs4_33 2",
            f"{head};onset 10;period 1;displacement 0 0;apgcode xs4_33", f"{head};onset 0;period 10;displacement 0 0;apgcode xp10_33",
            f"{head};onset 0;apgcode xs4_33", f"{head};onset 0;period 0;displacement 0 0;apgcode xs4_33",
            f"{head};onset 0;period 1;displacement 0 0;apgcode 33", head,
            f"{head};engines 0", f"{head};engines 1", f"{head};engines 1;engine 1 9 0 0 1", f"{head};engines 2;{gun};{puffer}",
            f"{head};engines 4;{gun};{puffer}", f"{head};engines 1;{puffer}", f"{head};engines 3;{puffer};{gun}", f"{gun}", f"{head};{gun}",
            f"{head};engines 3;{gun};{puffer.replace('9 1 -9', '10 1 -9')}", f"{head};engines 3;{gun};{puffer.replace('1 -9', '1 -10')}",
            f"{head};engines 3;{gun};{puffer.replace('xs4_33', 'xs4_')}", f"{head};engines 3;{gun};{puffer};unresolved 9",
            f"{head};large 28", f"{head};large 1;unresolved 9", f"{head};large -1",
        ]
        for block in blocks:
            with self.subTest(block), self.assertRaises(ProgramFailed):
                self.told(block).identify(GLIDER, bound=9)

    def test_no_status(self):
        script = "import signal, sys; signal.signal(signal.SIGCHLD, signal.SIG_IGN); sys.path.insert(0, sys.argv[1])\n"
        script += "from census import Census, CensusError\n"
        for call in ("identify('x = 1, y = 1\\no!')", "identify_many(['3q!'])", "table([sys.argv[3]])"):
            with self.subTest(call):
                body = f"{script}try:\n    Census(sys.argv[2]).{call}\nexcept CensusError as error:\n    print(error.sentence)\n"
                words = [sys.executable, "-B", "-c", body, HERE, PROGRAM, f"{EXAMPLES}/spaceships"]
                ran = subprocess.run(words, stdout=subprocess.PIPE, check=True)
                self.assertIn(b"SIGCHLD", ran.stdout)

    def test_lone_surrogates(self):
        with self.assertRaises(CensusError) as caught:
            self.census.identify("#C \ud800\n3o!")
        self.assertEqual((caught.exception.place, caught.exception.number), ("character 3", None))
        texts = [BLOCK, "\udfff", FAULTY]
        with self.assertRaises(CensusError) as caught:
            self.census.identify_many(texts)
        self.assertEqual(caught.exception.place, "rles[1], character 0")
        found = self.census.identify_many(texts, return_exceptions=True)
        self.assertEqual((found[0].apgcode, type(found[1]), type(found[2])), ("xs4_33", CensusError, PatternFault))
        with self.assertRaises(PatternFault):
            self.census.identify_many(texts[::-1])
        for path in ("\ud800", "a\0b", b"a\0b"):
            with self.subTest(path):
                with self.assertRaises(CensusError):
                    self.census.table([f"{EXAMPLES}/spaceships", path])
                with self.assertRaises(CensusError):
                    Census(path)

    def test_no_program(self):
        for path, error in ((f"{self.room}/none", FileNotFoundError), (self.room, PermissionError), (__file__, PermissionError)):
            with self.subTest(path), self.assertRaises(error) as caught:
                Census(path)
            self.assertEqual(caught.exception.filename, path)
        with mock.patch.dict(os.environ, {"PATH": self.room}):
            for words in ((), ("other",)):
                with self.subTest(words), self.assertRaises(FileNotFoundError) as caught:
                    Census(*words)
                self.assertIn("on the PATH", str(caught.exception))

    def test_a_program_that_goes(self):
        program = self.script("exit 0")
        os.remove(program.program)
        with self.assertRaises(FileNotFoundError):
            program.identify(GLIDER)

    def test_errors_can_be_pickled(self):
        errors = [
            CensusError("words", 3, "place"), PatternFault("words", 5, 2, 9, 21, 7), PatternFault("words", 1, 1, 1), TooLong("folder"),
            TooLong(None, 3), ReadFailed("folder"), FolderFault(1, "folder"), FolderFault(3), ReportFault("words", 4), ReportFault("words", 4, 2),
            ClaimFault("words", 2), NamesFault("words", 2), TooManyCells(3, 7), OutOfMemory(),
            TimedOut(0.5), ProgramFailed(-9, "words"),
        ]
        for error in errors:
            with self.subTest(repr(error)):
                again = pickle.loads(pickle.dumps(error))
                self.assertIs(type(again), type(error))
                self.assertEqual((vars(again), str(again)), (vars(error), str(error)))


class IdentifyMany(Room):
    def test_as_identify(self):
        """Of every outcome, what `identify` answers, but for how several parts recur as a whole."""
        two = rle_of(cells_of(GLIDER) | {(x + 40, y) for x, y in cells_of(GLIDER)})
        apart = rle_of(cells_of(BLOCK) | {(x + 40, y) for x, y in cells_of(GLIDER)})
        chance = random.Random("identify_many")
        soups = [rle_of({(x, y) for x in range(9) for y in range(9) if chance.randrange(2)}) for _ in range(8)]
        texts = [GLIDER, BLINKER, BLOCK, GUN, TEN_CELLS, LIGHT_AND_GLIDER, DIEHARD, R_PENTOMINO, FAULTY, "3o!", "x = 0, y = 0\n!", two, apart,
                 "#C a\r\n@file b\r\n" + BLOCK, BLOCK + "\n@folder a\n", "x = 2, y = 2, rule = 23/36\n$$bb$3b2o$3b2o!", *soups]
        for options in ({"bound": 20}, {"bound": 200, "near": True}, {"bound": 100, "horizon": 20}, {"bound": 100, "cells": 40},
                        {"bound": 200, "workers": 1}):
            found = self.census.identify_many(texts, return_exceptions=True, **options)
            alone = {key: value for key, value in options.items() if key != "workers"}
            for text, answer in zip(texts, found):
                with self.subTest((options, text)):
                    try:
                        wanted = self.census.identify(text, **alone)
                    except PatternFault as fault:
                        self.assertEqual((answer.args[:5], answer.index), (fault.args[:5], texts.index(text)))
                    else:
                        self.assertEqual(answer, wanted if wanted.apgcode else replace(wanted, period=None, displacement=None))

    def test_a_program_that_lies(self):
        """Reports of other patterns, of other rules or populations, or with other statuses than the texts allow."""
        head = "rule B3/S23;population 4;box 2 2;unresolved 1"
        ok = "ok B3/S23 4 0 1 0 0 xs4_33 0.rle;code 1 B3/S23 xs4_33 1"
        ash = "ash B3/S23 4 0 1 0.rle;part 1 1 xs4_33 1;code 1 B3/S23 xs4_33 1"

        def lying(lines):
            text, report = (it.replace(";", "\n") for it in (f"file 0.rle;{head}", f"open 1 1 .;line 1 1 {lines};close 1 1 1 0 0;end 1 1"))
            return self.script(f"case $1 in\nidentify) echo '{text}';;\n*) echo '{report}';;\nesac")

        self.assertEqual(lying(ok).identify_many([BLOCK]), [self.census.identify(BLOCK)])
        # (what is one part has an `ok` line)
        for lines in (ok.replace("4 0 1", "5 0 1"), ok.replace("B3/S23", "B36/S23"), ok.replace("0.rle", "1.rle"), "bad 1 0.rle", ash):
            with self.subTest(lines), self.assertRaises(ProgramFailed):
                lying(lines).identify_many([BLOCK])

    def test_a_few_calls(self):
        program, calls = self.counted()
        texts = [GLIDER, BLINKER.encode(), BLOCK] * 700
        found = program.identify_many(texts)
        self.assertEqual([it.apgcode for it in found], ["xq4_153", "xp2_7", "xs4_33"] * 700)
        self.assertEqual(calls(), 2)

    def test_no_call_more_than_is_needed(self):
        for texts, count in (([LIGHT_AND_GLIDER], 2), ([FAULTY], 1)):
            program, calls = self.counted()
            before = calls()
            program.identify_many(texts, return_exceptions=True)
            self.assertEqual(calls() - before, count)
        with self.assertRaises(PatternFault):
            program.identify_many([GLIDER, FAULTY])
        self.assertEqual(calls() - before, 2)

    def test_no_texts(self):
        program, calls = self.counted()
        self.assertEqual(program.identify_many([]), [])
        self.assertEqual(program.identify_many(iter([])), [])
        self.assertEqual(program.table([]), [])
        self.assertEqual(calls(), 0)

    def test_any_iterable(self):
        self.assertEqual([it.population for it in self.census.identify_many(it for it in (GLIDER, BLOCK))], [5, 4])

    def test_texts_alike(self):
        self.assertEqual(self.census.identify_many([GLIDER, GLIDER]), [self.census.identify(GLIDER)] * 2)

    def test_bound(self):
        found = self.census.identify_many([GUN, GLIDER], bound=20)
        self.assertEqual([(it.unresolved, it.apgcode) for it in found], [(20, None), (None, "xq4_153")])

    def test_first_fault_is_raised(self):
        with self.assertRaises(PatternFault) as caught:
            self.census.identify_many([GLIDER, FAULTY, "3o!", BLOCK])
        self.assertEqual((caught.exception.number, caught.exception.index), (5, 1))
        self.assertEqual(caught.exception.place, "rles[1], line 2, column 9")

    def test_more_than_one_call_holds(self):
        program, calls = self.counted()
        texts = [GLIDER, BLINKER, FAULTY] * 40
        # each word takes 14 to 16 bytes
        with mock.patch.object(census, "_room", lambda: 700):
            found = program.identify_many(texts, return_exceptions=True)
        self.assertTrue(2 <= calls() / 3 <= 4, calls())
        self.assertEqual([getattr(it, "apgcode", None) for it in found], ["xq4_153", "xp2_7", None] * 40)
        self.assertEqual([it.index for it in found[2::3]], list(range(2, 120, 3)))

    def test_what_a_call_holds(self):
        words = [str(index) for index in range(250000)]
        batches = list(census._batches(words))
        self.assertEqual([word for batch in batches for word in batch], words)
        # (`true` takes any words; the system refuses too many)
        for batch in batches:
            subprocess.run(["/bin/true", "identify", "--bound=100000", "--", *batch], check=True)
        self.assertEqual(list(census._batches([])), [])
        with mock.patch.object(census, "_room", lambda: 5):
            self.assertEqual(list(census._batches(["ab", "c"])), [["ab"], ["c"]])

    def test_one_text_is_no_list(self):
        for given in (GLIDER, GLIDER.encode()):
            with self.subTest(given), self.assertRaises(TypeError):
                self.census.identify_many(given)
        with self.assertRaises(TypeError):
            self.census.identify_many([GLIDER, None])

    def test_the_temporary_folder_is_removed(self):
        with mock.patch.object(tempfile, "tempdir", self.room):
            self.census.identify_many([GLIDER, FAULTY], return_exceptions=True)
        self.assertEqual(os.listdir(self.room), [])

    def test_program_by_relative_path_and_by_name(self):
        self.script(f"exec '{PROGRAM}' \"$@\"")
        before = os.getcwd()
        self.addCleanup(os.chdir, before)
        os.chdir(self.room)
        self.assertEqual(Census("./program").identify_many([GLIDER])[0].period, 4)
        os.chdir(before)
        with mock.patch.dict(os.environ, {"PATH": f"{self.room}{os.pathsep}{os.environ['PATH']}"}):
            self.assertEqual(Census("program").identify_many([GLIDER])[0].period, 4)
        self.assertEqual(Census(os.fsencode(PROGRAM)).identify(GLIDER).period, 4)


class Tables(Room):
    FOLDERS = [f"{EXAMPLES}/{name}" for name in ("oscillators", "spaceships", "still_lifes")]

    def test_what_recurs(self):
        rows = self.census.table(self.FOLDERS)
        numbers = [(c, i) for c, size in ((1, 4), (2, 2), (3, 4)) for i in range(1, size + 1)]
        self.assertEqual([(row.collection, row.pattern) for row in rows], numbers)
        self.assertEqual({row.name: (row.population, row.period, row.apgcode) for row in rows}, KNOWN)
        for row in rows:
            with self.subTest(row.name):
                self.assertEqual(row.collection_name, self.FOLDERS[row.collection - 1])
                self.assertEqual((row.status, row.rule, row.parts, row.fault, row.generation), ("ok", "B3/S23", None, None, None))
                cells = cells_of(text_of(f"{row.collection_name}/{row.name}"))
                self.assertEqual((row.population, row.onset, row.period, row.dx, row.dy), (len(cells), *recurrence_of(cells)))

    def test_speed_of_spaceships(self):
        rows = {row.name: row for row in self.census.table(self.FOLDERS[1:2])}
        self.assertEqual(rows["glider.rle"].displacement, (1, 1))
        # LifeWiki: c/2 orthogonal; this one flies to the left
        self.assertEqual(rows["lightweight_spaceship.rle"].displacement, (-2, 0))

    def test_deprecated_names(self):
        for row in self.census.table([f"{EXAMPLES}/spaceships"]):
            self.assertEqual((row.dx, row.dy, row.code), (*row.displacement, row.apgcode))
        row, = self.census.table([f"{EXAMPLES}/guns"], bound=20)
        self.assertEqual((row.dx, row.dy, row.code), (None, None, None))
        self.assertEqual([it.code for it in (*self.census.codes(Codes.REPORT), *self.census.same(Codes.REPORT))], ["xs4_33", "xp2_7", "xs4_33"])

    def test_objects(self):
        rows = self.census.table([f"{EXAMPLES}/methuselahs"], objects=True)
        self.assertEqual([(row.status, row.name, row.population) for row in rows], [("ash", "acorn.rle", 7), ("ash", "r_pentomino.rle", 5)])
        self.assertEqual(dict(rows[1].parts), ASH_OF_R_PENTOMINO)
        # LifeWiki, Acorn: 13 escaped gliders and 41 blinkers, 16 of them in 4 traffic lights
        parts = dict(rows[0].parts)
        self.assertEqual((parts["xq4_153"], parts["xp2_7"], parts.get("xp2_s01110szw222")), (13, 41, None))
        near = dict(self.census.table([f"{EXAMPLES}/methuselahs"], objects=True, near=True)[0].parts)
        self.assertEqual((near["xq4_153"], near["xp2_7"], near["xp2_s01110szw222"]), (13, 20, 4))
        with self.assertRaises(TypeError):
            self.census.table(self.FOLDERS, near=True)
        # LifeWiki: they take 5,206 and 1,103 generations
        self.assertEqual([row.onset for row in rows], [5206, 1103])
        self.assertEqual({row.name: (row.population, row.period, row.apgcode) for row in self.census.table(self.FOLDERS, objects=True)}, KNOWN)

    def test_unresolved(self):
        for objects in (False, True):
            row, = self.census.table([f"{EXAMPLES}/guns"], bound=20, objects=objects)
            self.assertEqual((row.status, row.rule, row.population, row.onset, row.parts), ("none", "B3/S23", 36, None, None))
            self.assertIsNone(row.engines)

    def test_growth(self):
        folder = self.folder("mine", a=GUN, b=TEN_CELLS, c=BLOCK)
        rows = self.census.table([folder], bound=500, objects=True)
        self.assertEqual([(row.status, row.engines) for row in rows], [("grows", [GOSPERS]), ("grows", [BLOCK_LAYER]), ("ok", None)])
        found = [(row.rule, row.population, row.onset, row.parts) for row in rows[:2]]
        self.assertEqual(found, [("B3/S23", 36, None, None), ("B3/S23", 10, None, None)])
        self.assertEqual(self.census.objects([folder], bound=500, near=True)[:2], rows[:2])
        self.assertEqual([row.status for row in self.census.run([folder], bound=500)], ["none", "none", "ok"])

    def test_what_engines_emit(self):
        rows = self.census.table(Reports.GROWING, engines=True, names={"xs4_33": "block"})
        self.assertEqual([(row.collection, row.pattern, row.engine, row.kind, row.apgcode, row.emits_count) for row in rows], [
            (1, 1, 1, "puffer", "xs4_33", 2), (1, 1, 2, "puffer", "xs4_33", 2), (1, 1, 3, "gun", "xq4_153", 1), (1, 1, 4, "gun", "xq4_153", 1),
            (1, 1, 4, "gun", "xq4_6frc", 1), (1, 1, 5, "gun", "xq4_153", 2), (1, 1, 6, "puffer", "xs4_33", 1), (1, 1, 6, "puffer", "xs6_696", 1),
            (1, 1, 7, "puffer", "xs6_696", 1), (1, 2, 1, "puffer", "xs4_33", 8),
        ])
        self.assertEqual(rows[-1], Emission(1, "a", 2, "f", "B3/S23", 1, "puffer", 288, (-24, -24), 1, "xs4_33", 8, "block"))
        row, = self.census.table([self.folder("mine", a=GUN, c=BLOCK)], bound=500, objects=True, engines=True)
        self.assertEqual((row.kind, row.period, row.displacement, row.count, row.apgcode, row.common_name), ("gun", 30, (0, 0), 1, "xq4_153", None))
        with self.assertRaises(TypeError):
            self.census.table(self.FOLDERS, engines=True)

    def test_growth_has_a_horizon(self):
        for horizon, status in ((20, "none"), (31, "grows")):
            row, = self.census.objects([f"{EXAMPLES}/guns"], bound=100, horizon=horizon)
            self.assertEqual(row.status, status)
        with self.assertRaises(TypeError):
            self.census.table(self.FOLDERS, horizon=1000)

    def test_too_many_cells(self):
        cells, generation = cells_of(GUN), 0
        while len(cells) <= 100:
            cells, generation = next_of(cells), generation + 1
        row, = self.census.table([f"{EXAMPLES}/guns"], cells=100)
        self.assertEqual((row.status, row.population, row.generation), ("large", 36, generation))

    def test_faulty_text(self):
        folder = self.folder("mine", a=GLIDER, b=FAULTY, c=BLOCK)
        for objects in (False, True):
            rows = self.census.table([folder], objects=objects)
            self.assertEqual([row.fault for row in rows], [None, 5, None])
            self.assertEqual((rows[1].status, rows[1].name, rows[1].rule, rows[1].population), ("bad", "b.rle", None, None))

    def test_other_rule(self):
        row, = self.census.table([f"{EXAMPLES}/highlife"], bound=20)
        self.assertEqual((row.rule, row.status), ("B36/S23", "none"))

    def test_workers_change_nothing(self):
        folders = [f"{EXAMPLES}/{name}" for name in sorted(os.listdir(EXAMPLES)) if os.path.isdir(f"{EXAMPLES}/{name}")]
        folders = [folder for folder in folders if not folder.endswith("guns")] * 3
        alone = self.census.table(folders, workers=1, bound=300)
        self.assertEqual(self.census.table(folders, workers=4, bound=300), alone)
        self.assertEqual(len({row.collection for row in alone}), len(folders))

    def test_empty_folder(self):
        rows = self.census.table([self.folder("empty"), self.folder("full", a=BLOCK)])
        self.assertEqual([(row.collection, row.name) for row in rows], [(2, "a.rle")])

    def test_names_with_blanks(self):
        folder = self.folder("my patterns", **{"two  blanks": GLIDER, "caf\u00e9 1 2": BLOCK})
        rows = self.census.table([folder])
        self.assertEqual([(row.name, row.apgcode) for row in rows], [("caf\u00e9 1 2.rle", "xs4_33"), ("two  blanks.rle", "xq4_153")])
        self.assertEqual({row.collection_name for row in rows}, {folder})

    def test_paths(self):
        class Path(os.PathLike):
            def __fspath__(self):
                return f"{EXAMPLES}/spaceships"

        folders = [f"{EXAMPLES}/spaceships", os.fsencode(f"{EXAMPLES}/spaceships"), Path()]
        found = [self.census.table([folder]) for folder in folders]
        self.assertEqual(found, [found[0]] * 3)
        for given in folders:
            with self.subTest(given), self.assertRaises(TypeError):
                self.census.table(given)

    def test_folder_named_like_an_option(self):
        before = os.getcwd()
        self.addCleanup(os.chdir, before)
        os.chdir(self.room)
        self.folder("--help", a=BLOCK)
        self.assertEqual([(row.collection_name, row.apgcode) for row in self.census.table(["--help"])], [("--help", "xs4_33")])

    def test_more_than_one_call_holds(self):
        program, calls = self.counted()
        folders = self.FOLDERS * 2
        with mock.patch.object(census, "_room", lambda: 2 * max(map(len, folders)) + 20):
            rows = program.table(folders)
        self.assertEqual(calls(), 3)
        self.assertEqual(rows, self.census.table(folders))

    def test_one_folder_is_refused_by_one_call(self):
        program, calls = self.counted()
        with self.assertRaises(ReadFailed):
            program.table(["none"])
        self.assertEqual(calls(), 1)

    def test_unreadable_folder(self):
        for folders in (["none"], [self.FOLDERS[0], "none", self.FOLDERS[1]]):
            with self.subTest(folders), self.assertRaises(ReadFailed) as caught:
                self.census.table(folders)
            self.assertEqual((caught.exception.place, caught.exception.sentence), ("none", "reading failed"))

    def test_unlawful_name(self):
        folder = self.folder("mine", **{" begins with a blank": BLOCK})
        for folders in ([folder], [self.FOLDERS[0], folder]):
            with self.subTest(folders), self.assertRaises(FolderFault) as caught:
                self.census.table(folders)
            self.assertEqual((caught.exception.number, caught.exception.place), (1, folder))
            self.assertIn("no blank at either end", caught.exception.sentence)

    def test_name_that_is_not_utf_8(self):
        folder = self.folder("mine", a=BLOCK)
        with open(os.path.join(os.fsencode(folder), b"\xff.rle"), "wb") as it:
            it.write(BLOCK.encode())
        with self.assertRaises(ReadFailed) as caught:
            self.census.table([folder])
        self.assertEqual(caught.exception.place, folder)

    def test_too_long_file(self):
        folder = self.folder("mine", a=BLOCK)
        with open(os.path.join(folder, "b.rle"), "wb") as it:
            it.truncate(67108865)
        with self.assertRaises(TooLong) as caught:
            self.census.table([self.FOLDERS[0], folder])
        self.assertEqual(caught.exception.place, folder)

    def test_options_out_of_range(self):
        program, calls = self.counted()
        for options in ({"bound": 0}, {"bound": 1000001}, {"workers": 17}, {"cells": 0}, {"bound": 100001, "objects": True},
                        {"workers": 0}, {"horizon": 0, "objects": True}, {"horizon": 10001, "objects": True}):
            with self.subTest(options), self.assertRaises(ValueError):
                program.table(self.FOLDERS, **options)
        self.assertEqual(calls(), 0)
        with self.assertRaises(TypeError):
            self.census.table(self.FOLDERS, workers="4")

    def test_report_that_was_not_asked_for(self):
        folder = self.folder("mine", a=BLOCK, b=BLOCK)
        one, two = "ok B3/S23 4 0 1 0 0 xs4_33 a.rle", "none B3/S23 4 b.rle"
        ash = "ash B3/S23 4 0 2 a.rle;part 1 1 xs4_33 2"
        code = "code 1 B3/S23 xs4_33 1"
        whole = f"open 1 2 {folder};line 1 1 {one};line 1 2 {two};{code};close 1 2 1 1 0;end 1 2"
        self.assertEqual([row.status for row in self.told(whole).table([folder])], ["ok", "none"])
        self.assertEqual([row.apgcode for row in self.told(whole).table([folder], objects=True)], ["xs4_33", None])
        parted = whole.replace(one, ash).replace(code, "code 1 B3/S23 xs4_33 2")
        self.assertEqual([row.parts for row in self.told(parted).table([folder], objects=True)], [(("xs4_33", 2),), None])
        large = whole.replace(two, "large B3/S23 4 9 b.rle")
        self.assertEqual(self.told(large).table([folder], cells=1)[1].generation, 9)
        growing = parted.replace(two, "grows B3/S23 4 1 b.rle;engine 1 2 1 30 0 0 1;emits 1 2 1 xq4_153 1").replace("2 1 1 0", "2 2 0 0")
        self.assertEqual(self.told(growing).table([folder], objects=True)[1].engines, [GOSPERS])
        self.assertEqual(self.told(growing).table([folder], objects=True, bound=30, horizon=30)[1].engines, [GOSPERS])
        wrong = [
            # other patterns, other names, another folder, another number of folders
            f"open 1 1 {folder};line 1 1 {one};{code};close 1 1 1 0 0;end 1 1",
            whole.replace("b.rle", "c.rle"),
            f"open 1 2 {folder};line 1 1 {two};line 1 2 {one};{code};close 1 2 1 1 0;end 1 2",
            whole.replace("/mine", "/other"),
            f"{whole};{whole}", "end 0 0",
            whole.replace("end 1 2", f"open 2 0 {folder};close 2 0 0 0 0;end 2 2"),
            # other statuses, and what no such line says
            parted, large, whole.replace(one, "bad 0 a.rle").replace(f"{code};", "").replace("2 1 1 0", "2 0 1 1"), whole.replace("0 1 0 0 xs4", "0 0 0 0 xs4"),
            whole.replace("0 1 0 0 xs4", "1000 1 0 0 xs4"), whole.replace("B3/S23", "B3"), whole.replace("xs4_33", "block"),
        ]
        for text in wrong:
            with self.subTest(text), self.assertRaises(ProgramFailed):
                self.told(text).table([folder])
        # an onset and a period past the bound, ash of one part, and parts that don't add up
        oscillating = whole.replace("xs4_33", "xp10001_33")
        for text in (parted.replace("4 0 2 a", "4 10001 2 a"), whole.replace("4 0 1 0 0", "4 10001 1 0 0"),
                     oscillating.replace("4 0 1 0 0", "4 0 10001 0 0"),
                     parted.replace("4 0 2 a", "4 0 1 a").replace("xs4_33 2", "xs4_33 1"), parted.replace("4 0 2 a", "4 0 3 a"),
                     parted.replace("a.rle;", "a.rle;part 1 1 xs4_33 1;"), growing.replace("1 30 0 0 1", "1 1001 0 0 1"), growing.replace("xq4_153", "xq4_")):
            with self.subTest(text), self.assertRaises(ProgramFailed):
                self.told(text).table([folder], objects=True)
        for options in ({"objects": True, "horizon": 29}, {"objects": True, "bound": 29}, {"cells": 1}):
            with self.subTest(options), self.assertRaises(ProgramFailed):
                self.told(growing).table([folder], **options)

    def test_folder_that_changes(self):
        folder = self.folder("mine", a=BLOCK)
        for change in (f"rm {folder}/a.rle", f"cp {folder}/a.rle {folder}/b.rle"):
            rows = self.script(f"{change}\nexec '{PROGRAM}' \"$@\"").table([folder])
            self.assertEqual([row.name for row in rows], sorted(os.listdir(folder)))
            with open(os.path.join(folder, "a.rle"), "w", encoding="utf-8") as it:
                it.write(BLOCK)

    def test_half_a_report(self):
        with self.assertRaises(ProgramFailed) as caught:
            self.script("echo open 1 0 mine").table(["mine"])
        self.assertIn("no whole report", caught.exception.sentence)


class Bundles(Room):
    """`run` and `objects` of texts."""

    def test_names_and_lists(self):
        texts = {"two  words": GLIDER, "\u00e9": BLOCK, "a": FAULTY.encode(), "empty": "", "gun": GUN}
        rows = self.census.run(texts=texts, bound=50)
        self.assertEqual([row.name for row in rows], list(texts))
        self.assertEqual([row.status for row in rows], ["ok", "ok", "bad", "bad", "none"])
        self.assertEqual((rows[0].apgcode, rows[2].fault, rows[3].fault, rows[0].collection_name), ("xq4_153", 5, 1, "texts"))
        rows = self.census.objects(texts=iter([GLIDER, LIGHT_AND_GLIDER, GUN]), bound=100, near=True, workers=2)
        self.assertEqual([(row.name, row.status, row.pattern) for row in rows], [("1", "ok", 1), ("2", "ash", 2), ("3", "grows", 3)])
        self.assertEqual(rows[1].parts, (("xq4_153", 1), ("xp2_s01110szw222", 1)))
        self.assertEqual((self.census.run(texts=[]), self.census.objects(texts={}), self.census.run()), ([], [], []))

    def test_what_is_refused(self):
        program, calls = self.counted()
        for name in ("", " a", "a ", "a\nb", "a\x7f", "a" * 256):
            with self.subTest(name), self.assertRaises(ValueError) as caught:
                program.run(texts={name: BLOCK})
            self.assertIn("is not lawful", str(caught.exception))
        for text, line in ((BLOCK + "\n@file b\n", 3), ("@", 1)):
            with self.subTest(text), self.assertRaises(ValueError) as caught:
                program.objects(texts=[BLOCK, text])
            self.assertIn(f"line {line} of the text '2' begins with @", str(caught.exception))
        for texts in (GLIDER, b"", 3, [3], {"a": None}):
            with self.subTest(texts), self.assertRaises(TypeError):
                program.run(texts=texts)
        with self.assertRaises(TypeError):
            program.run([EXAMPLES], texts=[GLIDER])
        self.assertEqual(calls(), 0)
        with self.assertRaises(ProgramFailed):
            self.told("open 1 1 texts;line 1 1 none B3/S23 4 2;close 1 1 0 1 0;end 1 1").run(texts=[BLOCK])


class Reports(Room):
    INTERLEAVED = b"""open 2 3 \xff\xfe
open 1 2 first  one
line 2 1 ash B3/S23 5 7 1 a b
part 2 1 xq4_153 1
line 1 1 ash B3/S23 11 7 3 \xc3\xa9 .rle
part 1 1 xp2_7 1
part 1 1 xs4_33 2
line 2 2 bad 6 line 1 1
line 2 3 large B3/S23 36 248 \xfe 7
line 1 2 none B36/S23 12 ok
code 1 B3/S23 xp2_7 1
code 1 B3/S23 xs4_33 2
code 2 B3/S23 xq4_153 1
close 2 3 1 1 1
close 1 2 1 1 0
end 2 5
"""
    # engines of each order: by period, right, down, and by what they emit, entry by entry
    GROWING = b"""open 1 3 a
open 2 1 b
line 1 1 grows B3/S23 36 9 c d
engine 1 1 1 4 -1 4 2
emits 1 1 1 xs4_33 2
engine 1 1 2 30 -1 9 1
emits 1 1 2 xs4_33 2
engine 1 1 3 30 0 0 1
emits 1 1 3 xq4_153 1
engine 1 1 4 30 0 0 1
emits 1 1 4 xq4_153 1
emits 1 1 4 xq4_6frc 1
engine 1 1 5 30 0 0 2
emits 1 1 5 xq4_153 2
engine 1 1 6 30 0 1 1
emits 1 1 6 xs4_33 1
emits 1 1 6 xs6_696 1
engine 1 1 7 30 0 1 1
emits 1 1 7 xs6_696 1
line 2 1 ash B3/S23 4 0 1 e
part 2 1 xs4_33 1
line 1 2 grows B3/S23 10 1 f
engine 1 2 1 288 -24 -24 1
emits 1 2 1 xs4_33 8
code 2 B3/S23 xs4_33 1
close 2 1 1 0 0
line 1 3 none B3/S23 36 g
close 1 3 2 1 0
end 2 4
"""

    def test_interleaved(self):
        rows = read_report(self.INTERLEAVED)
        self.assertEqual([(row.collection, row.pattern, row.status) for row in rows],
                         [(1, 1, "ash"), (1, 2, "none"), (2, 1, "ash"), (2, 2, "bad"), (2, 3, "large")])
        self.assertEqual([os.fsencode(row.name) for row in rows], [b"\xc3\xa9 .rle", b"ok", b"a b", b"line 1 1", b"\xfe 7"])
        self.assertEqual([os.fsencode(row.collection_name) for row in rows], [b"first  one"] * 2 + [b"\xff\xfe"] * 3)
        self.assertEqual([row.parts for row in rows], [(("xp2_7", 1), ("xs4_33", 2)), None, (("xq4_153", 1),), None, None])
        self.assertEqual([row.population for row in rows], [11, 12, 5, None, 36])
        self.assertEqual([row.onset for row in rows], [7, None, 7, None, None])
        self.assertEqual((rows[3].fault, rows[4].generation), (6, 248))

    def test_text_and_bytes_alike(self):
        rows = read_report(self.INTERLEAVED)
        text = self.INTERLEAVED.decode("utf-8", "surrogateescape")
        for given in (text, bytearray(self.INTERLEAVED), memoryview(self.INTERLEAVED)):
            with self.subTest(type(given)):
                self.assertEqual(read_report(given), rows)
        with self.assertRaises(ReportFault) as caught:
            read_report(text[:-1])
        self.assertEqual(caught.exception.line, 16)
        for given in (None, 3, [text]):
            with self.subTest(given), self.assertRaises(TypeError):
                read_report(given)
        with self.assertRaises(CensusError) as caught:
            read_report("open 1 0 \ud800\n")
        self.assertEqual(caught.exception.place, "character 9")

    def test_growing(self):
        first, second, third, fourth = read_report(self.GROWING)
        self.assertEqual([row.status for row in (first, second, third, fourth)], ["grows", "grows", "none", "ash"])
        self.assertEqual((first.rule, first.population, first.name, first.onset, first.parts), ("B3/S23", 36, "c d", None, None))
        self.assertEqual([(it.period, it.displacement, it.count) for it in first.engines], [
            (4, (-1, 4), 2), (30, (-1, 9), 1), (30, (0, 0), 1), (30, (0, 0), 1), (30, (0, 0), 2), (30, (0, 1), 1), (30, (0, 1), 1)])
        self.assertEqual(list(first.engines[5].emits.items()), [("xs4_33", 1), ("xs6_696", 1)])
        self.assertEqual(second.engines, [BLOCK_LAYER])
        self.assertEqual((third.engines, fourth.engines, fourth.parts), (None, None, (("xs4_33", 1),)))

    def test_engines_that_do_not_fit(self):
        def report(engines, lines):
            whole = f"open 1 1 a;line 1 1 grows B3/S23 36 {engines} b;{lines}close 1 1 1 0 0;end 1 1;"
            return whole.replace(";", "\n").encode()

        one, two = "engine 1 1 1 30 0 0 1;", "engine 1 1 2 30 0 0 1;"
        glider, ship, gliders = "emits 1 1 1 xq4_153 1;", "emits 1 1 1 xq4_6frc 1;", "emits 1 1 2 xq4_153 2;"
        again = gliders.replace(" 2;", " 1;")
        wanted = [GOSPERS, replace(GOSPERS, emits={"xq4_153": 2})]
        self.assertEqual(read_report(report(2, one + glider + two + gliders))[0].engines, wanted)
        most = 2 ** 64 - 1
        great, = read_report(report(most, f"engine 1 1 1 10000 10000 -10000 {most};emits 1 1 1 xs1_1 {most};"))
        self.assertEqual(great.engines, [Engine(10000, (10000, -10000), most, {"xs1_1": most})])
        wrong = [
            # none, too few, too many, or some without a report
            (0, ""), (1, ""), (2, one + glider), (1, one + glider + two + gliders), (0, one + glider), (1, glider), (1, one),
            (2, one + two + gliders), (2, one + glider + two),
            # other numbers
            (2, one + glider + two + gliders.replace("1 1 2", "1 1 1")), (2, one + glider + two.replace("1 1 2", "1 1 3") + gliders),
            (1, one.replace("1 1 1", "1 2 1") + glider), (1, one + glider.replace("1 1 1", "1 2 1")),
            # the same code twice, or codes out of order
            (1, one + glider + glider), (1, one + ship + glider), (1, one + glider.replace("xq4", "xq12") + glider),
            # engines that are twice the same, or out of order by what they emit
            (2, one + glider + two + again), (2, one + gliders.replace("1 1 2", "1 1 1") + two + again),
            (2, one + glider + ship + two + again), (2, one + glider + ship + two + again + "emits 1 1 2 xq4_6fr0 9;"),
            # other lines among them, and lines of an engine after others
            (1, one + "part 1 1 xs4_33 1;" + glider), (1, "part 1 1 xs4_33 1;"), (1, one + glider + "code 1 B3/S23 xq4_153 1;"),
            (1, one + "open 2 0 c;close 2 0 0 0 0;" + glider), (1, one + glider + "open 2 0 c;" + ship + "close 2 0 0 0 0;"),
        ]
        for number in (0, 2, -1):
            wrong.append((1, one + glider.replace("1 1 1", f"1 1 {number}")))
            wrong.append((1, one.replace("1 1 1", f"1 1 {number}") + glider.replace("1 1 1", f"1 1 {number}")))
        # periods and displacements that no engine has, and no engines
        for way in ("0 0 0 1", "10001 0 0 1", "1 2 0 1", "1 0 -2 1", "-1 0 0 1", "30 0 0 0", f"30 {-2 ** 63} 0 1", "30 0 0", "30 0 0 1 1",
                    "030 0 0 1", "30 +1 0 1"):
            wrong.append((1, one.replace("30 0 0 1", way) + glider))
        # ways out of order
        for way in ("29 0 0", "30 -1 0", "30 -1 1", "30 0 -1"):
            wrong.append((2, one + glider + two.replace("30 0 0", way) + gliders))
        # what is emitted: none, no code, and what is no number
        for words in ("xq4_153 0", "xq4 1", "xq4_153", f"xq4_153 {2 ** 64}", "xq4_153 1 1", "xq4_153 -1"):
            wrong.append((1, one + glider.replace("xq4_153 1", words)))
        for engines, lines in wrong:
            with self.subTest((engines, lines)), self.assertRaises(ReportFault):
                read_report(report(engines, lines))
        # engines of a line that has none
        for lines in ("none B3/S23 36 b;" + one, "ash B3/S23 4 0 1 b;" + one + glider, "ash B3/S23 4 0 0 b;" + glider, "bad 1 b;" + glider):
            with self.subTest(lines), self.assertRaises(ReportFault) as caught:
                read_report(f"open 1 1 a;line 1 1 {lines}close 1 1 0 1 0;end 1 1;".replace(";", "\n").encode())
            self.assertEqual(caught.exception.line, 3)
        # what comes again, and what grows
        both = f"open 1 2 a;line 1 1 grows B3/S23 36 1 b;{one}{glider}line 1 2 ok B3/S23 4 0 1 0 0 xs4_33 c;"
        rows = read_report(f"{both}code 1 B3/S23 xs4_33 1;close 1 2 2 0 0;end 1 2;".replace(";", "\n").encode())
        self.assertEqual([row.status for row in rows], ["grows", "ok"])

    def test_what_comes_again(self):
        row, = read_report(b"open 1 1 a\nline 1 1 ok B3/S23 5 0 4 1 1 xq4_153 b c\ncode 1 B3/S23 xq4_153 1\nclose 1 1 1 0 0\nend 1 1\n")
        self.assertEqual((row.onset, row.period, row.displacement, row.apgcode, row.name), (0, 4, (1, 1), "xq4_153", "b c"))

    def test_from_a_bundle(self):
        bundle = b"@folder d\xff\n@file e\xfe  f\n" + BLOCK.encode() + b"\n@file g\n" + FAULTY.encode() + b"@folder h\n"
        report = subprocess.run([PROGRAM, "run"], input=bundle, stdout=subprocess.PIPE, check=True).stdout
        first, second = read_report(report)
        self.assertEqual((os.fsencode(first.collection_name), os.fsencode(first.name)), (b"d\xff", b"e\xfe  f"))
        self.assertEqual((first.apgcode, second.name, second.fault), ("xs4_33", "g", 5))

    def test_many_interleaved(self):
        bundle = "".join(f"@folder {c}\n" + "".join(f"@file {i}\n{GLIDER}" for i in range(1, 40)) for c in range(1, 9))
        for command in ("run", "objects"):
            report = subprocess.run([PROGRAM, command], input=bundle.encode(), stdout=subprocess.PIPE, check=True).stdout
            rows = read_report(report)
            numbers = [(c, i) for c in range(1, 9) for i in range(1, 40)]
            self.assertEqual([(row.collection, row.pattern) for row in rows], numbers)
            self.assertEqual([(row.collection_name, row.name) for row in rows], [(str(c), str(i)) for c, i in numbers])

    def test_numbers_that_do_not_agree(self):
        block, code = "ok B3/S23 4 0 1 0 0 xs4_33 a", "code 1 B3/S23 xs4_33 1"
        reports = [
            f"open 1 2 c;line 1 1 {block};{code};close 1 1 1 0 0;end 1 2",
            f"open 1 2 c;line 1 2 {block};line 1 1 {block};code 1 B3/S23 xs4_33 2;close 1 2 2 0 0;end 1 2",
            f"open 1 1 c;line 1 1 {block};line 1 2 {block};code 1 B3/S23 xs4_33 2;close 1 2 2 0 0;end 1 2",
            f"open 1 1 c;line 1 1 {block};part 1 1 xs4_33 1;{code};close 1 1 1 0 0;end 1 1",
            "open 1 1 c;line 1 1 ash B3/S23 4 0 1 a;code 1 B3/S23 xs4_33 1;part 1 1 xs4_33 1;close 1 1 1 0 0;end 1 1",
            f"open 2 1 c;line 2 1 {block};code 2 B3/S23 xs4_33 1;close 2 1 1 0 0;end 1 1",
            "open 0 0 c;close 0 0 0 0 0;end 0 0", "open 65536 0 c;close 65536 0 0 0 0;end 1 0", "open 1 65536 c",
            f"open 1 1 c;line 1 1 {block.replace('4 0 1', '4 -1 1')};{code};close 1 1 1 0 0;end 1 1",
            f"open 1 1 c;line 1 1 {block.replace('4 0 1', '18446744073709551616 0 1')};{code};close 1 1 1 0 0;end 1 1",
            f"open 1 1 c;line 1 1 {block.replace('0 0 xs4', '0 9223372036854775808 xs4')};{code};close 1 1 1 0 0;end 1 1",
            f"open 1 1 c;line 1 1 {block.replace('B3/S23', '')};{code};close 1 1 1 0 0;end 1 1",
            f"open 1 1 c;line 1 1 {block};{code};close 1 1 0 1 0;end 1 1",
            f"open 1 1 c;line 1 1 {block};code 1 B3/S23 xs4_33 0;close 1 1 1 0 0;end 1 1",
            "end 0 1",
        ]
        # `code` lines that are missing, too many, of another rule, code or count, or in another order
        two = f"line 1 1 {block};line 1 2 ok B36/S23 4 0 1 0 0 xs4_33 b"
        for codes in ("", f"{code};", f"code 1 B36/S23 xs4_33 1;{code};", f"{code};{code};", f"{code};code 1 B36/S23 xs4_33 2;",
                      f"{code};code 1 B36/S23 xs4_32 1;", f"{code};code 1 B36/S23 xs4_33 1;{code};"):
            reports.append(f"open 1 2 c;{two};{codes}close 1 2 2 0 0;end 1 2")
        parts = "line 1 1 ash B3/S23 4 7 3 a;part 1 1 xs4_33 1;part 1 1 xs6_696 2"
        for codes in ("", f"{code};", f"{code};code 1 B3/S23 xs6_696 1;", f"code 1 B3/S23 xs6_696 2;{code};"):
            reports.append(f"open 1 1 c;{parts};{codes}close 1 1 1 0 0;end 1 1")
        large = f"line 1 1 ash B3/S23 4 7 {2 ** 64 - 1} a;part 1 1 xs4_33 {2 ** 64 - 1};line 1 2 ash B3/S23 4 7 1 b;part 1 2 xs4_33 1"
        for count in (0, 1, 2 ** 64 - 1):
            reports.append(f"open 1 2 c;{large};code 1 B3/S23 xs4_33 {count};close 1 2 2 0 0;end 1 2")
        # names that no collection and no pattern has
        for name in ("", " a", "a ", "a\x1b[31m", "a\x7f", "a\x00", "a\tb", "a" * 256):
            reports += [f"open 1 0 {name};close 1 0 0 0 0;end 1 0", f"open 1 1 c;line 1 1 bad 1 {name};close 1 1 0 0 1;end 1 1"]
        # rules that are not printed so
        for rule in ("B9", "r", "b3/s23", "B3/S32", "B33/S23", "B03/S23", "B3S23", "23/3", "B3/S239", "B3/S23:T9", "/S23", "B3/"):
            reports += [f"open 1 1 c;line 1 1 none {rule} 4 a;close 1 1 0 1 0;end 1 1",
                        f"open 1 1 c;line 1 1 {block};code 1 {rule} xs4_33 1;close 1 1 1 0 0;end 1 1"]
        # codes that are none, or not that of such a period and displacement
        for code in ("c", "xs", "xr1_3", "s4_33", "xs4", "xsa_33", "_", "x_"):
            reports += [f"open 1 1 c;line 1 1 ok B3/S23 4 0 1 0 0 {code} a;code 1 B3/S23 {code} 1;close 1 1 1 0 0;end 1 1",
                        f"open 1 1 c;line 1 1 ash B3/S23 4 7 1 a;part 1 1 {code} 1;code 1 B3/S23 {code} 1;close 1 1 1 0 0;end 1 1",
                        f"open 1 1 c;line 1 1 {block};code 1 B3/S23 {code} 1;close 1 1 1 0 0;end 1 1"]
        for found in ("0 0 0 xs4_33", "15 0 0 xs4_33", "1 1 0 xs4_33", "2 0 0 xp3_7", "2 0 0 xq2_7", "4 1 1 xp4_7", "4 0 1 xq5_7", "1 0 0 xp1_7",
                      "4 1 1 xq04_7", "0 1 1 xq0_7", "0 0 0 xp0_7"):
            reports.append(f"open 1 1 c;line 1 1 ok B3/S23 4 0 {found} a;code 1 B3/S23 {found.split()[-1]} 1;close 1 1 1 0 0;end 1 1")
        # parts that are too few, too many, of no object, twice the same or out of order
        for parts in ("", "part 1 1 xs4_33 1;", "part 1 1 xs4_33 3;", "part 1 1 xs4_33 0;part 1 1 xs6_696 2;", "part 1 1 xs4_33 1;part 1 1 xs4_33 1;",
                      "part 1 1 xs6_696 1;part 1 1 xs4_33 1;", "part 1 1 xs4_33 1;part 1 1 xs4_32 1;", "part 1 2 xs4_33 2;"):
            reports.append(f"open 1 1 c;line 1 1 ash B3/S23 8 7 2 a;{parts}close 1 1 1 0 0;end 1 1")
        # parts of another collection, and after one of its lines
        reports.append("open 1 1 a;open 2 1 b;line 1 1 ash B3/S23 0 0 0 c;line 2 1 ash B3/S23 4 7 1 d;part 1 1 xs4_33 1;code 2 B3/S23 xs4_33 1;close 1 1 1 0 0;close 2 1 1 0 0;end 2 2")
        reports.append("open 1 1 a;open 2 0 b;line 1 1 ash B3/S23 4 7 1 c;close 2 0 0 0 0;part 1 1 xs4_33 1;code 1 B3/S23 xs4_33 1;close 1 1 1 0 0;end 2 1")
        for text in reports:
            with self.subTest(text), self.assertRaises(ReportFault):
                read_report((text.replace(";", "\n") + "\n").encode())
        for more in (b"x", b"\n", b"open 1 0 a"):
            with self.subTest(more), self.assertRaises(ReportFault):
                read_report(b"end 0 0\n" + more)

    def test_several_reports(self):
        self.assertEqual(read_report(b"end 0 0\nend 0 0\n"), [])
        rows = read_report(self.INTERLEAVED)
        again = [replace(row, collection=row.collection + 2) for row in rows]
        self.assertEqual(read_report(self.INTERLEAVED + b"end 0 0\n" + self.INTERLEAVED), rows + again)

    def test_numbers_as_large_as_they_may_be(self):
        def report(population, onset, period):
            code = f"xq{period}_1"
            line = f"line 1 1 ok B/S {population} {onset} {period} {period} {-period} {code} {'b' * 255}"
            return f"open 1 1 a\n{line}\ncode 1 B/S {code} 1\nclose 1 1 1 0 0\nend 1 1\n".encode()

        row, = read_report(report(1048576, 1, 999999))
        self.assertEqual((row.population, row.displacement, row.apgcode, row.name), (1048576, (999999, -999999), "xq999999_1", "b" * 255))
        for numbers in ((1048577, 1, 9), (5, 1, 1000000), (5, 1000000, 1), (5, 2 ** 64 - 1, 1), (5, 0, 2 ** 64 - 1)):
            with self.subTest(numbers), self.assertRaises(ReportFault) as caught:
                read_report(report(*numbers))
            self.assertEqual(caught.exception.line, 2)

    def test_what_no_run_finds(self):
        gun = "grows B3/S23 36 1 b;engine 1 1 1 30 0 0 1;emits 1 1 1"
        for at, lines in ((2, "large B3/S23 5 1000001 b;"), (2, "none B3/S23 1048577 b;"), (2, "ash B3/S23 5 1000001 0 b;"),
                          (3, "ash B3/S23 5 1 2 b;part 1 1 xs0_0 2;"), (4, f"{gun} xs4_33 1;"), (4, f"{gun} xp2_7 1;"),
                          (4, f"{gun.replace('30 0 0', '30 1 0')} xs0_0 1;")):
            with self.subTest(lines), self.assertRaises(ReportFault) as caught:
                read_report(f"open 1 1 a;line 1 1 {lines}close 1 1 1 0 0;end 1 1;".replace(";", "\n").encode())
            self.assertEqual(caught.exception.line, at)

    def test_no_patterns(self):
        self.assertEqual(read_report(b"end 0 0\n"), [])
        self.assertEqual(read_report(b"open 1 1 a\nline 1 1 ash B3/S23 0 0 0 b\nclose 1 1 1 0 0\nend 1 1\n")[0].parts, ())

    def test_cut_short(self):
        for report in (self.INTERLEAVED, self.GROWING):
            for end in range(len(report)):
                with self.assertRaises(ReportFault):
                    read_report(report[:end])

    def test_no_report(self):
        lines = self.INTERLEAVED.split(b"\n")
        # without any of its lines but those that count codes, or with one twice, it is none
        for at, line in enumerate(lines[:-1]):
            if not line.startswith(b"code"):
                for wrong in (lines[:at] + lines[at + 1:], lines[:at] + [line] + lines[at:]):
                    with self.subTest(line), self.assertRaises(ReportFault):
                        read_report(b"\n".join(wrong))
        for old, new, line in ((b" 5 7 1 a", b" x 7 1 a", 3), (b" 5 7 1 a", b" 5 x 1 a", 3), (b"close 2 3 1", b"close 2 3 2", 14), (b"end 2 5", b"end 2 6", 16),
                               (b"part 1 1", b"part 2 1", 6), (b"bad 6", b"bid 6", 8), (b"open 2 3 \xff", b"opens 2 3 \xff", 1),
                               (b"36 248 \xfe 7", b"36", 9), (b"1 2 none", b"1 02 none", 10), (b"code 1", b"code 3", 11),
                               (b" 7 1 a", b" 7 2 a", 5), (b"xp2_7 1", b"xs4_33 1", 7)):
            with self.subTest(new), self.assertRaises(ReportFault) as caught:
                read_report(self.INTERLEAVED.replace(old, new, 1))
            self.assertEqual((caught.exception.line, caught.exception.place), (line, f"line {line}"))


class Mutations(unittest.TestCase):
    """What is a report and what is none, for `read_report` and for `census merge`: reports with some mistakes, and reports of growth."""

    COUNT = 2000
    GROWN = 500
    SEED = os.environ.get("SEED", "reports")
    NUMBERS = [b"0", b"1", b"2", b"3", b"10", b"00", b"01", b"-1", b"-0", b"+1", b"", b"1.0", b"10000", b"10001", b"65535", b"65536",
               b"9223372036854775807", b"-9223372036854775808", b"9223372036854775808", b"18446744073709551615", b"18446744073709551616",
               b"\xd9\xa3"]
    WORDS = [b"ok", b"ash", b"grows", b"none", b"large", b"bad", b"open", b"line", b"part", b"engine", b"emits", b"code", b"close", b"end",
             b"B3/S23", b"xs4_33", b"\xff", b"a b"]

    def reports(self):
        """Reports to make mistakes in."""
        bundle = b"@folder a\n@file 1 2\n" + GLIDER.encode() + b"@file r\n" + R_PENTOMINO.encode() + b"@file \xff\n3o!\n@folder b\n"
        bundle += b"@folder c d\n@file g\n" + GUN.encode() + b"@file b\n" + BLOCK.encode() + b"\n"
        made = [["run", "-b60"], ["objects", "-b2000"], ["run", "--cells=5", "-b60"], ["objects", "--cells=20", "-b60"]]
        found = [subprocess.run([PROGRAM, *words], input=bundle, stdout=subprocess.PIPE, check=True).stdout for words in made]
        return [Reports.INTERLEAVED, Reports.GROWING, b"end 0 0\n", *found]

    def growing(self, chance):
        """A report of one pattern that grows, if it is one: its engines and what they emit are mostly in order."""
        ways = [(1, *chance.choices((-1, 0, 1), k=2)), (2, *chance.choices((-2, 0, 1), k=2)), (2, 0, chance.randrange(3))]
        tales = []
        for _ in range(chance.randrange(5)):
            codes = sorted(chance.sample(("xq4_153", "xs4_33", "xs6_696", "xs10_0"), chance.randrange(1, 4)), key=lambda it: (len(it), it))
            emits = [(len(code), code, chance.randrange(1, 3)) for code in codes]
            tales.append((*chance.choice(ways), emits))
        if chance.randrange(4):
            tales = [tale for at, tale in enumerate(tales) if tale not in tales[:at]]
        if chance.randrange(4):
            tales.sort()
        counts = [chance.randrange(1, 3) for _ in tales]
        lines = [f"open 1 1 a\nline 1 1 grows B3/S23 36 {sum(counts) + chance.choice((0, 0, 0, 0, 0, 0, 0, 1))} b"]
        for number, ((period, dx, dy, emits), count) in enumerate(zip(tales, counts), 1):
            lines.append(f"engine 1 1 {number} {period} {dx} {dy} {count}")
            lines += [f"emits 1 1 {number} {code} {emitted}" for _, code, emitted in emits]
        return "\n".join([*lines, "close 1 1 1 0 0\nend 1 1\n"]).encode()

    def changed_line(self, line, chance):
        """A line with a field that is another, is not there, is there twice or has changed places."""
        fields = line.split(b" ")
        at = chance.randrange(len(fields))
        kind = chance.randrange(5)
        if kind == 0:
            fields[at] = chance.choice(self.NUMBERS)
        elif kind == 1:
            fields[at] = chance.choice(self.WORDS)
        elif kind == 2:
            del fields[at]
        elif kind == 3:
            fields.insert(at, fields[at])
        else:
            other = chance.randrange(len(fields))
            fields[at], fields[other] = fields[other], fields[at]
        return b" ".join(fields)

    def mutant(self, reports, chance):
        """A report with a mistake, if it is one: in a byte, in a field, in the order of the lines, or at its end."""
        text = chance.choice(reports)
        kind = chance.randrange(6)
        if kind == 0:
            at = chance.randrange(len(text))
            return text[:at] + bytes([chance.choice(b"\n\n 0123459 -ab\x00\xff")]) * chance.randrange(3) + text[at + chance.randrange(2):]
        if kind == 1:
            return text[: chance.randrange(len(text))] + chance.choice([b"", b"\n", b"end 0 0\n"])
        if kind == 2:
            return text + chance.choice(reports) + chance.choice([b"", b"", b"\n", b"x", b"open 1 0 a\n"])
        lines = text.split(b"\n")
        at, other = chance.randrange(len(lines)), chance.randrange(len(lines))
        if kind == 3:
            lines[at] = self.changed_line(lines[at], chance)
        elif kind == 4:
            lines[at], lines[other] = lines[other], lines[at]
        else:
            lines[at:at + 1] = chance.choice([[], [lines[at]] * 2, [lines[other], lines[at]]])
        return b"\n".join(lines)

    def differs(self, text):
        """What is not the same of a text, if anything is. What is merged is read again where one report may say it."""
        try:
            rows, line = read_report(text), None
        except ReportFault as fault:
            rows, line = None, fault.line
        ran = subprocess.run([PROGRAM, "merge"], input=text, stdout=subprocess.PIPE, stderr=subprocess.PIPE, check=False)
        if line is not None:
            is_same = (ran.returncode, ran.stderr) == (1, b"census: report fault at line %d\n" % line)
        else:
            statuses = {row.status for row in rows}
            is_one = "ok" not in statuses or not statuses & {"ash", "grows"}
            is_same = (ran.returncode, ran.stderr) == (0, b"") and (not is_one or read_report(ran.stdout) == rows)
        return None if is_same else (text, rows, line, ran)

    def test_as_the_program_reads_them(self):
        chance = random.Random(self.SEED)
        reports = self.reports()
        mutants = reports + [self.mutant(reports, chance) for _ in range(self.COUNT)]
        grown = [self.growing(chance) for _ in range(self.GROWN)]
        with ThreadPoolExecutor(4) as pool:
            wrong = [it for it in pool.map(self.differs, mutants + grown) if it]
        self.assertEqual(wrong[:3], [])


class Codes(Room):
    """`codes`."""

    REPORT = """open 1 2 a
line 1 1 ok B3/S23 4 0 1 0 0 xs4_33 p
line 1 2 ok B3/S23 3 0 2 0 0 xp2_7 q r
code 1 B3/S23 xs4_33 1
code 1 B3/S23 xp2_7 1
close 1 2 2 0 0
end 1 2
open 1 1 b
line 1 1 ok B3/S23 4 0 1 0 0 xs4_33 s
code 1 B3/S23 xs4_33 1
close 1 1 1 0 0
end 1 1
"""

    def test_codes_of_two_reports(self):
        wanted = [Code("B3/S23", "xs4_33", 2, 2, "a", "p", 0.666667), Code("B3/S23", "xp2_7", 1, 1, "a", "q r", 0.333333)]
        self.assertEqual(self.census.codes(self.REPORT), wanted)
        self.assertEqual(self.census.codes(self.REPORT.encode()), wanted)
        self.assertEqual(self.census.codes("end 0 0\n"), [])
        self.assertEqual(self.census.codes(self.REPORT, rare=True), wanted[::-1])
        unnamed = self.census.codes(self.REPORT, names={"xs4_33": "block"}, unnamed=True)
        self.assertEqual(unnamed, wanted[1:])

    def test_a_report_with_a_fault(self):
        with self.assertRaises(ReportFault) as raised:
            self.census.codes(self.REPORT[:-8])
        self.assertEqual(raised.exception.line, 12)

    def test_a_program_that_lies(self):
        for body in ("echo no table", "echo '{}'", "exit 1", "echo '[1]'"):
            with self.subTest(body), self.assertRaises(ProgramFailed):
                self.script(body).codes(self.REPORT)


class OneObject(Room):
    """`same`."""

    def test_patterns_of_two_reports(self):
        wanted = [Same("B3/S23", "xs4_33", (("a", "p"), ("b", "s")))]
        self.assertEqual(self.census.same(Codes.REPORT), wanted)
        self.assertEqual(self.census.same(Codes.REPORT.encode()), wanted)
        self.assertEqual(self.census.same("end 0 0\n"), [])

    def test_a_report_with_a_fault(self):
        with self.assertRaises(ReportFault) as raised:
            self.census.same(Codes.REPORT[:-8])
        self.assertEqual(raised.exception.line, 12)

    def test_a_program_that_lies(self):
        row = '{"code":"xs4_33","collection_name":"a","collection_name_hex":null,"name":"p","name_hex":null,"rule":"B3/S23"}'
        for body in ("echo no list", "echo '{}'; exit 5", "exit 1", "exit 5", f"echo '{row}'; exit 5", f"echo '{row}'; echo '{row}'"):
            with self.subTest(body), self.assertRaises(ProgramFailed):
                self.script(body).same(Codes.REPORT)


class AtTheStart(Room):
    """`starts`."""

    def test_patterns_of_two_folders(self):
        one = self.folder("a", r="x = 3, y = 3\nb2o$2o$bo!", broken="x = 3, y = 3\nb2o")
        other = self.folder("b", glider=GLIDER, mirrored="x = 3, y = 3\n2o$b2o$bo!", rule="x = 3, y = 3, rule = B36/S23\nb2o$2o$bo!")
        wanted = [Same("B3/S23", "_172", ((one, "r.rle"), (other, "mirrored.rle")))]
        self.assertEqual(self.census.starts([one, other]), wanted)
        self.assertEqual(self.census.starts([self.room], recursive=True), wanted)
        self.assertEqual(self.census.starts([other]), [])
        self.assertEqual(self.census.starts([]), [])

    def test_a_folder_that_is_missing(self):
        missing = os.path.join(self.room, "missing")
        with self.assertRaises(ReadFailed) as raised:
            self.census.starts([missing])
        self.assertEqual(raised.exception.place, missing)


class Compared(Room):
    """`verify`."""

    CLAIMS = "name,code,period\np,xs4_33,1\nq r,xp2_7,3\nt,,\n"

    def test_claims_of_two_reports(self):
        wanted = [Disagreement("wrong", "q r period 3 2"), Disagreement("missing", "t"), Disagreement("unclaimed", "b/s")]
        self.assertEqual(self.census.verify(self.CLAIMS, Codes.REPORT), wanted)
        self.assertEqual(self.census.verify(self.CLAIMS.encode(), Codes.REPORT.encode()), wanted)
        self.assertEqual(self.census.verify("name,apgcode\n", "end 0 0\n"), [])

    def test_claims_and_reports_with_faults(self):
        with self.assertRaises(ClaimFault) as raised:
            self.census.verify("name,period\na,x\n", Codes.REPORT)
        self.assertEqual((raised.exception.line, raised.exception.place), (2, "line 2"))
        with self.assertRaises(ClaimFault) as raised:
            self.census.verify("name,lifespan\np,1\n", Codes.REPORT)
        self.assertEqual(raised.exception.line, 1)
        with self.assertRaises(ReportFault) as raised:
            self.census.verify(self.CLAIMS, Codes.REPORT[:-8])
        self.assertEqual(raised.exception.line, 12)

    def test_a_program_that_lies(self):
        for body in ("echo nothing", "echo missing", "exit 1", "exit 5", "echo missing a", "echo other a; exit 5"):
            with self.subTest(body), self.assertRaises(ProgramFailed):
                self.script(body).verify(self.CLAIMS, Codes.REPORT)


class Merged(Room):
    """`merge`, and `table` of reports."""

    def test_lists_and_texts(self):
        two = Codes.REPORT + Codes.REPORT
        wanted = subprocess.run([PROGRAM, "merge"], input=two.encode(), stdout=subprocess.PIPE, check=True).stdout.decode()
        for given in (two, two.encode(), [Codes.REPORT, Codes.REPORT.encode()], iter([Codes.REPORT] * 2), [two], ["end 0 0\n", bytearray(two.encode())]):
            with self.subTest(given):
                self.assertEqual(self.census.merge(given), wanted)
        self.assertEqual((self.census.merge([]), self.census.merge("end 0 0\n")), ("end 0 0\n", "end 0 0\n"))
        for given in (None, 3, [3], [None]):
            with self.subTest(given), self.assertRaises(TypeError):
                self.census.merge(given)

    def test_names_that_are_not_utf_8(self):
        merged = self.census.merge([Reports.INTERLEAVED, Reports.INTERLEAVED])
        self.assertEqual(read_report(merged), read_report(Reports.INTERLEAVED * 2))
        self.assertEqual(self.census.merge(merged), merged)

    def test_reports_with_faults(self):
        for given, index, line, place in (([Codes.REPORT, Codes.REPORT[:-8]], 1, 12, "reports[1], line 12"), ([b"x"], 0, 1, "reports[0], line 1"),
                                          (Codes.REPORT + "x", None, 13, "line 13"), ("", None, 1, "line 1")):
            with self.subTest(given), self.assertRaises(ReportFault) as caught:
                self.census.merge(given)
            self.assertEqual((caught.exception.index, caught.exception.line, caught.exception.place), (index, line, place))
        with self.assertRaises(CensusError) as caught:
            self.census.merge([Codes.REPORT, "\ud800"])
        self.assertEqual(caught.exception.place, "reports[1], character 0")
        many = "".join(f"open {c} 0 a\nclose {c} 0 0 0 0\n" for c in range(1, 40001)) + "end 40000 0\n"
        for given in (many * 2, [many, many]):
            with self.assertRaises(FolderFault) as caught:
                self.census.merge(given)
            self.assertEqual((caught.exception.number, caught.exception.place), (3, "reports[1]"))

    def test_what_was_cut(self):
        whole = Codes.REPORT[:Codes.REPORT.index("end")]
        merged = self.census.merge([whole + "open 2 1 c\n", Codes.REPORT], cut=True)
        self.assertEqual([(row.collection, row.name) for row in read_report(merged)],
                         [(1, "p"), (1, "q r"), (2, "p"), (2, "q r"), (3, "s")])

    def test_a_program_that_lies(self):
        for body in ("echo no report", "exit 1", "printf 'end 1 1'", "echo 'census: report fault at line 1' >&2; exit 1", "echo; exit 0"):
            for given in (Codes.REPORT, [Codes.REPORT]):
                with self.subTest((body, given)), self.assertRaises(ProgramFailed):
                    self.script(body).merge(given)

    def test_tables_of_reports(self):
        program, calls = self.counted()
        for given in (Codes.REPORT, Reports.INTERLEAVED, bytearray(Reports.GROWING)):
            self.assertEqual(program.table(given), read_report(given))
        with self.assertRaises(ReportFault):
            program.table(Codes.REPORT[:-8])
        for options in ({"objects": True}, {"near": True}, {"bound": 5}, {"workers": 1}, {"cells": 5}, {"horizon": 5}):
            with self.subTest(options), self.assertRaises(TypeError):
                program.table(Codes.REPORT, **options)
        for command in (program.run, program.objects):
            with self.subTest(command), self.assertRaises(TypeError):
                command(Codes.REPORT)
        self.assertEqual(calls(), 0)


class Pages(Room):
    """`page`."""

    def test_as_the_program_writes_it(self):
        for options, words in (({}, []), ({"title": "A <b>", "note": "caf\u00e9", "sort": "code", "top": 1}, ["--title=A <b>", "--note=caf\u00e9", "--sort=code", "--top=1"]),
                               ({"base": "https://example.org/", "links": True, "patterns": False}, ["--base=https://example.org/", "--links", "--no-patterns"])):
            wanted = subprocess.run([PROGRAM, "page", *words], input=Codes.REPORT.encode(), stdout=subprocess.PIPE, check=True).stdout.decode()
            for given in (Codes.REPORT, Codes.REPORT.encode()):
                with self.subTest(options):
                    self.assertEqual(self.census.page(given, **options), wanted)
        self.assertIn("<title>A &lt;b&gt;</title>", self.census.page("end 0 0\n", title="A <b>"))
        for names in ({"xs4_33": "a <block>"}, "xs4_33\ta <block>\n"):
            self.assertIn("<b>a &lt;block&gt;</b>", self.census.page(Codes.REPORT, names=names, sort="rare"))
        self.assertIn("</html>", self.census.page(Reports.INTERLEAVED))

    def test_what_is_refused(self):
        program, calls = self.counted()
        for options in ({"sort": "size"}, {"top": 0}, {"top": 2 ** 32}, {"base": "ftp://example.org/"}):
            with self.subTest(options), self.assertRaises(ValueError):
                program.page(Codes.REPORT, **options)
        for title in ("\ud800", "a\0b"):
            with self.subTest(title), self.assertRaises(CensusError):
                program.page(Codes.REPORT, title=title)
        for names in ({"xs4_33": ""}, {"": "block"}, {"xs4\t_33": "block"}, {"#xs4_33": "block"}, {"xs4_33": "a\nb"}, {"xs4_33": "block\r"}):
            with self.subTest(names), self.assertRaises((ValueError, NamesFault)):
                program.page(Codes.REPORT, names=names)
        self.assertEqual(calls(), 0)
        with self.assertRaises(ReportFault) as caught:
            program.page(Codes.REPORT[:-8])
        self.assertEqual(caught.exception.line, 12)

    def test_orders(self):
        """The program takes these orders and no other."""
        for order in (*census._ORDERS, "size"):
            ran = subprocess.run([PROGRAM, "page", f"--sort={order}"], input=b"end 0 0\n", stdout=subprocess.DEVNULL, stderr=subprocess.DEVNULL, check=False)
            self.assertEqual(ran.returncode == 0, order != "size")

    def test_a_program_that_lies(self):
        for body in ("echo no page", "exit 1", "echo '<!DOCTYPE html>'"):
            with self.subTest(body), self.assertRaises(ProgramFailed):
                self.script(body).page(Codes.REPORT)


class Names(Room):
    """Names of codes."""

    TEXT = "# a comment\n\nxs4_33\tblock\r\nxq4_153\tglider\nxp2_7\ta\tb\nx\t\u00e9"
    NAMES = {"xs4_33": "block", "xq4_153": "glider", "xp2_7": "a\tb", "x": "\u00e9"}

    def test_texts(self):
        for given in (self.TEXT, self.TEXT.encode(), bytearray(self.TEXT.encode())):
            self.assertEqual(read_names(given), self.NAMES)
        self.assertEqual(read_names(""), {})
        self.assertEqual(read_names(b"xs4_33\t\xff"), {"xs4_33": "\udcff"})
        for text, line in (("xs4_33", 1), ("\tblock", 1), ("xs4_33\t\r", 1), ("# a\nx\ty\n\nx\ty\n", 4), (" # a", 1)):
            with self.subTest(text), self.assertRaises(NamesFault) as caught:
                read_names(text)
            self.assertEqual((caught.exception.line, caught.exception.place), (line, f"line {line}"))

    def test_everywhere(self):
        for names in (self.TEXT, self.TEXT.encode(), self.NAMES):
            self.assertEqual(self.census.identify(BLOCK, names=names).common_name, "block")
            found = self.census.identify_many([GLIDER, FAULTY, R_PENTOMINO], bound=2000, names=names, return_exceptions=True)
            self.assertEqual([getattr(it, "common_name", 0) for it in found], ["glider", 0, None])
            folder = [f"{EXAMPLES}/spaceships"]
            for rows in (self.census.table(folder, names=names), self.census.run(folder, names=names), self.census.run(texts=[GLIDER, "3o!"], names=names)):
                self.assertEqual([row.common_name for row in rows], ["glider", None])
            self.assertEqual(self.census.objects(texts=[GLIDER], names=names)[0].common_name, "glider")
            self.assertEqual([row.common_name for row in read_report(Codes.REPORT, names=names)], ["block", "a\tb", "block"])
            self.assertEqual([row.common_name for row in self.census.table(Codes.REPORT, names=names)], ["block", "a\tb", "block"])
            self.assertEqual([code.common_name for code in self.census.codes(Codes.REPORT, names=names)], ["block", "a\tb"])
        self.assertIsNone(self.census.identify(BLOCK).common_name)

    def test_faults_come_first(self):
        program, calls = self.counted()
        for call in (lambda it: program.identify(FAULTY, names=it), lambda it: program.identify_many([FAULTY], names=it), lambda it: program.table(["none"], names=it),
                     lambda it: program.run(texts=[BLOCK], names=it), lambda it: program.objects(["none"], names=it), lambda it: program.codes("x", names=it),
                     lambda it: read_report("x", names=it)):
            with self.assertRaises(NamesFault) as caught:
                call("xs4_33\n")
            self.assertEqual((caught.exception.line, caught.exception.sentence.split(":")[0]), (1, "a line is not one of a name"))
        self.assertEqual(calls(), 0)

    def test_as_the_program_reads_them(self):
        """What `census --names` accepts, its line of a fault, and the names that it gives."""
        chance = random.Random("names")
        room = self.folder("names")

        def differs(number):
            parts = chance.choices(["xs4_33", "xp2_7", "a", "\t", "\t", "\t", "\n", "\n", "\r", "#", " ", "\u00e9"], k=chance.randrange(12))
            text = "".join(parts).encode()
            path = os.path.join(room, str(number))
            with open(path, "wb") as it:
                it.write(text)
            ran = subprocess.run([PROGRAM, "identify", "--json", f"--names={path}"], input=BLOCK.encode(), stdout=subprocess.PIPE, stderr=subprocess.PIPE, check=False)
            try:
                wanted = json.loads(ran.stdout).get("name") if ran.returncode == 0 else ran.stderr
                found = read_names(text).get("xs4_33")
            except NamesFault as fault:
                found = b"census: %s: names fault at line %d\n" % (path.encode(), fault.line)
            return None if wanted == found else (text, wanted, found)

        self.assertEqual([it for it in map(differs, range(400)) if it], [])

    def test_the_names_that_stand_in_examples(self):
        """Each code is the one that the program gives for what it draws of it, each name stands once, and what a thousand soups leave is named."""
        with open(f"{EXAMPLES}/names.tsv", "rb") as it:
            names = read_names(it.read())
        with open(f"{ROOT}/checks/soups.txt", encoding="ascii") as it:
            self.assertEqual({line.split()[0] for line in it} - set(names), set())
        self.assertEqual(len(set(names.values())), len(names))
        for name in names.values():
            self.assertRegex(name, r"\A[!-~]([ -~]*[!-~])?\Z")
        with ThreadPoolExecutor(4) as pool:
            drawn = list(pool.map(self.census.draw, names))
        self.assertEqual([(row.apgcode, row.common_name) for row in self.census.run(texts=drawn, names=names)], list(names.items()))


class LaterAndDrawn(Room):
    """`advance` and `draw`."""

    def test_a_blinker_turns(self):
        self.assertEqual(self.census.advance(BLINKER, 1), "x = 1, y = 3, rule = B3/S23\no$o$o!\n")
        self.assertEqual(self.census.advance(BLINKER.encode(), 1_000_000), BLINKER)

    def test_a_text_with_a_fault(self):
        with self.assertRaises(PatternFault) as raised:
            self.census.advance("x = 3, y = 1\n3q!", 1)
        fault = raised.exception
        self.assertEqual((fault.number, fault.line, fault.column, fault.at), (5, 2, 2, 14))
        with self.assertRaises(PatternFault) as raised:
            self.census.advance("", 1)
        self.assertEqual((raised.exception.number, raised.exception.at), (1, None))

    def test_generations_out_of_range(self):
        for generations in (-1, 4_194_305):
            with self.assertRaises(ValueError) as raised:
                self.census.advance(BLINKER, generations)
            self.assertEqual(str(raised.exception), f"generations must be 0 to 4194304, not {generations}")
        with self.assertRaises(TypeError):
            self.census.advance(BLINKER, 1.0)

    def test_too_many_cells(self):
        self.assertEqual(self.census.advance(BLINKER, 1, cells=3), "x = 1, y = 3, rule = B3/S23\no$o$o!\n")
        for cells, generation in ((4, 0), (5, 1), (318, 821)):
            with self.subTest(cells), self.assertRaises(TooManyCells) as raised:
                self.census.advance(R_PENTOMINO, 1000, cells=cells)
            self.assertEqual((raised.exception.cells, raised.exception.generation), (cells, generation))
            self.assertEqual(str(raised.exception), f"generation {generation}: there are more than {cells} cells")
        with self.assertRaises(ValueError):
            self.census.advance(BLINKER, 1, cells=0)

    def test_a_code_is_drawn(self):
        self.assertEqual(self.census.draw("xq4_153"), "x = 3, y = 3, rule = B3/S23\n3o$2bo$bo!\n")
        self.assertEqual(self.census.draw("33", "B36/S23"), "x = 2, y = 2, rule = B36/S23\n2o$2o!\n")
        self.assertEqual(self.census.draw("xs0_0"), "x = 0, y = 0, rule = B3/S23\n!\n")

    def test_a_code_with_a_fault(self):
        for code, number, place in (("xs4_", 1, "byte 4"), ("xs4_3!", 2, "byte 5"), ("xs4_3\n", 2, "byte 5"), ("--help", 2, "byte 0")):
            with self.subTest(code), self.assertRaises(CodeFault) as raised:
                self.census.draw(code)
            self.assertEqual((raised.exception.number, raised.exception.place), (number, place))

    def test_a_rule_with_a_fault(self):
        for rule, number in (("HighLife", 1), ("B03/S23", 2), ("", 1), ("-h", 1)):
            with self.subTest(rule), self.assertRaises(RuleFault) as raised:
                self.census.draw("33", rule)
            self.assertEqual(raised.exception.number, number)

    def test_a_program_that_lies(self):
        for body in ("echo no text", "exit 1", "echo 'census: rle fault 5' >&2; exit 1", "printf 'x = 1, y = 1, rule = B3/S23\\no!'"):
            with self.subTest(body), self.assertRaises(ProgramFailed):
                self.script(body).advance(BLINKER, 1)
            with self.subTest(body), self.assertRaises(ProgramFailed):
                self.script(body).draw("33")
        with self.assertRaises(OutOfMemory):
            self.script("exit 3").draw("33")

    def test_run_and_objects_are_tables(self):
        folders = [f"{EXAMPLES}/spaceships", f"{EXAMPLES}/methuselahs"]
        self.assertEqual(self.census.run(folders, bound=100), self.census.table(folders, bound=100))
        for near in (False, True):
            table = self.census.table(folders, objects=True, near=near, bound=200)
            self.assertEqual(self.census.objects(folders, near=near, bound=200), table)

    def test_the_program_on_the_path(self):
        os.symlink(PROGRAM, os.path.join(self.room, "census"))
        with mock.patch.dict(os.environ, {"PATH": self.room}):
            self.assertEqual(Census().identify(BLOCK).apgcode, "xs4_33")


class Wheel(Room):
    """What pip installs."""

    def test_wheel(self):
        name = build_wheel.build_wheel(self.room)
        said = subprocess.run([PROGRAM, "--version"], stdout=subprocess.PIPE, check=True).stdout.decode().split()[1]
        self.assertEqual(name, f"census_of_patterns-{said}-py3-none-any.whl")
        head = f"census_of_patterns-{said}.dist-info"
        with zipfile.ZipFile(os.path.join(self.room, name)) as wheel:
            files = {it: wheel.read(it) for it in wheel.namelist()}
        self.assertEqual(set(files), {"census/__init__.py", "census/py.typed", f"{head}/METADATA", f"{head}/WHEEL", f"{head}/RECORD"})
        with open(census.__file__, "rb") as it:
            self.assertEqual(files["census/__init__.py"], it.read())
        record = files.pop(f"{head}/RECORD").decode().split("\n")
        wanted = [
            f"{it},sha256={base64.urlsafe_b64encode(hashlib.sha256(content).digest()).decode().rstrip('=')},{len(content)}" for it, content in files.items()
        ]
        self.assertEqual(record, [*wanted, f"{head}/RECORD,,", ""])
        asked = "import sys; sys.path.insert(0, sys.argv[1]); import census; print(census.Census(sys.argv[2]).identify(sys.argv[3]).apgcode)"
        words = [sys.executable, "-B", "-I", "-c", asked, os.path.join(self.room, name), PROGRAM, BLOCK]
        self.assertEqual(subprocess.run(words, stdout=subprocess.PIPE, check=True).stdout, b"xs4_33\n")


class Module(unittest.TestCase):
    def test_standard_library_alone(self):
        with open(census.__file__, encoding="utf-8") as it:
            tree = ast.parse(it.read(), feature_version=(3, 8))
        names = {node.module for node in ast.walk(tree) if isinstance(node, ast.ImportFrom)}
        names |= {alias.name for node in ast.walk(tree) if isinstance(node, ast.Import) for alias in node.names}
        self.assertEqual(names, {"__future__", "dataclasses", "errno", "json", "operator", "os", "re", "shutil", "signal", "subprocess", "tempfile", "typing"})

    def test_examples(self):
        before = os.getcwd()
        self.addCleanup(os.chdir, before)
        os.chdir(ROOT)
        for found in (doctest.testfile(os.path.join(HERE, "README.md"), module_relative=False), doctest.testmod(census)):
            self.assertGreater(found.attempted, 0)
            self.assertEqual(found.failed, 0)

    def test_all_names(self):
        for name in census.__all__:
            self.assertTrue(getattr(census, name).__doc__, name)


if __name__ == "__main__":
    unittest.main()
