#!/usr/bin/env python3
"""What `objects` answers with `--near` and without, worked out by a program that shares nothing with `census`; all else as patterns.py
answers it.

    checks/reference/parts.py objects [--near] [--bound N] [--horizon N] [--workers N] [FOLDER..]

With `--near` it reports the objects of objects.py, and those that the engines of growth.py leave. Without it, it reports the independent
parts of these objects, by the definition: cells are tied that touch, that stay, or that bear one another, and so are sets that would
make of a place, each alone, something else than is made of it. The parts are the classes of what is tied, which are followed round the
cycle until they come back.
"""
import os
import sys

import growth as G
import objects as O
import patterns as R

AROUND = [(i, j) for j in (-1, 0, 1) for i in (-1, 0, 1) if i or j]


# ------------------------------------------------------------------ islands, and the places between them
def islands_of(cells):
    """The island of each cell, as a number: cells that touch are of one island."""
    found = {}
    for first in cells:
        if first in found:
            continue
        number = found[first] = len(found)
        todo = [first]
        while todo:
            x, y = todo.pop()
            for i, j in AROUND:
                cell = (x + i, y + j)
                if cell in cells and cell not in found:
                    found[cell] = number
                    todo.append(cell)
    return found


def groupings(names):
    """All ways to put names into groups."""
    if not names:
        yield []
        return
    first, rest = names[0], names[1:]
    for groups in groupings(rest):
        yield [[first]] + groups
        for at, group in enumerate(groups):
            yield groups[:at] + [[first] + group] + groups[at + 1:]


UNFAIR = "unfair"
_verdicts = {}


def verdicts(births, counts):
    """For a place that islands stand around, each with a number of cells that touch it: the groupings into several groups, each with its
    verdict. It is None where nothing is born there and none of the groups, alone, would bear it; a group where it is born and only that
    group would bear it; and otherwise UNFAIR. Groupings into more groups come first."""
    key = (births, counts)
    if key not in _verdicts:
        found = []
        is_born = sum(counts) in births
        for groups in groupings(list(range(len(counts)))):
            if len(groups) == 1:
                continue
            bearing = [group for group in groups if sum(counts[at] for at in group) in births]
            if is_born:
                verdict = bearing[0] if len(bearing) == 1 else UNFAIR
            else:
                verdict = UNFAIR if bearing else None
            found.append((groups, verdict))
        found.sort(key=lambda pair: -len(pair[0]))
        _verdicts[key] = [] if all(verdict is None for _, verdict in found) else found
    return _verdicts[key]


def ties_of(births, now, then):
    """What ties the cells of a generation and of the next one: the island of each cell; the one island that each cell of the next
    generation comes from, where it is one; and the places that several islands stand around: these, the verdicts on their groupings, and
    the cell that is born there, or None."""
    islands = islands_of(now)
    standing = {}                                       # a place -> {island: how many of its cells touch the place}
    for (x, y), island in islands.items():
        for i, j in AROUND:
            place = (x + i, y + j)
            if place not in now:
                counts = standing.setdefault(place, {})
                counts[island] = counts.get(island, 0) + 1
    heirs = {cell: islands[cell] for cell in then if cell in now}
    places = []
    for place, counts in standing.items():
        born = place if place in then else None
        if len(counts) == 1:
            if born:
                heirs[born] = next(iter(counts))
        else:
            found = verdicts(births, tuple(counts.values()))
            if found or born:
                places.append((tuple(counts), found, born))
    return islands, heirs, places


# ------------------------------------------------------------------ what is tied, round the cycle
class Labels:
    """Labels, some of which are one: a forest."""

    def __init__(self):
        self.above = {}

    def root(self, label):
        while label in self.above:
            label = self.above[label]
        return label

    def join(self, one, other):
        one, other = self.root(one), self.root(other)
        if one != other:
            self.above[max(one, other)] = min(one, other)


def tie_around(labels, roots, found):
    """Ties the islands around a place, whose labels are these roots, by each grouping that puts together only what is tied already.
    Gives the roots among which the label of what is born there is the first, and whether something was tied."""
    bearing = []
    for groups, verdict in found:
        if any(len({roots[at] for at in group}) > 1 for group in groups):
            continue
        if verdict == UNFAIR:
            bearing = roots
            break
        if verdict:
            bearing.append(roots[verdict[0]])
    for root in bearing[1:]:
        labels.join(root, bearing[0])
    return bearing or roots, len(set(bearing)) > 1


def one_generation_on(labels, told, ties):
    """The label of each cell of the next generation, where `told` has those of this one's cells."""
    islands, heirs, places = ties
    of_island = {}
    for cell, island in islands.items():
        labels.join(told[cell], of_island.setdefault(island, told[cell]))
    later = {cell: of_island[island] for cell, island in heirs.items()}
    tied = True
    while tied:                                         # until nothing more is tied in this generation
        tied = False
        for names, found, born in places:
            roots = [labels.root(of_island[name]) for name in names]
            if len(set(roots)) > 1:
                roots, more = tie_around(labels, roots, found)
                tied = tied or more
            if born is not None:
                later[born] = roots[0]
    return later


def independent_sets(rule, P):
    """Generation 0 of an object as sets: its cells by the classes of what is tied."""
    generations = [P.cells(n) for n in range(P.period + 1)]
    ties = [ties_of(rule[0], now, then) for now, then in zip(generations, generations[1:])]
    classes = {frozenset([cell]) for cell in generations[0]}
    while True:
        labels = Labels()
        told = {cell: number for number, one in enumerate(classes) for cell in one}
        for tie in ties:
            told = one_generation_on(labels, told, tie)
        back = {}
        for (x, y), label in told.items():
            back.setdefault(labels.root(label), set()).add((x - P.dx, y - P.dy))
        later = set(map(frozenset, back.values()))
        if later == classes:
            return [set(one) for one in classes]
        classes = later


# ------------------------------------------------------------------ parts
_parts = {}


def parts_of(rule, P):
    """The independent parts of an object, as of its generation 0; itself alone, where one of them takes too long to come again."""
    shape, x, y = P.phases[0]
    key = (rule, shape.w, shape.form)
    if key not in _parts:
        if len(_parts) > 20_000:
            _parts.clear()
        world, sets = O.world_of(rule), independent_sets(rule, P)
        found = [O.settled(world, *world.of((i - x, j - y) for i, j in one), O.OBJECTS_BOUND_LIMIT) for one in sets]
        _parts[key] = found if len(found) > 1 and all(found) else None
    if _parts[key] is None:
        return [P]
    return [O.Part([(s, i + x, j + y) for s, i, j in part.phases], part.dx, part.dy) for part in _parts[key]]


def decide_in_parts(rule, cells, bound, horizon):
    """What becomes of a set, reported in independent parts."""
    return G.decide(rule, cells, bound, horizon, parts_of)


# ------------------------------------------------------------------ words
def without_near(words):
    """The words without `--near`, and whether it was there; after `--` it is a folder."""
    plain, rest, is_near = False, [], False
    for word in words:
        plain = plain or word == "--"
        if word == "--near" and not plain and (not rest or rest[-1] not in O.COUNTS):
            if is_near:
                raise R.Usage()
            is_near = True
        else:
            rest.append(word)
    return rest, is_near


_dispatch = R.dispatch


def dispatch(args, stdin):
    if args[:1] != ["objects"]:
        return _dispatch(args, stdin)
    words, is_near = without_near(args[1:])
    return O.dispatch(words, stdin, G.decide if is_near else decide_in_parts)


if __name__ == "__main__":
    R.dispatch = dispatch
    status = R.main()
    sys.stdout.flush()
    sys.stderr.flush()
    os._exit(status)
