"""The engines by which a pattern grows for ever, that is the guns, puffers and rakes, worked out by a program that shares nothing with
`census`; the command is that of parts.py.

Near, apart and ash are those of objects.py. A set settles within b where its generation b has an ash within b. It is undivided within b
where it isn't empty and isn't two sets that are apart for b generations. A growth is a set that is made up of engines, at least one,
and of debris, all apart for ever, the debris settling within b. An engine of period p, from 1 to b, has cores: the first is the engine,
number p is the engine moved, and is the first of which that is true. Each is undivided within b, and is a part of the next generation of
the core before it, apart for ever from the rest, which leaves, and which settles within b. Of what leaves in a period something lives on.
A pattern grows where the generation of the bound has a growth within h, which is the horizon, or the bound where that is less. Where an
earlier generation has a growth, or within less than h, so has this one, by engines with the same report.

`growth_literal` decides by the definition, step by step. `growth_in_film` decides it from one film of the future. `growth_early` looks
at earlier generations and within fewer generations first, where the population has come to rise steadily.
"""
from collections import Counter
from functools import lru_cache
from math import gcd

import objects as O
import patterns as R

LITERAL_HORIZON = 60           # up to which the definition is taken step by step
EARLY_BOUND = 400              # within which an ash is sought before growth is


# ------------------------------------------------------------------ is there a sum of whole multiples from 0 on?
def echelon(columns):
    """Of columns of three numbers: the columns in echelon form, each as a sum of multiples of the given ones, and the places where the
    form's columns begin. It is come to by taking multiples of one column from another, so that the sums stay the same."""
    form = [list(column) for column in columns]
    sums = [[int(i == j) for i in range(len(columns))] for j in range(len(columns))]
    at, places = 0, []
    for place in range(3):
        while some := [j for j in range(at, len(columns)) if form[j][place]]:
            j = min(some, key=lambda j: abs(form[j][place]))
            form[at], form[j], sums[at], sums[j] = form[j], form[at], sums[j], sums[at]
            for k in range(at + 1, len(columns)):
                f = form[k][place] // form[at][place]
                form[k] = [a - f * b for a, b in zip(form[k], form[at])]
                sums[k] = [a - f * b for a, b in zip(sums[k], sums[at])]
            if not any(form[k][place] for k in range(at + 1, len(columns))):
                places.append(place)
                at += 1
                break
    return sums, form, places


def on_line(base, way):
    """Is there a whole m with base + m way from 0 on in every place?"""
    low = high = None
    for b, w in zip(base, way):
        if w == 0:
            if b < 0:
                return False
        elif w > 0:
            least = -(b // w)
            low = least if low is None else max(low, least)
        else:
            most = b // -w
            high = most if high is None else min(high, most)
    return low is None or high is None or low <= high


def bezout(p, q):
    """For p and q without a common divisor: (u, v) with u p + v q = 1."""
    if q == 0:
        return (1 if p > 0 else -1), 0
    u, v = bezout(q, p % q)
    return v, u - p // q * v


def is_wide(halves):
    """Is there a direction that leads inside all half planes (a, c, f), those of the (m, n) with a m + c n from f on? It is a normal
    of one of them, or lies between two borders."""
    borders = [v for a, c, _ in halves for v in ((-c, a), (c, -a))]
    inside = [v for v in borders if all(a * v[0] + c * v[1] >= 0 for a, c, _ in halves)]
    some = [(a, c) for a, c, _ in halves] + [(u[0] + v[0], u[1] + v[1]) for u in inside for v in inside]
    return any(all(a * x + c * y > 0 for a, c, _ in halves) for x, y in some)


def most_of(halves, a, c):
    """The greatest whole number that a m + c n may be in all half planes, as far as one or two of them say so; None where they don't."""
    found = []
    for j, (x, y, f) in enumerate(halves):
        if x * c == y * a and x * a + y * c < 0:        # (x, y) is (a, c) times a negative number
            u, v = (abs(x), abs(a)) if a else (abs(y), abs(c))
            found.append(-f * v // u)
        for x2, y2, f2 in halves[:j]:                   # (a, c) + s (x, y) + t (x2, y2) = 0 with s and t above 0, all times det
            det = x * y2 - y * x2
            s, t = c * x2 - a * y2, y * a - x * c
            if det < 0:
                det, s, t = -det, -s, -t
            if det and s > 0 and t > 0:
                found.append((-s * f - t * f2) // det)
    return min(found, default=None)


def in_plane(base, one, two):
    """Are there whole m and n with base + m one + n two from 0 on in every place?"""
    halves = []
    for b, a, c in zip(base, one, two):
        if a or c:
            halves.append((a, c, -b))
        elif b < 0:
            return False
    if not halves or is_wide(halves):
        return True                                     # far that way there are squares as large as one likes
    # else it lies between two lines: the whole values between them are gone through
    a, c, least, most = next((a, c, f, most) for a, c, f in halves for most in [most_of(halves, a, c)] if most is not None)
    common = gcd(a, c)
    a, c = a // common, c // common
    u, v = bezout(a, c)
    for k in range(-(-least // common), most // common + 1):
        m, n = u * k, v * k
        if on_line([b + m * p + n * q for b, p, q in zip(base, one, two)], [a * q - c * p for p, q in zip(one, two)]):
            return True
    return False


def cross(a, b):
    return a[1] * b[2] - a[2] * b[1], a[2] * b[0] - a[0] * b[2], a[0] * b[1] - a[1] * b[0]


class Cone:
    """The sums of whole multiples, from 0 on, of some columns of three numbers: time, x, y."""

    def __init__(self, columns):
        self.columns = columns
        self.sums, self.form, self.places = echelon(columns)
        self.walls = self._walls()

    def _walls(self):
        """Normals n with n . c from 0 on for each c of the cone."""
        units = [(1, 0, 0), (0, 1, 0), (0, 0, 1)]
        some = [cross(a, b) for a in self.columns for b in self.columns + units]
        some += [cross(n, a) for n in some for a in self.columns] + units
        walls = set()
        for n in some:
            k = gcd(*n)
            for s in (k, -k):
                if k and all(s * (n[0] * a + n[1] * b + n[2] * c) >= 0 for a, b, c in self.columns):
                    walls.add((n[0] // s, n[1] // s, n[2] // s))
        return sorted(walls)

    def has(self, c):
        times = []                                      # of each column of the form
        for place, column in zip(self.places, self.form):
            f, rest = divmod(c[place], column[place])
            if rest:
                return False
            times.append(f)
            c = [a - f * b for a, b in zip(c, column)]
        if any(c):
            return False
        base = [sum(f * some[i] for f, some in zip(times, self.sums)) for i in range(len(self.columns))]
        free = self.sums[len(self.places):]             # these sums are 0: any multiple of them may be added
        if len(free) == 0:
            return all(b >= 0 for b in base)
        if len(free) == 1:
            return on_line(base, free[0])
        assert len(free) == 2
        return in_plane(base, *free)


@lru_cache(maxsize=100_000)
def cone_of(columns):
    return Cone(list(columns))


# ------------------------------------------------------------------ what comes again and again, in space and time
class Thing:
    """Sets, each at a time, that come again: each of `phases`, which are (time, shape, x, y), comes moved by every sum of whole
    multiples, from 0 on, of the `ways`, which are (time, x, y) and at most two."""

    def __init__(self, phases, ways):
        self.phases = [f for f in phases if f[1].pop]
        self.ways = tuple(ways)
        self._reach = {}

    def reach(self, n):
        """The least and the greatest of n . c, for all places c at or about the boxes of the phases."""
        if n not in self._reach:
            at = [(n[0] * t + n[1] * x + n[2] * y, n[1] * (s.w + 1), n[2] * (s.h + 1)) for t, s, x, y in self.phases]
            self._reach[n] = (min(a + min(0, w) + min(0, h) for a, w, h in at), max(a + max(0, w) + max(0, h) for a, w, h in at))
        return self._reach[n]

    def moved(self, way):
        return Thing([(t + way[0], s, x + way[1], y + way[2]) for t, s, x, y in self.phases], self.ways)


def ever_near(X, Y):
    """Is a set of X near a set of Y at one time? Exactly: a phase of X comes at a + v, one of Y at b + w, with v a sum of X's ways and
    w of Y's. They come at one time, and Y's corner lies by `delta` from X's, where v - w is b - a - (0, delta)."""
    if not X.phases or not Y.phases:
        return False
    cone = cone_of(X.ways + tuple((-t, -x, -y) for t, x, y in Y.ways))
    if any(Y.reach(n)[1] < X.reach(n)[0] for n in cone.walls):
        return False                                    # all of Y lies beyond a wall
    step = gcd(*(t for t, _, _ in cone.columns))        # times at which both come differ by multiples of it
    by_time = {}
    for f in Y.phases:
        by_time.setdefault(f[0] % step if step else f[0], []).append(f)
    return any(phases_near(cone, f, g) for f in X.phases for g in by_time.get(f[0] % step if step else f[0], ()))


def phases_near(cone, f, g):
    """Does a copy of the phase f of one thing come near one of the phase g of another, the cone being that of their ways?"""
    (ta, s, xa, ya), (tb, r, xb, yb) = f, g
    t, x, y = tb - ta, xb - xa, yb - ya
    for n in cone.walls:
        most = n[0] * t + n[1] * x + n[2] * y
        if most + max(n[1] * (r.w + 1), -n[1] * (s.w + 1)) + max(n[2] * (r.h + 1), -n[2] * (s.h + 1)) < 0:
            return False                                # whatever the delta
    for dy in range(-r.h - 1, s.h + 2):
        low, high = -r.w - 1, s.w + 1
        for n in cone.walls:                            # n[1] dx is at most `most`, else it is beyond the wall
            most = n[0] * t + n[1] * x + n[2] * (y - dy)
            if n[1] > 0:
                high = min(high, most // n[1])
            elif n[1] < 0:
                low = max(low, -(most // -n[1]))
            elif most < 0:
                high = low - 1
        if any(cone.has((t, x - dx, y - dy)) and O.near(s, 0, 0, r, dx, dy) for dx in range(low, high + 1)):
            return True
    return False


def phases_of(world, age, cells, count):
    """Generations 0 to `count` - 1 of a set, the first at the time `age`."""
    s, x, y = world.of(cells)
    phases = []
    for n in range(count):
        phases.append((age + n, s, x, y))
        s, dx, dy = world.next(s)
        x, y = x + dx, y + dy
    return phases


def part_thing(age, P, ways=()):
    """A part that is its generation 0 at the time `age`: it comes again after its period, and moved by the ways."""
    return Thing([(age + n, s, x, y) for n, (s, x, y) in enumerate(P.phases)], [(P.period, P.dx, P.dy), *ways])


# ------------------------------------------------------------------ a film: what is near, generation by generation
class Forest:
    """Names, some of which are one."""

    def __init__(self, names=()):
        self.above = {name: name for name in names}

    def root(self, name):
        while self.above[name] != name:
            self.above[name] = self.above[self.above[name]]
            name = self.above[name]
        return name

    def join(self, one, other):
        """Whether they were two till now."""
        one, other = self.root(one), self.root(other)
        self.above[other] = one
        return one != other

    def groups(self, names):
        found = {}
        for name in names:
            found.setdefault(self.root(name), []).append(name)
        return list(found.values())


_pieces = {}


def pieces(world, s):
    """The next generation of a shape as the finest sets that are apart: [(shape, dx, dy)]."""
    if s not in _pieces:
        if len(_pieces) > 400_000:
            _pieces.clear()
        t, dx, dy = world.next(s)
        sets = O.near_classes(t.cells()) if t.pop else []
        some = [(t, 0, 0)] if len(sets) == 1 else map(world.of, sets)
        _pieces[s] = [(u, x + dx, y + dy) for u, x, y in some]
    return _pieces[s]


class Film:
    """Generations of a set, each as the finest sets that are apart: nodes[n] are those of generation n, as (shape, x, y), and kids[n][i]
    are the numbers of those nodes of generation n + 1 that have cells which come from node i."""

    def __init__(self, rule, cells):
        self.world = O.world_of(rule)
        self.nodes = [[self.world.of(one) for one in O.near_classes(cells)]]
        self.kids = []

    def run(self, length):
        for _ in range(length):
            self._step()

    def _step(self):
        born = [(s, x + dx, y + dy, i) for i, (t, x, y) in enumerate(self.nodes[-1]) for s, dx, dy in pieces(self.world, t)]
        forest, grid = Forest(range(len(born))), {}
        for i, (s, x, y, _) in enumerate(born):         # sets of two nodes may be near: looked up by squares of 16 by 16
            seen = set()
            for u in range((x - 2) >> 4, ((x + s.w + 1) >> 4) + 1):
                for v in range((y - 2) >> 4, ((y + s.h + 1) >> 4) + 1):
                    here = grid.setdefault((u, v), [])
                    for j in here:
                        if j not in seen:
                            seen.add(j)
                            if forest.root(i) != forest.root(j) and O.near(s, x, y, *born[j][:3]):
                                forest.join(i, j)
                    here.append(i)
        nodes, kids = [], [[] for _ in self.nodes[-1]]
        for group in forest.groups(range(len(born))):
            some = [born[i] for i in group]
            for i in {i for *_, i in some}:
                kids[i].append(len(nodes))
            nodes.append(some[0][:3] if len(some) == 1 else self.world.of((x + a, y + b) for s, x, y, _ in some for a, b in s.cells()))
        self.nodes.append(nodes)
        self.kids.append(kids)

    def classes(self, last):
        """For each n up to `last` the finest splitting of generation n that is apart up to the film's end, each class as its nodes. It
        is read backwards: what has cells that come from it is in its class."""
        forest, found = Forest(), {}
        for n in range(len(self.nodes) - 1, -1, -1):
            forest.above.update(((n, i), (n, i)) for i in range(len(self.nodes[n])))
            for i, kids in enumerate(self.kids[n] if n < len(self.kids) else []):
                for k in kids:
                    forest.join((n, i), (n + 1, k))
            if n <= last:
                found[n] = [[i for _, i in one] for one in forest.groups((n, i) for i in range(len(self.nodes[n])))]
        return found

    def lives(self, nodes):
        """Does something that comes from these nodes of generation 0 live at the film's end?"""
        for kids in self.kids:
            nodes = {k for i in nodes for k in kids[i]}
        return bool(nodes)

    def cells(self, n, nodes):
        return {(x + a, y + b) for i in nodes for s, x, y in [self.nodes[n][i]] for a, b in s.cells()}

    def form(self, n, nodes):
        """What is the same for sets that are the same but moved, and the corner."""
        some = [self.nodes[n][i] for i in nodes]
        mx, my = min(x for _, x, _ in some), min(y for _, _, y in some)
        return sorted((x - mx, y - my, id(s)) for s, x, y in some), (mx, my)


# ------------------------------------------------------------------ what settles
_settled = {}


def settles(rule, cells, b):
    """Where the set settles within b: an age up to b at which it has an ash, and the parts of it; else None."""
    if not cells:
        return 0, []
    s, x, y = O.world_of(rule).of(cells)
    if (s, b) not in _settled:
        if len(_settled) > 50_000:
            _settled.clear()
        _settled[s, b] = settles_at(rule, s.cells(), b)
    if _settled[s, b] is None:
        return None
    age, parts = _settled[s, b]
    return age, [O.Part([(t, i + x, j + y) for t, i, j in P.phases], P.dx, P.dy) for P in parts]


def settles_at(rule, cells, b):
    """The same for one set, which isn't kept. An ash of a generation up to b within up to b generations gives that of generation b."""
    walk = O.Walk(rule, cells)
    wait, pops = 0, []
    for age in range(b):
        pops.append(walk.count())
        if not pops[-1]:
            return age, []
        if age >= wait and (age < 4 or O._steady(pops) or age % 64 == 0):
            for h in (4, 16, 64, 240):
                parts = O.ash_of(rule, walk.cells(), h) if h < b else None
                if parts is not None:
                    return age, parts
            wait = age + max(8, age // 8)
        walk.step(rule)
    parts = O.ash_of(rule, walk.cells(), b)
    return None if parts is None else (b, parts)


# ------------------------------------------------------------------ engines
class Engine:
    """`cores` are the cores 0 to p - 1, as (shape, x, y); `left` is what leaves, as (n, cells) where it stands with core n."""

    def __init__(self, rule, cores, move, left, b):
        self.world, self.cores, self.move, self.left = O.world_of(rule), cores, move, left
        self.period = len(cores)
        self.ashes = []
        for _, cells in left:
            self.ashes.append(settles(rule, cells, b))
            if self.ashes[-1] is None:
                break

    def is_engine(self):
        """What leaves settles, and something of it lives on; and it is apart for ever from the core, and from what leaves later."""
        return all(self.ashes) and any(parts for _, parts in self.ashes) and self.keeps_apart()

    def things(self):
        """The core, and a list for each time at which something leaves: what that is until it has settled, and its parts."""
        way = (self.period, *self.move)
        core = Thing([(n, s, x, y) for n, (s, x, y) in enumerate(self.cores)], [way])
        left = []
        for (n, cells), (age, parts) in zip(self.left, self.ashes):
            young = Thing(phases_of(self.world, n, cells, age), [way])
            left.append([young] + [part_thing(n + age, P, [way]) for P in parts])
        return core, left

    def all_things(self):
        core, left = self.things()
        return [core] + [t for some in left for t in some]

    def keeps_apart(self):
        way = (self.period, *self.move)
        core, left = self.things()
        for k, some in enumerate(left):
            if any(len(t.ways) == 2 and not any(cross(t.ways[0], way)) for t in some):
                return False                            # as fast as the engine, it would be where its copy is that left later
            if any(ever_near(core, t) for t in some):
                return False
            if any(ever_near(t, u) for other in left[:k] for t in some for u in other):
                return False                            # near what left at another time
            later = [t.moved(way) for t in some]
            if any(ever_near(Thing(t.phases, t.ways[:-1]), u) for t in some for u in later):
                return False                            # near what left some periods later
        return True


def next_core(rule, core, b):
    """The core after a core, and what leaves; None where it is no engine's."""
    split = O.splitting(O.world_of(rule), R.evolve(rule, core, 1), b)
    found = []
    for one, end in split:
        # every other union of classes has the core in it, whose populations have no bound
        left = set().union(*(other for other, _ in split if other is not one))
        if end[0].pop and settles(rule, left, b) is not None:
            found.append((one, left))
    return found[0] if len(found) == 1 else None


def engine_literal(rule, first, b):
    """The engine that a set is within b, or None, by the definition, step by step."""
    world = O.world_of(rule)
    if len(O.splitting(world, first, b)) != 1:
        return None                                     # divided
    form, corner = R.norm(first)
    core, cores, left = first, [world.of(first)], []
    for n in range(1, b + 1):
        found = next_core(rule, core, b)
        if found is None:
            return None
        core = found[0]
        if found[1]:
            left.append((n, found[1]))
        now, place = R.norm(core)
        if now == form:
            engine = Engine(rule, cores, (place[0] - corner[0], place[1] - corner[1]), left, b)
            return engine if engine.is_engine() else None
        cores.append(world.of(core))
    return None


# ------------------------------------------------------------------ growth
def growth_literal(rule, cells, b):
    """The engines of the growth of a set within b, or None, by the definition: each engine is a class of the finest splitting that is
    apart for b generations, since it is undivided and apart from the rest; all other classes are the debris."""
    engines, debris = [], []
    for one, end in O.splitting(O.world_of(rule), cells, b):
        engine = engine_literal(rule, one, b) if end[0].pop else None
        if engine is None:
            debris.append(one)
        else:
            engines.append(engine)
    return engines if is_growth(rule, engines, debris, b) else None


def is_growth(rule, engines, debris, b):
    """Is there an engine, does the debris settle, and are all apart for ever, with all that leaves?"""
    settled = settles(rule, set().union(*debris), b) if engines else None
    if settled is None:
        return False
    age, parts = settled
    world = O.world_of(rule)
    rest = [Thing(phases_of(world, 0, one, age), []) for one in debris] + [part_thing(age, P) for P in parts]
    for i, engine in enumerate(engines):
        others = rest + [t for other in engines[:i] for t in other.all_things()]
        if any(ever_near(t, u) for t in engine.all_things() for u in others):
            return False
    return True


def growth_in_film(rule, cells, h, longest):
    """The same, by one film, which is h generations longer than the longest period that is sought; all growth within h where that
    is h."""
    film = Film(rule, cells)
    film.run(h)

    def recurs(one):
        return len(one) == 1 and O.settled(film.world, *film.nodes[0][one[0]], min(h, 64)) is not None

    first = film.classes(0)[0]
    if not any(film.lives(one) for one in first) or all(recurs(one) for one in first):
        return None
    film.run(longest)
    # the end of the film is at least h ahead of each generation that is asked for; an engine's cores are the same classes for each such end
    classes = film.classes(longest)
    engines, debris = [], []
    for one in classes[0]:
        engine = None if recurs(one) else engine_in_film(rule, film, classes, one, h, longest)
        if engine is None:
            debris.append(film.cells(0, one))
        else:
            engines.append(engine)
    return engines if is_growth(rule, engines, debris, h) else None


def comes_again(film, classes, first, longest):
    """What comes from a class of generation 0, for each generation up to the first at which the class is among it, moved; this class, and
    by how much it is moved; or None."""
    form, corner = film.form(0, first)
    heirs = [set(first)]
    for n in range(1, longest + 1):
        heirs.append({k for i in heirs[-1] for k in film.kids[n - 1][i]})
        if not heirs[-1]:
            return None
        for one in classes[n]:
            if len(one) == len(first) and one[0] in heirs[-1]:
                now, place = film.form(n, one)
                if now == form:
                    return heirs, one, (place[0] - corner[0], place[1] - corner[1])
    return None


def engine_in_film(rule, film, classes, first, h, longest):
    """The engine that a class of generation 0 is within h, or None. Its cores are found from the last to the first: the core before a
    core is the one class that has cells which come to it."""
    found = comes_again(film, classes, first, longest)
    if found is None:
        return None
    heirs, last, move = found
    period = len(heirs) - 1
    cores = {period: set(last)}
    for n in range(period - 1, -1, -1):
        before = {i for i in heirs[n] if cores[n + 1].intersection(film.kids[n][i])}
        cores[n] = next((set(one) for one in classes[n] if one[0] in heirs[n] and before.intersection(one)), set())
    if cores[0] != set(first) or not all(undivided(film, n, cores[n], h) for n in range(period)):
        return None
    left = []
    for n in range(period):
        gone = {k for i in cores[n] for k in film.kids[n][i]} - cores[n + 1]
        if gone:
            left.append((n + 1, film.cells(n + 1, gone)))
    engine = Engine(rule, [film.world.of(film.cells(n, cores[n])) for n in range(period)], move, left, h)
    return engine if engine.is_engine() else None


def undivided(film, n, nodes, h):
    """Are these nodes of generation n one class of the finest splitting that is apart for h generations?"""
    forest, count = Forest(nodes), len(nodes)
    owner = {i: i for i in nodes}
    for kids in film.kids[n:n + h]:
        if count == 1:
            break
        later = {}
        for i, name in owner.items():
            for k in kids[i]:
                if k in later:
                    count -= forest.join(later[k], name)
                else:
                    later[k] = name
        owner = later
    return count == 1


# ------------------------------------------------------------------ sooner
def steady_rise(pops):
    """The least p, up to a third of the list, such that the populations have changed by the same in each p generations, and not by 0, for
    the last 3 p and for 100; None where there is none. (A guess; only speed depends on it.)"""
    for p in range(1, len(pops) // 3):
        last = max(p, 100 - 2 * p)
        if len(pops) >= last + 2 * p and pops[-1] != pops[-1 - p] and all(
                pops[-i] - 2 * pops[-i - p] + pops[-i - 2 * p] == 0 for i in range(1, last + 1)):
            return p
    return None


def growth_of(rule, cells, h):
    """The engines of the growth of a set within h, or None."""
    return growth_literal(rule, cells, h) if h <= LITERAL_HORIZON else growth_in_film(rule, cells, h, h)


def growth_early(rule, cells0, b, h):
    """The engines of the growth of generation b within h, or None, by an earlier generation and fewer generations where these show it."""
    run, pops, wait = R.Plane(cells0), [], 60
    while run.age < b:
        if isinstance(run, R.Plane) and run.pop and run.bits is None:
            age, run = run.age, O.Walk(rule, run.cells())   # far and wide by now
            run.age = age
        pops.append(run.pop if isinstance(run, R.Plane) else run.count())
        if not pops[-1]:
            return None
        if run.age >= wait:
            p = steady_rise(pops)
            wait = max(run.age * 5 // 4, run.age + 40)
            for few in (p + 64, 2 * p + 160, 4 * p + 400) if p else ():
                engines = growth_in_film(rule, run.cells(), few, min(few, 8 * p)) if few <= h else None
                if engines:
                    return engines
        run.step(rule)
    return growth_of(rule, run.cells(), h)


# ------------------------------------------------------------------ what is reported
def itself(_rule, P):
    return [P]


def told(rule, engines, parts_of):
    """[((period, dx, dy, ((code, count), ..)), engines)]: what each engine leaves in a period stands in the order of codes, and engines
    with the same tale count together, in the order of numbers, then of what leaves."""
    tales = Counter()
    for engine in engines:
        parts = [part for _, some in engine.ashes for P in some for part in parts_of(rule, P)]
        tales[(engine.period, *engine.move, tuple(O.counts_of(rule, parts)))] += 1
    return sorted(tales.items(), key=lambda e: (e[0][:3], [(len(code), code, n) for code, n in e[0][3]]))


@lru_cache(maxsize=256)
def becomes(rule, cells, bound, horizon):
    """What a set becomes within the bound: ('ash', onset, parts), ('grows', engines) or ('none',). No set has both an ash and a growth, so
    it doesn't matter which is sought first."""
    early = min(bound, EARLY_BOUND)
    ash = O.ash_early(rule, cells, early)
    if ash is None:
        engines = growth_early(rule, cells, bound, min(horizon, bound))
        if engines is not None:
            return 'grows', engines
        ash = O.ash_early(rule, cells, bound) if early < bound else None
    return ('none',) if ash is None else ('ash', *ash)


def decide(rule, cells, bound, horizon, parts_of=itself):
    """What is reported of a set: ('ok', onset, period, dx, dy, code) where its ash is one part, ('ash', onset, [(code, count)]),
    ('grows', [(tale, count)]) or ('none',)."""
    kind, *found = becomes(rule, frozenset(cells), bound, horizon)
    if kind == 'ash':
        onset, parts = found
        parts = [part for P in parts for part in parts_of(rule, P)]
        if len(parts) == 1:
            part, = parts
            return 'ok', onset, part.period, part.dx, part.dy, O.code_of(rule, part)
        return kind, onset, O.counts_of(rule, parts)
    return (kind, told(rule, *found, parts_of)) if kind == 'grows' else (kind,)
