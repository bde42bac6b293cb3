"""The objects that a pattern leaves, and what `objects` reports, worked out by a program that shares nothing with `census`; the command is
that of parts.py.

`ash` decides by the definition, with the whole bound: the finest splitting that stays apart, what lives on of it, and whether the
parts so found recur, are one piece and stay apart for ever. `ash_early` looks for the ash of an earlier generation, which gives the same.
Both also give the onset, by its definition: the first generation that has an ash.
"""
import hashlib
from collections import Counter
from fractions import Fraction
from math import ceil, floor, gcd

import patterns as R

OBJECTS_BOUND_LIMIT = 100_000
HORIZON_LIMIT = 10_000
COUNTS = {**R.COUNTS, '--horizon': '--horizon'}


# ------------------------------------------------------------------ shapes: sets up to moving
class Shape:
    """A finite set, moved so that its least x and least y are 0; one object for each set and rule.

    The cells are one integer (the cell (x, y) is bit y * (w + 2) + x + 1), or, where the box is
    large and thinly peopled, a frozenset of pairs. `then` is (the next generation, dx, dy)."""
    __slots__ = ('w', 'h', 'pop', 'form', 'then', '_cells', '_fat')

    def __init__(self, w, h, pop, form):
        self.w, self.h, self.pop, self.form = w, h, pop, form
        self.then = self._cells = self._fat = None

    def cells(self):
        if not isinstance(self.form, int):
            return self.form
        if self._cells is None:
            out, stride = [], self.w + 2
            text = bin(self.form)[:1:-1]
            at = text.find('1')
            while at >= 0:
                y, x = divmod(at, stride)
                out.append((x - 1, y))
                at = text.find('1', at + 1)
            if self.pop > 60:
                return out
            self._cells = out
        return self._cells

    def fat(self):
        """All cells that are near a cell of the shape."""
        if self._fat is None:
            self._fat = {(x + i, y + j) for x, y in self.cells()
                         for i in (-2, -1, 0, 1, 2) for j in (-2, -1, 0, 1, 2)}
        return self._fat


class World:
    """The shapes of one rule."""

    def __init__(self, rule):
        self.rule, self.table, self.size = rule, {}, 0
        self.empty = Shape(0, 0, 0, 0)

    def _intern(self, w, h, pop, form):
        key = (w, form)
        s = self.table.get(key)
        if s is None:
            s = self.table[key] = Shape(w, h, pop, form)
            self.size += 200 + (len(form) * 120 if not isinstance(form, int) else w * h // 8)
        return s

    @staticmethod
    def _thin(w, h, pop):
        return w * h > 4000 * pop + 20_000

    def of(self, cells):
        """(shape, least x, least y)."""
        cells = set(cells)
        if not cells:
            return self.empty, 0, 0
        cells, (mx, my) = R.norm(cells)
        w = 1 + max(x for x, _ in cells)
        h = 1 + max(y for _, y in cells)
        if self._thin(w, h, len(cells)):
            return self._intern(w, h, len(cells), frozenset(cells)), mx, my
        bits, stride = bytearray(h * (w + 2) // 8 + 1), w + 2
        for x, y in cells:
            at = y * stride + x + 1
            bits[at >> 3] |= 1 << (at & 7)
        return self._intern(w, h, len(cells), int.from_bytes(bits, 'little')), mx, my

    def next(self, s):
        if s.then is None:
            s.then = self._next(s)
        return s.then

    def _next(self, s):
        if not s.pop:
            return s, 0, 0
        if not isinstance(s.form, int):
            return self.of(R.next_literal(self.rule, s.form))
        w = s.w + 2                                     # the stride; an empty column on both sides
        g = s.form << w                                 # an empty row above
        a, b = g << 1, g >> 1
        s0, s1 = a ^ b, a & b
        t0, t1 = s0 ^ g, s1 | (s0 & g)
        u0, u1, d0, d1 = t0 << w, t1 << w, t0 >> w, t1 >> w
        x = u0 ^ d0
        p0 = x ^ s0
        c = (u0 & d0) | (x & s0)
        e, f, i, j = u1 ^ d1, u1 & d1, s1 ^ c, s1 & c
        p1 = e ^ i
        k = e & i
        p2 = f ^ j ^ k
        p3 = f & j
        born, stay = self.rule
        new = 0
        for n in range(9):
            if n in born or n in stay:
                hit = (p0 if n & 1 else ~p0) & (p1 if n & 2 else ~p1)
                hit &= (p2 if n & 4 else ~p2) & (p3 if n & 8 else ~p3)
                if n not in born:
                    hit &= g
                elif n not in stay:
                    hit &= ~g
                new |= hit
        if not new:
            return self.empty, 0, 0
        low = ((new & -new).bit_length() - 1) // w
        new >>= low * w
        h = (new.bit_length() + w - 1) // w
        fold, rows = new, h
        while rows > 1:
            half = (rows + 1) // 2
            fold = (fold >> (half * w)) | (fold & ((1 << (half * w)) - 1))
            rows = half
        left = (fold & -fold).bit_length() - 1
        width = fold.bit_length() - left
        pop = new.bit_count()
        if self._thin(width, h, pop):
            cells, text = set(), bin(new)[:1:-1]
            at = text.find('1')
            while at >= 0:
                y, x = divmod(at, w)
                cells.add((x - left, y))
                at = text.find('1', at + 1)
            return self._intern(width, h, pop, frozenset(cells)), left - 1, low - 1
        if width + 2 == w:
            new = new << 1 if left == 0 else new >> (left - 1)
        else:
            out, mask, stride = 0, (1 << width) - 1, width + 2
            for y in range(h):
                row = (new >> (y * w + left)) & mask
                if row:
                    out |= row << (y * stride + 1)
            new = out
        return self._intern(width, h, pop, new), left - 1, low - 1


_worlds = {}


def world_of(rule):
    w = _worlds.get(rule)
    if w is None or w.size > 150_000_000:
        w = _worlds[rule] = World(rule)
    return w


def near(s, sx, sy, t, tx, ty):
    """Is a cell of s at (sx, sy) near a cell of t at (tx, ty)?"""
    if tx > sx + s.w + 1 or sx > tx + t.w + 1 or ty > sy + s.h + 1 or sy > ty + t.h + 1:
        return False                                    # the boxes aren't near
    if s.pop > t.pop:
        s, sx, sy, t, tx, ty = t, tx, ty, s, sx, sy
    dx, dy = tx - sx, ty - sy
    if s.pop <= 40:
        fat = s.fat()
        return any((x + dx, y + dy) in fat for x, y in t.cells())
    right, low = s.w + 1, s.h + 1                       # only what lies about where the boxes meet
    one = {(x, y) for x, y in s.cells() if dx - 2 <= x <= dx + t.w + 1 and dy - 2 <= y <= dy + t.h + 1}
    return any((x + dx + i, y + dy + j) in one for x, y in t.cells()
               if -2 <= x + dx <= right and -2 <= y + dy <= low
               for i in (-2, -1, 0, 1, 2) for j in (-2, -1, 0, 1, 2))


# ------------------------------------------------------------------ what must be together
def near_classes(cells):
    """The finest splitting of a set into sets that are apart."""
    rest, out = set(cells), []
    around = [(i, j) for i in (-2, -1, 0, 1, 2) for j in (-2, -1, 0, 1, 2) if i or j]
    while rest:
        first = rest.pop()
        one, todo = {first}, [first]
        while todo:
            x, y = todo.pop()
            for i, j in around:
                c = (x + i, y + j)
                if c in rest:
                    rest.remove(c)
                    one.add(c)
                    todo.append(c)
        out.append(one)
    return out


def join_near(world, live):
    """Joins the entries [shape, x, y, a set or None] that are near."""
    live.sort(key=lambda c: c[1])
    joined = {}                                         # index -> index, a forest

    def root(i):
        while i in joined:
            i = joined[i]
        return i

    for i, (s, x, y, _) in enumerate(live):
        right = x + s.w + 1
        for j in range(i + 1, len(live)):
            t, tx, ty, _ = live[j]
            if tx > right:
                break
            if root(i) != root(j) and near(s, x, y, t, tx, ty):
                joined[root(j)] = root(i)
    if not joined:
        return live
    groups = {}
    for i, c in enumerate(live):
        groups.setdefault(root(i), []).append(c)
    out = []
    for group in groups.values():
        if len(group) == 1:
            out.append(group[0])
        else:
            s, x, y = world.of((x + i, y + j) for s, x, y, _ in group for i, j in s.cells())
            out.append([s, x, y, None if group[0][3] is None else set().union(*(c[3] for c in group))])
    return out


def splitting(world, cells, b):
    """The finest splitting of `cells` that is apart for b generations.

    [(the class at generation 0, its generation b as (shape, x, y))]; the dead ones are among them."""
    live = []                                           # [shape, x, y, cells at generation 0]
    dead = []
    for one in near_classes(cells):
        s, x, y = world.of(one)
        live.append([s, x, y, one])
    for n in range(b + 1):
        live = join_near(world, live)
        if n < b:
            still = []
            for c in live:
                s, dx, dy = c[0].then or world.next(c[0])
                c[0], c[1], c[2] = s, c[1] + dx, c[2] + dy
                (still if s.pop else dead).append(c)
            live = still
    return [(c[3], (c[0], c[1], c[2])) for c in live + dead]


class Part:
    """A set that recurs: phases[t] is generation t as (shape, x, y), for t below the period."""

    def __init__(self, phases, dx, dy):
        self.phases, self.period, self.dx, self.dy = phases, len(phases), dx, dy
        p = self.period                                 # box over a period, less the drift, times p
        self.hull = (min(p * x - t * dx for t, (s, x, y) in enumerate(phases)),
                     max(p * (x + s.w - 1) - t * dx for t, (s, x, y) in enumerate(phases)),
                     min(p * y - t * dy for t, (s, x, y) in enumerate(phases)),
                     max(p * (y + s.h - 1) - t * dy for t, (s, x, y) in enumerate(phases)))

    def at(self, n):
        k, t = divmod(n, self.period)
        s, x, y = self.phases[t]
        return s, x + k * self.dx, y + k * self.dy

    def cells(self, n=0):
        s, x, y = self.at(n)
        return {(x + i, y + j) for i, j in s.cells()}

    def later(self, n):
        p = self.period
        return Part([self.at(n + t) for t in range(p)], self.dx, self.dy)


def settled(world, s, x, y, b):
    """Where (s, x, y) recurs after at most b generations: its Part, as of that generation."""
    phases, t, tx, ty = [], s, x, y
    for n in range(b):
        phases.append((t, tx, ty))
        t, dx, dy = t.then or world.next(t)
        tx, ty = tx + dx, ty + dy
        if t is s:
            return Part(phases, tx - x, ty - y)
        if not t.pop:
            return None
    return None


# ------------------------------------------------------------------ apart for ever
def window(low_p, high_p, vel_p, low_q, high_q, vel_q):
    """The times n at which [low + n vel, high + n vel] of p and q are within 2: (first, last),
    last None where it goes on for ever; or None. All are Fractions."""
    v = vel_q - vel_p
    a, c = low_q - high_p, low_p - high_q               # a + n v <= 2 and c - n v <= 2
    if v == 0:
        return (0, None) if a <= 2 and c <= 2 else None
    if v > 0:
        first, last = ceil((c - 2) / v), floor((2 - a) / v)
    else:
        first, last = ceil((2 - a) / v), floor((c - 2) / v)
    first = max(first, 0)
    return (first, last) if first <= last else None


def apart_for_ever(P, Q):
    """Exactly. At time n the box of P lies in its hull moved by n times its velocity; so the
    generations at which the boxes can be near are those of one stretch of times, which is finite
    unless the velocities are equal; then lcm(p, q) generations decide."""
    p, q = P.period, Q.period
    span = (0, None)
    for low, vp, vq in ((0, P.dx, Q.dx), (2, P.dy, Q.dy)):
        w = window(Fraction(P.hull[low], p), Fraction(P.hull[low + 1], p), Fraction(vp, p),
                   Fraction(Q.hull[low], q), Fraction(Q.hull[low + 1], q), Fraction(vq, q))
        if w is None:
            return True
        last = w[1] if span[1] is None else span[1] if w[1] is None else min(span[1], w[1])
        span = (max(span[0], w[0]), last)
    first, last = span
    if last is None:                                    # the step is (0, 0)
        first, last = 0, p * q // gcd(p, q) - 1
    for n in range(first, last + 1):
        if near(*P.at(n), *Q.at(n)):
            return False
    return True


def is_one_piece(world, P, b):
    """No generation of P falls into two sets that are apart for b generations and both live through b."""
    for n in range(P.period):
        live = [[*world.of(one), None] for one in near_classes(P.cells(n))]
        for age in range(b + 1):
            live = join_near(world, live)
            if len(live) == 1:
                break                                   # P lives for ever, so the last one does
            if age < b:
                live = [[s, c[1] + dx, c[2] + dy, None] for c in live
                        for s, dx, dy in (c[0].then or world.next(c[0]),) if s.pop]
        if len(live) > 1:
            return False
    return True


def all_apart(parts):
    return all(apart_for_ever(P, Q) for i, P in enumerate(parts) for Q in parts[:i])


# ------------------------------------------------------------------ the ash
def ash_of(rule, cells, b):
    """The parts of the ash of the set `cells` within b, or None."""
    world = world_of(rule)
    parts = []
    living = [end for _, end in splitting(world, cells, b) if end[0].pop]
    for s, x, y in sorted(living, key=lambda c: c[0].pop):
        P = settled(world, s, x, y, b)
        if P is None:
            return None
        k = -(-b // P.period)                           # k periods lead from P at generation 0 to after b
        Q = P.later(k * P.period - b)
        parts.append(Part([(s, x - k * P.dx, y - k * P.dy) for s, x, y in Q.phases], P.dx, P.dy))
    union = set()
    for P in parts:
        now = P.cells()
        if union & now:
            return None
        union |= now
    if union != set(cells) or not all_apart(parts):
        return None
    return parts if all(is_one_piece(world, P, b) for P in parts) else None


def onset_of(rule, cells0, g, h):
    """The least t such that generation t has an ash within h, where generation g has one: as it lasts, by halving.
    It is the same within each bound within which there is one."""
    low, high, start, cells = 0, g, 0, cells0           # `cells` is generation `start`, which is no later than `low`
    while low < high:
        t = (low + high) // 2
        at_t = R.evolve(rule, cells, t - start)
        if ash_of(rule, at_t, h) is None:
            low, start, cells = t + 1, t, at_t
        else:
            high = t
    return low


def ash(rule, cells0, b):
    """The onset and the parts of the ash of generation b within b, or None; by the definitions."""
    parts = ash_of(rule, R.evolve(rule, cells0, b), b)
    return None if parts is None else (onset_of(rule, cells0, b, b), parts)


HORIZONS = (64, 240)


class Walk:
    """A set that evolves, island by island: what is near is joined before each step, and now and then
    what has come apart is split."""

    def __init__(self, rule, cells):
        self.world, self.age = world_of(rule), 0
        self.live = [[*self.world.of(one), None] for one in near_classes(cells)]

    def count(self):
        return sum(c[0].pop for c in self.live)

    def cells(self):
        return {(x + i, y + j) for s, x, y, _ in self.live for i, j in s.cells()}

    def step(self, _rule):
        world = self.world
        live = join_near(world, self.live)
        if self.age % 16 == 0:
            out = []
            for c in live:
                if c[0].pop > 5 and (c[0].then is None or c[0].w > 3 + c[0].pop or self.age % 64 == 0 and c[0].then[0] is not c[0]):
                    out += [[s, x + c[1], y + c[2], None] for s, x, y in map(world.of, near_classes(c[0].cells()))]
                else:
                    out.append(c)
            live = out
        self.live = []
        for c in live:
            s, dx, dy = c[0].then or world.next(c[0])
            if s.pop:
                self.live.append([s, c[1] + dx, c[2] + dy, None])
        self.age += 1


def ash_early(rule, cells0, b):
    """The same as `ash`, by an earlier generation where one shows it."""
    run = R.Plane(cells0)
    pops, wait = [], 0
    while run.age < b:
        if isinstance(run, R.Plane) and run.pop and run.bits is None:
            age, run = run.age, Walk(rule, run.cells())     # far and wide by now
            run.age = age
        pops.append(run.pop if isinstance(run, R.Plane) else run.count())
        g = run.age
        if not pops[-1]:
            return onset_of(rule, cells0, g, min(HORIZONS[0], b)), []
        if g >= wait and g % 8 == 0 and _steady(pops):
            cells = run.cells()
            for h in HORIZONS:
                if h >= b:
                    break
                parts = ash_of(rule, cells, h)
                if parts is not None and all(h + P.period <= b for P in parts):
                    return onset_of(rule, cells0, g, h), [P.later(b - g) for P in parts]
            wait = g + max(16, g // 16)
        run.step(rule)
    parts = ash_of(rule, run.cells(), b)
    return None if parts is None else (onset_of(rule, cells0, b, b), parts)


def _steady(pops):
    """Have the populations repeated for a while? (A guess; only speed depends on it.)"""
    n = len(pops)
    if n < 24:
        return n in (1, 9)
    return any(pops[n - 24:] == pops[n - 24 - q:n - q] for q in range(1, min(61, n - 23)))


# ------------------------------------------------------------------ reports
_codes = {}


def code_of(rule, P):
    s, x, y = P.phases[0]
    key = (rule, s.w, s.form)
    if key not in _codes:
        if len(_codes) > 20_000:
            _codes.clear()
        _codes[key] = R.code(rule, P.cells(), P.period, P.dx, P.dy)
    return _codes[key]


def counts_of(rule, parts):
    """[(code, count)] in the order of `shorter`."""
    return sorted(Counter(code_of(rule, P) for P in parts).items(), key=lambda e: (len(e[0]), e[0]))


_known = {}


def answer(text, bound, horizon, decide):
    """('bad', n), ('none', rule, pop), ('ok', rule, pop, onset, period, dx, dy, code), ('ash', rule, pop, onset, [(code, count)]) or
    ('grows', rule, pop, [(tale, count)]), where a tale is (period, dx, dy, [(code, count)])."""
    tag = (hashlib.blake2b(text).digest(), bound, horizon, decide)
    if tag not in _known:
        try:
            rule, cells = R.read_rle(text)
        except R.Fault as f:
            _known[tag] = ('bad', f.number)
        else:
            kind, *told = decide(rule, cells, bound, horizon)
            _known[tag] = (kind, R.rule_text(rule), len(cells), *told)
    return _known[tag]


def lines_of(c, i, entry, a):
    """The lines of entry i of collection c, of which `a` is reported."""
    if a[0] not in ('ash', 'grows'):
        return [b'line %d %d %s %s' % (c, i, ' '.join(map(str, a)).encode(), entry)]
    *head, counts = a
    lines = [('line %d %d %s %d ' % (c, i, ' '.join(map(str, head)), sum(n for _, n in counts))).encode() + entry]
    if a[0] == 'ash':
        return lines + [('part %d %d %s %d' % (c, i, code, n)).encode() for code, n in counts]
    for e, ((period, dx, dy, emits), count) in enumerate(counts, 1):
        lines.append(b'engine %d %d %d %d %d %d %d' % (c, i, e, period, dx, dy, count))
        lines += [('emits %d %d %d %s %d' % (c, i, e, code, n)).encode() for code, n in emits]
    return lines


def section(c, folder, bound, horizon, decide):
    name, entries = folder
    lines = [b'open %d %d %s' % (c, len(entries), name)]
    totals, kinds = Counter(), Counter()                # of codes, in the order in which they come first
    for i, (entry, text) in enumerate(entries, 1):
        a = answer(text, bound, horizon, decide)
        kinds[a[0]] += 1
        lines += lines_of(c, i, entry, a)
        if a[0] in ('ok', 'ash'):
            for code, n in [(a[-1], 1)] if a[0] == 'ok' else a[4]:
                totals[a[1], code] += n
    lines += [('code %d %s %s %d' % (c, r, k, n)).encode() for (r, k), n in totals.items()]
    resolved = kinds['ok'] + kinds['ash'] + kinds['grows']
    lines.append(b'close %d %d %d %d %d' % (c, len(entries), resolved, kinds['none'], kinds['bad']))
    return lines


def report(bundle, bound, horizon, decide):
    sections = [section(c, f, bound, horizon, decide) for c, f in enumerate(bundle, 1)]
    out = []
    for s, (_, entries) in zip(sections, bundle):
        out += s if not entries else s[:1]
    for s, (_, entries) in zip(sections, bundle):
        out += s[1:] if entries else []
    out.append(R.end_line(bundle))
    return b''.join(l + b'\n' for l in out)


def dispatch(args, stdin, decide):
    """The report of `objects`, where `decide` gives what becomes of a set: ('none',), ('ok', onset, period, dx, dy, code),
    ('ash', onset, [(code, count)]) or ('grows', [(tale, count)])."""
    opts, rest = R.words_of(args, COUNTS, 0, True)
    bound = R.number(opts.get('--bound', '10000'), 1, OBJECTS_BOUND_LIMIT)
    horizon = R.number(opts.get('--horizon', '1000'), 1, HORIZON_LIMIT)
    R.number(opts.get('--workers', '4'), 1, R.WORKER_LIMIT)
    bundle = R.folders_of(rest) if rest else R.read_bundle(R.read_limited(stdin))
    return report(bundle, bound, horizon, decide)
