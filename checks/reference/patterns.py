#!/usr/bin/env python3
"""What `advance`, `draw` and `run` answer, worked out by a program that shares nothing with `census`.

    checks/reference/patterns.py advance N [--cells N] <TEXT
    checks/reference/patterns.py draw CODE [--rule R]
    checks/reference/patterns.py run [--bound N] [--workers N] [FOLDER..]

Each definition is taken word for word, by sets of pairs and by trying every case. `Plane` alone is made to be quick: it keeps a set
as one integer, and gives the same set as `next_literal`. The standard library of Python 3.10 or later is all it needs.
"""
import hashlib
import os
import re
import sys
from collections import Counter

# ------------------------------------------------------------------ limits
PLACE_LIMIT = 1_048_575        # greatest x or y of a live cell that is read
CELL_LIMIT = 1_048_576         # live cells of one RLE text
AGE_LIMIT = 4_194_304          # N of advance
BOUND_LIMIT = 1_000_000
WORKER_LIMIT = 16
LIST_LIMIT = 65_535            # folders, and entries of one folder
NAME_LIMIT = 255
INPUT_LIMIT = 67_108_864
MOST_CELLS = 4_294_967_295     # the greatest N of --cells


class Fault(Exception):
    """A named refusal: its family ('rle', 'rule', 'code', 'bundle', 'folder'), number and place."""

    def __init__(self, family, number, at=None):
        super().__init__(family, number, at)
        self.family, self.number, self.at = family, number, at

    def line(self):
        if self.family == 'bundle':
            return 'census: bundle fault %d at line %d' % (self.number, self.at)
        if self.at is None:
            return 'census: %s fault %d' % (self.family, self.number)
        return 'census: %s fault %d at %d' % (self.family, self.number, self.at)


# ------------------------------------------------------------------ rules
FORM1 = re.compile(rb'[Bb]([0-8]*)/?[Ss]([0-8]*)')
FORM2 = re.compile(rb'[Ss]([0-8]*)/?[Bb]([0-8]*)')
FORM3 = re.compile(rb'([0-8]*)/([0-8]*)')


def parse_rule(text):
    """A rule is (frozenset B, frozenset S). Faults: 1 NotLifeLike, 2 HasB0."""
    m = FORM1.fullmatch(text)
    if m:
        born, stay = m.group(1), m.group(2)
    else:
        m = FORM2.fullmatch(text) or FORM3.fullmatch(text)
        if not m:
            raise Fault('rule', 1)
        stay, born = m.group(1), m.group(2)
    if b'0' in born:
        raise Fault('rule', 2)
    return (frozenset(d - 48 for d in born), frozenset(d - 48 for d in stay))


def rule_text(rule):
    born, stay = rule
    return 'B%s/S%s' % (''.join(map(str, sorted(born))), ''.join(map(str, sorted(stay))))


LIFE = (frozenset([3]), frozenset([2, 3]))

# ------------------------------------------------------------------ RLE texts read
LINE_BLANK = b' \t\r'
BODY_BLANK = b' \t\r\n'
_B = rb'[ \t\r]*'
HEADER = re.compile(_B + rb'[xX]' + _B + rb'=' + _B + rb'[0-9]+' + _B + rb',' + _B
                    + rb'[yY]' + _B + rb'=' + _B + rb'[0-9]+' + _B
                    + rb'(?:,' + _B + rb'[rR][uU][lL][eE]' + _B + rb'=([^\n]*))?')
DIGITS = re.compile(rb'[0-9]+')
HUGE = 10 ** 30                # stands for every greater count; no comparison can tell them apart


def _number(digits):
    digits = digits.lstrip(b'0')
    return HUGE if len(digits) > 30 else int(digits or b'0')


def _skip_blank(text, pos):
    """Blank characters, and whole lines whose first byte is '#'."""
    n = len(text)
    while pos < n:
        c = text[pos]
        if c in BODY_BLANK:
            pos += 1
        elif c == 35 and text[pos - 1] == 10:          # '#', first of its line (pos is above 0 here)
            end = text.find(b'\n', pos)
            pos = n if end < 0 else end + 1
        else:
            break
    return pos


def _header(text):
    """(rule, where the body begins)."""
    pos = 0
    while True:
        if pos >= len(text):
            raise Fault('rle', 1)                      # no line is left: NoHeader
        end = text.find(b'\n', pos)
        line = text[pos:] if end < 0 else text[pos:end]
        after = len(text) if end < 0 else end + 1
        if line[:1] == b'#' or not line.strip(LINE_BLANK):
            pos = after
            continue
        if line.lstrip(LINE_BLANK)[:1] not in (b'x', b'X'):
            raise Fault('rle', 1)
        m = HEADER.fullmatch(line)
        if not m:
            raise Fault('rle', 2)
        if m.group(1) is None:
            return LIFE, after
        try:
            return parse_rule(m.group(1).strip(LINE_BLANK)), after
        except Fault as f:
            raise Fault('rle', 2 + f.number) from None  # 3 NotLifeLike, 4 HasB0


def read_rle(text):
    """(rule, set of cells), or Fault('rle', 1..10)."""
    rule, spans = read_spans(text)
    return rule, {(x + i, y) for x, y, k in spans for i in range(k)}


def read_spans(text):
    """(rule, the live tokens' spans as (x, y, length), which never overlap), or Fault('rle', 1..10)."""
    rule, pos = _header(text)
    spans, live = [], 0
    row = col = 0
    n = len(text)
    while True:
        pos = _skip_blank(text, pos)
        if pos >= n:
            raise Fault('rle', 10)
        start, count = pos, None
        m = DIGITS.match(text, pos)
        if m:
            count = _number(m.group())
            pos = _skip_blank(text, m.end())
        tag = text[pos:pos + 1]                        # b'' at the end of the text
        # the conditions of one token, by rising number
        if tag.isalpha() and tag not in (b'b', b'o', b'A'):
            raise Fault('rle', 5, pos)
        if tag and not tag.isalpha() and not tag.isdigit() and tag not in (b'.', b'$', b'!'):
            raise Fault('rle', 6, pos)
        if count == 0 or (count is not None and (tag in (b'', b'!') or tag.isdigit())):
            raise Fault('rle', 7, start)
        k = 1 if count is None else count
        if tag == b'!':
            return rule, spans
        if tag == b'$':
            row, col = row + k, 0
        elif tag in (b'b', b'.'):
            col += k
        else:
            if row > PLACE_LIMIT or col + k - 1 > PLACE_LIMIT:
                raise Fault('rle', 8, start)
            if live + k > CELL_LIMIT:
                raise Fault('rle', 9, start)
            spans.append((col, row, k))
            live += k
            col += k
        pos += 1


# ------------------------------------------------------------------ RLE texts written
def write_rle(rule, cells):
    cells, _ = norm(cells)
    if cells:
        w = 1 + max(x for x, _ in cells)
        h = 1 + max(y for _, y in cells)
    else:
        w = h = 0
    tokens = []

    def token(count, tag):
        tokens.append((str(count) if count > 1 else '') + tag)

    row, col = 0, 0                                    # the next place that isn't written yet
    rest = sorted(cells, key=lambda c: (c[1], c[0]))
    i = 0
    while i < len(rest):
        x, y = rest[i]
        run = 1
        while i + run < len(rest) and rest[i + run] == (x + run, y):
            run += 1
        if y > row:
            token(y - row, '$')
            row, col = y, 0
        if x > col:
            token(x - col, 'b')
        token(run, 'o')
        col = x + run
        i += run
    tokens.append('!')
    lines = ['x = %d, y = %d, rule = %s' % (w, h, rule_text(rule))]
    line = ''
    for t in tokens:
        if len(line) + len(t) > 70:
            lines.append(line)
            line = t
        else:
            line += t
    lines.append(line)
    return ''.join(l + '\n' for l in lines)


# ------------------------------------------------------------------ sets of cells
def norm(cells):
    """(cells moved so that the least x and least y are 0, the least corner)."""
    if not cells:
        return set(), (0, 0)
    mx = min(x for x, _ in cells)
    my = min(y for _, y in cells)
    if mx == 0 and my == 0:
        return set(cells), (0, 0)
    return {(x - mx, y - my) for x, y in cells}, (mx, my)


def next_literal(rule, cells):
    """The next generation, as the definition says it."""
    born, stay = rule
    count = Counter((x + i, y + j) for x, y in cells
                    for i in (-1, 0, 1) for j in (-1, 0, 1) if i or j)
    new = {c for c, n in count.items() if (n in stay if c in cells else n in born)}
    if 0 in stay:
        new |= {c for c in cells if c not in count}
    return new


MAPS = {
    'Same': lambda x, y: (x, y), 'FlipX': lambda x, y: (-x, y),
    'FlipY': lambda x, y: (x, -y), 'Half': lambda x, y: (-x, -y),
    'Swap': lambda x, y: (y, x), 'SwapFlipX': lambda x, y: (-y, x),
    'SwapFlipY': lambda x, y: (y, -x), 'SwapHalf': lambda x, y: (-y, -x),
}


class Plane:
    """A set of cells that evolves fast; the same set as `next_literal` gives.

    Where the box isn't much larger than the population, the set is one integer: the cell (x, y)
    is bit (y - y0) * w + (x - x0), w being a stride that is a function of the box's width alone.
    Else it is a set of pairs. Which of the two is a function of the shape alone, so that `key`
    is equal exactly for equal shapes (up to a collision of BLAKE2b; `find` verifies)."""

    def __init__(self, cells):
        self.age = 0
        self._from_set(set(cells))

    # --- the two forms
    def _from_set(self, cells):
        self.pop = len(cells)
        self.set, self.bits = cells, None
        if not cells:
            return
        xs = [x for x, _ in cells]
        ys = [y for _, y in cells]
        self.min = (min(xs), min(ys))
        self.size = (max(xs) - self.min[0] + 1, max(ys) - self.min[1] + 1)
        if self.size[0] * self.size[1] <= 4000 * self.pop + 20_000:
            w = self._stride(self.size[0])
            rows = {}
            for x, y in cells:
                rows.setdefault(y, []).append(x)
            field = bytearray(self.size[1] * w // 8)
            x0 = self.min[0] - 1                        # one empty column on the left
            for y, row in rows.items():
                base = (y - self.min[1]) * w
                for x in row:
                    at = base + x - x0
                    field[at >> 3] |= 1 << (at & 7)
            self.bits, self.set = int.from_bytes(field, 'little'), None
            self.w, self.x0, self.y0 = w, x0, self.min[1]

    @staticmethod
    def _stride(width):
        return (width + 2 + 31) // 32 * 32

    def _rows(self):
        """y -> the row's bits, for the rows with live cells."""
        w, h = self.w, self.size[1]
        data = self.bits.to_bytes(h * w // 8, 'little')
        step = w // 8
        out = {}
        for k in range(h):
            r = int.from_bytes(data[k * step:(k + 1) * step], 'little')
            if r:
                out[self.y0 + k] = r
        return out

    def cells(self):
        if self.bits is None:
            return set(self.set)
        out = set()
        for y, r in self._rows().items():
            text = bin(r)[:1:-1]                        # the lowest bit first
            at = text.find('1')
            while at >= 0:
                out.add((self.x0 + at, y))
                at = text.find('1', at + 1)
        return out

    def _measure(self):
        """After a step of the bit form: population, box, the layout that the box asks for."""
        g, w = self.bits, self.w
        self.pop = g.bit_count()
        if not g:
            self.set, self.bits = set(), None
            return
        low = ((g & -g).bit_length() - 1) // w          # empty rows at the top
        if low:
            g >>= low * w
            self.y0 += low
        h = (g.bit_length() + w - 1) // w
        fold, rows = g, h                               # the OR of all rows
        while rows > 1:
            half = (rows + 1) // 2
            fold = (fold >> (half * w)) | (fold & ((1 << (half * w)) - 1))
            rows = half
        left = (fold & -fold).bit_length() - 1
        width = fold.bit_length() - left
        self.bits = g
        self.min = (self.x0 + left, self.y0)
        self.size = (width, h)
        if width * h > 4000 * self.pop + 20_000:
            self._from_set(self.cells())
            return
        want = self._stride(width)
        if want == w:
            if left == 0:
                self.bits <<= 1
                self.x0 -= 1
            elif left > 1:
                self.bits >>= left - 1
                self.x0 += left - 1
        else:                                           # lay the rows out anew
            data = g.to_bytes(h * w // 8, 'little')
            step, new = w // 8, bytearray()
            for k in range(h):
                r = int.from_bytes(data[k * step:(k + 1) * step], 'little')
                new += ((r >> left) << 1).to_bytes(want // 8, 'little')
            self.bits = int.from_bytes(new, 'little')
            self.x0 += left - 1
            self.w = want

    # --- one generation
    def step(self, rule):
        self.age += 1
        if self.bits is None:
            if self.pop:
                self._from_set(next_literal(rule, self.set))
            return
        w = self.w
        g = self.bits << w                              # an empty row above
        self.y0 -= 1
        a, b = g << 1, g >> 1                           # left and right neighbours
        s0, s1 = a ^ b, a & b                           # of the row itself, without the cell
        t0, t1 = s0 ^ g, s1 | (s0 & g)                  # of a row above or below, three cells
        u0, u1, d0, d1 = t0 << w, t1 << w, t0 >> w, t1 >> w
        x = u0 ^ d0
        p0 = x ^ s0                                     # plane of weight 1
        c = (u0 & d0) | (x & s0)
        e, f, i, j = u1 ^ d1, u1 & d1, s1 ^ c, s1 & c
        p1 = e ^ i                                      # weight 2
        k = e & i
        p2 = f ^ j ^ k                                  # weight 4
        p3 = f & j                                      # weight 8
        born, stay = rule
        dead = ~g
        new = 0
        for n in range(9):
            if n in born or n in stay:
                hit = (p0 if n & 1 else ~p0) & (p1 if n & 2 else ~p1)
                hit &= (p2 if n & 4 else ~p2) & (p3 if n & 8 else ~p3)
                if n not in born:
                    hit &= g
                elif n not in stay:
                    hit &= dead
                new |= hit
        self.bits = new
        self._measure()

    def key(self):
        """(digest of the normal form, least corner)."""
        if not self.pop:
            return b'', (0, 0)
        h = hashlib.blake2b(digest_size=20)
        if self.bits is None:
            mx, my = self.min
            for c in sorted((y - my, x - mx) for x, y in self.set):
                h.update(b'%d,%d;' % c)
        else:                                           # left is 1 and the top row isn't empty
            h.update(b'%d:' % self.w)
            h.update(self.bits.to_bytes((self.bits.bit_length() + 7) // 8, 'little'))
        return h.digest(), self.min


def evolve(rule, cells, n):
    plane = Plane(cells)
    for _ in range(n):
        if not plane.pop:
            break
        plane.step(rule)
    return plane.cells()


# ------------------------------------------------------------------ Wechsler texts
ALPHABET = '0123456789abcdefghijklmnopqrstuvwxyz'


def zeros(n):
    out = ''
    while n > 39:
        out += 'yz'
        n -= 39
    if n >= 4:
        return out + 'y' + ALPHABET[n - 4]
    return out + ('', '0', 'w', 'x')[n]


def body(cells):
    """The canonical Wechsler text of the cells as they lie."""
    if not cells:
        return '0'
    mx = min(x for x, _ in cells)
    my = min(y for _, y in cells)
    strips = {}
    for x, y in cells:
        k, j = divmod(y - my, 5)
        strip = strips.setdefault(k, {})
        strip[x - mx] = strip.get(x - mx, 0) | 1 << j
    texts = []
    for k in range(max(strips) + 1):
        out, at = [], 0
        for x, v in sorted(strips.get(k, {}).items()):
            out.append(zeros(x - at) + ALPHABET[v])
            at = x + 1
        texts.append(''.join(out))
    return 'z'.join(texts)


def read_wechsler(text):
    """Cells, not normalized; or Fault('code', 1..4)."""
    if not text:
        raise Fault('code', 1)
    cells = set()
    x = y = at = 0
    while at < len(text):
        c = chr(text[at])
        if c not in ALPHABET:
            raise Fault('code', 2, at)
        v = ALPHABET.index(c)
        if c == 'z':
            x, y = 0, y + 5
        elif c == 'y':
            nxt = chr(text[at + 1]) if at + 1 < len(text) else None
            if nxt is None or nxt not in ALPHABET:
                raise Fault('code', 3, at)
            x += 4 + ALPHABET.index(nxt)
            at += 1
        elif c in 'wx':
            x += 2 if c == 'w' else 3
        else:
            for j in range(5):
                if v >> j & 1:
                    if x > PLACE_LIMIT or y + j > PLACE_LIMIT:
                        raise Fault('code', 4, at)
                    cells.add((x, y + j))
            x += 1
        at += 1
    return cells


def body_of(code):
    i = code.find(b'_')
    return code if i < 0 else code[i + 1:]


# ------------------------------------------------------------------ recurrence
def find(rule, cells, bound):
    """None, or (onset, period, dx, dy, code)."""
    plane = Plane(cells)
    seen = {}                                           # digest -> (generation, least corner)
    while True:
        key, corner = plane.key()
        if key in seen:
            onset, old = seen[key]
            period = plane.age - onset
            dx, dy = corner[0] - old[0], corner[1] - old[1]
            break
        if plane.age == bound:
            return None
        seen[key] = (plane.age, corner)
        plane.step(rule)
    last = plane.cells()
    plane = Plane(cells)                                # again, for the phases of one period
    for _ in range(onset):
        plane.step(rule)
    first = plane.cells()
    if {(x + dx, y + dy) for x, y in first} != last:
        raise RuntimeError('two generations with one digest')
    return onset, period, dx, dy, code(rule, first, period, dx, dy)


def code(rule, cells, period, dx, dy):
    if dx or dy:
        prefix = 'xq%d' % period
    elif period > 1:
        prefix = 'xp%d' % period
    else:
        prefix = 'xs%d' % len(cells)
    plane = Plane(cells)
    best = None
    for n in range(period):
        if n:
            plane.step(rule)
        now = plane.cells()
        for m in MAPS.values():
            text = body({m(x, y) for x, y in now})
            if best is None or (len(text), text) < (len(best), best):
                best = text
    return prefix + '_' + best


_known = {}


def answer(text, bound):
    """('bad', n), ('none', rule, pop) or ('ok', rule, pop, onset, period, dx, dy, code)."""
    tag = (hashlib.blake2b(text).digest(), bound)
    if tag not in _known:
        try:
            rule, cells = read_rle(text)
        except Fault as f:
            _known[tag] = ('bad', f.number)
        else:
            found = find(rule, cells, bound)
            _known[tag] = (('ok', rule_text(rule), len(cells)) + found if found
                           else ('none', rule_text(rule), len(cells)))
    return _known[tag]


# ------------------------------------------------------------------ bundles
def lawful_name(name):
    return (1 <= len(name) <= NAME_LIMIT and name[:1] != b' ' and name[-1:] != b' '
            and all(c >= 32 and c != 127 for c in name))


def read_bundle(text):
    """A list of (name, [(name, text)]), or Fault('bundle', 1..5, line)."""
    folders = []
    number, pos, begun = 0, 0, None                     # begun: where the open entry's text begins

    def close(end):
        if begun is not None:
            entries = folders[-1][1]
            entries[-1] = (entries[-1][0], text[begun:end])

    while pos < len(text):
        number += 1
        end = text.find(b'\n', pos)
        if end < 0:
            line, after = text[pos:], len(text)         # no ending; a CR here is a byte of the line
        else:
            line, after = text[pos:end], end + 1
            if line.endswith(b'\r'):
                line = line[:-1]
        if line[:1] != b'@':
            if begun is None and line.strip(LINE_BLANK):
                raise Fault('bundle', 1, number)
        else:
            close(pos)
            begun = None
            if line.startswith(b'@file '):
                if not folders:
                    raise Fault('bundle', 2, number)
                if not lawful_name(line[6:]):
                    raise Fault('bundle', 4, number)
                if len(folders[-1][1]) == LIST_LIMIT:
                    raise Fault('bundle', 5, number)
                folders[-1][1].append((line[6:], b''))
                begun = after
            elif line.startswith(b'@folder '):
                if not lawful_name(line[8:]):
                    raise Fault('bundle', 4, number)
                if len(folders) == LIST_LIMIT:
                    raise Fault('bundle', 5, number)
                folders.append((line[8:], []))
            else:
                raise Fault('bundle', 3, number)
        pos = after
    close(len(text))
    return folders


# ------------------------------------------------------------------ reports
def section(c, folder, bound):
    """The lines of collection c (from 1), without their LF, as bytes."""
    name, entries = folder
    lines = [b'open %d %d %s' % (c, len(entries), name)]
    counts = {}                                         # (rule, code) -> COUNT, first-seen order
    kinds = Counter()
    for i, (entry, text) in enumerate(entries, 1):
        a = answer(text, bound)
        kinds[a[0]] += 1
        fields = ' '.join(map(str, a)).encode()
        lines.append(b'line %d %d %s %s' % (c, i, fields, entry))
        if a[0] == 'ok':
            counts[a[1], a[-1]] = counts.get((a[1], a[-1]), 0) + 1
    lines += [('code %d %s %s %d' % (c, r, k, n)).encode() for (r, k), n in counts.items()]
    lines.append(b'close %d %d %d %d %d' % (c, len(entries), kinds['ok'], kinds['none'], kinds['bad']))
    return lines


def end_line(bundle):
    return b'end %d %d' % (len(bundle), sum(len(e) for _, e in bundle))


def report(bundle, bound):
    """One lawful report: that of a collector to which all results come in rising order.
    (All `open` lines first, an empty collection's `close` after its `open`.)"""
    sections = [section(c, f, bound) for c, f in enumerate(bundle, 1)]
    out = []
    for s, (_, entries) in zip(sections, bundle):
        out += s if not entries else s[:1]
    for s, (_, entries) in zip(sections, bundle):
        out += s[1:] if entries else []
    out.append(end_line(bundle))
    return b''.join(l + b'\n' for l in out)


# ------------------------------------------------------------------ the program
class Usage(Exception):
    """Status 2."""


class Help(Exception):
    """Status 0, a text on standard output that nothing fixes."""


class Stop(Exception):
    def __init__(self, status, line):
        self.status, self.line = status, line


COUNTS = {'--bound': '--bound', '-b': '--bound', '--workers': '--workers', '-w': '--workers'}


def words_of(args, options, positionals, many):
    """A small reading of what clap accepts: options with one value, by either name, `--name=value`, `--`."""
    opts, rest, plain = {}, [], False
    i = 0
    while i < len(args):
        a = args[i]
        if plain or a == '-' or not a.startswith('-'):
            rest.append(a)
        elif a == '--':
            plain = True
        elif a in ('-h', '--help'):
            raise Help()
        else:
            name, eq, value = a.partition('=')
            name = options.get(name)
            if not name or name in opts:
                raise Usage()
            if not eq:
                i += 1
                if i == len(args) or (args[i].startswith('-') and args[i] != '-'):
                    raise Usage()
                value = args[i]
            opts[name] = value
        i += 1
    if len(rest) < positionals or (len(rest) > positionals and not many):
        raise Usage()
    return opts, rest


def number(word, low, high):
    if not re.fullmatch(r'[0-9]+', word) or not low <= int(word) <= high:
        raise Usage()
    return int(word)


def read_limited(stream):
    try:
        data = stream.read(INPUT_LIMIT + 1)
    except OSError:
        raise Stop(4, 'census: read failed') from None
    if len(data) > INPUT_LIMIT:
        raise Stop(1, 'census: input too long')
    return data


def folders_of(words):
    bundle = []
    for word in words:
        name = os.fsencode(word)
        if not lawful_name(name):
            raise Fault('folder', 1)
        if len(bundle) == LIST_LIMIT:
            raise Fault('folder', 3)
        entries = []
        bundle.append((name, entries))
        try:
            found = sorted(n for n in os.listdir(name) if n.endswith(b'.rle'))
        except OSError:
            raise Stop(4, 'census: read failed') from None
        for n in found:
            try:
                with open(os.path.join(name, n), 'rb') as f:
                    text = read_limited(f)
            except OSError:
                raise Stop(4, 'census: read failed') from None
            if not lawful_name(n):
                raise Fault('folder', 1)
            if len(entries) == LIST_LIMIT:
                raise Fault('folder', 3)
            entries.append((n, text))
    return bundle


def refuse_large(rule, cells, n, most):
    """Stops at the first generation from 0 to n that has more than `most` cells."""
    now = set(cells)
    for age in range(n + 1):
        if len(now) > most:
            raise Stop(1, 'census: more than %d cells at generation %d' % (most, age))
        now = next_literal(rule, now)


def dispatch(args, stdin):
    """The bytes for standard output; raises Usage, Help, Fault or Stop."""
    if not args:
        raise Usage()
    if args[0] in ('-h', '--help', 'help'):
        raise Help()
    if args[0] == 'advance':
        opts, rest = words_of(args[1:], {'--cells': '--cells'}, 1, False)
        n = number(rest[0], 0, AGE_LIMIT)
        most = number(opts['--cells'], 1, MOST_CELLS) if '--cells' in opts else None
        rule, cells = read_rle(read_limited(stdin))
        if most is not None:
            refuse_large(rule, cells, n, most)
        return write_rle(rule, evolve(rule, cells, n)).encode()
    if args[0] == 'draw':
        opts, rest = words_of(args[1:], {'--rule': '--rule'}, 1, False)
        rule = parse_rule(os.fsencode(opts.get('--rule', 'B3/S23')))
        return write_rle(rule, read_wechsler(body_of(os.fsencode(rest[0])))).encode()
    if args[0] == 'run':
        opts, rest = words_of(args[1:], COUNTS, 0, True)
        bound = number(opts.get('--bound', '1000'), 1, BOUND_LIMIT)
        number(opts.get('--workers', '4'), 1, WORKER_LIMIT)
        bundle = folders_of(rest) if rest else read_bundle(read_limited(stdin))
        return report(bundle, bound)
    raise Usage()


def main(args=None):
    args = sys.argv[1:] if args is None else args
    try:
        out = dispatch(args, sys.stdin.buffer)
    except Usage:
        sys.stderr.write('reference: bad command line\n')
        return 2
    except Help:
        sys.stdout.write(__doc__)
        return 0
    except Fault as f:
        sys.stderr.write(f.line() + '\n')
        return 1
    except Stop as s:
        sys.stderr.write(s.line + '\n')
        return s.status
    except MemoryError:
        sys.stderr.write('census: out of memory\n')
        return 3
    try:
        while out:
            out = out[os.write(1, out):]
    except OSError:
        sys.stderr.write('census: write failed\n')
        return 4
    return 0


if __name__ == '__main__':
    status = main()
    sys.stderr.flush()
    os._exit(status)
