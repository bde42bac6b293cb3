// The fast plane's algorithm in plain Rust: tiles of 64 by 64 cells that stay where they are, a list of this generation's and
// one of those before, and for each tile a bit for each eight rows that may change. Reads an RLE text and prints how many
// cells generation N has.
//     rustc --edition 2021 -O -C target-cpu=x86-64-v2 plain.rs && ./plain N < PATTERN.rle
#![forbid(unsafe_code)]
use std::collections::BTreeMap;
use std::io::Read;

type Tile = [u64; 64];
const EMPTY: Tile = [0; 64];
const ROWS: usize = 8;
const BANDS: usize = 64 / ROWS;
/// The offset of the tiles to the north west.
const STAND_OFF: i32 = 26;

/// The next state of 64 cells, of the bits that their live neighbours' number is made of:
/// ones + 2 (a + 2 b + c + 2 d).
trait Logic {
    fn next(&self, here: u64, ones: u64, a: u64, b: u64, c: u64, d: u64) -> u64;
}

struct Life;

impl Logic for Life {
    #[inline(always)]
    fn next(&self, here: u64, ones: u64, a: u64, b: u64, c: u64, d: u64) -> u64 {
        (a ^ c) & !(b | d) & (ones | here)
    }
}

/// The answers of a rule as sums without carries of terms: of the first eight those whose places have no bit but the ones of the
/// number of live neighbours, and the last where that number is 8. A live cell adds to each what `turn` has.
struct Terms {
    dead: [u64; 9],
    turn: [u64; 9],
}

fn four_terms(words: [u64; 4]) -> [u64; 4] {
    let both = words[0] ^ words[1];
    [
        words[0],
        both,
        words[0] ^ words[2],
        both ^ words[2] ^ words[3],
    ]
}

fn terms(words: [u64; 9]) -> [u64; 9] {
    let low = four_terms([words[0], words[1], words[2], words[3]]);
    let high = four_terms(std::array::from_fn(|n| words[n] ^ words[n + 4]));
    std::array::from_fn(|n| match n {
        0..=3 => low[n],
        4..=7 => high[n - 4],
        _ => words[0] ^ words[8],
    })
}

impl Terms {
    fn of(birth: u16, survival: u16) -> Terms {
        let word = |set: u16, n: usize| if set >> n & 1 == 1 { !0 } else { 0 };
        let spread = |set: u16| terms(std::array::from_fn(|n| word(set, n)));
        let (dead, live) = (spread(birth), spread(survival));
        Terms {
            dead,
            turn: std::array::from_fn(|n| dead[n] ^ live[n]),
        }
    }
}

impl Logic for Terms {
    #[inline(always)]
    fn next(&self, here: u64, ones: u64, a: u64, b: u64, c: u64, d: u64) -> u64 {
        let (twos, carry) = (a ^ c, a & c);
        let (fours, eights) = (b ^ d ^ carry, b & d);
        let at = |n: usize| self.dead[n] ^ (here & self.turn[n]);
        let low = (at(0) ^ (ones & at(1))) ^ (twos & (at(2) ^ (ones & at(3))));
        let high = (at(4) ^ (ones & at(5))) ^ (twos & (at(6) ^ (ones & at(7))));
        low ^ (fours & high) ^ (eights & at(8))
    }
}

/// The sums along a row: of the two neighbours of each cell, and of all three, each as two planes of bits.
#[inline(always)]
fn sums(west: u64, here: u64, east: u64) -> (u64, u64, u64, u64) {
    let (left, right, edges) = (here << 1, here >> 1, west >> 63 | east << 63);
    let half = left ^ right;
    let (one, two) = (half ^ edges, (left & right) | (half & edges));
    (one, two, one ^ here, two | (one & here))
}

/// Makes eight rows anew. Gives the columns in which any of them, the first and the last changed.
#[inline(always)]
fn band<L: Logic>(
    logic: &L,
    up: [u64; 3],
    [west, here, east]: [&[u64; ROWS]; 3],
    down: [u64; 3],
    out: &mut [u64; ROWS],
) -> [u64; 3] {
    let (mut three_one, mut three_two) = ([0; ROWS + 2], [0; ROWS + 2]);
    let (mut two_one, mut two_two) = ([0; ROWS], [0; ROWS]);
    (_, _, three_one[0], three_two[0]) = sums(up[0], up[1], up[2]);
    for y in 0..ROWS {
        (two_one[y], two_two[y], three_one[y + 1], three_two[y + 1]) = sums(west[y], here[y], east[y]);
    }
    (_, _, three_one[ROWS + 1], three_two[ROWS + 1]) = sums(down[0], down[1], down[2]);
    let mut changed = [0; ROWS];
    for y in 0..ROWS {
        let half = three_one[y] ^ three_one[y + 2];
        let carry = (three_one[y] & three_one[y + 2]) | (half & two_one[y]);
        let next = logic.next(
            here[y],
            half ^ two_one[y],
            three_two[y] ^ three_two[y + 2],
            three_two[y] & three_two[y + 2],
            two_two[y] ^ carry,
            two_two[y] & carry,
        );
        changed[y] = next ^ out[y];
        out[y] = next;
    }
    [
        changed.iter().fold(0, |all, row| all | row),
        changed[0],
        changed[ROWS - 1],
    ]
}

/// Row by row from the north west: places are columns and rows.
const AROUND: [(i32, i32); 9] = [
    (-1, -1),
    (0, -1),
    (1, -1),
    (-1, 0),
    (0, 0),
    (1, 0),
    (-1, 1),
    (0, 1),
    (1, 1),
];

#[derive(Default)]
struct Plane {
    index: BTreeMap<(i32, i32), usize>,
    place: Vec<(i32, i32)>,
    links: Vec<[usize; 9]>,
    now: Vec<Tile>,
    before: Vec<Tile>,
    todo: Vec<u16>,
    marks: Vec<u16>,
    wanted: Vec<(usize, usize, u16)>,
    fresh: bool,
    kept: usize,
}

impl Plane {
    fn new() -> Plane {
        let mut plane = Plane {
            fresh: true,
            ..Plane::default()
        };
        plane.push((i32::MAX, i32::MAX), [0; 9]);
        plane
    }

    fn push(&mut self, place: (i32, i32), links: [usize; 9]) {
        self.place.push(place);
        self.links.push(links);
        self.now.push(EMPTY);
        self.before.push(EMPTY);
        self.todo.push(0);
        self.marks.push(0);
    }

    fn slot(&mut self, place: (i32, i32)) -> usize {
        if let Some(slot) = self.index.get(&place) {
            return *slot;
        }
        let slot = self.now.len();
        self.index.insert(place, slot);
        let mut links = [0; 9];
        for (direction, (x, y)) in AROUND.into_iter().enumerate() {
            if let Some(&other) = self.index.get(&(place.0 + x, place.1 + y)) {
                links[direction] = other;
                if other != slot {
                    self.links[other][8 - direction] = slot;
                }
            }
        }
        self.push(place, links);
        slot
    }

    /// Makes a tile wherever a live cell of either list is next to a place without one.
    fn surround(&mut self) {
        for slot in 1..self.now.len() {
            let row = |y: usize| self.now[slot][y] | self.before[slot][y];
            let rows = [row(0), (0..64).fold(0, |all, y| all | row(y)), row(63)];
            let (place, links) = (self.place[slot], self.links[slot]);
            for (direction, (x, y)) in AROUND.into_iter().enumerate() {
                let bits = rows[direction / 3];
                let live = [bits & 1 == 1, bits != 0, bits >> 63 == 1][direction % 3];
                if live && links[direction] == 0 {
                    self.slot((place.0 + x, place.1 + y));
                }
            }
        }
    }

    /// Drops the tiles that are empty in both lists and next to no live cell.
    fn compact(&mut self) {
        let mut plane = Plane::new();
        for slot in 1..self.now.len() {
            if self.now[slot] != EMPTY || self.before[slot] != EMPTY {
                let new = plane.slot(self.place[slot]);
                (plane.now[new], plane.before[new]) = (self.now[slot], self.before[slot]);
            }
        }
        plane.surround();
        for slot in 1..self.now.len() {
            if let Some(&new) = plane.index.get(&self.place[slot]) {
                plane.todo[new] = self.todo[slot];
            }
        }
        (plane.fresh, plane.kept) = (self.fresh, plane.now.len());
        *self = plane;
    }

    fn step<L: Logic>(&mut self, logic: &L) {
        for slot in 1..self.now.len() {
            if self.todo[slot] != 0 {
                self.work(slot, logic);
            }
        }
        while let Some((slot, direction, bits)) = self.wanted.pop() {
            let (place, (x, y)) = (self.place[slot], AROUND[direction]);
            let new = self.slot((place.0 + x, place.1 + y));
            self.marks[new] |= bits;
        }
        std::mem::swap(&mut self.now, &mut self.before);
        std::mem::swap(&mut self.todo, &mut self.marks);
        if self.fresh {
            self.fresh = false;
            self.todo.iter_mut().skip(1).for_each(|bands| *bands = (1 << BANDS) - 1);
        }
        if self.now.len() > 2 * self.kept + 32 {
            self.compact();
        }
    }

    /// Works the marked bands of a tile, and marks what a change touches.
    fn work<L: Logic>(&mut self, slot: usize, logic: &L) {
        let mut bands = std::mem::take(&mut self.todo[slot]);
        let links = self.links[slot];
        let tile = |direction: usize| &self.now[links[direction]];
        let (west, here, east) = (tile(3), tile(4), tile(5));
        let out = &mut self.before[slot];
        let [mut to_west, mut to_here, mut to_east] = [0u16; 3];
        while bands != 0 {
            let band_at = bands.trailing_zeros() as usize;
            bands &= bands - 1;
            let (top, end) = (ROWS * band_at, ROWS * band_at + ROWS);
            let up = if top > 0 {
                [west[top - 1], here[top - 1], east[top - 1]]
            } else {
                [tile(0)[63], tile(1)[63], tile(2)[63]]
            };
            let down = if end < 64 {
                [west[end], here[end], east[end]]
            } else {
                [tile(6)[0], tile(7)[0], tile(8)[0]]
            };
            let rows = |tile: &'_ Tile| -> [u64; ROWS] { tile[top..end].try_into().expect("eight rows") };
            let (west, here, east) = (rows(west), rows(here), rows(east));
            let out = (&mut out[top..end]).try_into().expect("eight rows");
            let [all, first, last] = band(logic, up, [&west, &here, &east], down, out);
            let spread = |all: u64, first: u64, last: u64| {
                (u16::from(first != 0) | u16::from(all != 0) << 1 | u16::from(last != 0) << 2) << band_at
            };
            to_here |= spread(all, first, last);
            to_west |= spread(all & 1, first & 1, last & 1);
            to_east |= spread(all >> 63, first >> 63, last >> 63);
        }
        if to_here != 0 {
            self.mark(slot, [to_west, to_here, to_east]);
        }
    }

    /// Each of the bits 1 to 8 is a band of a column of three tiles, bit 0 the last band above, bit 9 the first one below.
    fn mark(&mut self, slot: usize, columns: [u16; 3]) {
        let links = self.links[slot];
        for direction in 0..9 {
            let bits = columns[direction % 3];
            let bands = [
                (bits & 1) << (BANDS - 1),
                bits >> 1 & ((1 << BANDS) - 1),
                bits >> (BANDS + 1),
            ][direction / 3];
            if bands != 0 && links[direction] == 0 {
                self.wanted.push((slot, direction, bands));
            } else {
                self.marks[links[direction]] |= bands;
            }
        }
    }
}

fn set_of(digits: &str) -> u16 {
    digits
        .bytes()
        .filter(u8::is_ascii_digit)
        .fold(0, |set, digit| set | 1 << (digit - b'0'))
}

fn read(text: &str) -> (u16, u16, Plane) {
    let mut lines = text.lines().filter(|line| !line.starts_with('#'));
    let header = lines.next().unwrap_or("");
    let rule = header.split("rule =").nth(1).unwrap_or("B3/S23").trim();
    let (birth, survival) = rule.split_once('/').unwrap_or(("B3", "S23"));
    let (mut x, mut y, mut run) = (STAND_OFF, STAND_OFF, 0i32);
    let mut plane = Plane::new();
    for byte in lines.flat_map(str::bytes) {
        match byte {
            b'0'..=b'9' => run = run * 10 + i32::from(byte - b'0'),
            b'o' => {
                for _ in 0..run.max(1) {
                    let slot = plane.slot((x / 64, y / 64));
                    plane.now[slot][(y % 64) as usize] |= 1 << (x % 64);
                    x += 1;
                }
                run = 0;
            }
            b'b' => (x, run) = (x + run.max(1), 0),
            b'$' => (x, y, run) = (STAND_OFF, y + run.max(1), 0),
            _ => {}
        }
    }
    plane.surround();
    plane
        .todo
        .iter_mut()
        .skip(1)
        .for_each(|bands| *bands = (1 << BANDS) - 1);
    (set_of(birth), set_of(survival), plane)
}

fn main() {
    let generations: u32 = std::env::args().nth(1).and_then(|word| word.parse().ok()).expect("N");
    let mut text = String::new();
    std::io::stdin().read_to_string(&mut text).expect("a text");
    let (birth, survival, mut plane) = read(&text);
    if (birth, survival) == (1 << 3, 1 << 2 | 1 << 3) {
        (0..generations).for_each(|_| plane.step(&Life));
    } else {
        let terms = Terms::of(birth, survival);
        (0..generations).for_each(|_| plane.step(&terms));
    }
    let cells: u32 = plane.now.iter().flatten().map(|row| row.count_ones()).sum();
    println!("{cells}");
}
