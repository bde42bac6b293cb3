use std::collections::BTreeMap;
pub const STRIP: usize = 130;
#[derive(Clone, Copy)]
pub struct Tile { pub rows: [u16; 1040] }
const EMPTY: Tile = Tile { rows: [0; 1040] };
#[derive(Clone, Copy)]
struct Sum { ones: u16, twos: u16 }
#[inline(always)] fn half_adder(a: u16, b: u16) -> Sum { Sum { ones: a ^ b, twos: a & b } }
#[inline(always)] fn full_adder(a: u16, b: u16, c: u16) -> Sum { let part = a ^ b; Sum { ones: part ^ c, twos: (a & b) | (part & c) } }
#[derive(Clone, Copy)]
struct Triple { west: u16, here: u16, east: u16 }
#[derive(Clone, Copy)]
pub struct Count { ones: u16, beside: u16, pairs: u16, column: u16, carried: u16 }
#[inline(always)] fn beyond(t: Triple) -> u16 { (t.west >> 15) | (t.east << 15) }
#[inline(always)] fn beside(word: u16, beyond: u16) -> Sum { full_adder(word << 1, word >> 1, beyond) }
#[inline(always)] fn with_bit(s: Sum, bit: u16) -> Sum { Sum { ones: s.ones ^ bit, twos: s.twos | (s.ones & bit) } }
#[inline(always)]
fn count_around(up: Triple, mid: Triple, down: Triple) -> Count {
    let outside = full_adder(beyond(up), beyond(mid), beyond(down));
    let column = half_adder(up.here, down.here);
    let three = full_adder(up.here, down.here, mid.here);
    let ones = beside(three.ones, outside.ones);
    let twos = beside(three.twos, outside.twos);
    let near = with_bit(ones, column.ones);
    Count { ones: near.ones, beside: twos.ones, pairs: twos.twos, column: column.twos, carried: near.twos }
}
pub trait Branch { fn next(&self, here: u16, count: Count) -> u16; }
pub struct Life;
impl Branch for Life {
    #[inline(always)]
    fn next(&self, here: u16, count: Count) -> u16 {
        let odd = count.beside ^ count.column ^ count.carried;
        let many = count.pairs | (count.column & count.carried);
        odd & !many & (count.ones | here)
    }
}
#[derive(Clone, Copy)]
struct Strip<'a> { tile: &'a Tile, from: usize }
#[derive(Clone, Copy)]
struct Ring<'a> { west: Strip<'a>, here: Strip<'a>, east: Strip<'a>, top: usize }
impl<'a> Ring<'a> {
    #[inline(always)]
    fn of(west: &'a Tile, here: &'a Tile, east: &'a Tile, strip: usize, top: usize) -> Ring<'a> {
        let w = if strip == 0 { Strip { tile: west, from: STRIP * 7 } } else { Strip { tile: here, from: STRIP * (strip - 1) } };
        let e = if strip == 7 { Strip { tile: east, from: 0 } } else { Strip { tile: here, from: STRIP * (strip + 1) } };
        Ring { west: w, here: Strip { tile: here, from: STRIP * strip }, east: e, top }
    }
    #[inline(always)]
    fn row(&self, y: usize) -> Triple {
        unsafe { Triple { west: *self.west.tile.rows.get_unchecked(self.west.from + (self.top + y)), here: *self.here.tile.rows.get_unchecked(self.here.from + (self.top + y)), east: *self.east.tile.rows.get_unchecked(self.east.from + (self.top + y)) } }
    }
}
#[inline(always)]
fn next_rows<B: Branch>(branch: &B, ring: &Ring) -> [u16; 16] {
    let mut rows = [0; 16];
    for y in 0..16 {
        let middle = ring.row(y + 1);
        rows[y] = branch.next(middle.here, count_around(ring.row(y), middle, ring.row(y + 2)));
    }
    rows
}
#[derive(Clone, Copy)]
struct Change { all: u16, first: u16, last: u16 }
#[derive(Clone, Copy, Default)]
pub struct Tally { before: u64, after: u64 }
#[inline(always)]
fn get(t: &Tile, i: usize) -> u16 { unsafe { *t.rows.get_unchecked(i) } }
#[inline(always)]
fn next_block<B: Branch, const COUNT: bool>(branch: &B, ring: &Ring, tile: &mut Tile, from: usize, tally: &mut Tally) -> Change {
    let next = next_rows(branch, ring);
    let mut all = 0;
    for y in 0..16 { all |= get(tile, from + y) ^ next[y]; }
    let change = Change { all, first: get(tile, from) ^ next[0], last: get(tile, from + 15) ^ next[15] };
    if change.all != 0 {
        if COUNT {
            let (mut before, mut after) = (0u32, 0u32);
            #[cfg(not(packed))]
            for y in 0..16 { before += get(tile, from + y).count_ones(); after += next[y].count_ones(); }
            #[cfg(packed)]
            for q in 0..4 {
                let w = |k: usize| u64::from(get(tile, from + 4 * q + k)); let v = |k: usize| u64::from(next[4 * q + k]);
                before += (w(0) | w(1) << 16 | w(2) << 32 | w(3) << 48).count_ones(); after += (v(0) | v(1) << 16 | v(2) << 32 | v(3) << 48).count_ones();
            }
            tally.before += u64::from(before); tally.after += u64::from(after);
        }
        for y in 0..16 { unsafe { *tile.rows.get_unchecked_mut(from + y) = next[y]; } }
    }
    change
}
#[derive(Clone, Copy)]
struct Touched { columns: [u16; 10] }
#[inline(always)] fn rows_at(change: &Change, side: usize) -> u16 {
    let has = |bits: u16| match side { 0 => bits & 1 == 1, 1 => bits != 0, _ => bits >> 15 == 1 };
    u16::from(has(change.first)) + 2 * u16::from(has(change.all)) + 4 * u16::from(has(change.last))
}
impl Touched {
    #[inline(always)]
    fn add(&mut self, strip: usize, row: usize, change: &Change) {
        unsafe {
        *self.columns.get_unchecked_mut(strip + 1) |= rows_at(change, 1) << row;
        if (change.all | change.first | change.last) & 0x8001 != 0 {
            *self.columns.get_unchecked_mut(strip) |= rows_at(change, 0) << row;
            *self.columns.get_unchecked_mut(strip + 2) |= rows_at(change, 2) << row;
        }
        }
    }
    #[inline(always)]
    fn own(&self) -> u64 {
        let mut word = 0;
        for s in 0..8 { word |= (u64::from(self.columns[s + 1] >> 1) & 255) << (8 * s); }
        word
    }
    /// whether marks of other tiles
    #[inline(always)]
    fn reaches(&self) -> bool {
        let mut all = 0;
        for s in 1..9 { all |= self.columns[s]; }
        (all & 0x201) | self.columns[0] | self.columns[9] != 0
    }
    fn marks_in(&self, side: usize, row: usize) -> u64 {
        let (from, at, n) = [(0, 7, 1), (1, 0, 8), (9, 0, 1)][side];
        let mut word = 0;
        for s in 0..n { word |= ((u64::from(self.columns[from + s]) << 7 >> (8 * row)) & 255) << (8 * (at + s)); }
        word
    }
    #[inline(always)]
    fn mark(&self, marks: &mut [u64], links: &[u32; 9]) {
        marks[links[4] as usize] |= self.own();
        if self.reaches() { self.mark_around(marks, links); }
    }
    #[inline(never)]
    fn mark_around(&self, marks: &mut [u64], links: &[u32; 9]) {
        for m in 0..9 { if m != 4 { marks[links[m] as usize] |= self.marks_in(m % 3, m / 3); } }
    }
}
fn first_from(bits: u64, at: usize) -> usize { if at >= 64 { return 64; } let rest = bits >> at; if rest == 0 { 64 } else { at + rest.trailing_zeros() as usize } }
#[inline(always)]
fn next_tile<B: Branch, const COUNT: bool>(tile: &mut Tile, west: &Tile, here: &Tile, east: &Tile, active: u64, branch: &B, tally: &mut Tally) -> Touched {
    let mut touched = Touched { columns: [0; 10] };
    let mut index = first_from(active, 0);
    while index < 64 {
        let (strip, row) = (index / 8, index % 8);
        let ring = Ring::of(west, here, east, strip, 16 * row);
        let change = next_block::<B, COUNT>(branch, &ring, tile, STRIP * strip + 16 * row + 1, tally);
        if change.all != 0 { touched.add(strip, row, &change); }
        index = first_from(active, index + 1);
    }
    touched
}
const STRIDE: usize = 32;
fn is_busy(active: &[u64], from: usize) -> bool { let mut all = 0; for s in 0..STRIDE { all |= active[from + s]; } all != 0 }
#[inline(never)]
fn first_busy(active: &[u64], from: usize) -> usize {
    let mut slot = from;
    while active.len() >= STRIDE && slot <= active.len() - STRIDE && !is_busy(active, slot) { slot += STRIDE; }
    while slot < active.len() && active[slot] == 0 { slot += 1; }
    slot
}
#[derive(Clone, Copy)]
pub struct Slot { place: (i32, i32), links: [u32; 9] }
pub struct Plane { index: BTreeMap<(i32, i32), u32>, slots: Vec<Slot>, current: Vec<Tile>, previous: Vec<Tile>, active: Vec<u64>, next_active: Vec<u64>, fresh: bool, age: u32, even: u64, limit: usize }
fn is_void(t: &Tile) -> bool { for s in 0..8 { for y in 1..129 { if t.rows[130 * s + y] != 0 { return false; } } } true }
impl Plane {
    pub fn new() -> Plane { let mut p = Plane { index: BTreeMap::new(), slots: vec![], current: vec![], previous: vec![], active: vec![], next_active: vec![], fresh: true, age: 0, even: 0, limit: 32 }; p.append((0, 0), [0; 9]); p }
    fn append(&mut self, place: (i32, i32), links: [u32; 9]) { self.slots.push(Slot { place, links }); self.current.push(EMPTY); self.previous.push(EMPTY); self.active.push(!0); self.next_active.push(0); }
    fn add(&mut self, place: (i32, i32)) -> usize {
        let slot = self.slots.len();
        let mut links = [0u32; 9];
        for m in 0..9 { links[m] = *self.index.get(&(place.0 + m as i32 % 3 - 1, place.1 + m as i32 / 3 - 1)).unwrap_or(&0); }
        links[4] = slot as u32;
        self.index.insert(place, slot as u32);
        self.append(place, links);
        for m in 0..9 { let o = links[m] as usize; if o != slot { self.slots[o].links[8 - m] = slot as u32; } }
        self.slots[0].links = [0; 9];
        for copy in [&mut self.current, &mut self.previous] { for s in 0..8 { let (u, d) = (copy[links[1] as usize].rows[130 * s + 128], copy[links[7] as usize].rows[130 * s + 1]); copy[slot].rows[130 * s] = u; copy[slot].rows[130 * s + 129] = d; } }
        slot
    }
    fn slot_for(&mut self, place: (i32, i32)) -> usize { if let Some(s) = self.index.get(&place) { return *s as usize; } self.add(place) }
    pub fn set(&mut self, x: i32, y: i32) {
        let slot = self.slot_for((x >> 7, y >> 7));
        let (x, y) = ((x & 127) as usize, (y & 127) as usize);
        let (s, bit) = (x / 16, 1u16 << (x % 16));
        if self.current[slot].rows[130 * s + y + 1] & bit != 0 { return; }
        self.current[slot].rows[130 * s + y + 1] |= bit; self.even += 1;
        let links = self.slots[slot].links;
        if y == 0 && links[1] != 0 { self.current[links[1] as usize].rows[130 * s + 129] |= bit; }
        if y == 127 && links[7] != 0 { self.current[links[7] as usize].rows[130 * s] |= bit; }
    }
    fn grow(&mut self) {
        if self.active[0] == 0 { return; }
        for slot in 1..self.slots.len() {
            if self.active[slot] == 0 { continue; }
            if self.slots[slot].links.iter().all(|l| *l != 0) { continue; }
            let t = &self.current[slot];
            let row = |y: usize| (0..8).fold((0u16, 0u16, 0u16), |(a, f, l), s| { let r = t.rows[130 * s + y + 1]; (a | r, if s == 0 { f | r & 1 } else { f }, if s == 7 { l | r >> 15 } else { l }) });
            let mut any = [[false; 3]; 3];
            for y in [0, 127] { let (a, f, l) = row(y); any[if y == 0 { 0 } else { 2 }] = [f != 0, a != 0, l != 0]; }
            for y in 0..128 { let (a, f, l) = row(y); any[1][0] |= f != 0; any[1][1] |= a != 0; any[1][2] |= l != 0; }
            for m in 0..9 { if self.slots[slot].links[m] == 0 && any[m / 3][m % 3] { let p = self.slots[slot].place; self.slot_for((p.0 + m as i32 % 3 - 1, p.1 + m as i32 / 3 - 1)); } }
        }
    }
    fn begin(&mut self) {
        if self.fresh {
            for t in &mut self.previous { *t = EMPTY; }
            if self.age % 2 == 1 { self.even = 0; }
            self.active.iter_mut().for_each(|m| *m = 0);
            for slot in 1..self.slots.len() {
                let mut touched = Touched { columns: [0; 10] };
                for n in 0..64 { let (s, r) = (n / 8, n % 8); let from = 130 * s + 16 * r + 1; let t = &self.current[slot]; let mut all = 0; for y in 0..16 { all |= t.rows[from + y]; } if all != 0 { touched.add(s, r, &Change { all, first: t.rows[from], last: t.rows[from + 15] }); } }
                let links = self.slots[slot].links;
                touched.mark(&mut self.active, &links);
            }
            self.next_active.copy_from_slice(&self.active);
        } else { self.next_active.iter_mut().for_each(|m| *m = 0); }
    }
    #[inline(never)]
    fn next_tiles<B: Branch, const COUNT: bool>(&mut self, branch: &B) {
        let mut tally = Tally::default();
        let mut slot = first_busy(&self.active, 1);
        while slot < self.slots.len() {
            let links = &self.slots[slot].links;
            let touched = next_tile::<B, COUNT>(&mut self.previous[slot], &self.current[links[3] as usize], &self.current[links[4] as usize], &self.current[links[5] as usize], self.active[slot], branch, &mut tally);
            touched.mark(&mut self.next_active, links);
            let mut rows = 0; for s in 1..9 { rows |= touched.columns[s]; }
            if rows & 1 != 0 && links[1] != 0 { for s in 0..8 { self.previous[links[1] as usize].rows[130 * s + 129] = self.previous[slot].rows[130 * s + 1]; } }
            if rows & 0x200 != 0 && links[7] != 0 { for s in 0..8 { self.previous[links[7] as usize].rows[130 * s] = self.previous[slot].rows[130 * s + 128]; } }
            slot = first_busy(&self.active, slot + 1);
        }
        self.even = self.even + tally.after - tally.before;
    }
    fn compact(&mut self) {
        if self.slots.len() <= self.limit { return; }
        let live = self.current.iter().filter(|t| !is_void(t)).count();
        if live > self.slots.len() / 2 { self.limit = 2 * self.slots.len() + 32; return; }
        let mut p = Plane::new();
        for slot in 1..self.slots.len() { if !is_void(&self.current[slot]) { let n = p.slot_for(self.slots[slot].place); p.current[n] = self.current[slot]; } }
        for n in 1..p.slots.len() { let l = p.slots[n].links; for s in 0..8 { p.current[n].rows[130 * s] = p.current[l[1] as usize].rows[130 * s + 128]; p.current[n].rows[130 * s + 129] = p.current[l[7] as usize].rows[130 * s + 1]; } }
        p.age = self.age; p.even = self.even; if self.age % 2 == 1 { p.even = 0; }
        p.limit = 2 * p.slots.len() + 32;
        *self = p;
    }
    pub fn step<B: Branch>(&mut self, branch: &B) {
        self.compact();
        let fresh = self.fresh;
        self.grow();
        if fresh { self.limit = 2 * self.slots.len() + 32; }
        self.begin();
        if self.age % 2 == 1 { self.next_tiles::<B, true>(branch) } else { self.next_tiles::<B, false>(branch) }
        std::mem::swap(&mut self.current, &mut self.previous); std::mem::swap(&mut self.active, &mut self.next_active);
        self.fresh = false; self.age += 1;
    }
    pub fn population(&self) -> u64 {
        if self.age % 2 == 0 { return self.even; }
        let mut n = 0u64;
        for t in &self.current[1..] { for s in 0..8 { for y in 1..129 { n += u64::from(t.rows[130 * s + y].count_ones()); } } }
        n
    }
    pub fn slots(&self) -> usize { self.slots.len() }
}

#[derive(Clone, Copy)]
pub struct Poly { dead: [u16; 9], turn: [u16; 9] }
fn four_c(w: [u16; 4]) -> [u16; 4] { let both = w[0] ^ w[1]; [w[0], both, w[0] ^ w[2], both ^ w[2] ^ w[3]] }
fn coefs(w: &[u16; 9]) -> [u16; 9] { let l = four_c([w[0], w[1], w[2], w[3]]); let h = four_c([w[0] ^ w[4], w[1] ^ w[5], w[2] ^ w[6], w[3] ^ w[7]]); [l[0], l[1], l[2], l[3], h[0], h[1], h[2], h[3], w[0] ^ w[8]] }
impl Poly {
    pub fn of(b: u16, s: u16) -> Poly { let (mut d, mut l) = ([0; 9], [0; 9]); for n in 0..9 { d[n] = if b >> n & 1 == 1 { !0 } else { 0 }; l[n] = if s >> n & 1 == 1 { !0 } else { 0 }; } let (d, l) = (coefs(&d), coefs(&l)); let mut turn = [0; 9]; for n in 0..9 { turn[n] = d[n] ^ l[n]; } Poly { dead: d, turn } }
    #[inline(always)] fn at(&self, here: u16, n: usize) -> u16 { self.dead[n] ^ (here & self.turn[n]) }
}
impl Branch for Poly {
    #[inline(always)]
    fn next(&self, here: u16, c: Count) -> u16 {
        let t = full_adder(c.beside, c.column, c.carried); let f = half_adder(t.twos, c.pairs);
        let (ones, twos, fours, eights) = (c.ones, t.ones, f.ones, f.twos);
        let x = |b: u16, w: u16, m: u16| w ^ (b & m);
        let none = x(ones, self.at(here, 0), self.at(here, 1)); let two = x(ones, self.at(here, 2), self.at(here, 3));
        let four = x(ones, self.at(here, 4), self.at(here, 5)); let six = x(ones, self.at(here, 6), self.at(here, 7));
        x(eights, x(fours, x(twos, none, two), x(twos, four, six)), self.at(here, 8))
    }
}
impl Plane { pub fn cells(&self) -> Vec<(i32, i32)> { let mut v = vec![]; for k in 1..self.slots.len() { let p = self.slots[k].place; for s in 0..8 { for y in 0..128 { for j in 0..16 { if self.current[k].rows[130 * s + y + 1] >> j & 1 == 1 { v.push((p.0 * 128 + 16 * s as i32 + j, p.1 * 128 + y as i32)); } } } } } v.sort(); v } }
