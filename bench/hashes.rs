// What is found of small patterns of Life, without their codes, in plain Rust: each generation is kept by a hash of its rows, and
// the first whose hash comes again gives onset, period and displacement. Reads a bundle, of which each pattern is at most 100 cells
// a side and in Life, and prints a line for each: its name, its population, and what was found within the bound.
//     rustc --edition 2021 -O -C target-cpu=x86-64-v2 hashes.rs && ./hashes BOUND < BUNDLE
#![forbid(unsafe_code)]
use std::collections::HashMap;
use std::io::{Read, Write};

/// Live cells: bit `x` of `rows[y]` is the cell at `(left + x, top + y)`. The first and the last row have one, and so has the first
/// column, where there is one at all.
#[derive(Default)]
struct Box {
    rows: Vec<u128>,
    left: i32,
    top: i32,
}

impl Box {
    /// Brings the cells back to the corner.
    fn trim(&mut self) {
        while self.rows.last() == Some(&0) {
            self.rows.pop();
        }
        let empty = self.rows.iter().take_while(|row| **row == 0).count();
        self.rows.drain(..empty);
        self.top += empty as i32;
        let all = self.rows.iter().fold(0, |all, row| all | row);
        if all != 0 {
            let shift = all.trailing_zeros();
            self.rows.iter_mut().for_each(|row| *row >>= shift);
            self.left += shift as i32;
        }
    }

    /// The pattern of an RLE text, after its header line.
    fn read(&mut self, text: &str) {
        *self = Box::default();
        let (mut x, mut row, mut count) = (0, 0u128, 0usize);
        for byte in text.bytes() {
            let times = count.max(1);
            match byte {
                b'0'..=b'9' => {
                    count = 10 * count + (byte - b'0') as usize;
                    continue;
                }
                b'b' => x += times,
                b'o' => {
                    row |= ((1 << times) - 1) << x;
                    x += times;
                }
                b'$' => {
                    self.rows.push(row);
                    self.rows.resize(self.rows.len() + times - 1, 0);
                    (x, row) = (0, 0);
                }
                b'!' => break,
                _ => continue,
            }
            count = 0;
        }
        self.rows.push(row);
        self.trim();
    }

    /// The next generation, into another box.
    fn step_into(&self, next: &mut Box) {
        next.rows.clear();
        (next.left, next.top) = (self.left - 1, self.top - 1);
        let row = |y: usize| self.rows.get(y.wrapping_sub(2)).map_or(0, |row| row << 1);
        let (mut above, mut here) = (0, 0);
        for y in 1..self.rows.len() + 3 {
            let below = row(y + 1);
            let three = |row: u128| {
                let (west, east) = (row << 1, row >> 1);
                (west ^ row ^ east, west & row | east & (west ^ row))
            };
            let ((a, a2), (c, c2)) = (three(above), three(below));
            let (b, b2) = ((here << 1) ^ (here >> 1), (here << 1) & (here >> 1));
            let (ones, carry) = (a ^ b ^ c, a & b | c & (a ^ b));
            let (d, e) = (a2 ^ b2, c2 ^ carry);
            next.rows.push((d ^ e) & !(a2 & b2 | c2 & carry) & (ones | here));
            (above, here) = (here, below);
        }
        next.trim();
    }

    fn hash(&self) -> u64 {
        let mut hash = 0xcbf2_9ce4_8422_2325u64;
        for row in &self.rows {
            for half in [*row as u64, (*row >> 64) as u64] {
                hash = (hash ^ half).wrapping_mul(0x9e37_79b9_7f4a_7c15).rotate_left(29);
            }
        }
        hash
    }
}

fn main() {
    let bound: u32 = std::env::args().nth(1).and_then(|word| word.parse().ok()).unwrap_or(1000);
    let mut bundle = String::new();
    std::io::stdin().read_to_string(&mut bundle).expect("a bundle of UTF-8");
    let mut out = Vec::new();
    let (mut here, mut next) = (Box::default(), Box::default());
    let mut seen = HashMap::new();
    for entry in bundle.split("@file ").skip(1) {
        let mut lines = entry.splitn(3, '\n');
        let name = lines.next().unwrap_or_default();
        here.read(lines.nth(1).unwrap_or_default());
        let population: u32 = here.rows.iter().map(|row| row.count_ones()).sum();
        seen.clear();
        let mut found = None;
        for age in 0..=bound {
            if let Some((onset, left, top)) = seen.insert(here.hash(), (age, here.left, here.top)) {
                found = Some((onset, age - onset, here.left - left, here.top - top));
                break;
            }
            here.step_into(&mut next);
            std::mem::swap(&mut here, &mut next);
        }
        match found {
            Some((onset, period, dx, dy)) => writeln!(out, "{name} {population} {onset} {period} {dx} {dy}"),
            None => writeln!(out, "{name} {population} unresolved"),
        }
        .expect("a line");
    }
    std::io::stdout().write_all(&out).expect("standard output");
}
