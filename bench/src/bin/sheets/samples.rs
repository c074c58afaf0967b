//! The sheets that are tried: sorts of them, made of base sheets or drawn.
use crate::lister::{LARGEST_LIMIT, LARGEST_SIDE, LONGEST};
use bench::kinds::Kind;
use bench::point::Point;
use bench::random::Random;
use bench::tables::{demand, table, FAMILIES};

#[derive(Clone, Copy, Debug, PartialEq, Eq)]
pub enum Sort {
    /// Written here: every command, option and kind, and every refusal that a sheet can meet, but 2 and 8.
    Written,
    /// Those of tests/sheets.py.
    Tests,
    /// A sheet cut before one of its bytes.
    Cut,
    /// One bit of one byte changed.
    Bit,
    /// One byte set to 00, FF or a command byte.
    Set,
    Doubled,
    Dropped,
    /// Several sheets, one after the other, one of them now and then in part.
    Joined,
    /// Bytes drawn at random, of all or of few, now and then behind a table that is opened.
    Bytes,
    /// Whole commands drawn at random.
    Commands,
    /// One or more tables of the families of `compare`, typed in a random order.
    Tables,
    /// Of the greatest length, and of more.
    Long,
}

pub const SORTS: [Sort; 12] = [
    Sort::Written,
    Sort::Tests,
    Sort::Cut,
    Sort::Bit,
    Sort::Set,
    Sort::Doubled,
    Sort::Dropped,
    Sort::Joined,
    Sort::Bytes,
    Sort::Commands,
    Sort::Tables,
    Sort::Long,
];

// Commands are lists of bytes that are joined, and no builder that hands itself on: rustc 1.95.0 made a use of freed memory of one.

fn shorts(code: u8, shorts: [u16; 2]) -> Vec<u8> {
    let [[a, b], [c, d]] = shorts.map(u16::to_le_bytes);
    vec![code, a, b, c, d]
}

fn open(kind: u8, side: u16) -> Vec<u8> {
    let [low, high] = side.to_le_bytes();
    vec![1, kind, low, high]
}

fn real(row: u16, column: u16, x: f64) -> Vec<u8> {
    [shorts(2, [row, column]).as_slice(), &x.to_le_bytes()].concat()
}

fn outline(row: u16, column: u16, x: Point<f64>) -> Vec<u8> {
    [shorts(3, [row, column]).as_slice(), &x.re.to_le_bytes(), &x.im.to_le_bytes()].concat()
}

fn tolerance(x: f64) -> Vec<u8> {
    [[4].as_slice(), &x.to_le_bytes()].concat()
}

fn limit(limit: u32) -> Vec<u8> {
    [[5].as_slice(), &limit.to_le_bytes()].concat()
}

fn values() -> Vec<u8> {
    vec![6]
}

fn vectors() -> Vec<u8> {
    vec![7]
}

fn written() -> Vec<Vec<u8>> {
    let curve = |row, column, re, im| outline(row, column, Point { re, im });
    // Tables left open: of each kind a small one, and one with all options, typed out of order.
    let swap = || [open(0, 2), real(1, 0, 1.0)].concat();
    let turn = || [open(1, 2), curve(1, 0, 2.0, -3.0)].concat();
    let dense = || {
        let typed = [open(0, 3), real(2, 1, 0.5), real(0, 0, 4.0), tolerance(1e-9), real(1, 0, -2.0), limit(30), real(2, 0, 1e-3)];
        typed.concat()
    };
    let curved = || {
        let typed = [open(1, 3), limit(25), curve(2, 0, 0.1, 0.7), curve(1, 1, -1.5, -0.0), tolerance(0.0), curve(2, 1, 3.0, 1e-4)];
        typed.concat()
    };
    // Settled in 999 passes, and in 1,000: on either side of the limit of a table that sets none.
    let slow = || {
        let typed = [open(0, 3), real(0, 0, -1.0), real(1, 0, -2.0), real(2, 0, 0.5), real(1, 1, 3.0), real(2, 1, -2.0), real(2, 2, 1.5)];
        [typed.concat(), tolerance(0.0)].concat()
    };
    let slower = || [open(0, 3), real(0, 0, 3.0), real(2, 0, 1.5), real(1, 1, -2.0), real(2, 2, 7.0), tolerance(0.0)].concat();
    let (infinite, nan, least) = (f64::INFINITY, f64::NAN, 5e-324);
    let sheets: Vec<Vec<Vec<u8>>> = vec![
        vec![],
        vec![open(1, 4)],
        vec![swap(), values()],
        vec![swap(), vectors()],
        vec![turn(), values()],
        vec![turn(), vectors()],
        vec![open(0, 1), real(0, 0, -7.5), vectors(), open(1, 1), curve(0, 0, 2.5, -0.0), vectors()],
        vec![open(0, 4), vectors(), open(1, 3), vectors()],
        vec![dense(), values()],
        vec![dense(), vectors()],
        vec![curved(), values()],
        vec![curved(), vectors()],
        vec![curved(), values(), dense(), vectors(), open(0, 2), real(1, 1, 0.1), values(), open(1, 2)],
        vec![turn(), vectors(), dense(), vectors(), curved(), values()],
        vec![open(0, 2), real(0, 0, least), real(1, 0, -least), real(1, 1, f64::MAX), tolerance(-0.0), vectors()],
        vec![open(1, 2), curve(0, 0, 1e308, 0.0), curve(1, 0, -1e308, 7e307), limit(LARGEST_LIMIT), vectors()],
        // Settled with NaN, and not settled.
        vec![open(0, 3), real(0, 0, 1.0), real(1, 0, 2f64.powi(-27)), real(2, 1, 2f64.powi(-530)), vectors()],
        vec![open(0, 3), real(2, 0, 1.0), real(2, 1, 3.0), tolerance(0.0), limit(60), vectors()],
        vec![slow(), vectors(), slower(), values()],
        vec![slower(), limit(1_001), vectors(), slow(), limit(999), vectors()],
        vec![swap(), values(), open(0, 2), real(1, 0, 3.0), limit(1), values(), open(0, 2)],
        vec![turn(), vectors(), open(1, 3), curve(1, 0, 1.0, 1.0), curve(2, 1, 1.0, 0.0), limit(2), vectors(), vec![9]],
        // Refused by the reader, alone or behind a table that stays listed; where two numbers are due, the first.
        vec![swap(), vectors(), vec![8]],
        vec![swap(), vec![255]],
        vec![swap(), vectors(), vec![2, 0, 0, 0, 0, 0]],
        vec![vec![3]],
        vec![swap(), open(9, 99)],
        vec![swap(), curve(9, 9, nan, 1.0)],
        vec![turn(), real(9, 9, nan)],
        vec![values()],
        vec![turn(), values(), tolerance(-1.0)],
        vec![open(2, 2)],
        vec![open(0, 0)],
        vec![swap(), values(), open(1, 33)],
        vec![swap(), real(0, 1, infinite)],
        vec![swap(), real(2, 0, 1.0)],
        vec![turn(), curve(1, 1, infinite, least)],
        vec![turn(), curve(1, 1, 1.0, nan)],
        vec![swap(), real(1, 0, infinite)],
        vec![turn(), curve(1, 0, 1e308, 1e308)],
        vec![swap(), values(), open(0, 1), real(0, 0, nan)],
        vec![swap(), tolerance(0.5), tolerance(-least)],
        vec![turn(), tolerance(infinite)],
        vec![swap(), limit(7), limit(0)],
        vec![turn(), limit(LARGEST_LIMIT + 1)],
        vec![swap(), real(1, 0, 1.0)],
        vec![turn(), curve(0, 0, 0.0, 0.0), curve(0, 0, 1.0, -0.0)],
        vec![swap(), tolerance(0.5), tolerance(0.5)],
        vec![turn(), limit(7), limit(7)],
    ];
    sheets.iter().map(|pieces| pieces.concat()).collect()
}

/// The sheet at each of whose places a byte was damaged, or each of some drawn places where there are many.
fn damaged(sheet: &[u8], most: usize, random: &mut Random, each: &mut dyn FnMut(Sort, Vec<u8>)) {
    let places: Vec<usize> = if sheet.len() <= most {
        (0..sheet.len()).collect()
    } else {
        (0..most.min(40)).map(|_| random.below(sheet.len() as u64) as usize).collect()
    };
    for place in places {
        each(Sort::Cut, sheet[..place].to_vec());
        let mut with = |sort, byte| {
            let mut other = sheet.to_vec();
            other[place] = byte;
            each(sort, other);
        };
        for bit in 0..8 {
            with(Sort::Bit, sheet[place] ^ (1 << bit));
        }
        for byte in [0, 255, 1, 2, 3, 4, 5, 6, 7] {
            with(Sort::Set, byte);
        }
        each(Sort::Doubled, [&sheet[..=place], &sheet[place..]].concat());
        each(Sort::Dropped, [&sheet[..place], &sheet[place + 1..]].concat());
    }
}

fn joined(base: &[Vec<u8>], random: &mut Random) -> Vec<u8> {
    let mut sheet = Vec::new();
    for _ in 0..2 + random.below(4) {
        let next = &base[random.below(base.len() as u64) as usize];
        let end = if random.chance(10) { random.below(next.len() as u64 + 1) as usize } else { next.len() };
        sheet.extend(&next[..end]);
    }
    sheet
}

fn bytes(random: &mut Random) -> Vec<u8> {
    let few = random.chance(70);
    let mut byte = |first: bool| match (few, first) {
        (_, true) => random.pick(&[1, 1, 1, 1, 1, 2, 3, 4, 5, 6, 7, 0]),
        (true, _) => random.pick(&[0, 0, 0, 0, 1, 1, 2, 3, 4, 5, 6, 7, 8, 63, 64, 127, 240, 255]),
        (false, _) => random.below(256) as u8,
    };
    let mut drawn = vec![byte(true)];
    for _ in 0..byte(false) {
        drawn.push(byte(false));
    }
    match random.below(4) {
        0 => [open(0, 2), drawn].concat(),
        1 => [open(1, 2), drawn].concat(),
        _ => drawn,
    }
}

fn number(random: &mut Random) -> f64 {
    match random.below(20) {
        0 => random.pick(&[f64::INFINITY, f64::NAN, f64::NEG_INFINITY, -5e-324, f64::MAX]),
        1 => f64::from_bits(random.draw()),
        2..=5 => random.pick(&[0.0, -0.0]),
        6..=9 => random.pick(&[1.0, -1.0, 0.5, 3.0]),
        _ => f64::unit(random, false),
    }
}

/// Commands of which most are allowed where they stand.
fn commands(random: &mut Random) -> Vec<u8> {
    fn near(random: &mut Random, most: u16) -> u16 {
        if random.chance(2) {
            random.pick(&[most + 1, 33, 256, 65_534])
        } else {
            random.below(u64::from(most) + 1) as u16
        }
    }

    let mut sheet = Vec::new();
    let (mut kind, mut side, mut opened) = (0, 1, false);
    for _ in 0..3 + random.below(25) {
        let choice = match (random.chance(3), opened) {
            (true, _) => random.below(6),
            (_, false) => 0,
            (_, true) => random.pick(&[1, 1, 1, 1, 2, 3, 4, 4]),
        };
        let command = match choice {
            0 => {
                kind = if random.chance(2) { 2 } else { random.below(2) as u8 };
                side = 1 + near(random, 4);
                opened = true;
                open(kind, side)
            }
            1 => {
                let most = side.min(32) - 1;
                let (mut row, mut column) = (near(random, most), near(random, most));
                if row < column && random.chance(98) {
                    std::mem::swap(&mut row, &mut column);
                }
                let (x, y) = (number(random), number(random));
                let im = if row == column && random.chance(95) { 0.0 * random.pick(&[1.0, -1.0]) } else { y };
                if (kind == 0) == random.chance(98) {
                    real(row, column, x)
                } else {
                    outline(row, column, Point { re: x, im })
                }
            }
            2 => {
                let x = number(random);
                tolerance(if random.chance(80) { x.abs() } else { x })
            }
            3 => limit(random.pick(&[1, 2, 3, 10, 100, 1_000, 0, 70_000, LARGEST_LIMIT, LARGEST_LIMIT + 1, u32::MAX])),
            4 => {
                opened = false;
                vec![random.pick(&[6, 7])]
            }
            _ => vec![random.below(12) as u8],
        };
        sheet.extend(command);
    }
    sheet
}

fn typed<T: Kind>(random: &mut Random, kind: u8, side: usize, entry: fn(u16, u16, T) -> Vec<u8>) -> Vec<u8> {
    let family = random.pick(&FAMILIES);
    let cells = table::<T>(family, side, random);
    let (fine, most) = demand::<f64>(side, random);
    let mut places: Vec<(usize, usize)> = (0..side).flat_map(|column| (column..side).map(move |row| (row, column))).collect();
    if random.chance(50) {
        for i in (1..places.len()).rev() {
            places.swap(i, random.below(i as u64 + 1) as usize);
        }
    }
    let mut sheet = open(kind, side as u16);
    if random.chance(50) {
        sheet.extend(tolerance(fine));
    }
    if random.chance(50) {
        sheet.extend(limit(most));
    }
    for (row, column) in places {
        sheet.extend(entry(row as u16, column as u16, cells[column * side + row]));
    }
    sheet.push(if random.chance(30) { 6 } else { 7 });
    sheet
}

fn tables(random: &mut Random) -> Vec<u8> {
    let large = random.chance(4);
    let count = if large { 1 } else { random.pick(&[1, 1, 1, 2, 3]) };
    let mut sheet = Vec::new();
    for _ in 0..count {
        let side = 1 + random.below(if large { LARGEST_SIDE as u64 } else { 9 }) as usize;
        let table = if random.chance(50) { typed::<f64>(random, 0, side, real) } else { typed::<Point<f64>>(random, 1, side, outline) };
        sheet.extend(table);
    }
    sheet
}

/// The same sheet again and again, and then one byte, up to a length.
fn long(base: &[u8], length: usize) -> Vec<u8> {
    let times = if base.is_empty() { 0 } else { (LONGEST / base.len()).min(40) };
    let mut sheet = base.repeat(times);
    sheet.resize(length, 6);
    sheet
}

/// As many tables as a sheet can have: 18 bytes for the first, 5 for each other.
fn longest() -> Vec<u8> {
    let other = [open(0, 1), values()].concat();
    [open(0, 1), real(0, 0, 1.5), values(), other.repeat((LONGEST - 18) / other.len())].concat()
}

/// All sheets, sort by sort; `quick` asks for a few of each.
pub fn sheets(quick: bool, seed: u64, tests: &[Vec<u8>], each: &mut dyn FnMut(Sort, Vec<u8>)) {
    let random = &mut Random::new(seed);
    let mut base = written();
    for sheet in &base {
        each(Sort::Written, sheet.clone());
    }
    for sheet in tests {
        each(Sort::Tests, sheet.clone());
    }
    for sheet in &base {
        damaged(sheet, if quick { 1 } else { 1_000 }, random, each);
    }
    if !quick {
        for sheet in tests {
            damaged(sheet, 1_000, random, each);
        }
    }
    base.extend(tests.iter().filter(|sheet| sheet.len() < 1_000).cloned());
    let many = if quick { 180 } else { 30_000 };
    for _ in 0..many {
        each(Sort::Joined, joined(&base, random));
        each(Sort::Bytes, bytes(random));
        each(Sort::Commands, commands(random));
        each(Sort::Tables, tables(random));
    }
    each(Sort::Long, longest());
    let few = if quick { 4 } else { base.len() };
    for sheet in &base[base.len() - few..] {
        for length in [LONGEST - 1, LONGEST, LONGEST + 1, 2 * LONGEST] {
            each(Sort::Long, long(sheet, length));
        }
    }
}
