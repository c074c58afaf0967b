//! The listing of a sheet by docs/SHEETS.md, with nalgebra for its tables.
use bench::kinds::{bits, Kind, Real};
use bench::point::Point;
use bench::reference::{matrix, solved, Answer};
use nalgebra::DMatrix;
use simba::scalar::ComplexField;
use std::fmt::Write;

/// The names of the refusals, by their numbers less one (docs/REFUSALS.md).
pub const REFUSALS: [&str; 14] = [
    "SIDE",
    "LENGTH",
    "ENTRY",
    "TOLERANCE",
    "LIMIT",
    "WIDTH",
    "NOT SETTLED",
    "PAIR",
    "COLUMN",
    "COMMAND",
    "CUT",
    "ORDER",
    "OPERAND",
    "TWICE",
];
const LENGTH: usize = 2;
const ENTRY: usize = 3;
const TOLERANCE: usize = 4;
const LIMIT: usize = 5;
const NOT_SETTLED: usize = 7;
const PAIR: usize = 8;
const COMMAND: usize = 10;
const CUT: usize = 11;
const ORDER: usize = 12;
const OPERAND: usize = 13;
const TWICE: usize = 14;

pub const LONGEST: usize = 32_768;
pub const LARGEST_SIDE: usize = 32;
pub const LARGEST_LIMIT: u32 = 1_000_000;

/// A table that is not settled in so many passes, and may have more, is left out: a sheet could have seconds of them.
pub const MOST_PASSES: u32 = 100_000;

enum Command {
    Open { kind: u8, side: usize },
    Entry { kind: u8, row: usize, column: usize, number: Point<f64> },
    Tolerance(f64),
    Limit(u32),
    Close { vectors: bool },
}

struct Table {
    kind: u8,
    side: usize,
    /// Column by column; none where nothing was typed.
    cells: Vec<Option<Point<f64>>>,
    tolerance: Option<f64>,
    limit: Option<u32>,
}

pub struct Listing {
    pub text: String,
    pub tables: u32,
    /// How many of the tables have a value or a vector that is no finite number.
    pub not_finite: u32,
    pub refused: Option<usize>,
}

enum Stop {
    Refused(usize),
    TooLong,
}

/// The first command of the bytes, of which there is one at least, and how many it takes.
fn command(bytes: &[u8]) -> Result<(Command, usize), usize> {
    let length = match bytes[0] {
        1 => 4,
        2 => 13,
        3 => 21,
        4 => 9,
        5 => 5,
        6 | 7 => 1,
        _ => return Err(COMMAND),
    };
    let bytes = bytes.get(..length).ok_or(CUT)?;
    let short = |i: usize| usize::from(bytes[i]) + 256 * usize::from(bytes[i + 1]);
    let binary64 = |i: usize| f64::from_bits((0..8).map(|k| u64::from(bytes[i + k]) << (8 * k)).sum());
    let command = match bytes[0] {
        1 => Command::Open { kind: bytes[1], side: short(2) },
        2 => Command::Entry { kind: 0, row: short(1), column: short(3), number: Point { re: binary64(5), im: 0.0 } },
        3 => Command::Entry { kind: 1, row: short(1), column: short(3), number: Point { re: binary64(5), im: binary64(13) } },
        4 => Command::Tolerance(binary64(1)),
        5 => Command::Limit((0..4).map(|k| u32::from(bytes[1 + k]) << (8 * k)).sum()),
        close => Command::Close { vectors: close == 7 },
    };
    Ok((command, length))
}

fn give<T>(place: &mut Option<T>, given: T) -> Result<(), usize> {
    match place {
        Some(_) => Err(TWICE),
        None => {
            *place = Some(given);
            Ok(())
        }
    }
}

/// Obeys a command; a table that it closes is handed out, with whether its vectors are asked for.
fn obey(open: &mut Option<Table>, command: Command) -> Result<Option<(Table, bool)>, usize> {
    let table = match (&command, open.as_mut()) {
        (&Command::Open { kind, side }, None) => {
            if kind > 1 || side == 0 || side > LARGEST_SIDE {
                return Err(OPERAND);
            }
            *open = Some(Table { kind, side, cells: vec![None; side * side], tolerance: None, limit: None });
            return Ok(None);
        }
        (Command::Open { .. }, Some(_)) | (_, None) => return Err(ORDER),
        (_, Some(table)) => table,
    };
    match command {
        Command::Open { .. } => {}
        Command::Entry { kind, row, column, number } => {
            if kind != table.kind {
                return Err(ORDER);
            }
            // So that a NaN is refused too.
            let real = number.im == 0.0;
            if row < column || row >= table.side || (row == column && !real) {
                return Err(OPERAND);
            }
            if !number.norm1().is_finite() {
                return Err(ENTRY);
            }
            give(&mut table.cells[column * table.side + row], number)?;
        }
        Command::Tolerance(tolerance) => {
            if !tolerance.is_finite() || tolerance < 0.0 {
                return Err(TOLERANCE);
            }
            give(&mut table.tolerance, tolerance)?;
        }
        Command::Limit(limit) => {
            if limit == 0 || limit > LARGEST_LIMIT {
                return Err(LIMIT);
            }
            give(&mut table.limit, limit)?;
        }
        Command::Close { vectors } => return Ok(open.take().map(|table| (table, vectors))),
    }
    Ok(None)
}

/// The smallest limit at which nalgebra gives an answer, less one; it gives one at the limit `high`.
fn passes<T: Kind + ComplexField<RealField = f64>>(given: &DMatrix<T>, tolerance: f64, high: u32) -> u32 {
    let settles = |limit| matches!(solved(given, tolerance, limit), Answer::Settled(_));
    let (mut low, mut high) = (0, high);
    let mut tried = 1;
    while tried < high && !settles(tried) {
        low = tried;
        tried *= 2;
    }
    high = high.min(tried);
    while high - low > 1 {
        let middle = (low + high) / 2;
        if settles(middle) {
            high = middle;
        } else {
            low = middle;
        }
    }
    high - 1
}

/// The lines of a table that is closed.
fn list<T: Kind + ComplexField<RealField = f64>>(
    table: &Table,
    vectors: bool,
    number: fn(Point<f64>) -> T,
    listing: &mut Listing,
) -> Result<(), Stop> {
    let side = table.side;
    let mut cells = vec![T::zero(); side * side];
    for column in 0..side {
        for row in column..side {
            if let Some(typed) = table.cells[column * side + row] {
                cells[row * side + column] = number(typed).conjugate();
                cells[column * side + row] = number(typed);
            }
        }
    }
    let given = matrix(side, &cells);
    let tolerance = table.tolerance.unwrap_or(f64::EPSILON);
    let limit = table.limit.unwrap_or(1_000);
    let tried = limit.min(MOST_PASSES);
    let eigen = match solved(&given, tolerance, tried) {
        Answer::Settled(eigen) => eigen,
        Answer::NotSettled if tried < limit => return Err(Stop::TooLong),
        Answer::NotSettled => return Err(Stop::Refused(NOT_SETTLED)),
        Answer::Panicked => return Err(Stop::Refused(PAIR)),
    };
    let largest = Real::bits(given.camax());
    let passes = passes(&given, tolerance, tried);
    let mut lines = vec![format!("kind {} side {side} largest {largest:016X} passes {passes}\n", table.kind)];
    for (i, &value) in eigen.eigenvalues.iter().enumerate() {
        lines.push(format!("value {i} {:016X}\n", Real::bits(value)));
    }
    if vectors {
        for column in 0..side {
            for row in 0..side {
                let parts = bits(&[eigen.eigenvectors[(row, column)]]);
                let parts: String = parts.iter().map(|part| format!(" {part:016X}")).collect();
                lines.push(format!("row {row} column {column}{parts}\n"));
            }
        }
    }
    let finite = eigen.eigenvalues.iter().all(|x| x.is_finite()) && eigen.eigenvectors.iter().all(|x| x.is_finite());
    listing.text += &lines.concat();
    listing.tables += 1;
    listing.not_finite += u32::from(!finite);
    Ok(())
}

fn read(sheet: &[u8], place: &mut usize, listing: &mut Listing) -> Result<(), Stop> {
    if sheet.len() > LONGEST {
        return Err(Stop::Refused(LENGTH));
    }
    let mut open = None;
    while *place < sheet.len() {
        let (command, length) = command(&sheet[*place..]).map_err(Stop::Refused)?;
        if let Some((table, vectors)) = obey(&mut open, command).map_err(Stop::Refused)? {
            if table.kind == 0 {
                list(&table, vectors, |number| number.re, listing)?;
            } else {
                list(&table, vectors, |number| number, listing)?;
            }
        }
        *place += length;
    }
    Ok(())
}

/// The listing of a sheet, or none where a table of it takes too many passes.
pub fn listing(sheet: &[u8]) -> Option<Listing> {
    let mut listing = Listing { text: String::new(), tables: 0, not_finite: 0, refused: None };
    let mut place = 0;
    match read(sheet, &mut place, &mut listing) {
        Ok(()) => {}
        Err(Stop::TooLong) => return None,
        Err(Stop::Refused(number)) => {
            writeln!(listing.text, "refused {number} at {place}").expect("writing to a string");
            listing.refused = Some(number);
        }
    }
    Some(listing)
}
