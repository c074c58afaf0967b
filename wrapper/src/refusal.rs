//! What is told of a matrix that is not decomposed.
use crate::calls::Outcome;
use crate::{MOST_PASSES, MOST_SIDE};
use std::error::Error;
use std::fmt;

/// Why a matrix is not decomposed, under the numbers and names of docs/REFUSALS.md. Lower numbers are tested first. Rows and columns
/// are counted from 0.
#[derive(Clone, Copy, Debug, PartialEq, Eq, Hash)]
pub enum Refusal {
    /// 1: the side, which is the number of rows, is 0 or above 512.
    Side { side: usize },
    /// 2: the matrix is not square.
    Length { rows: usize, columns: usize },
    /// 3: the size of an entry is not finite, and it is the first such in column order. The size of a complex number is the sum of
    /// its parts' sizes, which two finite parts can exceed.
    Entry { row: usize, column: usize },
    /// 4: the tolerance is below zero or not finite.
    Tolerance,
    /// 5: the limit is 0 or above 1,000,000.
    Limit,
    /// 7: the count of passes reached the limit.
    NotSettled { count: u32 },
    /// 8: after so many passes, a block of two has no two values. nalgebra panics here; no real matrix is known that meets it.
    Pair { count: u32 },
    /// Memory was wanting in the library, which has no number of a refusal; 255 in its C functions.
    Memory,
    /// A number that these functions do not answer: another version of the library was linked.
    Unknown { number: u32 },
}

impl Refusal {
    /// The number of docs/REFUSALS.md, or that of the C functions where it has none.
    pub fn number(&self) -> u32 {
        match *self {
            Refusal::Side { .. } => 1,
            Refusal::Length { .. } => 2,
            Refusal::Entry { .. } => 3,
            Refusal::Tolerance => 4,
            Refusal::Limit => 5,
            Refusal::NotSettled { .. } => 7,
            Refusal::Pair { .. } => 8,
            Refusal::Memory => 255,
            Refusal::Unknown { number } => number,
        }
    }

    /// What a call with a matrix of so many rows and columns answered.
    pub(crate) fn told(outcome: Outcome, rows: usize, columns: usize) -> Result<(), Refusal> {
        let Outcome { number, count, row, column } = outcome;
        Err(match number {
            0 => return Ok(()),
            1 => Refusal::Side { side: rows },
            2 => Refusal::Length { rows, columns },
            3 => Refusal::Entry { row, column },
            4 => Refusal::Tolerance,
            5 => Refusal::Limit,
            7 => Refusal::NotSettled { count },
            8 => Refusal::Pair { count },
            255 => Refusal::Memory,
            _ => Refusal::Unknown { number },
        })
    }
}

impl fmt::Display for Refusal {
    fn fmt(&self, f: &mut fmt::Formatter<'_>) -> fmt::Result {
        match *self {
            Refusal::Side { side } => write!(f, "1 SIDE: the side is {side}, and not from 1 to {MOST_SIDE}"),
            Refusal::Length { rows, columns } => write!(f, "2 LENGTH: {rows} x {columns} is not square"),
            Refusal::Entry { row, column } => write!(f, "3 ENTRY: the size of the entry in row {row}, column {column} is not finite"),
            Refusal::Tolerance => write!(f, "4 TOLERANCE: the tolerance is below zero or not finite"),
            Refusal::Limit => write!(f, "5 LIMIT: the limit is not from 1 to {MOST_PASSES}"),
            Refusal::NotSettled { count } => write!(f, "7 NOT SETTLED: the count of passes reached the limit of {count}"),
            Refusal::Pair { count } => write!(f, "8 PAIR: a block of two has no two values, after {count} passes"),
            Refusal::Memory => write!(f, "memory was wanting"),
            Refusal::Unknown { number } => write!(f, "{number}: a refusal that is not known here"),
        }
    }
}

impl Error for Refusal {}

#[cfg(test)]
mod tests {
    use super::*;

    /// No real matrix is known for 8, and memory is seldom wanting: so the answers of the C functions are made up here.
    #[test]
    fn each_number_is_told() {
        for number in 0..=300 {
            let told = Refusal::told(Outcome { number, count: 5, row: 6, column: 7 }, 8, 9);
            let wanted = match number {
                0 => Ok(()),
                1 => Err(Refusal::Side { side: 8 }),
                2 => Err(Refusal::Length { rows: 8, columns: 9 }),
                3 => Err(Refusal::Entry { row: 6, column: 7 }),
                4 => Err(Refusal::Tolerance),
                5 => Err(Refusal::Limit),
                7 => Err(Refusal::NotSettled { count: 5 }),
                8 => Err(Refusal::Pair { count: 5 }),
                255 => Err(Refusal::Memory),
                _ => Err(Refusal::Unknown { number }),
            };
            assert_eq!(told, wanted);
            if let Err(refusal) = told {
                assert_eq!(refusal.number(), number);
                assert!(number == 255 || refusal.to_string().starts_with(&number.to_string()));
            }
        }
        assert_eq!(Refusal::Pair { count: 5 }.to_string(), "8 PAIR: a block of two has no two values, after 5 passes");
        assert_eq!(Refusal::Memory.to_string(), "memory was wanting");
    }
}
