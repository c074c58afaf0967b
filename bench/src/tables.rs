//! Seeded tables, family by family.
use crate::kinds::{Kind, Real};
use crate::random::Random;
use simba::scalar::ComplexField;

#[derive(Clone, Copy, Debug, PartialEq, Eq)]
pub enum Family {
    Dense,
    /// With other entries above the diagonal than the conjugates.
    OwnUpper,
    Graded,
    NearlyDiagonal,
    RankOne,
    RepeatedValues,
    /// All entries subnormal, or entries whose squares are.
    Subnormal,
    /// Entries near the largest number, of which a size may be infinite, and now and then an entry that is no finite number.
    Huge,
    SignedZero,
}

pub const FAMILIES: [Family; 9] = [
    Family::Dense,
    Family::OwnUpper,
    Family::Graded,
    Family::NearlyDiagonal,
    Family::RankOne,
    Family::RepeatedValues,
    Family::Subnormal,
    Family::Huge,
    Family::SignedZero,
];

impl Family {
    pub fn name(self) -> String {
        format!("{self:?}")
    }
}

struct Draw<'a, T: Kind> {
    random: &'a mut Random,
    family: Family,
    /// A column of numbers, for tables that are made of one.
    column: Vec<T>,
    group: Vec<u64>,
    /// Which of two sorts of tables a family gives.
    second: bool,
    base: T::RealField,
    shift: T::RealField,
}

/// 2^-k, or the smallest power where that is too small.
fn below<R: Real>(k: i32) -> R {
    R::power((-k).max(R::LEAST))
}

impl<T: Kind> Draw<'_, T> {
    fn lower(&mut self, row: usize, column: usize) -> T {
        let diagonal = row == column;
        let least = T::RealField::LEAST;
        match self.family {
            Family::Dense | Family::OwnUpper => T::unit(self.random, diagonal),
            Family::Graded => T::unit(self.random, diagonal).scale(below((row + column) as i32)),
            Family::NearlyDiagonal => {
                let x = T::unit(self.random, diagonal);
                if diagonal {
                    x
                } else {
                    x.scale(below(self.random.below(70) as i32))
                }
            }
            Family::RankOne => {
                let x = self.column[row] * self.column[column].conjugate();
                if diagonal {
                    T::from_real(x.real())
                } else {
                    x
                }
            }
            Family::RepeatedValues => {
                let mut x = T::zero();
                if diagonal {
                    x = T::from_real(self.base);
                }
                if self.group[row] == self.group[column] {
                    x += (self.column[row] * self.column[column].conjugate()).scale(self.shift);
                }
                x
            }
            Family::Subnormal if self.second => {
                let x = T::unit(self.random, diagonal);
                x.scale(T::RealField::power(least + self.random.below(T::RealField::SUBNORMAL_DIGITS) as i32))
            }
            Family::Subnormal => {
                let x = T::unit(self.random, diagonal);
                let around = least / 2 - 4 + self.random.below(9) as i32;
                if self.random.chance(30) {
                    x
                } else {
                    x.scale(T::RealField::power(around))
                }
            }
            Family::Huge if self.second => {
                // Up to 1.5 times the largest power of two in each part.
                let x = T::unit(self.random, diagonal).scale(T::RealField::power(T::RealField::MOST));
                x + x.scale(T::RealField::power(-1))
            }
            Family::Huge => T::unit(self.random, diagonal).scale(T::RealField::power(T::RealField::MOST - 2)),
            Family::SignedZero => T::signed(self.random, diagonal),
        }
    }
}

/// A table of a side, column by column.
pub fn table<T: Kind>(family: Family, side: usize, random: &mut Random) -> Vec<T> {
    let groups = 1 + random.below(side as u64);
    let column = (0..side).map(|_| if family == Family::RankOne { T::unit(random, false) } else { T::phase(random) }).collect();
    let group = (0..side).map(|_| random.below(groups)).collect();
    let second = random.chance(50);
    let base = T::RealField::power(random.below(5) as i32 - 2);
    let shift = T::RealField::power(random.below(5) as i32 - 2);
    let mut draw = Draw { random: &mut *random, family, column, group, second, base, shift };
    let mut cells = vec![T::zero(); side * side];
    for column in 0..side {
        for row in column..side {
            let x = draw.lower(row, column);
            cells[column * side + row] = x;
            if row > column {
                cells[row * side + column] = x.conjugate();
            }
        }
    }
    if family == Family::OwnUpper {
        for column in 1..side {
            for row in 0..column {
                cells[column * side + row] = T::unit(random, false).scale(T::RealField::power(2));
            }
        }
    }
    if family == Family::Huge && random.chance(10) {
        let odd = random.pick(&[T::RealField::infinity(), -T::RealField::infinity(), T::RealField::nan()]);
        let place = random.below(cells.len() as u64) as usize;
        cells[place] = T::from_real(odd);
    }
    cells
}

/// The first entry, column by column, whose size is not finite, by its row and column.
pub fn not_finite<T: Kind>(side: usize, table: &[T]) -> Option<(usize, usize)> {
    table.iter().position(|x| !x.norm1().is_finite()).map(|k| (k % side, k / side))
}

/// A tolerance and a limit to try a table with; large tables get a limit that they settle in.
pub fn demand<R: Real>(side: usize, random: &mut Random) -> (R, u32) {
    let fine = R::epsilon();
    if side > 64 {
        return (fine, 100_000);
    }
    let few = [1, 2, side as u32, 2 * side as u32 + 5];
    let tolerance = match random.below(10) {
        0 => random.pick(&[R::zero(), -R::zero()]),
        1 => fine * R::power(-10),
        2 => R::power(-10),
        3 => R::power(-1),
        4 => R::power(0) + R::power(-1),
        _ => fine,
    };
    let limit = match random.below(10) {
        0 => random.pick(&few),
        _ if tolerance < fine => 1_000,
        1..=3 => 1_000_000,
        _ => 100_000,
    };
    (tolerance, limit)
}
