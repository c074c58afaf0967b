//! The C functions, as safe calls. The only unsafe code of the crate.
pub use crate::declarations::Outcome;
use nalgebra::Complex;

/// What the library has a function for: sealed, as no kind can be added outside of it.
pub trait Call: nalgebra::ComplexField {
    /// Writes the values and vectors of a table that stands column by column. Every length is allowed: a wrong one is refused.
    fn solve(
        side: usize,
        table: &[Self],
        tolerance: Self::RealField,
        limit: u32,
        values: &mut [Self::RealField],
        vectors: &mut [Self],
    ) -> Outcome;
}

macro_rules! calls {
    ($($number:ty, $real:ty, $function:ident;)*) => {
        // Complex is laid out as C's struct of its two parts.
        declare_solves! { $($number, $real, $function;)* }

        $(impl Call for $number {
            fn solve(
                side: usize,
                table: &[$number],
                tolerance: $real,
                limit: u32,
                values: &mut [$real],
                vectors: &mut [$number],
            ) -> Outcome {
                // SAFETY: the declaration fits the library's header; each pointer and length are those of one slice that is borrowed
                // for the call, never null; the two slices that are written overlap nothing; and the function requires nothing.
                unsafe {
                    $function(
                        side,
                        table.as_ptr(),
                        table.len(),
                        tolerance,
                        limit,
                        values.as_mut_ptr(),
                        values.len(),
                        vectors.as_mut_ptr(),
                        vectors.len(),
                    )
                }
            }
        })*
    };
}

calls! {
    f64, f64, symmetric_eigen_c_solve_r64;
    f32, f32, symmetric_eigen_c_solve_r32;
    Complex<f64>, f64, symmetric_eigen_c_solve_c64;
    Complex<f32>, f32, symmetric_eigen_c_solve_c32;
}

#[cfg(test)]
mod tests {
    use super::*;
    use crate::{MOST_PASSES, MOST_SIDE};

    fn number(side: usize, limit: usize, [table, values, vectors]: [usize; 3]) -> u32 {
        let mut room = (vec![7.0; values], vec![7.0; vectors]);
        let outcome = f64::solve(side, &vec![1.0; table], f64::EPSILON, limit as u32, &mut room.0, &mut room.1);
        let written = room.0.iter().chain(&room.1).any(|&x| x != 7.0);
        assert!(outcome.number == 0 || !written, "{outcome:?}");
        outcome.number
    }

    /// The library's limits are those that the crate states.
    #[test]
    fn limits() {
        let none = [0, 0, 0];
        assert_eq!([0, 1, MOST_SIDE, MOST_SIDE + 1].map(|side| number(side, 10, none)), [1, 2, 2, 1]);
        assert_eq!([0, 1, MOST_PASSES, MOST_PASSES + 1].map(|limit| number(1, limit, [1, 1, 1])), [5, 0, 0, 5]);
    }

    /// Every length is allowed, and a wrong one refused, empty slices among them.
    #[test]
    fn lengths() {
        for side in 1..=3 {
            let right = [side * side, side, side * side];
            for table in 0..=10 {
                for values in 0..=4 {
                    for vectors in 0..=10 {
                        let given = [table, values, vectors];
                        assert_eq!(number(side, 100, given), if given == right { 0 } else { 2 }, "side {side}, {given:?}");
                    }
                }
            }
        }
    }
}
