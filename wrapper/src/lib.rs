//! nalgebra's `SymmetricEigen`, computed by the proved library of this repository through its C functions. A program that calls
//! nalgebra's changes over in its `use` line:
//!
//! ```
//! use nalgebra::DMatrix;
//! use symmetric_eigen::SymmetricEigen; // was: use nalgebra::SymmetricEigen;
//!
//! let m = DMatrix::from_row_slice(2, 2, &[2.0, 1.0, 1.0, 2.0]);
//! let eigen = SymmetricEigen::try_new(m, f64::EPSILON, 100).expect("it settles");
//! assert_eq!(eigen.eigenvalues.as_slice(), [3.0, 1.0]);
//! ```
//!
//! # What is alike
//!
//! For `f64` and `f32`, values and vectors are those of nalgebra 0.35.0 to the bit (of a NaN, that it is one): the library's steps are
//! nalgebra's. That is tested, not proved.
//!
//! # What differs
//!
//! - [`SymmetricEigen::try_new`] is `None` where nalgebra reaches its limit of passes, and for what the library refuses and nalgebra
//!   panics at or takes: see there. [`SymmetricEigen::try_solve`] tells which refusal it is.
//! - **Complex numbers may differ in the last digits.** nalgebra's own `Complex` has its modulus by the C library's `hypot`, the
//!   library the root of re·re + im·im, each operation rounded once; where squares vanish or overflow, answers differ by more than
//!   that (docs/DIFFERENCES.md).
//! - nalgebra's methods on a matrix remain nalgebra's, as no `use` line can take them over: `m.symmetric_eigen()` becomes
//!   `SymmetricEigen::new(m)`, `m.try_symmetric_eigen(eps, n)` becomes `SymmetricEigen::try_new(m, eps, n)` and
//!   `m.symmetric_eigenvalues()` becomes [`symmetric_eigenvalues(&m)`](symmetric_eigenvalues).
//! - Numbers are of the four kinds of [`Number`]; nalgebra takes any `ComplexField`.
#![deny(unsafe_code)]

#[macro_use]
mod declarations;

#[allow(unsafe_code)]
mod calls;
mod refusal;

pub use refusal::Refusal;

use nalgebra::allocator::Allocator;
use nalgebra::{Complex, ComplexField, Const, DefaultAllocator, Dim, OMatrix, OVector, SquareMatrix, Storage};

/// The largest side that the library takes.
pub const MOST_SIDE: usize = 512;

/// The largest limit of passes that the library takes.
pub const MOST_PASSES: usize = 1_000_000;

/// The kinds of numbers that the library takes: `f64`, `f32`, `Complex<f64>` and `Complex<f32>`. No other can be added.
pub trait Number: ComplexField + calls::Call {
    /// The tolerance of [`SymmetricEigen::new`], as nalgebra's.
    const EPSILON: Self::RealField;
}

macro_rules! numbers {
    ($($real:ident)*) => {$(
        impl Number for $real {
            const EPSILON: $real = $real::EPSILON;
        }

        impl Number for Complex<$real> {
            const EPSILON: $real = $real::EPSILON;
        }
    )*};
}

numbers!(f64 f32);

/// The eigendecomposition of a symmetric or Hermitian matrix, with the fields of nalgebra's `SymmetricEigen`.
#[derive(Clone, Debug)]
pub struct SymmetricEigen<T: ComplexField, D: Dim>
where
    DefaultAllocator: Allocator<D, D> + Allocator<D>,
{
    /// The eigenvectors of the decomposed matrix, as columns.
    pub eigenvectors: OMatrix<T, D, D>,

    /// The unsorted eigenvalues of the decomposed matrix.
    pub eigenvalues: OVector<T::RealField, D>,
}

impl<T: ComplexField, D: Dim> Copy for SymmetricEigen<T, D>
where
    DefaultAllocator: Allocator<D, D> + Allocator<D>,
    OMatrix<T, D, D>: Copy,
    OVector<T::RealField, D>: Copy,
{
}

impl<T: Number, D: Dim> SymmetricEigen<T, D>
where
    DefaultAllocator: Allocator<D, D> + Allocator<D>,
{
    /// Decomposes a matrix at nalgebra's usual tolerance, without a limit of the caller's.
    ///
    /// # Panics
    ///
    /// Where `try_new` with this tolerance and the limit 0 is `None`, and the message tells the refusal: this signature, which is
    /// nalgebra's, leaves no other way. nalgebra's panics at a matrix that is empty or not square, and may run for ever.
    pub fn new(m: OMatrix<T, D, D>) -> Self {
        Self::try_solve(&m, T::EPSILON, MOST_PASSES).unwrap_or_else(|refusal| panic!("{refusal}"))
    }

    /// Decomposes a matrix with nalgebra's arguments: a tolerance and a limit of passes. This is [`SymmetricEigen::try_solve`] without
    /// the refusal's name, and with nalgebra's limits put into the library's: **0, which is no limit, and every limit above 1,000,000
    /// are taken as 1,000,000**. A matrix that settles in fewer passes has one answer at all of these (that is proved). One that does not
    /// is `None` here, while nalgebra's call goes on, with the limit 0 perhaps for ever.
    ///
    /// Never panics. `None` is told
    ///
    /// - where the count of passes reaches the limit, as nalgebra does, even if the last pass has just settled the matrix;
    /// - of a matrix that is empty or not square, where nalgebra panics;
    /// - of a side above 512, an entry whose size is not finite, and a tolerance that is below zero or not finite, which nalgebra takes.
    ///
    /// As in nalgebra, the entries on and below the diagonal decide, and those above it only in that the largest size of all entries
    /// does, by which the matrix is divided first.
    pub fn try_new(m: OMatrix<T, D, D>, eps: T::RealField, max_niter: usize) -> Option<Self> {
        let limit = if max_niter == 0 { MOST_PASSES } else { max_niter.min(MOST_PASSES) };
        Self::try_solve(&m, eps, limit).ok()
    }

    /// Decomposes a matrix, or tells why not. Never panics. The limit is the library's: from 1 to 1,000,000, and any other is refused.
    /// Everything else is as of [`SymmetricEigen::try_new`].
    pub fn try_solve(m: &OMatrix<T, D, D>, eps: T::RealField, limit: usize) -> Result<Self, Refusal> {
        let (side, columns) = m.shape();
        // Before there is room for the answer, which a side that is refused would make large.
        if side == 0 || side > MOST_SIDE {
            return Err(Refusal::Side { side });
        }
        if columns != side {
            return Err(Refusal::Length { rows: side, columns });
        }
        let (dim, _) = m.shape_generic();
        let mut eigenvectors = OMatrix::zeros_generic(dim, dim);
        let mut eigenvalues = OVector::zeros_generic(dim, Const::<1>);
        // The largest number stands for those that a C call cannot be given, and is refused as they are.
        let limit = u32::try_from(limit).unwrap_or(u32::MAX);
        let outcome = T::solve(side, m.as_slice(), eps, limit, eigenvalues.as_mut_slice(), eigenvectors.as_mut_slice());
        Refusal::told(outcome, side, columns)?;
        Ok(SymmetricEigen { eigenvectors, eigenvalues })
    }
}

impl<T: ComplexField, D: Dim> SymmetricEigen<T, D>
where
    DefaultAllocator: Allocator<D, D> + Allocator<D>,
{
    /// Rebuilds the matrix from its values and vectors, by nalgebra's own code.
    #[must_use]
    pub fn recompose(&self) -> OMatrix<T, D, D> {
        nalgebra::SymmetricEigen::from(self.clone()).recompose()
    }
}

/// For code that wants nalgebra's own type.
impl<T: ComplexField, D: Dim> From<SymmetricEigen<T, D>> for nalgebra::SymmetricEigen<T, D>
where
    DefaultAllocator: Allocator<D, D> + Allocator<D>,
{
    fn from(eigen: SymmetricEigen<T, D>) -> Self {
        nalgebra::SymmetricEigen { eigenvectors: eigen.eigenvectors, eigenvalues: eigen.eigenvalues }
    }
}

/// The values alone, as nalgebra's method of this name on a matrix: those of [`SymmetricEigen::new`]. The library has no C function
/// without vectors, so they are computed and dropped; the values are the same either way.
///
/// # Panics
///
/// As [`SymmetricEigen::new`].
#[must_use]
pub fn symmetric_eigenvalues<T, D, S>(m: &SquareMatrix<T, D, S>) -> OVector<T::RealField, D>
where
    T: Number,
    D: Dim,
    S: Storage<T, D, D>,
    DefaultAllocator: Allocator<D, D> + Allocator<D>,
{
    SymmetricEigen::new(m.clone_owned()).eigenvalues
}
