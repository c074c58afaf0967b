//! The crate nalgebra, as it is.
use crate::kinds::Kind;
use nalgebra::linalg::SymmetricTridiagonal;
use nalgebra::{DMatrix, Dyn, SymmetricEigen};
use num_traits::Zero;
use std::panic::{catch_unwind, AssertUnwindSafe};

pub fn matrix<T: Kind>(side: usize, table: &[T]) -> DMatrix<T> {
    DMatrix::from_column_slice(side, side, table)
}

/// The reduction of a table that is divided by its largest size, as `try_new` makes it.
pub fn reduced<T: Kind>(mut table: DMatrix<T>) -> SymmetricTridiagonal<T, Dyn> {
    let largest = table.camax();
    if !largest.is_zero() {
        table.unscale_mut(largest);
    }
    SymmetricTridiagonal::new(table)
}

pub enum Answer<T: Kind> {
    Settled(SymmetricEigen<T, Dyn>),
    NotSettled,
    /// It panicked: the two values of a block of two are unwrapped where there are none.
    Panicked,
}

pub fn solved<T: Kind>(table: &DMatrix<T>, tolerance: T::RealField, limit: u32) -> Answer<T> {
    let run = || SymmetricEigen::try_new(table.clone(), tolerance, limit as usize);
    match catch_unwind(AssertUnwindSafe(run)) {
        Ok(Some(eigen)) => Answer::Settled(eigen),
        Ok(None) => Answer::NotSettled,
        Err(_) => Answer::Panicked,
    }
}
