//! The library, through the C functions of the crate `symmetric_eigen_c`. A slice crosses as a pointer and a length.
pub use crate::declarations::Outcome;
use crate::kinds::Kind;
use crate::point::Point;

/// What a reduction leaves, and Q.
#[derive(Clone)]
pub struct Form<T: Kind> {
    pub table: Vec<T>,
    pub values: Vec<T::RealField>,
    pub offs: Vec<T::RealField>,
    pub signs: Vec<T>,
    pub scratch: Vec<T>,
    pub q: Vec<T>,
}

impl<T: Kind> Form<T> {
    pub fn new(side: usize, table: &[T]) -> Form<T> {
        let below = side.saturating_sub(1);
        let zero = num_traits::zero();
        Form {
            table: table.to_vec(),
            values: vec![zero; side],
            offs: vec![zero; below],
            signs: vec![T::zero(); below],
            scratch: vec![T::zero(); below],
            q: vec![T::zero(); side * side],
        }
    }
}

/// Values and vectors, with room for those of a side.
#[derive(Clone)]
pub struct Eigen<T: Kind> {
    pub values: Vec<T::RealField>,
    pub vectors: Vec<T>,
}

impl<T: Kind> Eigen<T> {
    pub fn new(side: usize) -> Eigen<T> {
        Eigen { values: vec![num_traits::zero(); side], vectors: vec![T::zero(); side * side] }
    }
}

pub trait Library: Kind {
    /// Reduces the form's table and assembles its Q.
    fn reduce(side: usize, form: &mut Form<Self>) -> Outcome;

    fn solve(side: usize, table: &[Self], tolerance: Self::RealField, limit: u32, room: &mut Eigen<Self>) -> Outcome;
}

declare_solves! {
    f64, f64, symmetric_eigen_c_solve_r64;
    f32, f32, symmetric_eigen_c_solve_r32;
    Point<f64>, f64, symmetric_eigen_c_solve_c64;
    Point<f32>, f32, symmetric_eigen_c_solve_c32;
}

macro_rules! reduces {
    ($($real:ty, $real_function:ident, $complex_function:ident;)*) => {
        unsafe extern "C" {$(
            fn $real_function(
                n: usize,
                table: *mut $real,
                table_length: usize,
                values: *mut $real,
                values_length: usize,
                offs: *mut $real,
                offs_length: usize,
                signs: *mut $real,
                signs_length: usize,
                scratch: *mut $real,
                scratch_length: usize,
                q: *mut $real,
                q_length: usize,
            ) -> Outcome;

            fn $complex_function(
                n: usize,
                table: *mut Point<$real>,
                table_length: usize,
                values: *mut $real,
                values_length: usize,
                offs: *mut $real,
                offs_length: usize,
                signs: *mut Point<$real>,
                signs_length: usize,
                q: *mut Point<$real>,
                q_length: usize,
            ) -> Outcome;
        )*}
    };
}

reduces! {
    f64, symmetric_eigen_c_reduce_r64, symmetric_eigen_c_reduce_c64;
    f32, symmetric_eigen_c_reduce_r32, symmetric_eigen_c_reduce_c32;
}

// SAFETY, of each call below: the declarations above fit the crate's functions, each pointer and length are those of one slice that
// is borrowed for the call, no two of which overlap, and the functions require nothing.
macro_rules! solves_by {
    ($solve:ident) => {
        fn solve(side: usize, table: &[Self], tolerance: Self::RealField, limit: u32, room: &mut Eigen<Self>) -> Outcome {
            unsafe {
                $solve(
                    side,
                    table.as_ptr(),
                    table.len(),
                    tolerance,
                    limit,
                    room.values.as_mut_ptr(),
                    room.values.len(),
                    room.vectors.as_mut_ptr(),
                    room.vectors.len(),
                )
            }
        }
    };
}

// The call of a reduction, with the buffers that only some take.
macro_rules! reduces_by {
    ($reduce:ident $(, $scratch:ident)?) => {
        fn reduce(side: usize, form: &mut Form<Self>) -> Outcome {
            unsafe {
                $reduce(
                    side,
                    form.table.as_mut_ptr(),
                    form.table.len(),
                    form.values.as_mut_ptr(),
                    form.values.len(),
                    form.offs.as_mut_ptr(),
                    form.offs.len(),
                    form.signs.as_mut_ptr(),
                    form.signs.len(),
                    $(form.$scratch.as_mut_ptr(), form.$scratch.len(),)?
                    form.q.as_mut_ptr(),
                    form.q.len(),
                )
            }
        }
    };
}

macro_rules! libraries {
    ($($real:ty: $reduce_real:ident $solve_real:ident $reduce_complex:ident $solve_complex:ident;)*) => {$(
        impl Library for $real {
            reduces_by!($reduce_real, scratch);

            solves_by!($solve_real);
        }

        impl Library for Point<$real> {
            reduces_by!($reduce_complex);

            solves_by!($solve_complex);
        }
    )*};
}

libraries! {
    f64: symmetric_eigen_c_reduce_r64 symmetric_eigen_c_solve_r64 symmetric_eigen_c_reduce_c64 symmetric_eigen_c_solve_c64;
    f32: symmetric_eigen_c_reduce_r32 symmetric_eigen_c_solve_r32 symmetric_eigen_c_reduce_c32 symmetric_eigen_c_solve_c32;
}
