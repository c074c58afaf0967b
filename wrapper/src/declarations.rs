//! What Rust is told of the C functions that solve, as the library's header has it: here and in ../../bench.

/// The number is 0 where the call did its work, 255 where memory was wanting, and else the refusal's.
#[repr(C)]
#[derive(Clone, Copy, Debug, PartialEq, Eq)]
pub struct Outcome {
    pub number: u32,
    pub count: u32,
    pub row: usize,
    pub column: usize,
}

macro_rules! declare_solves {
    ($($number:ty, $real:ty, $solve:ident;)*) => {
        unsafe extern "C" {$(
            fn $solve(
                n: usize,
                table: *const $number,
                table_length: usize,
                tolerance: $real,
                limit: u32,
                values: *mut $real,
                values_length: usize,
                vectors: *mut $number,
                vectors_length: usize,
            ) -> Outcome;
        )*}
    };
}
