//! One thing again and again, for a profiler, or for its least time:
//!
//!     repeat KIND reduce|solve library|nalgebra SIDE COUNT
use bench::kinds::Real;
use bench::library::{Eigen, Form, Library};
use bench::point::Point;
use bench::random::Random;
use bench::reference::{matrix, reduced};
use bench::tables::{table, Family};
use nalgebra::SymmetricEigen;
use std::hint::black_box;
use std::time::Instant;

/// The least time of a number of runs, in seconds.
fn least(count: usize, mut run: impl FnMut()) -> f64 {
    (0..count)
        .map(|_| {
            let start = Instant::now();
            run();
            start.elapsed().as_secs_f64()
        })
        .fold(f64::INFINITY, f64::min)
}

fn repeated<T: Library>(what: &str, who: &str, side: usize, count: usize) -> f64 {
    let cells: Vec<T> = table(Family::Dense, side, &mut Random::new(side as u64));
    let given = matrix(side, &cells);
    let fine = T::RealField::epsilon();
    match (what, who) {
        ("reduce", "library") => {
            let mut form = Form::new(side, &cells);
            least(count, || {
                form.table.copy_from_slice(&cells);
                assert_eq!(T::reduce(side, &mut form).number, 0);
                black_box(&form);
            })
        }
        ("reduce", "nalgebra") => least(count, || {
            black_box(reduced(given.clone()).unpack());
        }),
        ("solve", "library") => {
            let mut room = Eigen::<T>::new(side);
            least(count, || {
                assert_eq!(T::solve(side, &cells, fine, 1_000_000, &mut room).number, 0);
                black_box(&room);
            })
        }
        ("solve", "nalgebra") => least(count, || {
            black_box(SymmetricEigen::try_new(given.clone(), fine, 1_000_000));
        }),
        _ => usage(),
    }
}

fn usage() -> ! {
    eprintln!("usage: repeat r64|r32|c64|c32 reduce|solve library|nalgebra SIDE COUNT");
    std::process::exit(2)
}

fn main() {
    let words: Vec<String> = std::env::args().skip(1).collect();
    let [kind, what, who, side, count] = words.as_slice() else { usage() };
    let (Ok(side), Ok(count)) = (side.parse(), count.parse()) else { usage() };
    let seconds = match kind.as_str() {
        "r64" => repeated::<f64>(what, who, side, count),
        "r32" => repeated::<f32>(what, who, side, count),
        "c64" => repeated::<Point<f64>>(what, who, side, count),
        "c32" => repeated::<Point<f32>>(what, who, side, count),
        _ => usage(),
    };
    println!("{kind} {what} {who} {side}: {:.4} ms", seconds * 1e3);
}
