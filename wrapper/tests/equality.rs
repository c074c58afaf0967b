//! Answers beside nalgebra's, bit for bit and with every NaN taken as one, on the seeded tables of ../bench.
#[allow(dead_code)]
#[path = "../../bench/src/kinds.rs"]
mod kinds;
#[allow(dead_code)]
#[path = "../../bench/src/point.rs"]
mod point;
#[allow(dead_code)]
#[path = "../../bench/src/random.rs"]
mod random;
#[allow(dead_code)]
#[path = "../../bench/src/reference.rs"]
mod reference;
#[allow(dead_code)]
#[path = "../../bench/src/tables.rs"]
mod tables;

use kinds::{bits, real_bits, Kind, Real};
use nalgebra::{Complex, DMatrix, Matrix3, SMatrix};
use point::Point;
use random::Random;
use reference::{solved, Answer};
use simba::scalar::ComplexField;
use symmetric_eigen::{symmetric_eigenvalues, Number, Refusal, SymmetricEigen};
use tables::{demand, not_finite, table, Family, FAMILIES};

const SIDES: [usize; 10] = [1, 2, 3, 4, 5, 8, 9, 16, 21, 33];
const SEEDS: u64 = 5;

/// A kind that nalgebra runs on, and the wrapper's number for it. Complex numbers are bench's on nalgebra's side, since the modulus of
/// its own is another.
trait Beside: Kind {
    type Ours: Number<RealField = Self::RealField>;

    fn ours(self) -> Self::Ours;

    fn theirs(number: &Self::Ours) -> Self;
}

macro_rules! beside {
    ($($real:ident)*) => {$(
        impl Beside for $real {
            type Ours = $real;

            fn ours(self) -> $real {
                self
            }

            fn theirs(number: &$real) -> $real {
                *number
            }
        }

        impl Beside for Point<$real> {
            type Ours = Complex<$real>;

            fn ours(self) -> Complex<$real> {
                Complex { re: self.re, im: self.im }
            }

            fn theirs(number: &Complex<$real>) -> Point<$real> {
                Point { re: number.re, im: number.im }
            }
        }
    )*};
}

beside!(f64 f32);

#[derive(Default, Debug)]
struct Count {
    settled: u32,
    not_settled: u32,
    refused: u32,
}

fn compared<T: Beside>(family: Family, side: usize, seed: u64, count: &mut Count) {
    let name = format!("{} {} {side} {seed}", T::name(), family.name());
    let mut random = Random::new(seed.wrapping_mul(1_000_003).wrapping_add(side as u64 * 101 + family as u64));
    let cells = table::<T>(family, side, &mut random);
    let (tolerance, limit) = demand::<T::RealField>(side, &mut random);
    let given = DMatrix::from_fn(side, side, |row, column| cells[column * side + row].ours());

    let found = SymmetricEigen::try_solve(&given, tolerance, limit as usize);
    let short = SymmetricEigen::try_new(given, tolerance, limit as usize);
    assert_eq!(found.is_ok(), short.is_some(), "{name}");
    if let Some((row, column)) = not_finite(side, &cells) {
        // nalgebra looks for no such entry.
        assert_eq!(found.err(), Some(Refusal::Entry { row, column }), "{name}");
        count.refused += 1;
        return;
    }
    match (short, solved(&reference::matrix(side, &cells), tolerance, limit)) {
        (Some(ours), Answer::Settled(theirs)) => {
            let vectors: Vec<T> = ours.eigenvectors.iter().map(T::theirs).collect();
            assert_eq!(real_bits(ours.eigenvalues.as_slice()), real_bits(theirs.eigenvalues.as_slice()), "values of {name}");
            assert_eq!(bits(&vectors), bits(theirs.eigenvectors.as_slice()), "vectors of {name}");
            count.settled += 1;
        }
        (None, Answer::NotSettled) => {
            assert_eq!(found.err(), Some(Refusal::NotSettled { count: limit }), "{name}");
            count.not_settled += 1;
        }
        (None, Answer::Panicked) => assert!(matches!(found, Err(Refusal::Pair { .. })), "{name}"),
        (ours, _) => panic!("{name}: nalgebra's answer is of another sort than {ours:?}"),
    }
}

fn all_compared<T: Beside>() {
    let mut count = Count::default();
    for family in FAMILIES {
        for side in SIDES {
            for seed in 1..=SEEDS {
                compared::<T>(family, side, seed, &mut count);
            }
        }
    }
    println!("{}: {count:?}", T::name());
    // So that the comparison is not an empty one: of 450 tables most settle, and each other end is met.
    assert!(count.settled >= 350 && count.not_settled > 0 && count.refused > 0, "{count:?}");
}

#[test]
fn binary64() {
    all_compared::<f64>();
}

#[test]
fn binary32() {
    all_compared::<f32>();
}

#[test]
fn complex_over_binary64() {
    all_compared::<Point<f64>>();
}

#[test]
fn complex_over_binary32() {
    all_compared::<Point<f32>>();
}

/// nalgebra's other calls, without a limit: tables of families that settle.
fn others_compared<T: Kind + Number>() {
    for (family, seed) in [(Family::Dense, 1), (Family::OwnUpper, 2), (Family::Graded, 3), (Family::RepeatedValues, 4)] {
        for side in SIDES {
            let name = format!("{} {} {side} {seed}", T::name(), family.name());
            let m = reference::matrix(side, &table::<T>(family, side, &mut Random::new(seed)));
            let theirs = nalgebra::SymmetricEigen::new(m.clone());
            let ours = SymmetricEigen::new(m.clone());
            assert_eq!(real_bits(ours.eigenvalues.as_slice()), real_bits(theirs.eigenvalues.as_slice()), "values of {name}");
            assert_eq!(bits(ours.eigenvectors.as_slice()), bits(theirs.eigenvectors.as_slice()), "vectors of {name}");
            assert_eq!(bits(ours.recompose().as_slice()), bits(theirs.recompose().as_slice()), "{name} recomposed");
            let values = symmetric_eigenvalues(&m);
            assert_eq!(real_bits(values.as_slice()), real_bits(m.symmetric_eigenvalues().as_slice()), "values alone of {name}");
            for no_limit in [0, 1_000_001, usize::MAX] {
                let eigen = SymmetricEigen::try_new(m.clone(), <T::RealField as Real>::epsilon(), no_limit).expect(&name);
                assert_eq!(real_bits(eigen.eigenvalues.as_slice()), real_bits(ours.eigenvalues.as_slice()), "{name} at {no_limit}");
                assert_eq!(bits(eigen.eigenvectors.as_slice()), bits(ours.eigenvectors.as_slice()), "{name} at {no_limit}");
            }
        }
    }
}

#[test]
fn without_a_limit() {
    others_compared::<f64>();
    others_compared::<f32>();
}

/// nalgebra's own complex numbers: near, as their modulus is another.
#[test]
fn complex_of_nalgebra() {
    for seed in 1..=20 {
        let side = 2 + seed as usize % 7;
        let cells = table::<Point<f64>>(Family::Dense, side, &mut Random::new(seed));
        let m = DMatrix::from_fn(side, side, |row, column| cells[column * side + row].ours());
        let mut ours: Vec<f64> = symmetric_eigenvalues(&m).iter().copied().collect();
        let mut theirs: Vec<f64> = m.symmetric_eigenvalues().iter().copied().collect();
        ours.sort_by(f64::total_cmp);
        theirs.sort_by(f64::total_cmp);
        for (a, b) in ours.iter().zip(&theirs) {
            assert!((a - b).abs() < 1e-12, "seed {seed}: {ours:?} and {theirs:?}");
        }
        let difference = SymmetricEigen::new(m.clone()).recompose() - m;
        assert!(difference.iter().all(|x| x.modulus() < 1e-12), "seed {seed}");
    }
}

/// Matrices of a side that their type tells.
#[test]
fn static_sides() {
    macro_rules! one {
        ($($side:literal)*) => {$(
            let m = SMatrix::<f64, $side, $side>::from_column_slice(&table::<f64>(Family::Dense, $side, &mut Random::new(7)));
            let ours = SymmetricEigen::new(m);
            let theirs = nalgebra::SymmetricEigen::new(m);
            assert_eq!(real_bits(ours.eigenvalues.as_slice()), real_bits(theirs.eigenvalues.as_slice()), "side {}", $side);
            assert_eq!(bits(ours.eigenvectors.as_slice()), bits(theirs.eigenvectors.as_slice()), "side {}", $side);
        )*};
    }
    one!(1 2 3 4 5 6);
}

/// Program text that must compile, and answer alike, under either `use` line.
macro_rules! program {
    ($module:ident, $use:item) => {
        mod $module {
            use nalgebra::{DMatrix, DVector, Dyn, Matrix3, OMatrix, OVector, U3};
            $use

            struct Kept {
                whole: SymmetricEigen<f64, Dyn>,
                fixed: SymmetricEigen<f64, U3>,
            }

            pub fn run(m: Matrix3<f64>) -> String {
                let dynamic: DMatrix<f64> = DMatrix::from_column_slice(3, 3, m.as_slice());
                let whole = SymmetricEigen::new(dynamic.clone());
                let found: Option<SymmetricEigen<f64, U3>> = SymmetricEigen::try_new(m, 1.0e-12, 0);
                let fixed = found.unwrap();
                let copied = fixed;
                let kept = Kept { whole: whole.clone(), fixed };
                let values: &DVector<f64> = &kept.whole.eigenvalues;
                let SymmetricEigen { eigenvectors, eigenvalues } = kept.fixed;
                let parts: (OMatrix<f64, U3, U3>, OVector<f64, U3>) = (eigenvectors, eigenvalues);
                let made = SymmetricEigen { eigenvectors, eigenvalues: eigenvalues * 2.0 };
                let few = SymmetricEigen::try_new(dynamic, 1.0e-12, 1).is_none();
                format!("{whole:?} {copied:?} {values:?} {parts:?} {:?} {few}", made.recompose())
            }
        }
    };
}

program!(by_nalgebra, use nalgebra::SymmetricEigen;);
program!(by_library, use symmetric_eigen::SymmetricEigen;);

#[test]
fn one_text_under_either_use() {
    let m = Matrix3::new(4.0, 2.5, 1.0, 2.5, 6.0, 1.5, 1.0, 1.5, 3.0);
    assert_eq!(by_library::run(m), by_nalgebra::run(m));
}

#[test]
fn as_nalgebras_own_type() {
    let m = Matrix3::new(4.0, 2.5, 1.0, 2.5, 6.0, 1.5, 1.0, 1.5, 3.0);
    let theirs: nalgebra::SymmetricEigen<f64, nalgebra::U3> = SymmetricEigen::new(m).into();
    assert_eq!(format!("{theirs:?}"), format!("{:?}", nalgebra::SymmetricEigen::new(m)));
}
