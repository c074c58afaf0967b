//! What is not decomposed is told, and never by a panic where the call has another way.
#[allow(dead_code)]
#[path = "../../bench/src/random.rs"]
mod random;

use nalgebra::{Complex, DMatrix, Matrix2, Matrix3, SMatrix};
use random::Random;
use std::error::Error;
use symmetric_eigen::{symmetric_eigenvalues, Refusal, SymmetricEigen, MOST_PASSES, MOST_SIDE};

const FINE: f64 = f64::EPSILON;

/// The refusal of a call, with its number and text, and that the call without its name is `None`.
fn refused(m: &DMatrix<f64>, tolerance: f64, limit: usize, refusal: Refusal, number: u32, text: &str) {
    let found = SymmetricEigen::try_solve(m, tolerance, limit).expect_err(text);
    assert_eq!(found, refusal);
    assert_eq!(found.number(), number);
    assert_eq!(found.to_string(), text);
    if number != 5 {
        assert!(SymmetricEigen::try_new(m.clone(), tolerance, limit).is_none(), "{text}");
    }
}

#[test]
fn sides() {
    for (rows, columns) in [(0, 0), (0, 3), (513, 513), (600, 2)] {
        let m = DMatrix::zeros(rows, columns);
        let text = format!("1 SIDE: the side is {rows}, and not from 1 to 512");
        refused(&m, FINE, 10, Refusal::Side { side: rows }, 1, &text);
    }
    let none = SMatrix::<f64, 0, 0>::zeros();
    assert_eq!(SymmetricEigen::try_solve(&none, FINE, 10).err(), Some(Refusal::Side { side: 0 }));
    let one = SymmetricEigen::try_solve(&DMatrix::<f64>::from_element(1, 1, -7.0), FINE, 1).unwrap();
    assert_eq!((one.eigenvalues[0], one.eigenvectors[0].abs()), (-7.0, 1.0));
    let largest = SymmetricEigen::try_solve(&DMatrix::<f64>::identity(MOST_SIDE, MOST_SIDE), FINE, 10).unwrap();
    assert!(largest.eigenvalues.iter().all(|&x| x == 1.0));
}

#[test]
fn not_square() {
    for (rows, columns) in [(2, 3), (3, 2), (3, 0), (1, 2), (512, 511), (3, 600)] {
        let m = DMatrix::zeros(rows, columns);
        refused(&m, FINE, 10, Refusal::Length { rows, columns }, 2, &format!("2 LENGTH: {rows} x {columns} is not square"));
    }
}

#[test]
fn entries() {
    for odd in [f64::NAN, f64::INFINITY, f64::NEG_INFINITY] {
        for row in 0..3 {
            for column in 0..3 {
                // Above the diagonal too.
                let mut m = DMatrix::from_element(3, 3, 1.0);
                m[(row, column)] = odd;
                let text = format!("3 ENTRY: the size of the entry in row {row}, column {column} is not finite");
                refused(&m, FINE, 10, Refusal::Entry { row, column }, 3, &text);
            }
        }
    }
    // Of two, the first in column order.
    let mut m = DMatrix::from_element(3, 3, 1.0f32);
    m[(2, 1)] = f32::NAN;
    m[(0, 2)] = f32::INFINITY;
    assert_eq!(SymmetricEigen::try_solve(&m, f32::EPSILON, 10).err(), Some(Refusal::Entry { row: 2, column: 1 }));
    // The largest numbers have a size, and a complex number of two such parts has none.
    assert!(SymmetricEigen::try_solve(&DMatrix::from_element(1, 1, f64::MAX), FINE, 10).is_ok());
    let m = Matrix2::new(Complex::new(1.0, 0.0), Complex::new(f64::MAX, f64::MAX), Complex::default(), Complex::default());
    assert_eq!(SymmetricEigen::try_solve(&m, FINE, 10).err(), Some(Refusal::Entry { row: 0, column: 1 }));
}

#[test]
fn tolerances() {
    let m = DMatrix::from_element(2, 2, 1.0);
    for tolerance in [-1.0, -f64::from_bits(1), f64::NAN, f64::INFINITY, f64::NEG_INFINITY] {
        refused(&m, tolerance, 10, Refusal::Tolerance, 4, "4 TOLERANCE: the tolerance is below zero or not finite");
    }
    for tolerance in [0.0, -0.0, f64::MAX] {
        assert!(SymmetricEigen::try_solve(&m, tolerance, 10).is_ok(), "{tolerance}");
    }
}

#[test]
fn limits() {
    let m = DMatrix::from_element(2, 2, 1.0);
    // 2^32 + 10 is 10 in the C function's type, were it cut.
    for limit in [0, MOST_PASSES + 1, u32::MAX as usize, (u32::MAX as usize).saturating_add(11), usize::MAX] {
        refused(&m, FINE, limit, Refusal::Limit, 5, "5 LIMIT: the limit is not from 1 to 1000000");
        assert!(SymmetricEigen::try_new(m.clone(), FINE, limit).is_some(), "{limit}");
    }
    assert!(SymmetricEigen::try_solve(&m, FINE, MOST_PASSES).is_ok());
}

#[test]
fn not_settled() {
    // One pass settles it, and the limit 1 is reached then; so it is with nalgebra.
    let m = DMatrix::from_row_slice(2, 2, &[0.0, 1.0, 1.0, 0.0]);
    refused(&m, FINE, 1, Refusal::NotSettled { count: 1 }, 7, "7 NOT SETTLED: the count of passes reached the limit of 1");
    assert!(nalgebra::SymmetricEigen::try_new(m.clone(), FINE, 1).is_none());
    assert!(SymmetricEigen::try_solve(&m, FINE, 2).is_ok());
}

/// A matrix on which nalgebra's call has no end is `None` here without a limit of the caller's.
#[test]
fn never_settled() {
    let m = Matrix3::new(0.0, 0.0, 1.0, 0.0, 0.0, 3.0, 1.0, 3.0, 0.0);
    assert!(SymmetricEigen::try_new(m, 0.0, 0).is_none());
    assert_eq!(SymmetricEigen::try_solve(&m, 0.0, MOST_PASSES).err(), Some(Refusal::NotSettled { count: 1_000_000 }));
}

/// With all of it wrong, what is mended in the order of the tests leaves the next.
#[test]
fn order() {
    let odd = |rows, columns| DMatrix::from_element(rows, columns, f64::NAN);
    let number = |m: DMatrix<f64>, tolerance, limit| SymmetricEigen::try_solve(&m, tolerance, limit).err().map(|r| r.number());
    assert_eq!(number(odd(513, 2), -1.0, 0), Some(1));
    assert_eq!(number(odd(3, 2), -1.0, 0), Some(2));
    assert_eq!(number(odd(2, 2), -1.0, 0), Some(3));
    let even = || DMatrix::from_row_slice(2, 2, &[0.0, 1.0, 1.0, 0.0]);
    assert_eq!(number(even(), -1.0, 0), Some(4));
    assert_eq!(number(even(), FINE, 0), Some(5));
    assert_eq!(number(even(), FINE, 1), Some(7));
    assert_eq!(number(even(), FINE, 2), None);
}

#[test]
fn as_an_error() {
    fn by_question_mark(m: &DMatrix<f64>) -> Result<f64, Box<dyn Error>> {
        Ok(SymmetricEigen::try_solve(m, FINE, 10)?.eigenvalues[0])
    }
    let error = by_question_mark(&DMatrix::zeros(2, 3)).unwrap_err();
    assert_eq!(error.downcast_ref(), Some(&Refusal::Length { rows: 2, columns: 3 }));
    assert!(error.source().is_none());
}

#[test]
#[should_panic(expected = "2 LENGTH: 2 x 3 is not square")]
fn new_panics() {
    SymmetricEigen::new(DMatrix::<f64>::zeros(2, 3));
}

#[test]
#[should_panic(expected = "3 ENTRY: the size of the entry in row 1, column 0 is not finite")]
fn values_alone_panic() {
    let _ = symmetric_eigenvalues(&Matrix2::new(1.0, 0.0, f64::NAN, 1.0));
}

/// Arguments of random bits: each call answers, and both calls alike.
#[test]
fn total() {
    let mut random = Random::new(1);
    let (mut settled, mut refused) = (0, 0);
    for _ in 0..20_000 {
        let rows = random.below(6) as usize;
        let columns = if random.chance(90) { rows } else { random.below(6) as usize };
        // Bits of any number, or of one from -2 to 2.
        let wild = random.chance(50);
        let number = |random: &mut Random| {
            let number = f64::from_bits(random.draw());
            if wild {
                number
            } else {
                number.clamp(-1.0, 1.0) + random.below(3) as f64 - 1.0
            }
        };
        let m = DMatrix::from_fn(rows, columns, |_, _| number(&mut random));
        let tolerance = if random.chance(70) { FINE } else { f64::from_bits(random.draw()) };
        let limit = if random.chance(90) { random.below(60) as usize } else { random.draw() as usize };
        let found = SymmetricEigen::try_solve(&m, tolerance, limit);
        match found {
            Ok(eigen) => {
                let again = SymmetricEigen::try_new(m, tolerance, limit).expect("settled before");
                assert_eq!(format!("{eigen:?}"), format!("{again:?}"));
                settled += 1;
            }
            Err(Refusal::Limit) => refused += 1,
            Err(refusal) => {
                assert!(!matches!(refusal, Refusal::Memory | Refusal::Unknown { .. }), "{refusal}");
                assert!(SymmetricEigen::try_new(m, tolerance, limit).is_none());
                refused += 1;
            }
        }
    }
    assert!(settled > 2_000 && refused > 2_000, "{settled} settled, {refused} refused");
}
