use nalgebra::DMatrix;
use std::fmt::Write;

/// The directions of a table of waist, hip and length, as text that has every bit of every number.
pub fn answer() -> String {
    let measures = DMatrix::<f64>::from_row_slice(3, 3, &[4.0, 2.5, 1.0, 2.5, 6.0, 1.5, 1.0, 1.5, 3.0]);
    let Some(eigen) = SymmetricEigen::try_new(measures.clone(), f64::EPSILON, 0) else {
        return "not settled\n".to_owned();
    };
    let mut text = String::new();
    for (value, vector) in eigen.eigenvalues.iter().zip(eigen.eigenvectors.column_iter()) {
        let _ = write!(text, "{value:19.16} {:016X} along", value.to_bits());
        for part in &vector {
            let _ = write!(text, " {part:8.5} {:016X}", part.to_bits());
        }
        text.push('\n');
    }
    let largest = (eigen.recompose() - measures).amax();
    let _ = writeln!(text, "recomposed within {largest:e}");
    text
}
