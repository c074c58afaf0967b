//! One program text, decomposing one table by nalgebra and by the library: the two modules differ in their `use` line.

mod by_nalgebra {
    use nalgebra::SymmetricEigen;
    include!("change_over/program.rs");
}

mod by_library {
    use symmetric_eigen::SymmetricEigen;
    include!("change_over/program.rs");
}

fn main() {
    let theirs = by_nalgebra::answer();
    let ours = by_library::answer();
    println!("By nalgebra:\n{theirs}\nBy the library:\n{ours}");
    assert_eq!(theirs, ours, "the two differ");
    println!("Equal, to the bit.");
}
