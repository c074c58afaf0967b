//! The other libraries that `speed` times, where this machine has them. Each finds values and vectors of a real table of binary64,
//! and reads one of its triangles alone.

/// A library by its name, and a solver of a table of a side, column by column, that writes values and vectors.
pub struct Other {
    pub name: &'static str,
    pub solve: fn(usize, &[f64], &mut [f64], &mut [f64]),
}

pub fn others() -> Vec<Other> {
    vec![
        #[cfg(has_lapack)]
        Other { name: "LAPACK dsyev", solve: lapack::solve },
        #[cfg(has_eigen)]
        Other { name: "Eigen", solve: eigen::solve },
        #[cfg(has_gsl)]
        Other { name: "GSL symmv", solve: gsl::solve },
    ]
}

#[cfg(has_lapack)]
mod lapack {
    use std::ffi::{c_char, c_int};

    unsafe extern "C" {
        // The last two are the lengths of the texts, which Fortran passes behind the arguments.
        fn dsyev_(
            jobz: *const c_char,
            uplo: *const c_char,
            n: *const c_int,
            a: *mut f64,
            lda: *const c_int,
            w: *mut f64,
            work: *mut f64,
            lwork: *const c_int,
            info: *mut c_int,
            jobz_length: usize,
            uplo_length: usize,
        );
    }

    pub fn solve(side: usize, table: &[f64], values: &mut [f64], vectors: &mut [f64]) {
        assert!(table.len() == side * side && values.len() == side && vectors.len() == side * side && side > 0);
        vectors.copy_from_slice(table);
        let n = side as c_int;
        let (vectors_too, lower) = (b'V' as c_char, b'L' as c_char);
        let mut info = 0;
        let mut call = |work: &mut [f64], length: c_int| {
            // SAFETY: the buffers have the lengths that n and `length` tell of, or `length` asks for the best length alone.
            unsafe {
                dsyev_(
                    &vectors_too,
                    &lower,
                    &n,
                    vectors.as_mut_ptr(),
                    &n,
                    values.as_mut_ptr(),
                    work.as_mut_ptr(),
                    &length,
                    &mut info,
                    1,
                    1,
                );
            }
        };
        let mut best = [0.0];
        call(&mut best, -1);
        let mut work = vec![0.0; best[0] as usize];
        let length = work.len() as c_int;
        call(&mut work, length);
        assert_eq!(info, 0);
    }
}

#[cfg(has_eigen)]
mod eigen {
    use std::ffi::c_int;

    unsafe extern "C" {
        fn eigen_solve(n: c_int, table: *const f64, values: *mut f64, vectors: *mut f64);
    }

    pub fn solve(side: usize, table: &[f64], values: &mut [f64], vectors: &mut [f64]) {
        assert!(table.len() == side * side && values.len() == side && vectors.len() == side * side);
        // SAFETY: the buffers have the lengths that the side asks for.
        unsafe { eigen_solve(side as c_int, table.as_ptr(), values.as_mut_ptr(), vectors.as_mut_ptr()) }
    }
}

#[cfg(has_gsl)]
mod gsl {
    use std::ffi::{c_int, c_void};

    /// The first fields of C's struct are read alone.
    #[repr(C)]
    struct Vector {
        size: usize,
        stride: usize,
        data: *mut f64,
        block: *mut c_void,
        owner: c_int,
    }

    #[repr(C)]
    struct Matrix {
        rows: usize,
        columns: usize,
        line: usize,
        data: *mut f64,
        block: *mut c_void,
        owner: c_int,
    }

    unsafe extern "C" {
        fn gsl_eigen_symmv_alloc(n: usize) -> *mut c_void;
        fn gsl_eigen_symmv_free(work: *mut c_void);
        fn gsl_eigen_symmv(table: *mut Matrix, values: *mut Vector, vectors: *mut Matrix, work: *mut c_void) -> c_int;
    }

    pub fn solve(side: usize, table: &[f64], values: &mut [f64], vectors: &mut [f64]) {
        assert!(table.len() == side * side && values.len() == side && vectors.len() == side * side && side > 0);
        let mut cells = table.to_vec();
        let mut given = Matrix { rows: side, columns: side, line: side, data: cells.as_mut_ptr(), block: std::ptr::null_mut(), owner: 0 };
        let mut list = Vector { size: side, stride: 1, data: values.as_mut_ptr(), block: std::ptr::null_mut(), owner: 0 };
        let mut found = Matrix { data: vectors.as_mut_ptr(), ..given };
        // SAFETY: the views are of buffers of the lengths that they tell, which outlive the call, and none is owned by GSL.
        unsafe {
            let work = gsl_eigen_symmv_alloc(side);
            assert!(!work.is_null());
            let status = gsl_eigen_symmv(&mut given, &mut list, &mut found, work);
            gsl_eigen_symmv_free(work);
            assert_eq!(status, 0);
        }
    }
}
