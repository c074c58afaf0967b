//! Names the static libraries to link, for this package and for whatever depends on it.
use std::env;
use std::path::{Path, PathBuf};

/// The folder of an archive, and its name as the linker wants it.
fn parts(archive: &Path) -> Option<(&Path, &str)> {
    let name = archive.file_name()?.to_str()?.strip_prefix("lib")?.strip_suffix(".a")?;
    Some((archive.parent()?, name))
}

fn main() {
    println!("cargo:rerun-if-changed=build.rs");
    for variable in ["SYMMETRIC_EIGEN_C", "RATTLE_HEAP"] {
        println!("cargo:rerun-if-env-changed={variable}");
        let archive = env::var_os(variable).unwrap_or_else(|| panic!("{variable} is not set: ../bench/cargo.sh sets it"));
        let archive = PathBuf::from(archive);
        let (folder, name) = parts(&archive).unwrap_or_else(|| panic!("{variable} names no file lib*.a: {}", archive.display()));
        println!("cargo:rerun-if-changed={}", archive.display());
        println!("cargo:rustc-link-search=native={}", folder.display());
        println!("cargo:rustc-link-lib=static={name}");
    }
}
