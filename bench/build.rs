//! Names the static libraries to link, and finds which other libraries this machine has to be timed beside.
use std::env;
use std::path::PathBuf;
use std::process::Command;

fn wanted(name: &str) -> String {
    println!("cargo:rerun-if-env-changed={name}");
    env::var(name).unwrap_or_else(|_| panic!("{name} is not set: run this by run.sh"))
}

/// What pkg-config says of a library, or None where there is no such library or no pkg-config.
fn pkg_config(what: &str, name: &str) -> Option<String> {
    let output = Command::new("pkg-config").args([what, name]).output().ok()?;
    output.status.success().then(|| String::from_utf8_lossy(&output.stdout).into_owned())
}

/// Links a library where this machine has it.
fn links(name: &str) -> bool {
    match pkg_config("--libs", name) {
        Some(flags) => {
            for flag in flags.split_whitespace() {
                println!("cargo:rustc-link-arg-bin=speed={flag}");
            }
            true
        }
        None => false,
    }
}

/// Compiles the call of Eigen, where this machine has its headers and a compiler for them.
fn compiles_eigen() -> bool {
    println!("cargo:rerun-if-env-changed=EIGEN_INCLUDE");
    println!("cargo:rerun-if-changed=src/bin/speed/eigen.cpp");
    let include = match env::var("EIGEN_INCLUDE") {
        Ok(folder) => format!("-I{folder}"),
        Err(_) => match pkg_config("--cflags", "eigen3") {
            Some(flags) => flags.trim().to_owned(),
            None => return false,
        },
    };
    let out = PathBuf::from(env::var("OUT_DIR").expect("OUT_DIR"));
    let object = out.join("eigen.o");
    let archive = out.join("libeigen_call.a");
    let compiled = Command::new("c++")
        .args(["-O3", "-DNDEBUG", "-std=c++17", "-c", "src/bin/speed/eigen.cpp", "-o"])
        .arg(&object)
        .args(include.split_whitespace())
        .status();
    let archived = Command::new("ar").arg("crs").arg(&archive).arg(&object).status();
    if !matches!((compiled, archived), (Ok(c), Ok(a)) if c.success() && a.success()) {
        return false;
    }
    println!("cargo:rustc-link-arg-bin=speed={}", archive.display());
    println!("cargo:rustc-link-arg-bin=speed=-lstdc++");
    true
}

fn main() {
    println!("cargo:rerun-if-changed=build.rs");
    for name in ["SYMMETRIC_EIGEN_C", "RATTLE_HEAP"] {
        let archive = wanted(name);
        println!("cargo:rerun-if-changed={archive}");
        println!("cargo:rustc-link-arg={archive}");
    }
    println!("cargo:rustc-check-cfg=cfg(has_lapack, has_gsl, has_eigen)");
    if links("lapack") {
        println!("cargo:rustc-cfg=has_lapack");
    }
    if links("gsl") {
        println!("cargo:rustc-cfg=has_gsl");
    }
    if compiles_eigen() {
        println!("cargo:rustc-cfg=has_eigen");
    }
}
