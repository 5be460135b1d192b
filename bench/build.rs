//! Links the static library of bench/library, and the toolchain's memory functions. `bench/run`
//! gives their folders.

use std::env;

/// The folder of libbabel_bench.a.
const PROVED: &str = "BABEL_BENCH_LIB";
/// The folder of the toolchain's liblibc_c.a.
const MEMORY: &str = "RATTLE_C";

fn main() {
    for (folder, library) in [(PROVED, "babel_bench"), (MEMORY, "libc_c")] {
        println!("cargo:rerun-if-env-changed={folder}");
        let path = env::var(folder).unwrap_or_else(|_| panic!("{folder} isn't set: use bench/run"));
        println!("cargo:rustc-link-search=native={path}");
        println!("cargo:rustc-link-lib=static={library}");
        println!("cargo:rerun-if-changed={path}/lib{library}.a");
    }
}
