//! Links the archive that `library/archive` writes, or the one in the folder that CLIEOP_LIB names.

use std::env;
use std::path::PathBuf;

fn main() {
    println!("cargo:rerun-if-env-changed=CLIEOP_LIB");
    let folder = env::var_os("CLIEOP_LIB").map(PathBuf::from).unwrap_or_else(|| {
        PathBuf::from(env!("CARGO_MANIFEST_DIR")).join("../../crates/clieop_c/out")
    });
    println!("cargo:rerun-if-changed={}", folder.join("libclieop_c.a").display());
    println!("cargo:rustc-link-search=native={}", folder.display());
    println!("cargo:rustc-link-lib=static=clieop_c");
}
