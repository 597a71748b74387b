//! Links the static library that `tools/c/build.sh` built: in `MULLERPINK_LIB`, or else in `build/c` of the repository.
use std::env;
use std::path::PathBuf;

fn main() {
    let folder = env::var_os("MULLERPINK_LIB").map(PathBuf::from).unwrap_or_else(|| {
        PathBuf::from(env::var_os("CARGO_MANIFEST_DIR").unwrap()).join("../../build/c")
    });
    println!("cargo:rustc-link-search=native={}", folder.display());
    println!("cargo:rustc-link-lib=static=mullerpink");
    println!("cargo:rerun-if-env-changed=MULLERPINK_LIB");
}
