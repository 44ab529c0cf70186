//! Links the static library that `bindings/build` makes of the crate `clue_desk_c`.

use std::env;
use std::path::PathBuf;

const ARCHIVE: &str = "libclue_desk.a";

fn main() {
    println!("cargo:rerun-if-env-changed=CLUE_DESK_LIB");
    let folder = env::var_os("CLUE_DESK_LIB").map_or_else(default_folder, PathBuf::from);
    let archive = folder.join(ARCHIVE);
    assert!(
        archive.is_file(),
        "{} is not there. `bindings/build` makes it (by `rt lib` in crates/clue_desk_c); \
         or let CLUE_DESK_LIB name a folder that has {ARCHIVE}",
        archive.display()
    );
    println!("cargo:rerun-if-changed={}", archive.display());
    println!("cargo:rustc-link-search=native={}", folder.display());
    println!("cargo:rustc-link-lib=static=clue_desk");
}

fn default_folder() -> PathBuf {
    let package = env::var_os("CARGO_MANIFEST_DIR").expect("cargo names the package's folder");
    PathBuf::from(package).join("../target/staticlib")
}
