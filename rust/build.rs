// Names the folder of libwylgentip.a to the linker: WYLGENTIP_LIB, or the project's crates/wylgentip/out.
// Rests on `rt lib` in crates/wylgentip, which writes the library there.

use std::env;
use std::path::{Path, PathBuf};

fn main() {
    let folder = env::var_os("WYLGENTIP_LIB").map_or_else(of_the_project, PathBuf::from);
    let library = folder.join("libwylgentip.a");
    println!("cargo::rerun-if-env-changed=WYLGENTIP_LIB");
    println!("cargo::rerun-if-changed={}", library.display());
    println!("cargo::rustc-link-search=native={}", folder.display());
    println!("cargo::rustc-link-lib=static=wylgentip");
}

fn of_the_project() -> PathBuf {
    let package = env::var_os("CARGO_MANIFEST_DIR").expect("the package's folder");
    Path::new(&package).join("../crates/wylgentip/out")
}
