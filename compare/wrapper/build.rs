//! Links libexports.a, found in the folder that BURGZEMI_LIB names.

use std::path::Path;

const FOLDER: &str = "BURGZEMI_LIB";
const LIBRARY: &str = "libexports.a";

fn main() {
    println!("cargo:rerun-if-env-changed={FOLDER}");
    let Ok(folder) = std::env::var(FOLDER) else {
        panic!("{FOLDER} must name the folder of {LIBRARY}, which `.ci/made exports` writes");
    };
    let library = Path::new(&folder).join(LIBRARY);
    assert!(library.is_file(), "no {LIBRARY} in {folder}");
    println!("cargo:rerun-if-changed={}", library.display());
    println!("cargo:rustc-link-search=native={folder}");
    println!("cargo:rustc-link-lib=static=exports");
}
