//! Links libsimd_json.a from the folder SIMD_JSON_LIB_DIR; without that from `lib` in this folder
//! or beside it, or from `build` of the repository.
use std::env;
use std::path::PathBuf;

fn main() {
    println!("cargo:rerun-if-env-changed=SIMD_JSON_LIB_DIR");
    let here = PathBuf::from(env::var_os("CARGO_MANIFEST_DIR").expect("cargo sets it"));
    let library = |folder: &PathBuf| folder.join("libsimd_json.a");
    let folder = match env::var_os("SIMD_JSON_LIB_DIR").filter(|folder| !folder.is_empty()) {
        // No other is tried, whose library may be of another version. The path is absolute, since
        // rustc may run in another folder than this program.
        Some(folder) => {
            let folder = here.join(folder);
            let is_there = library(&folder).exists();
            assert!(is_there, "no libsimd_json.a in SIMD_JSON_LIB_DIR, {}", folder.display());
            folder
        }
        None => {
            let folders = ["lib", "../lib", "../../build"].map(|folder| here.join(folder));
            let found = folders.into_iter().find(|folder| library(folder).exists());
            found.expect("no libsimd_json.a: run `make library`, or set SIMD_JSON_LIB_DIR")
        }
    };
    println!("cargo:rerun-if-changed={}", library(&folder).display());
    println!("cargo:rustc-link-search=native={}", folder.display());
    println!("cargo:rustc-link-lib=static=simd_json");
}
