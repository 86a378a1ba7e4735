//! Where the archive of libpl_csv lies: in the folder that PL_CSV_LIB_DIR names, or else in the repository's release.
use std::path::PathBuf;
use std::{env, fs};

fn main() {
    println!("cargo:rerun-if-env-changed=PL_CSV_LIB_DIR");
    let folder = match env::var_os("PL_CSV_LIB_DIR") {
        Some(folder) => PathBuf::from(folder),
        None => from_release(),
    };
    println!("cargo:rustc-link-search=native={}", folder.display());
    println!("cargo:rustc-link-lib=static=pl_csv");
}

// The release's archive, under the name that the linker looks for.
fn from_release() -> PathBuf {
    let root = PathBuf::from(env::var_os("CARGO_MANIFEST_DIR").expect("cargo sets it"));
    let archive = root.join("../../release/libpl_csv-x86_64-linux.a");
    println!("cargo:rerun-if-changed={}", archive.display());
    let folder = PathBuf::from(env::var_os("OUT_DIR").expect("cargo sets it"));
    if let Err(error) = fs::copy(&archive, folder.join("libpl_csv.a")) {
        panic!("{}: {error}; PL_CSV_LIB_DIR can name the folder of libpl_csv.a", archive.display());
    }
    folder
}
