//! Links `libresolve.a` from the folder that RESOLVE_LIB_DIR names, else from that of a release or of a checkout.

use std::env;
use std::path::PathBuf;

fn main() {
    println!("cargo:rerun-if-env-changed=RESOLVE_LIB_DIR");
    let here = PathBuf::from(env::var_os("CARGO_MANIFEST_DIR").expect("cargo gives the crate's folder"));
    let folders = match env::var_os("RESOLVE_LIB_DIR") {
        Some(named) => vec![PathBuf::from(named)],
        None => vec![here.join("../../lib"), here.join("../../out/embedding")],
    };
    let Some(found) = folders.iter().find(|folder| folder.join("libresolve.a").is_file()) else {
        panic!("no libresolve.a in {folders:?}: run bindings/archives.sh out/embedding, or give RESOLVE_LIB_DIR the folder's whole path");
    };
    let found = found.canonicalize().expect("the folder is there");
    println!("cargo:rerun-if-changed={}", found.join("libresolve.a").display());
    println!("cargo:rustc-link-search=native={}", found.display());
    println!("cargo:rustc-link-lib=static=resolve");
}
