//! Links libct.a of this folder, as the release has it, of bindings/out, or of the folder that the variable CT_LIB_DIR names.

use std::env;
use std::path::PathBuf;

fn main() {
    let here = PathBuf::from(env!("CARGO_MANIFEST_DIR"));
    let folder = match env::var_os("CT_LIB_DIR") {
        Some(folder) => PathBuf::from(folder),
        None if here.join("libct.a").exists() => here,
        None => here.join("../../out"),
    };
    let library = folder.join("libct.a");
    println!("cargo:rerun-if-env-changed=CT_LIB_DIR");
    println!("cargo:rerun-if-changed={}", library.display());
    if !library.exists() {
        eprintln!("no {}: bindings/build.sh makes it, or CT_LIB_DIR names the folder that has it", library.display());
        std::process::exit(1);
    }
    println!("cargo:rustc-link-search=native={}", folder.display());
    println!("cargo:rustc-link-lib=static=ct");
}
