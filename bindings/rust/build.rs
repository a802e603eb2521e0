//! Says where the static library is: in the folder that GIGBODA_LIB names, from this one on where the name is relative, or where
//! `tools/build library` writes it. Tests find that folder's name in GIGBODA_LIB_FOLDER.
use std::env;
use std::path::PathBuf;

fn main() {
    let here = PathBuf::from(env::var("CARGO_MANIFEST_DIR").expect("cargo sets it"));
    let named = env::var("GIGBODA_LIB").ok().filter(|folder| !folder.is_empty());
    let folder = here.join(named.unwrap_or("../../target/staticlib".to_string()));
    println!("cargo:rerun-if-env-changed=GIGBODA_LIB");
    println!("cargo:rerun-if-changed={}", folder.join("libcapi.a").display());
    if !folder.join("libcapi.a").is_file() {
        eprintln!("There is no libcapi.a in {}.", folder.display());
        eprintln!("`tools/build library`, run in Gigboda's repository, proves it and writes it to target/staticlib;");
        eprintln!("GIGBODA_LIB names its folder if it is elsewhere.");
        std::process::exit(1);
    }
    println!("cargo:rustc-link-search=native={}", folder.display());
    println!("cargo:rustc-env=GIGBODA_LIB_FOLDER={}", folder.display());
}
