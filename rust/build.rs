// Finds libmogzift.a, the proved library: in the folder that MOGZIFT_LIB names, or where `sh tools/archive.sh` writes it.
use std::env;
use std::path::PathBuf;

fn main() {
    println!("cargo:rerun-if-env-changed=MOGZIFT_LIB");
    let folder = match env::var_os("MOGZIFT_LIB") {
        Some(folder) => PathBuf::from(folder),
        None => PathBuf::from(env::var_os("CARGO_MANIFEST_DIR").expect("cargo sets it")).join("../target/staticlib"),
    };
    let archive = folder.join("libmogzift.a");
    println!("cargo:rerun-if-changed={}", archive.display());
    if !archive.is_file() {
        eprintln!("There is no {}.", archive.display());
        eprintln!(
            "Run `sh tools/archive.sh` in the repository's root, or set MOGZIFT_LIB to the folder that holds libmogzift.a."
        );
        std::process::exit(1);
    }
    println!("cargo:rustc-link-search=native={}", folder.display());
    println!("cargo:rustc-link-lib=static=mogzift");
}
