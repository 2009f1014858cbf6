//! Links the proved decoder's archive. JUGNAYAP_LIB names its folder.

use std::{env, path::Path, process::exit};

fn main() {
    let home = env::var("CARGO_MANIFEST_DIR").unwrap();
    let folder = env::var("JUGNAYAP_LIB").unwrap_or_else(|_| "../target/staticlib".into());
    let folder = Path::new(&home).join(folder);
    let archive = folder.join("libjugnayap.a");
    println!("cargo:rerun-if-env-changed=JUGNAYAP_LIB");
    println!("cargo:rerun-if-changed={}", archive.display());
    if !archive.is_file() {
        eprintln!(
            "{} is missing: `tools/build` makes it, JUGNAYAP_LIB names its folder",
            archive.display()
        );
        exit(1);
    }
    println!("cargo:rustc-link-search=native={}", folder.display());
    println!("cargo:rustc-link-lib=static=jugnayap");
}
