//! Links the port's static library, which `rt lib` makes in crates/hub_c.
use std::{env, path::Path, process};

fn main() {
    let root = env::var("CARGO_MANIFEST_DIR").expect("cargo names the folder of the manifest");
    let library = Path::new(&root).join("../crates/hub_c/out/libhub_c.a");
    println!("cargo:rerun-if-changed={}", library.display());
    if !library.is_file() {
        eprintln!("bench: no libhub_c.a: make it by `rt lib` in crates/hub_c");
        process::exit(1);
    }
    println!("cargo:rustc-link-arg={}", library.display());
}
