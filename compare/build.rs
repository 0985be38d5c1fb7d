//! Links the proved settlement.

use std::env;
use std::path::Path;

fn main() {
    println!("cargo:rerun-if-changed=build.rs");
    let package = env::var("CARGO_MANIFEST_DIR").expect("cargo tells the package's folder");
    let folder = Path::new(&package).join("../target/staticlib");
    println!("cargo:rustc-link-search=native={}", folder.display());
    println!("cargo:rustc-link-lib=static=exports");
    println!(
        "cargo:rerun-if-changed={}",
        folder.join("libexports.a").display()
    );
}
