//! Links the archive. Cargo does not look at archives that flags name, and
//! would go on measuring the one it linked first; here it learns of a new one.

use std::env;

fn main() {
    let package = env::var("CARGO_MANIFEST_DIR").expect("set by cargo");
    let folder = format!("{package}/../../crates/tilambok/out");
    println!("cargo:rustc-link-search=native={folder}");
    println!("cargo:rustc-link-lib=static=tilambok");
    println!("cargo:rerun-if-changed={folder}/libtilambok.a");
}
