//! Links the archive. Cargo does not look at archives that flags name, and
//! would go on with the one it linked first; here it learns of a new one.

use std::env;

fn main() {
    let package = env::var("CARGO_MANIFEST_DIR").expect("set by cargo");
    let folder = format!("{package}/../../crates/room/out");
    println!("cargo:rustc-link-search=native={folder}");
    println!("cargo:rustc-link-lib=static=room");
    println!("cargo:rerun-if-changed={folder}/libroom.a");
    // The script's sum of the archive: an older archive put back is new too.
    println!("cargo:rerun-if-env-changed=ROOM_ARCHIVE_SUM");
}
