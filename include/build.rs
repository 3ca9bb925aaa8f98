//! Tells the linker where `rt lib` in crates/humoraki leaves the library, and to link again when it changes.

fn main() {
    let folder = concat!(env!("CARGO_MANIFEST_DIR"), "/../crates/humoraki/out");
    println!("cargo::rustc-link-search=native={folder}");
    println!("cargo::rerun-if-changed={folder}/libhumoraki.a");
}
