// Links the static library that `rt lib` leaves in crates/export.
fn main() {
    let archive = concat!(env!("CARGO_MANIFEST_DIR"), "/../crates/export/out");
    println!("cargo:rustc-link-search=native={archive}");
    println!("cargo:rustc-link-lib=static=export");
    println!("cargo:rerun-if-changed={archive}/libexport.a");
}
