//! Where `tools/archives` leaves the static libraries.
fn main() {
    let root = std::path::Path::new(env!("CARGO_MANIFEST_DIR")).join("../target/staticlib");
    println!("cargo:rustc-link-search=native={}", root.display());
    println!("cargo:rerun-if-changed={}", root.display());
}
