//! Where the proved library's archive `libhimzolven.a` lies: in HIMZOLVEN_LIB_DIR, or where `scripts/library` writes it.
fn main() {
    let written = concat!(env!("CARGO_MANIFEST_DIR"), "/../target/lib");
    let directory = std::env::var("HIMZOLVEN_LIB_DIR").unwrap_or(written.into());
    println!("cargo:rustc-link-search=native={directory}");
    println!("cargo:rerun-if-env-changed=HIMZOLVEN_LIB_DIR\ncargo:rerun-if-changed={directory}/libhimzolven.a");
}
