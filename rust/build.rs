//! Where the proved library's archive `libhimzolven.a` lies: in HIMZOLVEN_LIB_DIR, or where `scripts/library` writes it.
use std::path::Path;

fn main() {
    let named = std::env::var_os("HIMZOLVEN_LIB_DIR").unwrap_or("../target/lib".into());
    let directory = Path::new(env!("CARGO_MANIFEST_DIR")).join(named);
    let archive = directory.join("libhimzolven.a");
    println!("cargo::rerun-if-env-changed=HIMZOLVEN_LIB_DIR");
    println!("cargo::rerun-if-changed={}", archive.display());
    if archive.is_file() {
        println!("cargo::rustc-link-search=native={}", directory.display());
        println!("cargo::rustc-link-lib=static=himzolven");
    } else {
        let missing = archive.display();
        println!("cargo::error=no {missing}: make it with scripts/library, or name its directory in HIMZOLVEN_LIB_DIR");
    }
}
