//! What the build says where the library is not.

use std::process::Command;

#[test]
fn without_the_library_the_build_names_the_script_that_makes_it() {
    let nowhere = concat!(env!("CARGO_TARGET_TMPDIR"), "/nowhere");
    let mut check = Command::new(env!("CARGO"));
    check.args(["check", "--quiet", "--offline", "--target-dir", nowhere]).current_dir(env!("CARGO_MANIFEST_DIR"));
    let output = check.env("HIMZOLVEN_LIB_DIR", nowhere).output().expect("cargo runs");
    let told = String::from_utf8_lossy(&output.stderr);
    let expected = format!("no {nowhere}/libhimzolven.a: make it with scripts/library");
    assert!(!output.status.success() && told.contains(&expected), "{told}");
}
