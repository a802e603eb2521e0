//! What a build says where the static library is missing.
use std::path::Path;
use std::process::Command;

#[test]
fn a_missing_library_is_told() {
    let target = Path::new(env!("CARGO_TARGET_TMPDIR")).join("without_library");
    let built = Command::new(std::env::var("CARGO").expect("cargo sets it"))
        .args(["build", "--offline", "--manifest-path", concat!(env!("CARGO_MANIFEST_DIR"), "/Cargo.toml"), "--target-dir"])
        .arg(&target)
        .env("GIGBODA_LIB", "/no/such/folder")
        .output()
        .expect("cargo runs");
    let told = String::from_utf8_lossy(&built.stderr);
    assert!(!built.status.success());
    for words in ["There is no libcapi.a in /no/such/folder.", "`tools/build library`", "GIGBODA_LIB"] {
        assert!(told.contains(words), "{told}");
    }
}
