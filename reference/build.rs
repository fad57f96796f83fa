//! With the feature `linked`: where libdeorasaeng.a is, DEORASAENG_LIB or ../target/staticlib.

use std::env;

fn main() {
    println!("cargo:rerun-if-env-changed=DEORASAENG_LIB");
    if env::var_os("CARGO_FEATURE_LINKED").is_none() {
        return;
    }
    let here = env::var("CARGO_MANIFEST_DIR").expect("cargo says where the package is");
    let folder = env::var("DEORASAENG_LIB").unwrap_or(format!("{here}/../target/staticlib"));
    println!("cargo:rerun-if-changed={folder}/libdeorasaeng.a");
    println!("cargo:rustc-link-search=native={folder}");
}
