//! Links the proved library.
//!
//! VIGILBARN_LIB is the folder of the library (default ../../target/staticlib)
//! and VIGILBARN_LIB_NAME its name without "lib" and ".a" (default capi).

use std::env;
use std::path::PathBuf;

fn main() {
    println!("cargo:rerun-if-env-changed=VIGILBARN_LIB");
    println!("cargo:rerun-if-env-changed=VIGILBARN_LIB_NAME");
    if env::var_os("CARGO_FEATURE_SELFCHECK").is_some() {
        return;
    }
    let package = PathBuf::from(env::var_os("CARGO_MANIFEST_DIR").expect("set by cargo"));
    let folder = env::var_os("VIGILBARN_LIB").unwrap_or("../../target/staticlib".into());
    let folder = package.join(folder);
    let name = env::var("VIGILBARN_LIB_NAME").unwrap_or("capi".to_string());
    let file = folder.join(format!("lib{name}.a"));
    println!("cargo:rerun-if-changed={}", file.display());
    println!("cargo:rustc-link-search=native={}", folder.display());
    println!("cargo:rustc-link-lib=static={name}");
}
