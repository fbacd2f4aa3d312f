//! Links the proved judge: the static library that `rt lib` writes in crates/capi, and the part of
//! the kit that it calls.

use std::path::PathBuf;
use std::process::Command;

fn main() {
    let proved = PathBuf::from(std::env::var("CARGO_MANIFEST_DIR").unwrap()).join("../crates/capi/out");
    let doc = Command::new("rt").arg("doc").output().expect("rt is on the PATH").stdout;
    let guide = PathBuf::from(String::from_utf8(doc).expect("a path").trim());
    let kit = guide.parent().expect("the guide stands in the kit").join("c");

    println!("cargo:rustc-link-search=native={}", proved.display());
    println!("cargo:rustc-link-search=native={}", kit.display());
    println!("cargo:rustc-link-lib=static=capi");
    println!("cargo:rustc-link-lib=static=libc_c");
    println!("cargo:rerun-if-changed={}", proved.join("libcapi.a").display());
}
