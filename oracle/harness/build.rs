//! Links the proved library; CAPI is the path of libcapi.a.

use std::{env, path::Path};

fn main() {
    let archive = env::var("CAPI").expect("CAPI names libcapi.a");
    let folder = Path::new(&archive).parent().expect("a file stands in a folder");
    println!("cargo:rerun-if-env-changed=CAPI");
    println!("cargo:rerun-if-changed={archive}");
    println!("cargo:rustc-link-search=native={}", folder.display());
    println!("cargo:rustc-link-lib=static=capi");
}
