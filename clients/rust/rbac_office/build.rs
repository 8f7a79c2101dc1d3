//! Has the linker find librbac: in the folder that RBAC_LIBRARY names, otherwise where the system has its libraries.

use std::env;

fn main() {
    println!("cargo:rerun-if-env-changed=RBAC_LIBRARY");
    if let Ok(folder) = env::var("RBAC_LIBRARY") {
        println!("cargo:rustc-link-search=native={folder}");
    }
    println!("cargo:rustc-link-lib=rbac");
}
