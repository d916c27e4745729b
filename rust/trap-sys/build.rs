// SPDX-License-Identifier: Apache-2.0
//! Tells cargo where libtrap is: in the folder that TRAP_LIBRARY_DIR names, or where the system has its libraries.

fn main() {
    println!("cargo:rerun-if-env-changed=TRAP_LIBRARY_DIR");
    println!("cargo:rerun-if-env-changed=TRAP_STATIC");
    if let Ok(folder) = std::env::var("TRAP_LIBRARY_DIR") {
        println!("cargo:rustc-link-search=native={folder}");
    }
    let kind = if std::env::var_os("TRAP_STATIC").is_some() {
        "static"
    } else {
        "dylib"
    };
    println!("cargo:rustc-link-lib={kind}=trap");
}
