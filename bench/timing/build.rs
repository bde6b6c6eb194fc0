//! Links the archives that the script `speed` made: the unit's, the stack's measure, and where it made them that of a unit built before and
//! the other validators'.

use std::{env, path::Path};

fn main() {
    println!("cargo:rerun-if-env-changed=SPEED_ARCHIVES");
    println!("cargo:rustc-check-cfg=cfg(before, others)");
    let folder =
        env::var("SPEED_ARCHIVES").expect("SPEED_ARCHIVES: the folder of the archives (the script `speed` sets it)");
    println!("cargo:rerun-if-changed={folder}/libunit.a");
    println!("cargo:rerun-if-changed={folder}/libbefore.a");
    println!("cargo:rerun-if-changed={folder}/libothers.a");
    println!("cargo:rustc-link-search=native={folder}");
    println!("cargo:rustc-link-lib=static=unit");
    println!("cargo:rustc-link-lib=static=stack");
    if Path::new(&folder).join("libbefore.a").exists() {
        println!("cargo:rustc-cfg=before");
        println!("cargo:rustc-link-lib=static=before");
    }
    if Path::new(&folder).join("libothers.a").exists() {
        println!("cargo:rustc-cfg=others");
        println!("cargo:rustc-link-lib=static=others");
        println!("cargo:rustc-link-lib=xml2");
        println!("cargo:rustc-link-lib=expat");
    }
}
