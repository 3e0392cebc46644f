//! Links the static archive under test or measured: directory from LABINTUGMO_LIB_DIR, name from
//! LABINTUGMO_LIB (`labintugmo`, if it is not given, for `liblabintugmo.a`), more words for
//! the linker from LABINTUGMO_LINK_ARGS.

use std::path::Path;

fn main() {
    println!("cargo:rerun-if-env-changed=LABINTUGMO_LIB_DIR");
    println!("cargo:rerun-if-env-changed=LABINTUGMO_LIB");
    println!("cargo:rerun-if-env-changed=LABINTUGMO_LINK_ARGS");
    let directory = std::env::var("LABINTUGMO_LIB_DIR")
        .expect("LABINTUGMO_LIB_DIR must name the directory of the static archive");
    assert!(Path::new(&directory).is_absolute(), "LABINTUGMO_LIB_DIR must be absolute");
    let name = std::env::var("LABINTUGMO_LIB").unwrap_or_else(|_| "labintugmo".to_string());
    let archive = Path::new(&directory).join(format!("lib{name}.a"));
    assert!(archive.exists(), "there is no {}", archive.display());
    println!("cargo:rerun-if-changed={}", archive.display());
    println!("cargo:rustc-link-search=native={directory}");
    println!("cargo:rustc-link-lib=static={name}");
    for word in std::env::var("LABINTUGMO_LINK_ARGS").unwrap_or_default().split_whitespace() {
        println!("cargo:rustc-link-arg={word}");
    }
}
