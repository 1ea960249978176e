//! Links libior_c.a: from the folder that IOR_LIB_DIR names; else from ../lib, as the package has it; else from target/native of the repository.

use std::env::var_os;
use std::path::{Path, PathBuf};
use std::process::exit;

const ARCHIVE: &str = "libior_c.a";

fn fail(why: String) -> ! {
    eprintln!("ior: {why}");
    exit(1)
}

/// The folder that the caller names. A build script runs in its crate's folder, so that a relative one would mean another than the caller's.
fn named(folder: PathBuf) -> PathBuf {
    if folder.is_relative() {
        fail(format!("IOR_LIB_DIR={} is relative; give the whole path of the folder that has {ARCHIVE}", folder.display()));
    }
    if !folder.join(ARCHIVE).is_file() {
        fail(format!("IOR_LIB_DIR={} has no {ARCHIVE}", folder.display()));
    }
    folder
}

fn found() -> PathBuf {
    let own = PathBuf::from(var_os("CARGO_MANIFEST_DIR").expect("cargo says where the crate stands"));
    let places = ["../lib", "../../target/native"].map(|place| own.join(place));
    let has_archive = |place: &&PathBuf| place.join(ARCHIVE).is_file();
    places.iter().find(has_archive).cloned().unwrap_or_else(|| {
        fail(format!(
            "there is no {ARCHIVE} in {} (the package) or {} (the repository, where `bin/native-archive ior_c target/native/{ARCHIVE}` makes it); \
             IOR_LIB_DIR may name another folder",
            places[0].display(),
            places[1].display()
        ))
    })
}

fn link(folder: &Path) {
    println!("cargo:rerun-if-changed={}", folder.join(ARCHIVE).display());
    println!("cargo:rustc-link-search=native={}", folder.display());
    println!("cargo:rustc-link-lib=static=ior_c");
}

fn main() {
    println!("cargo:rerun-if-env-changed=IOR_LIB_DIR");
    link(&var_os("IOR_LIB_DIR").map_or_else(found, |folder| named(PathBuf::from(folder))));
}
