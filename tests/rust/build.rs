//! Links the proved library's archive when a layer of it is switched on.

use std::{env, path::PathBuf};

/// The lowest layer: every other one implies it.
const LOWEST: &str = "CARGO_FEATURE_STATION";

fn main() {
    println!("cargo:rerun-if-env-changed=TALLY_ARCHIVE_DIR");
    if env::var_os(LOWEST).is_none() {
        return;
    }
    let folder = archive_folder();
    println!("cargo:rerun-if-changed={}", folder.join("libcapi.a").display());
    println!("cargo:rustc-env=TALLY_ARCHIVE_FOLDER={}", folder.display());
    println!("cargo:rustc-link-search=native={}", folder.display());
    println!("cargo:rustc-link-lib=static=capi");
}

/// Where `rt lib` writes in crates/capi, unless the caller says otherwise.
fn archive_folder() -> PathBuf {
    match env::var_os("TALLY_ARCHIVE_DIR") {
        Some(folder) => PathBuf::from(folder),
        None => PathBuf::from(env::var_os("CARGO_MANIFEST_DIR").unwrap()).join("../../crates/capi/out"),
    }
}
