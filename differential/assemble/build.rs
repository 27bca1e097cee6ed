//! Links the archive that MOSAIC_ARCHIVE names.

use std::path::PathBuf;

fn main() {
    println!("cargo:rerun-if-env-changed=MOSAIC_ARCHIVE");
    let archive =
        PathBuf::from(std::env::var_os("MOSAIC_ARCHIVE").expect("MOSAIC_ARCHIVE: see run"));
    println!("cargo:rerun-if-changed={}", archive.display());
    let folder = archive.parent().expect("the archive stands in a folder");
    println!("cargo:rustc-link-search=native={}", folder.display());
    println!("cargo:rustc-link-lib=static=mosaic");
}
