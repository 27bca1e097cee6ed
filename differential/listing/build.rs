//! Links the archive that MOSAIC_ARCHIVE names.

fn main() {
    println!("cargo:rerun-if-env-changed=MOSAIC_ARCHIVE");
    let archive = std::env::var("MOSAIC_ARCHIVE").expect("MOSAIC_ARCHIVE names libmosaic.a");
    println!("cargo:rerun-if-changed={archive}");
    let folder = std::path::Path::new(&archive).parent().expect("the archive stands in a folder");
    println!("cargo:rustc-link-search=native={}", folder.display());
    println!("cargo:rustc-link-lib=static=mosaic");
}
