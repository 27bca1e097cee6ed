//! Lays the unchanged files of the Rust and our stubs out as one module tree, and stops where a file is not the one that was ported.
//!
//! The folder of the Rust is `MOSAIC_RUST`: vtracer at the commit that NOTICE names. Its files are copied into the build's own folder,
//! where their hashes are compared with SHA256SUMS, so what is hashed is what is compiled.

use std::error::Error;
use std::path::{Path, PathBuf};
use std::process::Command;
use std::{env, fs};

const STUBS: [&str; 4] = ["mod.rs", "simplify.rs", "mosaic/fit.rs", "ir/vector.rs"];

fn main() -> Result<(), Box<dyn Error>> {
    println!("cargo:rerun-if-env-changed=MOSAIC_RUST");
    let here = PathBuf::from(env::var("CARGO_MANIFEST_DIR")?);
    let out = PathBuf::from(env::var("OUT_DIR")?);
    let tree = out.join("vtracer");
    let sums = here.join("SHA256SUMS");
    let rust = folder()?.join("crates/vtracer/src");

    for name in hashed(&sums)? {
        copy(&rust, &tree, &name)?;
    }
    for name in STUBS {
        copy(&here.join("stubs"), &tree, name)?;
    }
    compare(&sums, &tree)?;

    // A path attribute takes no macro, hence this file of one line; mod.rs inside `tree` makes `mod` items find their files.
    let path = tree.join("mod.rs");
    let root = format!(
        "#[allow(dead_code, unused_imports, clippy::all)]\n#[path = {path:?}]\nmod vtracer;\n"
    );
    fs::write(out.join("root.rs"), root)?;
    Ok(())
}

fn folder() -> Result<PathBuf, Box<dyn Error>> {
    let folder = env::var_os("MOSAIC_RUST").ok_or(
        "MOSAIC_RUST names no folder: it is that of vtracer (visioncortex) at commit e71343fbcb, which has crates/vtracer/src",
    )?;
    Ok(PathBuf::from(folder))
}

/// The names in the list of hashes: every file that must be unchanged.
fn hashed(sums: &Path) -> Result<Vec<String>, Box<dyn Error>> {
    println!("cargo:rerun-if-changed={}", sums.display());
    let text = fs::read_to_string(sums)?;
    Ok(text
        .lines()
        .filter_map(|line| line.split_whitespace().nth(1))
        .map(str::to_owned)
        .collect())
}

fn copy(from: &Path, to: &Path, name: &str) -> Result<(), Box<dyn Error>> {
    let (source, target) = (from.join(name), to.join(name));
    println!("cargo:rerun-if-changed={}", source.display());
    if let Some(parent) = target.parent() {
        fs::create_dir_all(parent)?;
    }
    let bytes = fs::read(&source).map_err(|e| format!("{}: {e}", source.display()))?;
    fs::write(&target, bytes)?;
    Ok(())
}

fn compare(sums: &Path, tree: &Path) -> Result<(), Box<dyn Error>> {
    let status = Command::new("sha256sum")
        .args(["--check", "--strict", "--quiet"])
        .arg(sums)
        .current_dir(tree)
        .status()?;
    if status.success() {
        Ok(())
    } else {
        Err("the Rust is not the one that was ported (SHA256SUMS)".into())
    }
}
