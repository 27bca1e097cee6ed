//! Links libmosaic.a: the file that MOSAIC_ARCHIVE names, or the one that `bindings/archive` makes with the Rattle kit.

use std::env;
use std::fs;
use std::path::{Path, PathBuf};
use std::process::{exit, Command};
use std::time::Instant;

fn main() {
    println!("cargo:rerun-if-env-changed=MOSAIC_ARCHIVE");
    let archive = match env::var_os("MOSAIC_ARCHIVE") {
        Some(path) => named(PathBuf::from(path)),
        None => made(),
    };
    println!("cargo:rerun-if-changed={}", archive.display());
    let folder = archive.parent().expect("the archive stands in a folder");
    println!("cargo:rustc-link-search=native={}", folder.display());
    println!("cargo:rustc-link-lib=static=mosaic");
}

/// The archive that MOSAIC_ARCHIVE names, which must be there under the name that the linker asks for.
fn named(archive: PathBuf) -> PathBuf {
    let name = archive.file_name().and_then(|name| name.to_str());
    if !archive.is_file() || name != Some("libmosaic.a") {
        say(&format!(
            "MOSAIC_ARCHIVE is {}: it must be the path of a file libmosaic.a",
            archive.display()
        ));
        exit(1);
    }
    archive
}

/// The archive for the target, proved and made where it is older than its sources.
fn made() -> PathBuf {
    let script = Path::new(env!("CARGO_MANIFEST_DIR")).join("../archive");
    println!("cargo:rerun-if-changed={}", script.display());
    watch(&script.with_file_name(".."));
    let part = |name| env::var(name).expect("cargo names the target");
    let target = format!(
        "{}-{}",
        part("CARGO_CFG_TARGET_ARCH"),
        part("CARGO_CFG_TARGET_OS")
    );
    let began = Instant::now();
    let made = Command::new(&script)
        .arg(&target)
        .output()
        .expect("bindings/archive runs");
    if !made.status.success() {
        for line in String::from_utf8_lossy(&made.stderr)
            .lines()
            .rev()
            .take(5)
            .collect::<Vec<_>>()
            .into_iter()
            .rev()
        {
            say(line);
        }
        say("bindings/archive made no archive: it needs the Rattle kit, or else name a libmosaic.a in MOSAIC_ARCHIVE");
        exit(1);
    }
    let took = began.elapsed().as_secs();
    if took > 5 {
        say(&format!("the library was proved and compiled in {took} s; it is not proved again until a file under crates/ changes"));
    }
    let said = String::from_utf8(made.stdout).expect("a path in UTF-8");
    PathBuf::from(said.lines().last().expect("a path"))
}

/// Has Cargo look at the crates' sources alone: rt writes beside them, below out/.
fn watch(root: &Path) {
    println!(
        "cargo:rerun-if-changed={}",
        root.join("crates.txt").display()
    );
    let inside = |folder: &Path| fs::read_dir(folder).into_iter().flatten().flatten();
    for folder in inside(&root.join("crates")) {
        for part in inside(&folder.path()).filter(|part| part.file_name() != "out") {
            println!("cargo:rerun-if-changed={}", part.path().display());
        }
    }
}

/// Cargo hides what a build script prints, but for its warnings.
fn say(line: &str) {
    println!("cargo:warning={line}");
}
