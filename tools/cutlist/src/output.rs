//! Files that appear whole or not at all: each is written beside its place, and all are renamed at the end.

use std::fs::{self, File, OpenOptions};
use std::io::{self, BufWriter, Write};
use std::path::{Path, PathBuf};

use crate::failure::Failure;

/// The files of one run.
#[derive(Default)]
pub struct Outputs {
    parts: Vec<Part>,
}

/// A file beside its place.
struct Part {
    beside: PathBuf,
    place: PathBuf,
    renamed: bool,
}

impl Outputs {
    /// Lets `write` fill the file for a place. Standard output (`-`), and what is there but is no plain file, such as a pipe, is written
    /// straight.
    pub fn write(
        &mut self,
        place: &Path,
        write: impl FnOnce(&mut dyn Write) -> io::Result<()>,
    ) -> Result<(), Failure> {
        let failed = Failure::unwritten(place);
        if place == Path::new("-") {
            return filled(io::stdout().lock(), write).map_err(failed);
        }
        match fs::metadata(place) {
            Ok(there) if there.is_dir() => return Err(failed(io::Error::other("it is a folder"))),
            Ok(there) if !there.is_file() => {
                let straight = OpenOptions::new()
                    .write(true)
                    .open(place)
                    .map_err(&failed)?;
                return filled(straight, write).map_err(failed);
            }
            _ => (),
        }
        let name = place.file_name().unwrap_or_default().to_string_lossy();
        let beside = place.with_file_name(format!(".{name}.{}.part", std::process::id()));
        let file = File::create(&beside).map_err(&failed)?;
        self.parts.push(Part {
            beside,
            place: place.to_path_buf(),
            renamed: false,
        });
        filled(file, write).map_err(failed)
    }

    /// Puts every file in its place.
    pub fn rename(mut self) -> Result<(), Failure> {
        for part in &mut self.parts {
            fs::rename(&part.beside, &part.place).map_err(Failure::unwritten(&part.place))?;
            part.renamed = true;
        }
        Ok(())
    }
}

/// What is not renamed is not left.
impl Drop for Outputs {
    fn drop(&mut self) {
        for part in self.parts.iter().filter(|part| !part.renamed) {
            let _ = fs::remove_file(&part.beside);
        }
    }
}

fn filled(
    file: impl Write,
    write: impl FnOnce(&mut dyn Write) -> io::Result<()>,
) -> io::Result<()> {
    let mut file = BufWriter::with_capacity(1 << 18, file);
    write(&mut file)?;
    file.flush()
}
