//! What the command says when it gives up, and its exit status.

use std::fmt;
use std::io;
use std::path::{Path, PathBuf};

#[derive(Debug)]
pub enum Failure {
    /// The picture, or what is asked of it, was refused: the library's number where it has one, and the meaning.
    Refused {
        number: Option<u32>,
        meaning: String,
    },
    /// The command line makes no sense.
    Misused(String),
    /// A file could not be written.
    Unwritten(PathBuf, io::Error),
}

impl Failure {
    pub fn refused(meaning: impl Into<String>) -> Failure {
        let meaning = meaning.into();
        Failure::Refused {
            number: None,
            meaning,
        }
    }

    pub fn numbered(number: u32, meaning: impl Into<String>) -> Failure {
        Failure::Refused {
            number: Some(number),
            meaning: meaning.into(),
        }
    }

    pub fn unwritten(path: &Path) -> impl Fn(io::Error) -> Failure + '_ {
        move |error| Failure::Unwritten(path.to_path_buf(), error)
    }

    pub fn status(&self) -> u8 {
        match self {
            Failure::Refused { .. } => 1,
            Failure::Misused(_) => 2,
            Failure::Unwritten(..) => 3,
        }
    }
}

impl fmt::Display for Failure {
    fn fmt(&self, f: &mut fmt::Formatter<'_>) -> fmt::Result {
        match self {
            Failure::Refused {
                number: Some(number),
                meaning,
            } => write!(f, "refused, {number}: {meaning}"),
            Failure::Refused {
                number: None,
                meaning,
            } => write!(f, "refused: {meaning}"),
            Failure::Misused(meaning) => f.write_str(meaning),
            Failure::Unwritten(path, error) => {
                write!(f, "{} is not written: {error}", path.display())
            }
        }
    }
}

impl From<mosaic::Refusal> for Failure {
    fn from(refusal: mosaic::Refusal) -> Failure {
        Failure::Refused {
            number: refusal.number(),
            meaning: refusal.to_string(),
        }
    }
}

impl From<mosaic::jobs::WriteRefusal> for Failure {
    fn from(refusal: mosaic::jobs::WriteRefusal) -> Failure {
        Failure::Refused {
            number: refusal.number(),
            meaning: refusal.to_string(),
        }
    }
}

impl From<mosaic::Unmerged> for Failure {
    fn from(unmerged: mosaic::Unmerged) -> Failure {
        let number = match unmerged {
            mosaic::Unmerged::SideTooLong => Some(1),
            mosaic::Unmerged::WrongLabelCount => Some(2),
            mosaic::Unmerged::UnpaintedLabel => Some(12),
            mosaic::Unmerged::NoMemory => None,
        };
        Failure::Refused {
            number,
            meaning: unmerged.to_string(),
        }
    }
}
