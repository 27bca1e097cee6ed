//! The command line.

use std::path::PathBuf;

use clap::{Parser, ValueEnum};

const EXAMPLES: &str = "\
EXAMPLES
  cutlist panel.png -o pieces.svg                          every colour a veneer, transparent pixels waste
  cutlist panel.png --sheet 600x400 -o cuts.dxf            for a machine, in millimetres
  cutlist panel.png --sheet 600x400 --format moves -o -    the machine's moves, one a line, on standard output
  cutlist panel.png --merge 24 --report veneer.csv         near colours joined; how much veneer is in each piece
  cutlist panel.png --only 3 -o leaf.svg                   the pieces of one veneer
  cutlist panel.png --job panel.job                        the cut list as a job file, to pass on

PICTURES
  PNG (1 to 16 bits, palette, grey, RGB, alpha, interlaced) and binary PPM and PGM, up to 16384 pixels a side. Each colour, in 8 bits a
  channel, is a veneer: region 0 is the colour that comes first, row by row. Pixels with less than half alpha belong to no piece.

MEMORY
  36 bytes a pixel, and up to 86 bytes more for each side of a pixel along which a cut goes: 324 MB to 1.9 GB for 3000 x 3000 pixels.
  A merge takes 48 bytes more for each colour, and the table of colours up to 64 MB. A picture that does not fit is refused before it is taken.

FILES
  Each file is written beside its place and renamed when all are whole: what was there before stays until then, and stays if the command
  fails. SVG: the group `pieces` has a closed path for each piece, `cuts` each cut once. DXF (R12, y upwards): the layer CUTS has each
  cut once, the layers VENEER_n, switched off, the closed outlines of the pieces of each region.

EXIT STATUS
  0 done    1 the picture or the choice was refused    2 the command line was not understood    3 a file could not be written";

/// Takes a picture and gives its pieces: each colour is a veneer, and each area of one colour a piece with its outline and holes.
#[derive(Parser, Debug)]
#[command(name = "cutlist", version, after_long_help = EXAMPLES, after_help = "More, with examples: --help")]
pub struct Arguments {
    /// The picture: PNG, or binary PPM or PGM
    pub picture: PathBuf,

    /// Where the pieces go: a file, or - for standard output
    #[arg(short, long, value_name = "FILE")]
    pub output: Option<PathBuf>,

    /// What is written there; told by the file's ending if it is not said
    #[arg(long, value_enum)]
    pub format: Option<Format>,

    /// The sheet in millimetres, such as 600x400: coordinates are then millimetres instead of pixels
    #[arg(long, value_name = "WxH", value_parser = sides)]
    pub sheet: Option<mosaic::Sheet>,

    /// Joins neighbouring regions whose colours differ by no more than LIMIT, the sum over red, green and blue (up to 765)
    #[arg(long, value_name = "LIMIT", value_parser = clap::value_parser!(i32).range(0..=765))]
    pub merge: Option<i32>,

    /// Writes a table (CSV) of the pieces: pixels, bounding box, length of the outline, first pixel
    #[arg(long, value_name = "FILE")]
    pub report: Option<PathBuf>,

    /// Writes the cut list of the whole picture as a job file
    #[arg(long, value_name = "FILE")]
    pub job: Option<PathBuf>,

    /// Only the pieces of this region; may be given more than once
    #[arg(long, value_name = "REGION")]
    pub only: Vec<u32>,

    /// Only the piece whose first pixel, row by row, is this one; may be given more than once
    #[arg(long, value_name = "X,Y", value_parser = pixel)]
    pub first: Vec<mosaic::Pixel>,

    /// Lists the pieces of fewer than N pixels
    #[arg(long, value_name = "N")]
    pub speckles: Option<u64>,

    /// Takes no more memory than this, in megabytes; what the machine has to spare if it is not said
    #[arg(long, value_name = "MB")]
    pub memory: Option<u64>,

    /// No progress and no warnings
    #[arg(short, long)]
    pub quiet: bool,
}

#[derive(Clone, Copy, Debug, PartialEq, Eq, ValueEnum)]
pub enum Format {
    /// Pieces and cuts as paths
    Svg,
    /// Pieces and cuts as polylines (R12)
    Dxf,
    /// What the machine does, one move a line; needs --sheet
    Moves,
}

impl Arguments {
    /// The format that is asked for, or that the file's ending tells.
    pub fn format(&self) -> Format {
        let ending = self.output.as_deref().and_then(|path| path.extension());
        self.format.unwrap_or(match ending {
            Some(ending) if ending.eq_ignore_ascii_case("dxf") => Format::Dxf,
            Some(ending) if ending.eq_ignore_ascii_case("moves") => Format::Moves,
            _ => Format::Svg,
        })
    }
}

fn sides(text: &str) -> Result<mosaic::Sheet, String> {
    let (width, height) = text
        .split_once('x')
        .ok_or("two sides with an x between, such as 600x400")?;
    let side = |text: &str| {
        text.parse::<f64>()
            .map_err(|_| format!("{text} is no number"))
    };
    mosaic::Sheet::new(side(width)?, side(height)?)
        .ok_or_else(|| "16: a side of the sheet is not above 0, or is above 3000".to_string())
}

fn pixel(text: &str) -> Result<mosaic::Pixel, String> {
    let (x, y) = text
        .split_once(',')
        .ok_or("column and row with a comma between, such as 8,2")?;
    let place = |text: &str| {
        text.parse::<u32>()
            .map_err(|_| format!("{text} is no number"))
    };
    Ok(mosaic::Pixel {
        x: place(x)?,
        y: place(y)?,
    })
}
