//! The machine's moves as the library gives them, one a line: `travel X Y`, `cut X Y`, and `end`.

use std::io::{Result, Write};

use mosaic::{Move, OnSheet};

use crate::pieces::Pieces;
use crate::progress::Stage;

pub fn write(out: &mut dyn Write, pieces: &Pieces, cuts: &OnSheet, stage: &Stage) -> Result<()> {
    // A travel begins each segment, in order.
    let mut segments = 0;
    for step in cuts.moves() {
        let (name, x, y) = match step {
            Move::Travel { x, y } => {
                segments += 1;
                ("travel", x, y)
            }
            Move::Cut { x, y } => ("cut", x, y),
        };
        if pieces.is_cut(segments - 1) {
            writeln!(out, "{name} {x} {y}")?;
        }
        stage.step();
    }
    writeln!(out, "end")
}
