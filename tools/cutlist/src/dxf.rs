//! DXF, release 12: polylines in layers. Its y grows upwards.

use std::io::{Result, Write};

use mosaic::Point;

use crate::pieces::{along, round, Pieces};
use crate::progress::Stage;
use crate::scale::{Axis, Scale};

pub fn write(out: &mut dyn Write, pieces: &Pieces, scale: &Scale, stage: &Stage) -> Result<()> {
    let up = scale.y.turned();
    let (width, height) = (scale.x.length(), scale.y.length());
    let mut regions: Vec<u32> = pieces.faces().map(|face| face.region().0).collect();
    regions.dedup();
    group(out, "0\nSECTION\n2\nHEADER\n9\n$ACADVER\n1\nAC1009")?;
    group(
        out,
        &format!("9\n$EXTMIN\n10\n0\n20\n0\n9\n$EXTMAX\n10\n{width}\n20\n{height}\n0\nENDSEC"),
    )?;
    group(out, "0\nSECTION\n2\nTABLES\n0\nTABLE\n2\nLTYPE\n70\n1\n0\nLTYPE\n2\nCONTINUOUS\n70\n0\n3\nSolid line\n72\n65\n73\n0\n40\n0\n0\nENDTAB")?;
    group(
        out,
        &format!("0\nTABLE\n2\nLAYER\n70\n{}", regions.len().min(32_000) + 1),
    )?;
    layer(out, "CUTS", 7)?;
    for region in regions {
        // A layer with a colour below 0 is switched off: what a program cuts that cuts all it shows is cut once.
        layer(out, &format!("VENEER_{region}"), -(region as i32 % 6 + 1))?;
    }
    group(out, "0\nENDTAB\n0\nENDSEC\n0\nSECTION\n2\nENTITIES")?;
    let mut turns = Vec::new();
    for face in pieces.faces() {
        let name = format!("VENEER_{}", face.region().0);
        for contour in face.contours() {
            round(&contour, &mut turns);
            polyline(out, &name, &turns, true, &scale.x, &up)?;
        }
        stage.step();
    }
    for cut in pieces.cuts() {
        along(&cut, &mut turns);
        if cut.is_ring() {
            turns.pop();
        }
        polyline(out, "CUTS", &turns, cut.is_ring(), &scale.x, &up)?;
        stage.step();
    }
    group(out, "0\nENDSEC\n0\nEOF")
}

/// Codes and values, one a line.
fn group(out: &mut dyn Write, lines: &str) -> Result<()> {
    out.write_all(lines.as_bytes())?;
    out.write_all(b"\n")
}

fn layer(out: &mut dyn Write, name: &str, colour: i32) -> Result<()> {
    group(
        out,
        &format!("0\nLAYER\n2\n{name}\n70\n0\n62\n{colour}\n6\nCONTINUOUS"),
    )
}

fn polyline(
    out: &mut dyn Write,
    layer: &str,
    turns: &[Point],
    closed: bool,
    x: &Axis,
    up: &Axis,
) -> Result<()> {
    let words = [
        "0\nPOLYLINE\n8\n",
        layer,
        "\n66\n1\n10\n0\n20\n0\n30\n0\n70\n",
        if closed { "1\n" } else { "0\n" },
    ];
    put(out, &words)?;
    for corner in turns {
        put(
            out,
            &[
                "0\nVERTEX\n8\n",
                layer,
                "\n10\n",
                x.text(corner.x),
                "\n20\n",
                up.text(corner.y),
                "\n30\n0\n",
            ],
        )?;
    }
    put(out, &["0\nSEQEND\n8\n", layer, "\n"])
}

fn put(out: &mut dyn Write, words: &[&str]) -> Result<()> {
    words
        .iter()
        .try_for_each(|word| out.write_all(word.as_bytes()))
}
