//! SVG: a path for each piece, and each cut once in a group of its own.

use std::io::{Result, Write};

use mosaic::Point;

use crate::pieces::{along, round, Pieces};
use crate::progress::Stage;
use crate::scale::Scale;

pub fn write(
    out: &mut dyn Write,
    pieces: &Pieces,
    scale: &Scale,
    name: &str,
    stage: &Stage,
) -> Result<()> {
    let (width, height, unit) = (scale.x.length(), scale.y.length(), scale.unit);
    writeln!(out, r#"<?xml version="1.0" encoding="UTF-8"?>"#)?;
    writeln!(
        out,
        r#"<svg xmlns="http://www.w3.org/2000/svg" width="{width}{unit}" height="{height}{unit}" viewBox="0 0 {width} {height}">"#
    )?;
    writeln!(out, "<title>{}</title>", escaped(name))?;
    writeln!(out, r#"<g id="pieces" fill-rule="evenodd" stroke="none">"#)?;
    let mut turns = Vec::new();
    for face in pieces.faces() {
        let (region, first) = (face.region().0, face.first_pixel());
        write!(
            out,
            r#"<path id="piece-{region}-{}-{}" fill="{}" d=""#,
            first.x,
            first.y,
            pieces.colour(&face)
        )?;
        for contour in face.contours() {
            round(&contour, &mut turns);
            line(out, &turns, scale)?;
            out.write_all(b"Z")?;
        }
        writeln!(
            out,
            r#""><title>region {region}, first pixel {},{}</title></path>"#,
            first.x, first.y
        )?;
        stage.step();
    }
    writeln!(out, "</g>")?;
    writeln!(
        out,
        r##"<g id="cuts" fill="none" stroke="#000000" stroke-width="0.1">"##
    )?;
    for cut in pieces.cuts() {
        write!(out, r#"<path id="cut-{}" d=""#, cut.id().0)?;
        along(&cut, &mut turns);
        if cut.is_ring() {
            turns.pop();
        }
        line(out, &turns, scale)?;
        out.write_all(if cut.is_ring() { b"Z" } else { b"" })?;
        writeln!(out, r#""/>"#)?;
        stage.step();
    }
    writeln!(out, "</g>\n</svg>")
}

/// A line that goes along columns and rows.
fn line(out: &mut dyn Write, turns: &[Point], scale: &Scale) -> Result<()> {
    let mut last: Option<Point> = None;
    for &corner in turns {
        let (x, y) = (scale.x.text(corner.x), scale.y.text(corner.y));
        let words = match last {
            None => ["M", x, " ", y],
            Some(last) if last.y == corner.y => ["H", x, "", ""],
            Some(_) => ["V", y, "", ""],
        };
        for word in words {
            out.write_all(word.as_bytes())?;
        }
        last = Some(corner);
    }
    Ok(())
}

fn escaped(text: &str) -> String {
    let mut safe = String::new();
    for letter in text.chars() {
        match letter {
            '&' => safe.push_str("&amp;"),
            '<' => safe.push_str("&lt;"),
            '>' => safe.push_str("&gt;"),
            // XML has no room for most control characters.
            letter if letter.is_control() => safe.push('?'),
            letter => safe.push(letter),
        }
    }
    safe
}
