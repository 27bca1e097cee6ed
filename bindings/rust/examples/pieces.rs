//! Lists the pieces of a small panel: a field of label 0 with two inlays, one of them with a waste pixel in it.
//!
//!     cargo run --example pieces

use mosaic::{cut, Map, Refusal, RegionId};

const W: u32 = RegionId::OUTSIDE.0;

#[rustfmt::skip]
const PANEL: [u32; 35] = [
    0, 0, 0, 0, 0, 0, 0,
    0, 1, 1, 1, 0, 2, 0,
    0, 1, W, 1, 0, 2, 0,
    0, 1, 1, 1, 0, 2, 2,
    0, 0, 0, 0, 0, 0, 0,
];

fn main() -> Result<(), Refusal> {
    let list = cut(Map {
        width: 7,
        height: 5,
        paints: 3,
        labels: &PANEL,
    })?;

    for (number, node) in list.nodes().enumerate() {
        println!("node {number} at {},{}", node.corner.x, node.corner.y);
    }
    for segment in list.segments() {
        let kind = if segment.is_ring() { "ring" } else { "cut" };
        println!(
            "segment {}: a {kind} of {} steps",
            segment.id().0,
            segment.points().len() - 1
        );
    }
    for (number, face) in list.faces().enumerate() {
        println!("face {number} of label {}", face.region().0);
        for contour in face.contours() {
            let segments: Vec<String> = contour
                .references()
                .map(|r| {
                    format!(
                        "{}{}",
                        r.segment.0,
                        if r.reversed { " reversed" } else { "" }
                    )
                })
                .collect();
            println!(
                "  {} steps along segments {}",
                contour.corners().count(),
                segments.join(", ")
            );
        }
    }
    Ok(())
}
