//! cutlist: a picture in, the pieces of its cut list out.
//!
//! The library cuts, merges and gives the places on a sheet; this program reads pictures, writes files and talks to the user.

mod arguments;
mod dxf;
mod failure;
mod joints;
mod memory;
mod moves;
mod netpbm;
mod output;
mod picture;
mod pieces;
mod portable;
mod progress;
mod report;
mod scale;
mod svg;

use std::fs;
use std::path::Path;
use std::process::ExitCode;

use clap::Parser;
use mosaic::{cut_in, cut_on_sheet_in, CutList, Mode, OnSheet};

use arguments::{Arguments, Format};
use failure::Failure;
use memory::Budget;
use output::Outputs;
use picture::Picture;
use pieces::Pieces;
use progress::Progress;
use scale::Scale;

fn main() -> ExitCode {
    let asked = Arguments::parse();
    match run(&asked) {
        Ok(()) => ExitCode::SUCCESS,
        Err(failure) => {
            eprintln!("cutlist: {}: {failure}", asked.picture.display());
            ExitCode::from(failure.status())
        }
    }
}

fn run(asked: &Arguments) -> Result<(), Failure> {
    sensible(asked)?;
    let progress = Progress::new(asked.quiet);
    let budget = Budget::new(asked.memory);
    let mut picture = taken(asked, &budget, progress)?;
    if let Some(limit) = asked.merge {
        merge(&mut picture, limit, &budget, progress)?;
    }
    let cut = cut(&picture, asked, &budget, progress)?;
    let pieces = Pieces::new(cut.list(), &picture.colours, asked)?;
    let scale = match asked.sheet {
        None => Scale::pixels(picture.width, picture.height),
        Some(sheet) => Scale::sheet(picture.width, picture.height, sheet),
    };
    if !asked.quiet {
        warn(&picture);
    }
    if let Some(least) = asked.speckles {
        speckles(&pieces, least);
    }
    write(asked, &picture, &cut, &pieces, &scale, progress)
}

/// Whether the words of the command line go together.
fn sensible(asked: &Arguments) -> Result<(), Failure> {
    let files = [&asked.output, &asked.report, &asked.job];
    if files.iter().all(|file| file.is_none()) && asked.speckles.is_none() {
        return Err(Failure::Misused(
            "nothing is asked for: say -o FILE, --report FILE, --job FILE or --speckles N".into(),
        ));
    }
    if asked.output.is_some() && asked.format() == Format::Moves && asked.sheet.is_none() {
        return Err(Failure::Misused(
            "moves are in millimetres: say --sheet WxH".into(),
        ));
    }
    let place = |path: &Path| fs::canonicalize(path).unwrap_or(path.to_path_buf());
    let places = [
        Some(&asked.picture),
        asked.output.as_ref(),
        asked.report.as_ref(),
        asked.job.as_ref(),
    ];
    let places: Vec<_> = places
        .into_iter()
        .flatten()
        .map(|path| place(path))
        .collect();
    for (n, path) in places.iter().enumerate() {
        if places[..n].contains(path) {
            return Err(Failure::Misused(format!(
                "{} would be written over",
                path.display()
            )));
        }
    }
    Ok(())
}

fn taken(asked: &Arguments, budget: &Budget, progress: Progress) -> Result<Picture, Failure> {
    let source = picture::open(&asked.picture)?;
    let stage = progress.stage("reading", source.sides().1.into());
    let picture = picture::read(source, budget, &stage)?;
    stage.done(&format!(
        "{} x {} pixels, {} colours",
        picture.width,
        picture.height,
        picture.colours.len()
    ));
    Ok(picture)
}

fn merge(
    picture: &mut Picture,
    limit: i32,
    budget: &Budget,
    progress: Progress,
) -> Result<(), Failure> {
    let Picture {
        width,
        height,
        labels,
        colours,
    } = picture;
    let stage = progress.stage("merging", 0);
    budget.allow(memory::merge(*width, *height, colours.len()), "the merge")?;
    let paints = mosaic::merge_similar(*width, *height, labels, colours, limit)?;
    colours.truncate(paints as usize);
    stage.done(&format!("{paints} regions left"));
    Ok(())
}

/// A cut list, which may be for a sheet.
enum Cut {
    Pixels(CutList),
    Sheet(OnSheet),
}

impl Cut {
    fn list(&self) -> &CutList {
        match self {
            Cut::Pixels(list) => list,
            Cut::Sheet(cuts) => cuts.list(),
        }
    }
}

fn cut(
    picture: &Picture,
    asked: &Arguments,
    budget: &Budget,
    progress: Progress,
) -> Result<Cut, Failure> {
    let stage = progress.stage("cutting", 0);
    let needed = memory::most(picture.width, picture.height, &picture.labels);
    budget.allow(needed, "its cut list")?;
    let cut = match asked.sheet {
        None => Cut::Pixels(cut_in(Mode::NoWaste, picture.map())?),
        Some(sheet) => Cut::Sheet(cut_on_sheet_in(Mode::NoWaste, picture.map(), sheet)?),
    };
    let [_, segments, .., faces, _] = cut.list().counts();
    stage.done(&format!(
        "{faces} pieces, {segments} cuts, within {}",
        memory::size(needed)
    ));
    Ok(cut)
}

/// At most so many corners are named one by one.
const NAMED: usize = 10;

fn warn(picture: &Picture) {
    let joints = joints::joints(picture.width as usize, &picture.labels);
    for joint in joints.iter().take(NAMED) {
        eprintln!(
            "cutlist: warning: a piece of region {} hangs by its corner at {},{}",
            joint.region, joint.x, joint.y
        );
    }
    if joints.len() > NAMED {
        eprintln!(
            "cutlist: warning: and so at {} corners more",
            joints.len() - NAMED
        );
    }
}

/// Lists the small pieces; this is asked for, so --quiet does not stop it.
fn speckles(pieces: &Pieces, least: u64) {
    let mut turns = Vec::new();
    for face in pieces.faces() {
        let pixels = report::measure(&face, &mut turns).pixels;
        if pixels.unsigned_abs() < least {
            let (region, first) = (face.region().0, face.first_pixel());
            eprintln!(
                "cutlist: speckle: region {region}, first pixel {},{}: {pixels} pixels",
                first.x, first.y
            );
        }
    }
}

fn write(
    asked: &Arguments,
    picture: &Picture,
    cut: &Cut,
    pieces: &Pieces,
    scale: &Scale,
    progress: Progress,
) -> Result<(), Failure> {
    let mut outputs = Outputs::default();
    let count = pieces.faces().count() as u64;
    if let Some(path) = &asked.output {
        let name = asked
            .picture
            .file_name()
            .unwrap_or_default()
            .to_string_lossy();
        let [_, _, points, ..] = cut.list().counts();
        let steps = match asked.format() {
            Format::Moves => points.into(),
            _ => count + pieces.cuts().count() as u64,
        };
        let stage = progress.stage("writing", steps);
        outputs.write(path, |out| match (asked.format(), cut) {
            (Format::Svg, _) => svg::write(out, pieces, scale, &name, &stage),
            (Format::Dxf, _) => dxf::write(out, pieces, scale, &stage),
            (Format::Moves, Cut::Sheet(cuts)) => moves::write(out, pieces, cuts, &stage),
            (Format::Moves, Cut::Pixels(_)) => unreachable!("moves are asked for with a sheet"),
        })?;
        stage.done(&path.display().to_string());
    }
    if let Some(path) = &asked.report {
        let stage = progress.stage("reporting", count);
        outputs.write(path, |out| report::write(out, pieces, scale, &stage))?;
        stage.done(&path.display().to_string());
    }
    if let Some(path) = &asked.job {
        let stage = progress.stage("job file", 0);
        let bytes = mosaic::jobs::write(picture.map())?;
        outputs.write(path, |out| out.write_all(&bytes))?;
        stage.done(&path.display().to_string());
    }
    outputs.rename()
}
