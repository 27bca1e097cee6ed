//! The definitions against the Rust: its cut lists of small maps as theorems, which antt proves by computing, or refuses.

use std::error::Error;
use std::fmt::Write;
use std::path::{Path, PathBuf};
use std::process::Command;
use std::{env, fs, process};

use oracle::{CutList, OUTSIDE};

use crate::every;
use crate::map::Map;
use crate::random::Random;

/// Theorems of one file.
const FILE: usize = 40;

/// What antt said of the theorems.
#[derive(Default)]
pub struct Computed {
    pub maps: usize,
    /// The numbers of the maps that differ.
    pub differ: Vec<usize>,
    pub smallest: Option<Map>,
}

/// Has antt compute the definitions of the repository at `root` on the first `most` maps, in a crate outside it.
pub fn compare(root: &Path, most: usize) -> Result<Computed, Box<dyn Error>> {
    let scratch = env::temp_dir().join(format!("mosaic-definitions-{}", process::id()));
    let mut maps = maps();
    maps.truncate(most);
    let said = lay_out(root, &scratch, &maps).and_then(|()| check(&scratch));
    fs::remove_dir_all(&scratch)?;
    let said = said?;
    let mut differ: Vec<usize> = said.lines().filter_map(refused).collect();
    differ.sort();
    differ.dedup();
    if differ.is_empty() && !proved(&said) {
        return Err(format!("antt could not tell:\n{said}").into());
    }
    Ok(Computed {
        maps: maps.len(),
        smallest: differ.first().map(|&i| maps[i].clone()),
        differ,
    })
}

/// Whether rt proved the last crate that it checked; it names each crate and then its verdict.
fn proved(said: &str) -> bool {
    let last = |start| said.lines().rfind(|line| line.starts_with(start));
    last("crate ").is_some_and(|line| line.starts_with("crate compared:"))
        && last("logic=").is_some_and(|line| line.starts_with("logic=proved "))
}

/// The number of the map whose theorem a line of the check refuses.
fn refused(line: &str) -> Option<usize> {
    let (_, rest) = line.split_once("error: `map")?;
    rest.split('`').next()?.parse().ok()
}

/// A repository with the definitions of `rules` and a crate of theorems over them.
fn lay_out(root: &Path, scratch: &Path, maps: &[Map]) -> Result<(), Box<dyn Error>> {
    let rules = scratch.join("crates/rules");
    for part in ["specs", "src"] {
        copy(&root.join("crates/rules").join(part), &rules.join(part))?;
    }
    let compared = scratch.join("crates/compared");
    fs::create_dir_all(compared.join("src"))?;
    fs::create_dir_all(compared.join("proofs"))?;
    fs::write(
        compared.join("src/lib.rt"),
        "// theorems only\n#![tactic(auto)]\n",
    )?;
    fs::write(scratch.join("crates.txt"), "rules:\ncompared: rules\n")?;
    let (uses, unfolding) = definitions(&rules.join("specs"))?;
    let mut lib = String::new();
    for (i, maps) in maps.chunks(FILE).enumerate() {
        let mut text = format!("-- Cut lists of the Rust.\n{uses}\n");
        for (k, map) in maps.iter().enumerate() {
            theorem(&mut text, FILE * i + k, map, &unfolding)?;
        }
        writeln!(lib, "pub mod Maps{i}")?;
        fs::write(compared.join(format!("proofs/Maps{i}.antt")), text)?;
    }
    fs::write(compared.join("proofs/Lib.antt"), lib)?;
    Ok(())
}

fn copy(from: &Path, to: &Path) -> Result<(), Box<dyn Error>> {
    fs::create_dir_all(to)?;
    for file in files(from)? {
        if let Some(name) = file.file_name() {
            fs::copy(&file, to.join(name))?;
        }
    }
    Ok(())
}

fn files(folder: &Path) -> Result<Vec<PathBuf>, Box<dyn Error>> {
    let mut paths = Vec::new();
    for file in fs::read_dir(folder)? {
        paths.push(file?.path());
    }
    paths.sort();
    Ok(paths)
}

/// What `rt check` says of the theorems.
fn check(scratch: &Path) -> Result<String, Box<dyn Error>> {
    let output = Command::new("rt")
        .arg("check")
        .current_dir(scratch.join("crates/compared"))
        .output()?;
    Ok([output.stdout, output.stderr]
        .map(|said| String::from_utf8_lossy(&said).into_owned())
        .join("\n"))
}

/// The `use` lines for every definition that can be unfolded, and their names.
fn definitions(specs: &Path) -> Result<(String, String), Box<dyn Error>> {
    let mut uses = String::from(
        "use mathlib.Core.Path.{◌≡◌, refl}\nuse mathlib.Core.List.{[], ◌∷◌}\nuse Rattle.rules.specs.Calls.{Map}\n",
    );
    let mut unfolding = String::new();
    for file in files(specs)? {
        let text = fs::read_to_string(&file)?;
        let names: Vec<&str> = text
            .lines()
            .filter_map(|line| line.trim_start().strip_prefix("unfoldable pub "))
            .filter_map(|rest| rest.split_whitespace().next())
            .collect();
        if let (Some(module), false) = (file.file_stem(), names.is_empty()) {
            let (module, all) = (module.to_string_lossy(), names.join(", "));
            writeln!(uses, "use Rattle.rules.specs.{module}.{{{all}}}")?;
            write!(unfolding, " {}", names.join(" "))?;
        }
    }
    Ok((uses, unfolding))
}

/// That the cut list of a map is the Rust's.
fn theorem(text: &mut String, i: usize, map: &Map, unfolding: &str) -> Result<(), Box<dyn Error>> {
    let CutList {
        nodes,
        segments,
        points,
        references,
        contours,
        faces,
        counts,
    } = map.cut_list();
    writeln!(
        text,
        "pub map{i} : cut_list (record {{ width = {}; height = {}; paints = {}; bound = {}; labels = {} }}) ≡ record {{",
        map.width,
        map.height,
        map.paints,
        map.bound,
        list(&map.labels)
    )?;
    let stores = [nodes, segments, points, references, contours, faces];
    let names = [
        "nodes",
        "segments",
        "points",
        "references",
        "contours",
        "faces",
    ];
    for (name, words) in names.iter().zip(&stores) {
        writeln!(text, "  {name} = {};", list(words))?;
    }
    writeln!(text, "  steps = {};\n}}", counts[6])?;
    writeln!(text, "unfolding{unfolding}\nmap{i} = refl\n")?;
    Ok(())
}

fn list(words: &[u32]) -> String {
    let words: String = words.iter().map(|word| format!("{word} ∷ ")).collect();
    format!("{words}[]")
}

/// Small maps from the fewest pixels up: no pixels, every map up to 2×2 over three labels, larger random ones.
fn maps() -> Vec<Map> {
    let mut maps = vec![Map::new(0, 0, 1, |_, _| 0), Map::new(3, 0, 1, |_, _| 0)];
    for (w, h) in [(1, 1), (2, 1), (1, 2), (3, 1), (2, 2)] {
        every::every_map(w, h, 1, &[0, 1, OUTSIDE], |map| maps.push(map.clone()));
    }
    let mut random = Random(1);
    for side in [3, 4, 5] {
        let wanted = maps.len() + 80;
        while maps.len() < wanted {
            let map = random.map(side);
            if map.labels.len() > 4 && map.labels.len() <= 16 {
                maps.push(map);
            }
        }
    }
    maps.sort_by_key(Map::size);
    maps
}
