//! Compares the port with the unchanged Rust, word for word: `compare FORM REPOSITORY COMMAND`, where COMMAND runs serve.c, and
//! FORM is smallest, quick, full, or emulated, which is full without the largest dense maps.
//! `compare answers REPOSITORY` writes the answers that the program `replay` runs.

mod answers;
mod comparison;
mod definitions;
mod every;
mod judge;
mod lent;
mod library;
mod map;
mod random;
mod setup;
mod shapes;

use std::error::Error;
use std::path::Path;
use std::process::ExitCode;

use comparison::{EMULATED, FULL, QUICK, SMALLEST};

fn main() -> Result<ExitCode, Box<dyn Error>> {
    let words: Vec<String> = std::env::args().skip(1).collect();
    let [form, root, command @ ..] = words.as_slice() else {
        return Err("compare smallest|quick|emulated|full|answers REPOSITORY COMMAND".into());
    };
    let root = Path::new(root);
    if form == "answers" {
        let maps = answers::write(&root.join("crates/replay/stdin"))?;
        println!("crates/replay/stdin has the Rust's answers to {maps} maps");
        return Ok(ExitCode::SUCCESS);
    }
    let extent = match form.as_str() {
        "smallest" => SMALLEST,
        "quick" => QUICK,
        "emulated" => EMULATED,
        "full" => FULL,
        _ => return Err("smallest, quick, emulated or full?".into()),
    };
    comparison::run(&extent, root, command)
}
