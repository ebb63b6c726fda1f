//! Reads a cue by its exact name from a disc image: `cargo run --example cue IMAGE PATH > FILE`.

use std::io::Write;
use std::process::ExitCode;
use strandlodge::{Disc, Matching, Result};

/// The bytes of the cue. `?` works for a refusal and for an error of the system.
fn cue(image: &str, path: &str) -> Result<Vec<u8>> {
    let disc = Disc::open(std::fs::read(image)?)?;
    if let Some(component) = disc.failed_as(path, Matching::AsWritten)? {
        eprintln!("there is nothing named {component:?} on {}", disc.label()?);
    }
    disc.read_path_as(path, Matching::AsWritten)
}

fn main() -> ExitCode {
    let words: Vec<String> = std::env::args().skip(1).collect();
    let [image, path] = &words[..] else {
        eprintln!("cue IMAGE PATH");
        return ExitCode::from(64);
    };
    let written = cue(image, path).and_then(|bytes| Ok(std::io::stdout().write_all(&bytes)?));
    // The error prints its cause; its number is from the table in include/vault.h.
    written.map_or_else(
        |error| {
            eprintln!("{error} ({})", error.number());
            ExitCode::FAILURE
        },
        |()| ExitCode::SUCCESS,
    )
}
