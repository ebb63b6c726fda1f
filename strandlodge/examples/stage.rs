//! Writes an image of some files and reads it back: `cargo run --example stage IMAGE FILE..`. An existing IMAGE is left as it is.

use std::fs::File;
use std::io::Write;
use std::path::Path;
use strandlodge::{Disc, How, Matching, Result};

fn stage(image: &str, files: &[String]) -> Result<()> {
    let mut staged = Vec::new();
    for file in files {
        let name = Path::new(file).file_name().unwrap_or_default().to_string_lossy().into_owned();
        staged.push((name, std::fs::read(file)?));
    }
    let bytes = strandlodge::write(&staged)?;
    File::create_new(image)?.write_all(&bytes)?;
    // Read back what was written, checking the CRCs of its descriptors.
    let disc = Disc::open_as(std::fs::read(image)?, How { checked: true, ..How::default() })?;
    for (name, bytes) in &staged {
        let same = disc.read_path_as(name, Matching::AsWritten)? == *bytes;
        println!("{name}: {} bytes, {}", bytes.len(), if same { "read back" } else { "read back as something else" });
    }
    Ok(())
}

fn main() -> Result<()> {
    let words: Vec<String> = std::env::args().skip(1).collect();
    let Some((image, files)) = words.split_first() else {
        eprintln!("stage IMAGE FILE..");
        std::process::exit(64);
    };
    stage(image, files)
}
