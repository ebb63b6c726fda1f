//! Copies each file of a folder of a disc as it arrives, without an image in memory: `cargo run --example drive DISC FOLDER TO`.
//! DISC may be a drive, such as /dev/sr0. A name that would lead out of TO, or that exists there, is left out.

use std::fs::File;
use std::path::{Component, Path};
use strandlodge::{Drive, Matching, Result};

/// Whether a name names one file in a folder.
fn is_plain(name: &str) -> bool {
    let mut parts = Path::new(name).components();
    matches!((parts.next(), parts.next()), (Some(Component::Normal(part)), None) if part == name)
}

fn copy(disc: &str, folder: &str, to: &Path) -> Result<()> {
    let mut drive = Drive::open(File::open(disc)?)?;
    let folder = drive.lookup_as(folder, Matching::Unambiguous)?;
    for entry in drive.read_directory(folder)? {
        if entry.is_directory || !is_plain(&entry.name) {
            println!("{:?}: left out", entry.name);
            continue;
        }
        // Use the ICB of the entry, not its name: the names of two entries may differ only in case.
        let bytes = drive.copy_file(entry.icb, &mut File::create_new(to.join(&entry.name))?)?;
        println!("{:?}: {bytes} bytes", entry.name);
    }
    Ok(())
}

fn main() -> Result<()> {
    let words: Vec<String> = std::env::args().skip(1).collect();
    let [disc, folder, to] = &words[..] else {
        eprintln!("drive DISC FOLDER TO");
        std::process::exit(64);
    };
    copy(disc, folder, Path::new(to))
}
