//! `make`: an image of some files.

use crate::bar::Word;
use crate::commands::line;
use crate::failure::{Failure, NO_IMAGE};
use crate::file::{Target, apart};
use crate::names::shown;
use crate::style::bytes;
use std::collections::HashMap;
use std::ffi::{OsStr, OsString};
use std::fs::File;
use std::io::{Read, Write};
use std::os::unix::ffi::OsStrExt;
use std::path::Path;
use strandlodge::{Refusal, SECTOR_SIZE, write_staged, write_total};

/// Said of an IMAGE that exists: it may be a file that was meant to go into the image.
const FIRST: &str = "; the first argument, IMAGE, is the file to write";

/// What an image has at most: files, bytes of a name, and bytes of a file (docs/LAYOUT.md).
const MOST_FILES: usize = 64;
const LONGEST: usize = 127;
const MOST_BYTES: u64 = 1_073_739_776;

/// A file for the image, with the bytes that it had when it was opened.
struct Source<'a> {
    path: &'a OsStr,
    file: File,
    length: u64,
}

/// The name that a file gets in the image: the last part of its path.
fn name(path: &OsStr) -> &[u8] {
    Path::new(path).file_name().unwrap_or_default().as_bytes()
}

impl Source<'_> {
    /// Fills `to`, which has the file's length.
    fn read(&mut self, to: &mut [u8]) -> Result<(), Failure> {
        self.file.read_exact(to).map_err(|error| Failure::file(NO_IMAGE, self.path, format!("can't read this file: {error}")))
    }
}

fn source<'a>(image: &OsStr, path: &'a OsString) -> Result<Source<'a>, Failure> {
    apart(image, path)?;
    let unread = |error| Failure::file(NO_IMAGE, path, format!("can't open this file: {error}"));
    let file = File::open(path).map_err(unread)?;
    let about = file.metadata().map_err(unread)?;
    if !about.is_file() {
        return Err(Failure::file(NO_IMAGE, path, "not a regular file: an image can hold only files"));
    }
    Ok(Source { path, file, length: about.len() })
}

/// Writes an image of these files to `image`, which is created, or replaced if that is forced, and prints how many sectors it has.
pub fn make(image: &OsStr, files: &[OsString], force: bool, out: &mut impl Write) -> Result<(), Failure> {
    let target = Target::fresh(image, force, FIRST)?;
    let names: Vec<&[u8]> = files.iter().map(|file| name(file)).collect();
    // Before any is opened: of too many there may be more than can be open at once.
    if names.len() > MOST_FILES {
        return Err(misnamed(files, &names).unwrap_or_else(|| too_many(image, files.len())));
    }
    write_total(&names, &vec![0; names.len()]).map_err(|why| misnamed(files, &names).unwrap_or_else(|| refused(image, why)))?;
    let mut sources = files.iter().map(|file| source(image, file)).collect::<Result<Vec<Source>, Failure>>()?;
    let lengths: Vec<u64> = sources.iter().map(|source| source.length).collect();
    let sectors = write_total(&names, &lengths).map_err(|why| too_long(image, &sources, why))?;
    let mut staging = target.space(lengths.iter().sum::<u64>() as usize)?;
    let word = Word::new("reading");
    let mut rest = &mut staging[..];
    for source in &mut sources {
        let (part, behind) = rest.split_at_mut(source.length as usize);
        source.read(part)?;
        rest = behind;
    }
    drop(word);
    target.put((sectors * SECTOR_SIZE) as usize, |lent| {
        write_staged(&names, &lengths, &staging, lent).map(|_| ()).map_err(|why| refused(image, why))
    })?;
    line(out, &made(image, files.len(), sectors))
}

/// What is said of an image that was written.
pub fn made(image: &OsStr, files: usize, sectors: u64) -> String {
    format!("{}: {files} file{}, {sectors} sectors", shown(image.as_bytes()), if files == 1 { "" } else { "s" })
}

fn refused(about: &OsStr, why: Refusal) -> Failure {
    Failure::refused(shown(about.as_bytes()), why)
}

/// A refusal for one file, with the rule that it breaks.
fn breaks(about: &OsStr, why: Refusal, rule: String) -> Failure {
    Failure::with_number(why, format!("{}: {rule}", shown(about.as_bytes())))
}

fn too_many(image: &OsStr, files: usize) -> Failure {
    breaks(image, Refusal::BadFiles, format!("{files} files are too many: an image holds up to {MOST_FILES}"))
}

/// The first file whose name is bad, or that of one before it. The refusal, 13, comes before that of too many files. One pass: the archive compares each
/// pair of names, which of thousands takes seconds.
fn misnamed(files: &[OsString], names: &[&[u8]]) -> Option<Failure> {
    let mut seen: HashMap<Vec<u8>, &OsStr> = HashMap::new();
    files.iter().zip(names).find_map(|(file, name)| {
        let twin = seen.insert(name.to_ascii_lowercase(), file);
        let bad = twin.is_some() || write_total(&[name], &[0]) == Err(Refusal::BadName);
        bad.then(|| breaks(file, Refusal::BadName, rule(name, twin)))
    })
}

/// Which rule a name breaks; `twin` is the file of an equal one.
fn rule(name: &[u8], twin: Option<&OsStr>) -> String {
    let is_bad = |byte: &&u8| !(0x21..=0x7e).contains(*byte) || **byte == b'/';
    match (twin, name.iter().find(is_bad)) {
        (Some(twin), _) => {
            format!("{} has the same name, ignoring ASCII case: names on an image must differ", shown(twin.as_bytes()))
        }
        _ if name.is_empty() => "this path does not end in a file name".to_string(),
        _ if name.len() > LONGEST => format!("the name has {} bytes: an image takes up to {LONGEST}", name.len()),
        (_, Some(byte)) => format!("the name contains the byte {byte:02X}: an image takes 21 to 7E without the slash"),
        _ => "not a valid name on an image".to_string(),
    }
}

/// The same with the first that is too long.
fn too_long(image: &OsStr, sources: &[Source], why: Refusal) -> Failure {
    match sources.iter().find(|source| write_total(&["a"], &[source.length]).is_err()) {
        Some(long) => breaks(long.path, why, format!("the file has {}: an image takes up to {MOST_BYTES}", bytes(long.length))),
        None => refused(image, why),
    }
}
